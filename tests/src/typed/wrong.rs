//! Readers that read texts wrongly. Each must give another outcome for many generated texts, so that
//! the comparison shows it; and a text for which it does is shrunk to a small one.

use std::collections::BTreeSet;

use super::formula::{Manner, Operator, LEFT};
use super::generate::typed_text;
use super::grammar::{Bounds, Grammar, LEGAL};
use super::{all_there, legal, read, refuse, tables, value, Value, FAULTS_LINE, NOT_LEGAL};
use crate::brute::Planner;
use crate::form::Form;
use crate::oracle::{
    Gate, Refusal, Sheet, Wish, BAD_FIELD, BAD_SIZE, BAD_WEIGHT, LITERALS, MAX_FAULTS, MAX_GATES,
    MAX_WEIGHT, TOO_MANY, WEIGHTS,
};
use crate::planning::light;
use crate::shrink::shrunk_bytes;

type Read = Result<Sheet, Refusal>;

/// A text, and what the right reader makes of it.
#[derive(Clone, Copy)]
struct Text<'a> {
    bytes: &'a [u8],
    right: &'a Read,
}

type Reader = fn(Text) -> Read;

/// The wrong readers.
#[rustfmt::skip]
const WRONG: [(&str, Reader); 25] = [
    ("a depth of 33 let through", |t| within(t, Bounds { deepest: 33, ..LEGAL })),
    ("a depth of 32 refused", |t| within(t, Bounds { deepest: 31, ..LEGAL })),
    ("a leading zero let through", |t| within(t, Bounds { leading_zeros: true, ..LEGAL })),
    ("a space let through before the line feed", |t| {
        within(t, Bounds { space_before_line_feed: true, ..LEGAL })
    }),
    ("a fourth literal let through", |t| within(t, Bounds { literals: LITERALS + 1, ..LEGAL })),
    ("a weight of five digits let through", |t| within(t, Bounds { weight_digits: 5, ..LEGAL })),
    ("a weight of four digits not legal", |t| within(t, Bounds { weight_digits: 3, ..LEGAL })),
    ("a weight let through anywhere in a wish", |t| {
        within(t, Bounds { weight_anywhere: true, ..LEGAL })
    }),
    ("and binds looser than or", |t| said(t, Manner { loosest_first: *b"&|", ..LEFT })),
    (FROM_THE_RIGHT, |t| said(t, Manner { from_the_right: true, ..LEFT })),
    (OTHER_ORDER, |t| said(t, Manner { order: Operator::sign_at, ..LEFT })),
    ("the place one too small", |t| told(t, |place| place - 1)),
    ("the place one too large", |t| told(t, |place| place + 1)),
    ("the end of a text told as its last byte", |t| told(t, |place| place.min(t.bytes.len()))),
    ("the line told for the byte", |t| {
        told(t, |place| 1 + t.bytes[..place - 1].iter().filter(|&&byte| byte == b'\n').count())
    }),
    ("gates shared", |t| otherwise(t, shared)),
    ("faults looked at before switches", |t| otherwise(t, faults_first)),
    (SIXES_FIRST, |t| otherwise(t, sixes_first)),
    ("any point for a switch", |t| otherwise(t, any_point)),
    ("a missing weight taken as 0", |t| {
        // A weight that stands there is left.
        let text = String::from_utf8_lossy(t.bytes);
        let lines = text.split_inclusive('\n').filter(|line| line.starts_with("wish"));
        let missing: Vec<bool> = lines.map(|line| !line.contains("weight")).collect();
        weighed(t, |k, weight| if missing[k] { 0 } else { weight })
    }),
    ("the weights ignored", |t| weighed(t, |_, _| 1)),
    ("weight 0 let through", |t| weighed(t, |_, weight| weight.max(1))),
    ("weight 1000 let through", |t| weighed(t, |_, weight| {
        if weight == MAX_WEIGHT + 1 { MAX_WEIGHT } else { weight }
    })),
    ("14 looked for before 6", |t| otherwise(t, weights_before_literals)),
    (AFTER_ALL, |t| otherwise(t, |value| match tables(value, MAX_GATES) {
        Err(first) if first.number == BAD_WEIGHT => {
            let others = tables(&with_weights(value, |_, _| 1), MAX_GATES);
            Err(others.err().unwrap_or(first))
        }
        other => other,
    })),
];

const SIXES_FIRST: &str = "6 looked for on all lines before 5";
const AFTER_ALL: &str = "14 looked for after all lines";
/// Those that no job shows, as the rules mean the same.
const FROM_THE_RIGHT: &str = "grouping from the right";
const OTHER_ORDER: &str = "gates in the order of the signs";

/// Legal by another grammar.
fn within(text: Text, bounds: Bounds) -> Read {
    legal(text.bytes, &Grammar::new(bounds))?;
    tables(&value(text.bytes, LEFT), MAX_GATES)
}

/// Legal texts, read in another manner.
fn said(text: Text, manner: Manner) -> Read {
    otherwise(text, |_| tables(&value(text.bytes, manner), MAX_GATES))
}

/// Legal texts, for which another outcome is told.
fn otherwise(text: Text, outcome: impl Fn(&Value) -> Read) -> Read {
    match text.right {
        Err(refusal) if refusal.number == NOT_LEGAL => Err(*refusal),
        _ => outcome(&value(text.bytes, LEFT)),
    }
}

/// Legal texts, with other weights: the wish's place, counted from 0, and its weight give the new one.
fn weighed(text: Text, weight: impl Fn(usize, u32) -> u32) -> Read {
    otherwise(text, |value| {
        tables(&with_weights(value, &weight), MAX_GATES)
    })
}

fn with_weights(value: &Value, weight: impl Fn(usize, u32) -> u32) -> Value {
    let mut value = value.clone();
    for (k, wish) in value.wishes.iter_mut().enumerate() {
        wish.weight = weight(k, wish.weight);
    }
    value
}

/// A line whose literals and weight are both wrong is refused for its weight.
fn weights_before_literals(value: &Value) -> Read {
    tables(value, MAX_GATES).map_err(|refusal| {
        let wishes_from = FAULTS_LINE + value.rules.len() + 1;
        let wish = refusal.place.checked_sub(wishes_from);
        let wrong = |wish: usize| !WEIGHTS.contains(&value.wishes[wish].weight);
        match refusal.number {
            BAD_FIELD if wish.is_some_and(wrong) => Refusal {
                number: BAD_WEIGHT,
                ..refusal
            },
            _ => refusal,
        }
    })
}

/// The place of a text that is not legal told in another way.
fn told(text: Text, place: impl Fn(usize) -> usize) -> Read {
    text.right.clone().map_err(|refusal| match refusal {
        Refusal {
            number: NOT_LEGAL,
            place: 1..,
            ..
        } => Refusal {
            place: place(refusal.place),
            ..refusal
        },
        other => other,
    })
}

/// Gates that are there already are taken again, and so not counted.
fn shared(value: &Value) -> Read {
    match tables(value, usize::MAX).map(with_shared_gates) {
        Ok(sheet) if sheet.gates.len() > MAX_GATES => tables(value, MAX_GATES),
        other => other,
    }
}

fn with_shared_gates(sheet: Sheet) -> Sheet {
    let inputs = sheet.switches + sheet.faults;
    let mut gates: Vec<Gate> = Vec::new();
    // What each point has become.
    let mut now: Vec<u32> = (0..=inputs).collect();
    for gate in &sheet.gates {
        let gate = Gate {
            left: now[gate.left as usize],
            right: now[gate.right as usize],
            ..*gate
        };
        let at = gates.iter().position(|&g| g == gate).unwrap_or(gates.len());
        if at == gates.len() {
            gates.push(gate);
        }
        now.push(inputs + at as u32 + 1);
    }
    let rules = sheet.rules.iter().map(|&p| now[p as usize]).collect();
    Sheet {
        gates,
        rules,
        ..sheet
    }
}

fn faults_first(value: &Value) -> Read {
    if value.faults > MAX_FAULTS as u32 {
        return refuse(BAD_SIZE, FAULTS_LINE);
    }
    tables(value, MAX_GATES)
}

fn sixes_first(value: &Value) -> Read {
    let right = tables(value, MAX_GATES);
    if !matches!(right, Err(r) if r.number == TOO_MANY) {
        return right;
    }
    let sheet = Sheet {
        switches: value.switches,
        faults: value.faults,
        ..Sheet::default()
    };
    let rules = value.rules.iter().map(|formula| all_there(formula, &sheet));
    let is_there = |literal: &i32| literal.unsigned_abs() <= sheet.switches;
    let all_are = |wish: &Wish| wish.literals.iter().all(is_there);
    let wishes = value.wishes.iter().map(all_are);
    match rules.chain(wishes).position(|line| !line) {
        Some(before) => refuse(BAD_FIELD, FAULTS_LINE + 1 + before),
        None => right,
    }
}

/// An `s` number that is a point is taken, whatever that point is.
fn any_point(value: &Value) -> Read {
    let right = tables(value, MAX_GATES);
    if !matches!(right, Err(r) if r.number == BAD_FIELD) {
        return right;
    }
    let more = Value {
        switches: value.switches + value.faults,
        ..value.clone()
    };
    tables(&more, MAX_GATES)
}

/// The room for the list that Answer gets.
const ROOM: usize = 50;

/// What the jobs show of a text: the refusal, or what Answer returns and lists.
fn shown(outcome: &Read) -> String {
    match outcome {
        Err(refusal) => format!("{refusal:?}"),
        Ok(sheet) if light(sheet) => {
            let planner = Planner::new(sheet.clone());
            let run = planner.run(ROOM);
            format!("{:?} {run:?}", planner.answer(&run, ROOM))
        }
        Ok(_) => "accepted".into(),
    }
}

#[test]
fn wrong_readings_show() {
    let unseen = BTreeSet::from([FROM_THE_RIGHT, OTHER_ORDER]);
    // For each reader: the texts of which it gives other tables or another refusal, and those of
    // which the jobs show it.
    let mut counts = [(0, 0); WRONG.len()];
    for index in 0..8_000 {
        let bytes = typed_text(3, index).bytes;
        let right = read(&bytes);
        let text = Text {
            bytes: &bytes,
            right: &right,
        };
        for ((name, wrong), count) in WRONG.iter().zip(&mut counts) {
            let wrong = wrong(text);
            if wrong != right {
                count.0 += 1;
                count.1 += usize::from(!unseen.contains(name) && shown(&wrong) != shown(&right));
            }
        }
    }
    for ((name, _), (differ, seen)) in WRONG.iter().zip(counts) {
        println!("{differ:>5} texts, {seen:>5} by what the jobs show: {name}");
    }
    for ((name, _), (differ, seen)) in WRONG.iter().zip(counts) {
        assert!(differ >= 50, "{name}: {differ}");
        assert!(seen >= 50 || unseen.contains(name), "{name}: {seen}");
    }
}

/// The texts that are shrunk, for each reader so many.
const SHRUNK: usize = 3;
/// The bytes of the largest text that is left; and of one that has to be as deep as may be, or to have more
/// rules, wishes or gates than there may be.
const MOST_BYTES: usize = 60;
const MOST_OF_A_DEEP_ONE: usize = 100;
const MOST_OF_A_FULL_ONE: usize = 1_400;

/// Texts among which some show each mistake.
const MADE: u64 = 1_500;

#[test]
fn wrong_readings_are_shrunk() {
    let texts = (0..MADE).map(|index| typed_text(3, index).bytes);
    let texts: Vec<(Vec<u8>, Read)> = texts
        .map(|bytes| {
            let right = read(&bytes);
            (bytes, right)
        })
        .collect();
    for (name, wrong) in WRONG {
        let differs = |bytes: &[u8], right: &Read| wrong(Text { bytes, right }) != *right;
        let shows = |bytes: &[u8]| differs(bytes, &read(bytes));
        let most = match name {
            SIXES_FIRST | AFTER_ALL => MOST_OF_A_FULL_ONE,
            _ if name.contains("depth") => MOST_OF_A_DEEP_ONE,
            _ => MOST_BYTES,
        };
        let shown = texts.iter().filter(|(bytes, right)| differs(bytes, right));
        let shown: Vec<_> = shown.take(SHRUNK).collect();
        assert_eq!(shown.len(), SHRUNK, "{name}");
        for (bytes, _) in shown {
            let small = shrunk_bytes(Form::Text, bytes, shows);
            println!("{:>5} bytes of {:>5}: {name}", small.len(), bytes.len());
            assert!(shows(&small), "{name}");
            let text = small.escape_ascii();
            assert!(small.len() <= most, "{name}: {text}");
        }
    }
}
