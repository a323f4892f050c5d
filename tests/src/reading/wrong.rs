//! Readers that fill the tables wrongly, and readers that refuse sheets wrongly. Each must differ on many
//! generated strings, so that the comparison shows it; and a string on which the refusal differs is shrunk to a
//! small one.

use super::check::Trial;
use super::{put, Outcome, Read};
use crate::form::Form;
use crate::generate::{has_short_lines, string, Random, Row, SHORT_LINE};
use crate::oracle::{
    read, split, BAD_FIELD, BAD_WEIGHT, COLUMNS, LINE, LITERALS, MAX_WEIGHT, TOO_MANY, WEIGHT,
    WEIGHTS,
};
use crate::shrink::shrunk_bytes;
use crate::tables::Tables;

// ---- tables filled wrongly

/// How what was read is put into the tables.
type Put = fn(&Outcome, &mut Tables) -> Read;

/// The wrong readers.
#[rustfmt::skip]
const WRONG: [(&str, Put); 16] = [
    ("the room beyond the counts left as it was", |outcome, tables| {
        let before = tables.clone();
        let read = put(outcome, tables);
        let [gates, rules, wishes] = tables.held();
        tables.gate[gates..].copy_from_slice(&before.gate[gates..]);
        tables.rule[rules..].copy_from_slice(&before.rule[rules..]);
        tables.wish[wishes..].copy_from_slice(&before.wish[wishes..]);
        read
    }),
    ("the tables cleared on a refusal", |outcome, tables| {
        *tables = Tables::default();
        put(outcome, tables)
    }),
    ("the counts told on a refusal", |outcome, tables| {
        if outcome.is_err() {
            (tables.gates, tables.rules, tables.wishes) = (0, 0, 0);
        }
        put(outcome, tables)
    }),
    ("the column left out", |outcome, tables| Read { column: 0, ..put(outcome, tables) }),
    ("the place left out", |outcome, tables| Read { place: 0, ..put(outcome, tables) }),
    ("the counts left out", |outcome, tables| {
        let before = tables.clone();
        let read = put(outcome, tables);
        (tables.gates, tables.rules, tables.wishes) = (before.gates, before.rules, before.wishes);
        read
    }),
    ("the second point of N left as it was", |outcome, tables| {
        let before = tables.clone();
        changed(outcome, tables, |tables| {
            for (gate, before) in tables.gate.iter_mut().zip(before.gate) {
                if gate[0] == u32::from(b'N') {
                    gate[2] = before[2];
                }
            }
        })
    }),
    ("the points of a gate the other way round", |outcome, tables| changed(outcome, tables, |tables| {
        tables.gate.iter_mut().filter(|gate| gate[2] != 0).for_each(|gate| gate.swap(1, 2));
    })),
    ("a literal's sign turned", |outcome, tables| changed(outcome, tables, |tables| {
        each_literals(tables, |literals| {
            literals.iter_mut().filter(|word| **word != 0).for_each(|word| *word ^= 1);
        });
    })),
    ("the literals after the zeros", |outcome, tables| changed(outcome, tables, |tables| {
        each_literals(tables, |literals| literals.sort_by_key(|&word| word != 0));
    })),
    ("the literals sorted", |outcome, tables| changed(outcome, tables, |tables| {
        each_literals(tables, |literals| {
            let used = literals.iter().filter(|&&word| word != 0).count();
            literals[..used].sort();
        });
    })),
    ("the weight left as it was", |outcome, tables| {
        let before = tables.clone();
        changed(outcome, tables, |tables| {
            let [_, _, wishes] = tables.held();
            for (wish, before) in tables.wish[..wishes].iter_mut().zip(before.wish) {
                wish[WEIGHT] = before[WEIGHT];
            }
        })
    }),
    ("the weight before the literals", |outcome, tables| changed(outcome, tables, |tables| {
        tables.wish.iter_mut().for_each(|wish| wish.rotate_right(1));
    })),
    ("the weight right after the last literal", |outcome, tables| changed(outcome, tables, |tables| {
        for wish in &mut tables.wish {
            let used = wish[..LITERALS].iter().filter(|&&word| word != 0).count();
            wish.swap(used, WEIGHT);
        }
    })),
    ("an index of 8 bits for gates", |outcome, tables| changed(outcome, tables, |tables| {
        let (low, high) = tables.gate.split_at_mut(1 << 8);
        for (low, high) in low.iter_mut().zip(high) {
            if *high != [0; 3] {
                *low = std::mem::take(high);
            }
        }
    })),
    ("the last rule of a full sheet left out", |outcome, tables| changed(outcome, tables, |tables| {
        *tables.rule.last_mut().expect("room for rules") = 0;
    })),
];

/// What was read, and then changed.
fn changed(outcome: &Outcome, tables: &mut Tables, change: impl FnOnce(&mut Tables)) -> Read {
    let read = put(outcome, tables);
    if read.number == 0 {
        change(tables);
    }
    read
}

fn each_literals(tables: &mut Tables, change: fn(&mut [u32])) {
    for wish in &mut tables.wish {
        change(&mut wish[..LITERALS]);
    }
}

#[test]
fn wrong_readings_show() {
    let mut counts = [0; WRONG.len()];
    for index in 0..12_000 {
        let outcome = read(&string(3, index));
        let trial = Trial::new(&mut Random::new(!3, index), outcome);
        for ((_, wrong), count) in WRONG.iter().zip(&mut counts) {
            let mut reader = |tables: &mut Tables| wrong(&trial.outcome, tables);
            *count += usize::from(trial.differs(&mut reader).is_some());
        }
        let mut right = |tables: &mut Tables| put(&trial.outcome, tables);
        assert_eq!(trial.differs(&mut right), None, "{index}");
    }
    for ((name, _), differ) in WRONG.iter().zip(counts) {
        println!("{differ:>5} strings: {name}");
    }
    for ((name, _), differ) in WRONG.iter().zip(counts) {
        assert!(differ >= 50, "{name}: {differ}");
    }
}

// ---- sheets refused wrongly

/// Some bytes, and what the right reader makes of them.
#[derive(Clone, Copy)]
struct Input<'a> {
    bytes: &'a [u8],
    right: &'a Outcome,
}

type Reader = fn(Input) -> Outcome;

/// The wrong readers.
#[rustfmt::skip]
const WRONG_REFUSALS: [(&str, Reader); 10] = [
    ("weight 0 let through", |input| with_weights(input, |weight| if weight == 0 { 1 } else { weight })),
    ("weight 1000 let through", |input| with_weights(input, |weight| {
        if weight == MOST + 1 { MOST } else { weight }
    })),
    ("any large weight let through", |input| with_weights(input, |weight| weight.min(MOST))),
    ("a negative weight let through", |input| with_weights(input, |weight| if weight < 0 { 1 } else { weight })),
    ("a weight of 999 refused", |input| with_weights(input, |weight| if weight == MOST { 0 } else { weight })),
    (BEFORE_FIVE, |input| told_as_weight(input, TOO_MANY)),
    ("14 before 6", |input| told_as_weight(input, BAD_FIELD)),
    (AFTER_ALL, |input| match input.right.clone() {
        Err(first) if first.number == BAD_WEIGHT => {
            let others = with_weights(input, |weight| weight.clamp(1, MOST));
            Err(others.err().unwrap_or(first))
        }
        other => other,
    }),
    ("the fourth number looked at on wishes alone", |input| with_rows(input, |row| {
        if row.letter != b'W' {
            row.fields[WEIGHT] = 0;
        }
    })),
    ("lines without a fourth number let through", |input| match has_short_lines(input.bytes) {
        true => read(&with_fourth_numbers(input.bytes)),
        false => input.right.clone(),
    }),
];
const BEFORE_FIVE: &str = "14 before 5";
const AFTER_ALL: &str = "14 looked for after all lines";

/// The largest weight, as a number on a sheet.
const MOST: i32 = MAX_WEIGHT as i32;

/// With other rows in place of the well-formed lines.
fn with_rows(input: Input, change: impl Fn(&mut Row)) -> Outcome {
    let mut bytes = input.bytes.to_vec();
    for line in bytes.chunks_mut(LINE) {
        if let Some(before) = row(line) {
            let mut row = before;
            change(&mut row);
            if row.fields != before.fields {
                line.copy_from_slice(&row.written());
            }
        }
    }
    match bytes == input.bytes {
        true => input.right.clone(),
        false => read(&bytes),
    }
}

fn row(line: &[u8]) -> Option<Row> {
    let whole = (line.len() == LINE).then(|| split(line)).flatten();
    whole.map(|(letter, _, fields)| Row { letter, fields })
}

/// With other weights.
fn with_weights(input: Input, change: impl Fn(i32) -> i32) -> Outcome {
    with_rows(input, |row| {
        if row.letter == b'W' {
            row.fields[WEIGHT] = change(row.fields[WEIGHT]);
        }
    })
}

/// This number told as 14 where the line has a wrong weight too.
fn told_as_weight(input: Input, number: u32) -> Outcome {
    input.right.clone().map_err(|mut refusal| {
        if refusal.number == number {
            let line = input
                .bytes
                .chunks(LINE)
                .nth(refusal.place - 1)
                .and_then(row);
            let wish = line.filter(|row| row.letter == b'W');
            if wish.is_some_and(|row| !WEIGHTS.contains(&(row.fields[WEIGHT] as u32))) {
                refusal.number = BAD_WEIGHT;
            }
        }
        refusal
    })
}

/// Lines without a fourth number with 0, or the weight 1, for it.
fn with_fourth_numbers(bytes: &[u8]) -> Vec<u8> {
    let lines = bytes.chunks(SHORT_LINE).map(|line| {
        let fourth = i32::from(line[0] == b'W');
        let numbers = &line[..SHORT_LINE - 1];
        [numbers, format!("{fourth:>COLUMNS$}\n").as_bytes()].concat()
    });
    lines.collect::<Vec<_>>().concat()
}

#[test]
fn wrong_refusals_show() {
    let mut counts = [0; WRONG_REFUSALS.len()];
    for index in 0..24_000 {
        let bytes = string(3, index);
        let right = read(&bytes);
        let input = Input {
            bytes: &bytes,
            right: &right,
        };
        for ((_, wrong), count) in WRONG_REFUSALS.iter().zip(&mut counts) {
            *count += usize::from(wrong(input) != right);
        }
    }
    for ((name, _), differ) in WRONG_REFUSALS.iter().zip(counts) {
        println!("{differ:>5} strings: {name}");
    }
    for ((name, _), differ) in WRONG_REFUSALS.iter().zip(counts) {
        assert!(differ >= 50, "{name}: {differ}");
    }
}

/// The strings that are shrunk, for each reader so many.
const SHRUNK: usize = 3;
/// The lines of the largest string that is left; and of one that has to have more wishes than there may be.
const MOST_LINES: usize = 3;
const MOST_OF_A_FULL_ONE: usize = 67;

#[test]
fn wrong_refusals_are_shrunk() {
    for (name, wrong) in WRONG_REFUSALS {
        let shows = |bytes: &[u8]| {
            let right = &read(bytes);
            wrong(Input { bytes, right }) != *right
        };
        let most = match name {
            BEFORE_FIVE | AFTER_ALL => MOST_OF_A_FULL_ONE,
            _ => MOST_LINES,
        };
        let made = (0..).map(|index| string(3, index));
        for bytes in made.filter(|bytes| shows(bytes)).take(SHRUNK) {
            let small = shrunk_bytes(Form::Sheet, &bytes, shows);
            println!("{:>5} bytes of {:>5}: {name}", small.len(), bytes.len());
            assert!(shows(&small), "{name}");
            let text = small.escape_ascii();
            assert!(small.len() <= most * LINE, "{name}: {text}");
        }
    }
}
