//! Writers that write wrongly. Each must differ on many generated tables, so that the comparison
//! shows it; and tables on which it does are shrunk to small ones.

use super::check::Trial;
use super::generate::{made_tables, MINUS_ZERO};
use super::{line, put, refuse, sheet, Outcome, Written, TOO_SHORT};
use crate::generate::Random;
use crate::oracle::{
    BAD_FIELD, BAD_SIZE, BAD_WEIGHT, COLUMNS, LINE, LITERALS, MAX_BYTES, MAX_FAULTS, MAX_GATES,
    MAX_RULES, MAX_SWITCHES, MAX_WEIGHT, MAX_WISHES, TOO_MANY, WEIGHT, WEIGHTS,
};
use crate::shrink::shrunk;
use crate::tables::Tables;

/// A writer: what tables give by it, or how it puts that into the buffer.
struct Wrong {
    name: &'static str,
    mistake: Mistake,
}

enum Mistake {
    Sheet(fn(&Tables) -> Outcome),
    Put(fn(&Tables, &Outcome, &mut [u8]) -> Written),
}

const fn tested(name: &'static str, sheet: fn(&Tables) -> Outcome) -> Wrong {
    let mistake = Mistake::Sheet(sheet);
    Wrong { name, mistake }
}

const fn placed(name: &'static str, put: fn(&Tables, &Outcome, &mut [u8]) -> Written) -> Wrong {
    let mistake = Mistake::Put(put);
    Wrong { name, mistake }
}

impl Wrong {
    /// Whether the trial of these tables shows it.
    fn shows(&self, tables: &Tables, trial: &Trial) -> bool {
        let differs =
            |writer: &mut dyn FnMut(&mut [u8]) -> Written| trial.differs(writer).is_some();
        match self.mistake {
            Mistake::Sheet(sheet) => {
                let given = sheet(tables);
                given != trial.outcome && differs(&mut |out| put(&given, out))
            }
            Mistake::Put(put) => differs(&mut |out| put(tables, &trial.outcome, out)),
        }
    }
}

/// The wrong writers.
#[rustfmt::skip]
const WRONG: [Wrong; 36] = [
    tested("the second word of N not looked at", |t| changed(t, |t| {
        t.gate.iter_mut().filter(|gate| gate[0] == u32::from(b'N')).for_each(|gate| gate[2] = 0);
    })),
    tested("-0 taken for no literal", |t| changed(t, |t| each_literal(t, |_, word| {
        if word == MINUS_ZERO { 0 } else { word }
    }))),
    tested("a literal after a 0 let through", |t| changed(t, |t| {
        t.wish.iter_mut().for_each(|wish| wish[..LITERALS].sort_by_key(|&word| word == 0));
    })),
    tested("the weight not looked at", |t| changed(t, |t| each_weight(t, |weight| {
        weight.clamp(1, MAX_WEIGHT)
    }))),
    tested("weight 0 let through", |t| changed(t, |t| each_weight(t, |weight| weight.max(1)))),
    tested("weight 1000 let through", |t| changed(t, |t| each_weight(t, |weight| {
        if weight == MAX_WEIGHT + 1 { MAX_WEIGHT } else { weight }
    }))),
    tested("weights of 16 bits", |t| changed(t, |t| each_weight(t, |weight| weight & 0xffff))),
    tested("14 before 6 on a line", fourteen_before_six),
    tested("14 looked for after all lines", |t| match sheet(t) {
        Err(first) if first.number == BAD_WEIGHT => {
            let others = changed(t, |t| each_weight(t, |weight| weight.clamp(1, MAX_WEIGHT)));
            Err(others.err().unwrap_or(first))
        }
        other => other,
    }),
    tested("14 told as 6", |t| sheet(t).map_err(|mut refusal| {
        if refusal.number == BAD_WEIGHT {
            refusal.number = BAD_FIELD;
        }
        refusal
    })),
    tested("the weight left out", |t| sheet(t).map(|bytes| each_wish(bytes, |line| {
        line[AT_WEIGHT..LINE - 1].copy_from_slice(b"    0");
    }))),
    tested("the weight in the place of the third literal", |t| sheet(t).map(|bytes| {
        each_wish(bytes, |line| line[AT_WEIGHT - COLUMNS..LINE - 1].rotate_left(COLUMNS))
    })),
    tested("the weight of the wish before", |t| sheet(t).map(|bytes| {
        let mut before = *b"    1";
        each_wish(bytes, |line| before.swap_with_slice(&mut line[AT_WEIGHT..LINE - 1]))
    })),
    tested("a fault let through as a switch", |t| changed(t, |t| each_literal(t, |t, word| {
        let inputs = t.switches.saturating_add(t.faults);
        if word / 2 > t.switches && word / 2 <= inputs { 2 } else { word }
    }))),
    tested("a gate that names itself let through", |t| changed(t, |t| {
        let inputs = t.switches.saturating_add(t.faults);
        for (i, [_, left, right]) in t.gate.iter_mut().enumerate() {
            for word in [left, right] {
                if *word == inputs.saturating_add(i as u32 + 1) {
                    *word = 1;
                }
            }
        }
    })),
    tested("kinds in small letters let through", |t| changed(t, |t| each_kind(t, |kind| {
        u8::try_from(kind).map_or(kind, |byte| byte.to_ascii_uppercase().into())
    }))),
    tested("kinds of 8 bits", |t| changed(t, |t| each_kind(t, |kind| kind & 0xff))),
    tested("any other kind taken for O", |t| changed(t, |t| each_kind(t, |kind| {
        if [b'N', b'A'].map(u32::from).contains(&kind) { kind } else { b'O'.into() }
    }))),
    tested("faults up to the switches' limit", |t| changed(t, |t| {
        if t.faults <= MAX_SWITCHES as u32 {
            t.faults = t.faults.min(MAX_FAULTS as u32);
        }
    })),
    tested("the first entry that is 0 taken for the end", |t| changed(t, |t| {
        let gates = t.gate.iter().position(|gate| *gate == [0; 3]);
        let rules = t.rule.iter().position(|&rule| rule == 0);
        let before = |end: Option<usize>, count: u32| end.map_or(count, |end| count.min(end as u32));
        (t.gates, t.rules) = (before(gates, t.gates), before(rules, t.rules));
    })),
    tested("the count cut to the room", |t| changed(t, |t| {
        [t.gates, t.rules, t.wishes] = t.held().map(|n| n as u32);
    })),
    tested("counts of 16 bits", |t| changed(t, |t| {
        for count in [&mut t.gates, &mut t.rules, &mut t.wishes] {
            *count &= 0xffff;
        }
    })),
    tested("points of 16 bits", |t| changed(t, |t| {
        let points = t.gate.iter_mut().flat_map(|[_, left, right]| [left, right]);
        points.chain(&mut t.rule).for_each(|word| *word &= 0xffff);
    })),
    tested("the limits looked at before the lines", limits_first),
    tested("6 before 5 on a line", six_before_five),
    tested("places counted from 0", |t| sheet(t).map_err(|mut refusal| {
        refusal.place -= 1;
        refusal
    })),
    tested("the minus left out", |t| sheet(t).map(|bytes| {
        bytes.iter().map(|&byte| if byte == b'-' { b' ' } else { byte }).collect()
    })),
    tested("the last line counts itself", |t| sheet(t).map(|mut bytes| {
        let before = bytes.len() - LINE;
        let end = line('Z', &[(bytes.len() / LINE) as i32]);
        bytes[before..].copy_from_slice(end.as_bytes());
        bytes
    })),
    placed("13 looked for first", |t, outcome, out| {
        let lines = 2 + u64::from(t.gates) + u64::from(t.rules) + u64::from(t.wishes);
        if lines * LINE as u64 > out.len() as u64 { short(0, 0) } else { put(outcome, out) }
    }),
    placed("room asked for the longest sheet", |_, outcome, out| match outcome {
        Ok(_) if out.len() < MAX_BYTES => short(0, 0),
        _ => put(outcome, out),
    }),
    placed("one byte more asked for", |_, outcome, out| match outcome {
        Ok(sheet) if out.len() == sheet.len() => short(0, 0),
        _ => put(outcome, out),
    }),
    placed("the beginning written where there is no room", |_, outcome, out| {
        if let Ok(sheet) = outcome {
            let lines = out.len().min(sheet.len()) / LINE * LINE;
            out[..lines].copy_from_slice(&sheet[..lines]);
        }
        put(outcome, out)
    }),
    placed("the first line written before the others are tested", |t, outcome, out| {
        if matches!(outcome, Err(refusal) if refusal.number != BAD_SIZE) && out.len() >= LINE {
            let head = line('H', &[t.switches as i32, t.faults as i32]);
            out[..LINE].copy_from_slice(head.as_bytes());
        }
        put(outcome, out)
    }),
    placed("the bytes after the sheet cleared", |_, outcome, out| {
        let written = put(outcome, out);
        if written.number == 0 {
            out[written.length..].fill(0);
        }
        written
    }),
    placed("the length told with 13", |_, outcome, out| match outcome {
        Ok(sheet) if out.len() < sheet.len() => short(0, sheet.len()),
        _ => put(outcome, out),
    }),
    placed("a line told with 13", |_, outcome, out| match outcome {
        Ok(sheet) if out.len() < sheet.len() => short(out.len() / LINE + 1, 0),
        _ => put(outcome, out),
    }),
];

/// Other tables written in place of these.
fn changed(tables: &Tables, change: fn(&mut Tables)) -> Outcome {
    let mut tables = tables.clone();
    change(&mut tables);
    sheet(&tables)
}

fn each_kind(tables: &mut Tables, change: fn(u32) -> u32) {
    for gate in &mut tables.gate {
        gate[0] = change(gate[0]);
    }
}

fn each_literal(tables: &mut Tables, change: fn(&Tables, u32) -> u32) {
    let before = tables.clone();
    let wishes = tables.wish.iter_mut();
    for word in wishes.flat_map(|wish| &mut wish[..LITERALS]) {
        *word = change(&before, *word);
    }
}

fn each_weight(tables: &mut Tables, change: fn(u32) -> u32) {
    for wish in &mut tables.wish {
        wish[WEIGHT] = change(wish[WEIGHT]);
    }
}

/// Where the weight begins on a line.
const AT_WEIGHT: usize = 1 + WEIGHT * COLUMNS;

/// A sheet with its wishes' lines changed.
fn each_wish(mut bytes: Vec<u8>, change: impl FnMut(&mut [u8])) -> Vec<u8> {
    let lines = bytes.chunks_mut(LINE);
    lines.filter(|line| line[0] == b'W').for_each(change);
    bytes
}

fn fourteen_before_six(tables: &Tables) -> Outcome {
    sheet(tables).map_err(|mut refusal| {
        let before = 1 + tables.gates as usize + tables.rules as usize;
        let wish = refusal.place.checked_sub(before + 1);
        let wrong = |wish: usize| !WEIGHTS.contains(&tables.wish[wish][WEIGHT]);
        if refusal.number == BAD_FIELD && wish.is_some_and(wrong) {
            refusal.number = BAD_WEIGHT;
        }
        refusal
    })
}

fn limits_first(tables: &Tables) -> Outcome {
    let right = sheet(tables);
    let mut before = 1;
    let parts = [
        (tables.gates, MAX_GATES),
        (tables.rules, MAX_RULES),
        (tables.wishes, MAX_WISHES),
    ];
    match right {
        Err(refusal) if refusal.number == BAD_FIELD => {
            for (count, most) in parts {
                if count as usize > most {
                    return refuse(TOO_MANY, before + most + 1);
                }
                before += count as usize;
            }
            right
        }
        _ => right,
    }
}

/// Gate 401 and rule 65 are looked at where they would stand in memory, which is in the room behind.
fn six_before_five(tables: &Tables) -> Outcome {
    let right = sheet(tables);
    let inputs = tables.switches.saturating_add(tables.faults);
    let points = 1..=inputs.saturating_add(MAX_GATES as u32);
    let behind = if tables.gates as usize > MAX_GATES {
        let kind = tables.rule[0];
        b"NAO".map(u32::from).contains(&kind)
    } else {
        let beyond = tables.rules as usize > MAX_RULES;
        !beyond || points.contains(&tables.wish[0][0])
    };
    match right {
        Err(refusal) if refusal.number == TOO_MANY && !behind => refuse(BAD_FIELD, refusal.place),
        _ => right,
    }
}

fn short(place: usize, length: usize) -> Written {
    Written {
        number: TOO_SHORT,
        place,
        column: 0,
        length,
    }
}

#[test]
fn wrong_writers_show() {
    let mut counts = [0; WRONG.len()];
    for index in 0..8_000 {
        let tables = made_tables(3, index).tables;
        let trial = Trial::new(&mut Random::new(!3, index), &tables);
        for (wrong, count) in WRONG.iter().zip(&mut counts) {
            *count += usize::from(wrong.shows(&tables, &trial));
        }
        let mut right = |out: &mut [u8]| put(&trial.outcome, out);
        assert_eq!(trial.differs(&mut right), None, "{index}");
    }
    for (wrong, differ) in WRONG.iter().zip(counts) {
        println!("{differ:>5} tables: {}", wrong.name);
    }
    for (wrong, differ) in WRONG.iter().zip(counts) {
        assert!(differ >= 50, "{}: {differ}", wrong.name);
    }
}

/// The tables that are shrunk, for each writer so many.
const SHRUNK: usize = 3;
/// The words that are not 0 in the tables that are left, at most; and in those that have to have more gates than
/// there is room for.
const MOST_WORDS: usize = 8;
const MOST_OF_FULL_ONES: usize = 2 * MAX_GATES + MOST_WORDS;

#[test]
fn wrong_writers_are_shrunk() {
    for wrong in &WRONG {
        let shows = |index: u64, tables: &Tables| {
            let trial = Trial::new(&mut Random::new(!3, index), tables);
            wrong.shows(tables, &trial)
        };
        let most = match wrong.name {
            "the count cut to the room" | "6 before 5 on a line" => MOST_OF_FULL_ONES,
            _ => MOST_WORDS,
        };
        let made = (0..).map(|index| (index, made_tables(3, index).tables));
        let shown = made.filter(|(index, tables)| shows(*index, tables));
        for (index, tables) in shown.take(SHRUNK) {
            let small = shrunk(tables, |less| shows(index, less));
            let words = small.words().iter().filter(|&&word| word != 0).count();
            println!("{words:>5} words: {}", wrong.name);
            assert!(shows(index, &small), "{}", wrong.name);
            assert!(words <= most, "{}: {small:?}", wrong.name);
        }
    }
}
