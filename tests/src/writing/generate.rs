//! Tables for the comparison: right ones, tables damaged in many ways, and noise. Tables follow from
//! their seed and index alone, so each can be made again.

use crate::generate::{point, size, string, weight, Random};
use crate::oracle::{
    read, LITERALS, MAX_FAULTS, MAX_GATES, MAX_RULES, MAX_SWITCHES, MAX_WEIGHT, MAX_WISHES, WEIGHT,
};
use crate::planning::planning_sheet;
use crate::tables::Tables;

const KINDS: &[u8] = b"NAO";
/// Kinds that no gate has: the other letters of a sheet, and bytes beside those of gates.
const NO_KINDS: &[u8] = b"HRWZBMP@ 0\n\0\x7f\xff\xce";
/// What makes a letter a small one.
const SMALL: u32 = 0x20;

/// The word that would be the literal -0.
pub const MINUS_ZERO: u32 = 1;

/// Tables, what they were made by and, if they are those of an accepted sheet, its bytes.
#[derive(Clone)]
pub struct Made {
    pub tables: Tables,
    pub kind: &'static str,
    pub sheet: Option<Vec<u8>>,
}

// ---- tables that are right

/// Gates, rules and wishes.
type Counts = [usize; 3];
const MOST: Counts = [MAX_GATES, MAX_RULES, MAX_WISHES];

fn below(r: &mut Random, counts: Counts) -> Counts {
    counts.map(|n| r.below(n))
}

fn some_counts(r: &mut Random) -> Counts {
    match r.below(12) {
        0..=4 => below(r, [4, 4, 4]),
        5..=8 => below(r, [20, 8, 8]),
        9 => below(r, [120, 30, 30]),
        10 => {
            // One of them as many as there may be.
            let mut counts = below(r, [8, 8, 8]);
            let part = r.below(counts.len());
            counts[part] = MOST[part];
            counts
        }
        _ => below(r, MOST.map(|n| n + 1)),
    }
}

/// Tables that are right in everything but perhaps their counts: what there is no room for is counted
/// alone. Without any switch or fault there is no point, so there is one where gates or rules are asked
/// for.
fn of_counts(r: &mut Random, [gates, rules, wishes]: Counts) -> Tables {
    let switches = size(r, MAX_SWITCHES);
    let mut faults = size(r, MAX_FAULTS);
    if switches + faults == 0 && gates + rules > 0 {
        faults = 1;
    }
    let mut tables = Tables {
        switches: switches as u32,
        faults: faults as u32,
        gates: gates as u32,
        rules: rules as u32,
        wishes: wishes as u32,
        ..Tables::default()
    };
    let inputs = switches + faults;
    let [gates, rules, wishes] = tables.held();
    for (gate, before) in tables.gate[..gates].iter_mut().zip(inputs..) {
        let kind = r.pick(KINDS);
        let left = point(r, before) as u32;
        let right = match kind {
            b'N' => 0,
            _ => point(r, before) as u32,
        };
        *gate = [kind.into(), left, right];
    }
    for rule in &mut tables.rule[..rules] {
        *rule = point(r, inputs + gates as i32) as u32;
    }
    for wish in &mut tables.wish[..wishes] {
        let literals = if switches == 0 {
            0
        } else {
            r.below(LITERALS + 1)
        };
        for word in &mut wish[..literals] {
            *word = literal(r, tables.switches);
        }
        wish[WEIGHT] = weight(r) as u32;
    }
    tables
}

/// Any literal of a switch, the last one's more often.
fn literal(r: &mut Random, switches: u32) -> u32 {
    let switch = match r.below(4) {
        0 => switches,
        _ => 1 + r.below(switches as usize) as u32,
    };
    2 * switch + r.below(2) as u32
}

fn right(r: &mut Random) -> Tables {
    let counts = some_counts(r);
    of_counts(r, counts)
}

/// Tables that are right and have an entry in every part.
fn with_entries(r: &mut Random) -> Tables {
    let counts = some_counts(r).map(|n| n.max(1));
    of_counts(r, counts)
}

fn full(r: &mut Random) -> Tables {
    of_counts(r, MOST)
}

/// The tables of an accepted sheet, and its bytes.
fn of_sheet(r: &mut Random) -> (Tables, Vec<u8>) {
    loop {
        let (seed, index) = (r.word().into(), r.word().into());
        let bytes = match r.below(2) {
            0 => string(seed, index),
            _ => planning_sheet(seed, index).bytes,
        };
        if let Ok(sheet) = read(&bytes) {
            return (Tables::of(&sheet), bytes);
        }
    }
}

// ---- damage

/// A word near another one, or far from it in a way that narrower numbers do not show.
fn near(r: &mut Random, word: u32) -> u32 {
    match r.below(8) {
        0 => 0,
        1 => word.wrapping_add(1),
        2 => word.wrapping_sub(1),
        3 => word.wrapping_add(1 << 8),
        4 => word.wrapping_add(1 << 16),
        5 => word | 1 << 31,
        6 => u32::MAX,
        _ => r.word(),
    }
}

/// Sizes and counts that damage made larger are taken for this, so that sums of them have room.
const LARGE: u32 = 1 << 20;

/// The switches and faults of the tables.
fn inputs(tables: &Tables) -> u32 {
    tables.switches.min(LARGE) + tables.faults.min(LARGE)
}

/// The points of the tables.
fn points(tables: &Tables) -> u32 {
    inputs(tables) + tables.gates.min(LARGE)
}

fn damage_gate(r: &mut Random, tables: &mut Tables) {
    let [held, _, _] = tables.held();
    if held == 0 {
        return;
    }
    let i = r.place(held);
    let own = inputs(tables) + i as u32 + 1;
    let telling = [0, own + 1, own - 1, points(tables), 1];
    let word = match r.below(4) {
        0 => near(r, own),
        1 => own,
        _ => r.pick(&telling),
    };
    let gate = &mut tables.gate[i];
    match r.below(9) {
        0 => gate[0] = r.pick(NO_KINDS).into(),
        1 => gate[0] = near(r, gate[0]),
        2 => gate[0] |= SMALL,
        // Bits that a letter in a byte does not have.
        8 => gate[0] |= 1 << r.between(8, 31),
        // A gate becomes one of another kind, with the points that it has.
        3 => gate[0] = r.pick(KINDS).into(),
        4 => *gate = [b'N'.into(), gate[1], word],
        5 | 6 => gate[1] = word,
        _ => gate[2] = word,
    }
}

fn damage_rule(r: &mut Random, tables: &mut Tables) {
    let [_, held, _] = tables.held();
    if held == 0 {
        return;
    }
    let i = r.place(held);
    let last = points(tables);
    tables.rule[i] = match r.below(3) {
        0 => near(r, last),
        _ => r.pick(&[0, last, last + 1, last + 2]),
    };
}

/// A weight at the ends of what is allowed, beyond, or far from it in a way that narrower numbers do not show.
fn telling_weight(r: &mut Random, weight: u32) -> u32 {
    match r.below(3) {
        0 => near(r, weight),
        _ => r.pick(&[0, 1, MAX_WEIGHT, MAX_WEIGHT + 1, u32::MAX]),
    }
}

fn damage_weight(r: &mut Random, tables: &mut Tables) {
    let [_, _, held] = tables.held();
    if held == 0 {
        return;
    }
    let wish = &mut tables.wish[r.place(held)];
    wish[WEIGHT] = telling_weight(r, wish[WEIGHT]);
}

/// A literal that is wrong, and perhaps the weight besides.
fn damage_wish(r: &mut Random, tables: &mut Tables) {
    let [_, _, held] = tables.held();
    if held == 0 {
        return;
    }
    let i = r.place(held);
    // The literals of the last switch, those of one more, and one of the last fault.
    let last = 2 * tables.switches.min(LARGE);
    let fault = 2 * inputs(tables);
    let telling = [MINUS_ZERO, last, last + 1, last + 2, last + 3, fault, fault];
    // Literals that are right, if there is a switch.
    let [a, b] = [2, 3].map(|lowest| lowest.max(last + r.below(2) as u32));
    let wish = &mut tables.wish[i];
    if r.one_in(6) {
        wish[WEIGHT] = telling_weight(r, wish[WEIGHT]);
    }
    let literals = &mut wish[..LITERALS];
    let shapes = [
        [0, a, 0],
        [0, 0, a],
        [a, 0, b],
        [0, a, b],
        [MINUS_ZERO, 0, 0],
        [a, b, MINUS_ZERO],
    ];
    match r.below(14) {
        n if n < shapes.len() => literals.copy_from_slice(&shapes[n]),
        n => {
            let word = match n {
                6 => near(r, last),
                _ => r.pick(&telling),
            };
            let used = literals.iter().filter(|&&word| word != 0).count();
            literals[r.below((used + 1).min(LITERALS))] = word;
        }
    }
}

fn damage_word(r: &mut Random, tables: &mut Tables) {
    match r.below(4) {
        0 => damage_gate(r, tables),
        1 => damage_rule(r, tables),
        2 => damage_wish(r, tables),
        _ => damage_weight(r, tables),
    }
}

fn damage_size(r: &mut Random, tables: &mut Tables) {
    let (size, limit) = match r.below(2) {
        0 => (&mut tables.switches, MAX_SWITCHES as u32),
        _ => (&mut tables.faults, MAX_FAULTS as u32),
    };
    *size = match r.below(3) {
        0 => limit + 1,
        1 => limit + 1 + r.below(12) as u32,
        _ => near(r, limit),
    };
}

/// Anything at all after the counted entries, in all of the room or in some of it.
fn add_junk(r: &mut Random, tables: &mut Tables) {
    let [gates, rules, wishes] = tables.held();
    let gates = tables.gate[gates..].as_flattened_mut();
    let rules = &mut tables.rule[rules..];
    let wishes = tables.wish[wishes..].as_flattened_mut();
    let shift = r.pick(&[0, 16, 26, 30]);
    for room in [gates, rules, wishes] {
        let words = match r.below(3) {
            0 => room.len(),
            _ => room.len().min(r.below(9)),
        };
        room[..words].fill_with(|| r.word() >> shift);
    }
}

/// A count becomes another one than the entries were made for.
fn damage_count(r: &mut Random, tables: &mut Tables) {
    let counts = [&mut tables.gates, &mut tables.rules, &mut tables.wishes];
    let count: &mut u32 = counts.into_iter().nth(r.below(3)).expect("three counts");
    *count = match r.below(3) {
        0 => count.saturating_sub(1),
        1 => count.saturating_add(1 + r.below(3) as u32),
        _ => near(r, *count),
    };
}

/// One or more parts with more entries than there may be, by a few or by many.
fn beyond(r: &mut Random) -> Tables {
    let mut counts = below(r, [12, 6, 6]);
    for _ in 0..1 + r.below(2) {
        let part = r.below(counts.len());
        let most = u32::MAX as usize - MOST[part];
        counts[part] = MOST[part] + r.pick(&[1, 2, 3, 4, 5, 1 << 8, 1 << 16, most]);
    }
    of_counts(r, counts)
}

/// Any words at all, with counts that may fit them.
fn noise(r: &mut Random) -> Tables {
    let [gates, rules, wishes] = below(r, [6, 4, 6]).map(|n| n as u32);
    let mut tables = Tables {
        switches: size(r, MAX_SWITCHES + 1) as u32,
        faults: size(r, MAX_FAULTS + 1) as u32,
        gates,
        rules,
        wishes,
        ..Tables::default()
    };
    let masks = [1, 3, 7, 31, u32::MAX];
    let mask = r.pick(&masks);
    for gate in &mut tables.gate[..8] {
        let kind = match r.below(8) {
            0 => r.word(),
            _ => r.pick(KINDS).into(),
        };
        *gate = [kind, r.word() & mask, r.word() & mask];
    }
    let mask = r.pick(&masks);
    tables.rule[..8].fill_with(|| r.word() & mask);
    let mask = r.pick(&masks);
    let wishes = tables.wish[..8].as_flattened_mut();
    wishes.fill_with(|| r.word() & mask);
    if r.one_in(2) {
        let wishes = tables.wish[..8].iter_mut();
        wishes.for_each(|wish| wish[WEIGHT] = weight(r) as u32);
    }
    tables
}

// ---- putting it together

type Recipe = fn(&mut Random) -> Tables;
type Damage = fn(&mut Random, &mut Tables);

/// What tables are made by, one after another by their index, so that each comes equally often.
#[rustfmt::skip]
const RECIPES: [(&str, Recipe); 14] = [
    ("right", right),
    ("right, and entries after the counted ones", |r| damaged(r, right, &[add_junk])),
    ("one gate", |r| damaged(r, with_entries, &[damage_gate])),
    ("one rule", |r| damaged(r, with_entries, &[damage_rule])),
    ("one wish", |r| damaged(r, with_entries, &[damage_wish])),
    ("one weight", |r| damaged(r, with_entries, &[damage_weight])),
    ("a word of full tables", |r| if r.one_in(4) { full(r) } else { damaged(r, full, &[damage_word]) }),
    ("the sizes", |r| damaged(r, right, &[damage_size])),
    ("beyond a limit", beyond),
    ("beyond a limit, and a word", |r| damaged(r, beyond, &[damage_word])),
    ("a count", |r| damaged(r, with_entries, &[damage_count])),
    ("a count, and entries after the counted ones", |r| damaged(r, right, &[add_junk, damage_count])),
    ("several", several),
    ("noise", noise),
];
/// The recipe of the tables that were read from a sheet; its turn comes after the others.
const OF_SHEET: &str = "of a sheet";

/// The names of all recipes.
pub fn kinds() -> impl Iterator<Item = &'static str> {
    RECIPES.iter().map(|(name, _)| *name).chain([OF_SHEET])
}

fn damaged(r: &mut Random, from: Recipe, damages: &[Damage]) -> Tables {
    let mut tables = from(r);
    for damage in damages {
        damage(r, &mut tables);
    }
    tables
}

/// Two to four damages of every kind.
fn several(r: &mut Random) -> Tables {
    const DAMAGES: [Damage; 8] = [
        damage_gate,
        damage_rule,
        damage_wish,
        damage_weight,
        damage_word,
        damage_count,
        damage_size,
        add_junk,
    ];
    let from: Recipe = r.pick(&[right, with_entries, with_entries, beyond]);
    let damages: Vec<Damage> = (0..2 + r.below(3)).map(|_| r.pick(&DAMAGES)).collect();
    damaged(r, from, &damages)
}

/// The tables of this seed and index.
pub fn made_tables(seed: u64, index: u64) -> Made {
    let r = &mut Random::new(seed, index);
    let recipes = RECIPES.len() as u64 + 1;
    match RECIPES.get((index % recipes) as usize) {
        Some((kind, recipe)) => Made {
            tables: recipe(r),
            kind,
            sheet: None,
        },
        None => {
            let (mut tables, bytes) = of_sheet(r);
            if r.one_in(2) {
                add_junk(r, &mut tables);
            }
            Made {
                tables,
                kind: OF_SHEET,
                sheet: Some(bytes),
            }
        }
    }
}

#[cfg(test)]
mod tests {
    use super::*;
    use crate::oracle::{BAD_FIELD, BAD_SIZE, BAD_WEIGHT, MAX_BYTES, TOO_MANY};
    use crate::writing::sheet;
    use std::collections::BTreeMap;

    #[test]
    fn same_seed_same_tables() {
        let tables = |seed, index| made_tables(seed, index).tables;
        for index in 0..200 {
            assert_eq!(tables(7, index), tables(7, index));
        }
        let differ = (0..200).filter(|&i| tables(7, i) != tables(8, i)).count();
        assert!(differ > 190, "{differ}");
    }

    /// Right tables are accepted, and every recipe gives what its name says, within the tables of
    /// one seed.
    #[test]
    fn every_recipe_does_its_part() {
        let mut numbers: BTreeMap<&str, [u32; BAD_WEIGHT as usize + 1]> = BTreeMap::new();
        let mut longest = 0;
        for index in 0..20_000 {
            let made = made_tables(1, index);
            let number = match sheet(&made.tables) {
                Ok(bytes) => {
                    longest += u32::from(bytes.len() == MAX_BYTES);
                    0
                }
                Err(refusal) => refusal.number,
            };
            numbers.entry(made.kind).or_default()[number as usize] += 1;
        }
        assert_eq!(numbers.len(), kinds().count());
        assert!(longest >= 50, "{longest}");
        for (kind, came) in numbers {
            let of = |number: u32| came[number as usize];
            let alone = match kind {
                "right" | "right, and entries after the counted ones" | OF_SHEET => Some(0),
                "beyond a limit" => Some(TOO_MANY),
                _ => None,
            };
            if let Some(number) = alone {
                assert_eq!(of(number), came.iter().sum::<u32>(), "{kind}: {came:?}");
                continue;
            }
            let part = match kind {
                "the sizes" => BAD_SIZE,
                "one weight" => BAD_WEIGHT,
                _ => BAD_FIELD,
            };
            assert!(of(part) >= 200, "{kind}: {came:?}");
            let besides = match kind {
                "beyond a limit, and a word" => TOO_MANY,
                "noise" => BAD_SIZE,
                _ => 0,
            };
            assert!(of(besides) >= 50, "{kind}: {came:?}");
        }
    }
}
