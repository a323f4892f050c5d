//! Planners that read the rules wrongly, and readers that tell the column wrongly. Each must show on many
//! sheets, so that the comparison shows it; and a sheet on which it shows is shrunk to a small one.

use std::collections::BTreeSet;

use super::tests::{accepted, LIMIT};
use super::{light, planning_sheet};
use crate::brute::{End, Planner, Run};
use crate::form::Form;
use crate::oracle::{read, Refusal, Sheet, COLUMNS, LINE, MALFORMED};
use crate::shrink::shrunk_bytes;

// ---- planners

/// What the second planner says of a sheet.
struct Right {
    planner: Planner,
    list: Vec<u32>,
    plan: Option<u32>,
}

impl Right {
    fn of(planner: Planner) -> Right {
        let Run { list, end } = planner.run(LIMIT);
        let plan = match end {
            End::Plan(plan) => Some(plan),
            _ => None,
        };
        Right {
            planner,
            list,
            plan,
        }
    }

    /// Whether the best plan that passes these patterns, by this measure, is another one.
    fn not_best<K: Ord>(&self, patterns: &[u32], measure: impl Fn(u32) -> K) -> bool {
        let passing = (0..self.planner.plans())
            .filter(|&plan| patterns.iter().all(|&p| self.planner.passes(plan, p)));
        passing.min_by_key(|&plan| measure(plan)) != self.plan
    }

    /// The same of the best plan that passes some of the patterns only.
    fn not_by(&self, patterns: &[u32]) -> bool {
        self.not_best(patterns, |plan| (self.planner.cost(plan), plan))
    }

    fn every_pattern(&self) -> Vec<u32> {
        (0..self.planner.patterns()).collect()
    }

    /// Whether another plan or cost comes out if this is what a plan costs.
    fn not_at(&self, cost: impl Fn(u32) -> u32) -> bool {
        let another_cost = |plan: u32| cost(plan) != self.planner.cost(plan);
        self.plan.is_some_and(another_cost)
            || self.not_best(&self.every_pattern(), |plan| (cost(plan), plan))
    }

    /// The same if a broken wish k weighs this much.
    fn not_weighed(&self, weight: impl Fn(usize) -> u32) -> bool {
        let wishes = &self.planner.sheet.wishes;
        self.not_at(|plan| {
            let broken = (0..wishes.len()).filter(|&k| !self.planner.keeps(plan, &wishes[k]));
            broken.map(&weight).sum()
        })
    }

    /// The same if some of the wishes weigh nothing.
    fn not_without(&self, left_out: impl Fn(usize) -> bool) -> bool {
        self.not_weighed(|k| if left_out(k) { 0 } else { self.weight(k) })
    }

    fn literals(&self, k: usize) -> &[i32] {
        &self.planner.sheet.wishes[k].literals
    }

    fn weight(&self, k: usize) -> u32 {
        self.planner.sheet.wishes[k].weight
    }

    fn set(&self, k: usize) -> BTreeSet<i32> {
        self.literals(k).iter().copied().collect()
    }

    /// The first wish with the literals of wish k, in any order.
    fn first_of_set(&self, k: usize) -> usize {
        let mut earlier = 0..k;
        earlier.find(|&j| self.set(j) == self.set(k)).unwrap_or(k)
    }

    /// Whether wish k has the literals of an earlier one, in any order.
    fn same_set(&self, k: usize) -> bool {
        self.first_of_set(k) < k
    }

    /// Whether the literals of wish k are written as those of an earlier one.
    fn same_order(&self, k: usize) -> bool {
        (0..k).any(|earlier| self.literals(earlier) == self.literals(k))
    }
}

/// Whether a planner gives another answer.
type Differs = fn(&Right) -> bool;

/// The wrong planners.
#[rustfmt::skip]
const WRONG_PLANNERS: [(&str, Differs); 18] = [
    ("the weights ignored", |right| right.not_weighed(|_| 1)),
    ("the weight read from the columns of the third literal", |right| {
        right.not_weighed(|k| right.literals(k).get(2).map_or(0, |l| l.unsigned_abs()))
    }),
    ("the weight read from the next wish", |right| {
        let last = right.planner.sheet.wishes.len().saturating_sub(1);
        right.not_weighed(|k| right.weight(last.min(k + 1)))
    }),
    ("weights of 8 bits", |right| right.not_weighed(|k| right.weight(k) & 0xff)),
    ("the sum over the kept wishes", |right| {
        let all: u32 = right.planner.sheet.wishes.iter().map(|wish| wish.weight).sum();
        right.not_at(|plan| all - right.planner.cost(plan))
    }),
    ("the weight of a repeated wish dropped", |right| right.not_without(|k| right.same_set(k))),
    ("the weight of a repeated wish dropped if written in the same order", |right| {
        right.not_without(|k| right.same_order(k))
    }),
    ("the weight of a repeated wish dropped unless written in the same order", |right| {
        right.not_without(|k| right.same_set(k) && !right.same_order(k))
    }),
    ("the weight of the first for a repeated wish", |right| {
        right.not_weighed(|k| right.weight(right.first_of_set(k)))
    }),
    ("a wish counted twice for a literal that it has twice", |right| right.not_weighed(|k| {
        let twice = right.literals(k).len() - right.set(k).len();
        right.weight(k) * (1 + twice as u32)
    })),
    ("the larger plan at equal cost", |right| {
        right.not_best(&right.every_pattern(), |plan| (right.planner.cost(plan), u32::MAX - plan))
    }),
    ("the first sound plan", |right| right.not_best(&right.every_pattern(), |plan| plan)),
    ("faults tried singly", |right| {
        let singly = (0..right.planner.sheet.faults).map(|k| 1 << k);
        right.not_by(&singly.chain([0]).collect::<Vec<u32>>())
    }),
    ("no fault and all faults", |right| right.not_by(&[0, right.planner.patterns() - 1])),
    ("faults struck out", |right| {
        let Right { planner, plan, .. } = right;
        let rules = &planner.sheet.rules;
        let kept = |plan: &u32| rules.iter().all(|&p| struck(&planner.sheet, *plan, p, true));
        let cost = |plan: &u32| (planner.cost(*plan), *plan);
        (0..planner.plans()).filter(kept).min_by_key(cost) != *plan
    }),
    ("no fault", |right| right.not_by(&[0])),
    ("listed patterns forgotten", |right| wrong_list(&right.planner, true, false) != right.list),
    ("the largest pattern listed", |right| wrong_list(&right.planner, false, true) != right.list),
];

/// Whether a point holds, or its opposite, with every fault literal taken as false.
fn struck(sheet: &Sheet, plan: u32, point: u32, plain: bool) -> bool {
    let Sheet {
        switches, faults, ..
    } = *sheet;
    if point <= switches {
        return (plan >> (switches - point) & 1 == 1) == plain;
    }
    if point <= switches + faults {
        return false;
    }
    let gate = sheet.gates[(point - switches - faults) as usize - 1];
    let at = |point, plain| struck(sheet, plan, point, plain);
    match (gate.kind, plain) {
        (b'N', _) => at(gate.left, !plain),
        (b'A', true) | (b'O', false) => at(gate.left, plain) && at(gate.right, plain),
        _ => at(gate.left, plain) || at(gate.right, plain),
    }
}

/// The list if it is begun anew when the cost rises, or if the largest pattern is taken.
fn wrong_list(planner: &Planner, forget: bool, largest: bool) -> Vec<u32> {
    let (mut list, mut cost) = (Vec::new(), 0);
    for _ in 0..LIMIT {
        let Some(candidate) = planner.best(&list) else {
            break;
        };
        let mut failed = (0..planner.patterns()).filter(|&p| !planner.passes(candidate, p));
        let pattern = if largest {
            failed.next_back()
        } else {
            failed.next()
        };
        let Some(pattern) = pattern else {
            break;
        };
        if forget && planner.cost(candidate) > cost {
            list.clear();
        }
        cost = planner.cost(candidate);
        list.push(pattern);
    }
    list
}

#[test]
fn wrong_planners_show() {
    let mut shown = [0; WRONG_PLANNERS.len()];
    for planner in accepted(2, 6_000) {
        let right = Right::of(planner);
        for (count, (_, differs)) in shown.iter_mut().zip(WRONG_PLANNERS) {
            *count += usize::from(differs(&right));
        }
    }
    for ((name, _), count) in WRONG_PLANNERS.iter().zip(shown) {
        println!("{count:>5} sheets: {name}");
        assert!(count >= 200, "{name}: {count}");
    }
}

/// The sheets that the wrong planners are shrunk from, for each so many.
const SHRUNK: usize = 5;
/// The lines of the largest sheet that is left.
const MOST_LINES: usize = 9;

#[test]
fn wrong_planners_are_shrunk() {
    for (name, differs) in WRONG_PLANNERS {
        let shows = |bytes: &[u8]| match read(bytes) {
            Ok(sheet) if light(&sheet) => differs(&Right::of(Planner::new(sheet))),
            _ => false,
        };
        let made = (0..).map(|index| planning_sheet(2, index).bytes);
        for bytes in made.filter(|bytes| shows(bytes)).take(SHRUNK) {
            let small = shrunk_bytes(Form::Sheet, &bytes, shows);
            println!(
                "{:>3} lines of {:>3}: {name}",
                small.len() / LINE,
                bytes.len() / LINE
            );
            assert!(shows(&small), "{name}");
            let text = String::from_utf8_lossy(&small);
            assert!(small.len() <= MOST_LINES * LINE, "{name}:\n{text}");
        }
    }
}

// ---- readers that tell the column wrongly

/// A malformed line, where it stands and the column at which it stops.
struct Stop<'a> {
    line: &'a [u8],
    place: usize,
    column: usize,
}

impl Stop<'_> {
    /// The columns of its field: none if the line stops at its letter or at its line feed.
    fn field(&self) -> Option<std::ops::RangeInclusive<usize>> {
        let in_field = (2..LINE).contains(&self.column);
        let first = 2 + self.column.saturating_sub(2) / COLUMNS * COLUMNS;
        in_field.then(|| first..=first + COLUMNS - 1)
    }

    fn byte(&self, column: usize) -> u8 {
        self.line[column - 1]
    }
}

/// The column that a reader tells.
type Told = fn(&Stop) -> usize;

/// Ways to tell another column. Each gives the right one where it sees no cause for another.
const WRONG_COLUMNS: [(&str, Told); 13] = [
    ("one too small", |s| s.column - 1),
    ("one too large", |s| s.column + 1),
    ("counted from the field's beginning", |s| {
        s.field().map_or(s.column, |f| s.column - f.start() + 1)
    }),
    ("the field", |s| {
        s.field().map_or(s.column, |f| f.end() / COLUMNS)
    }),
    ("the byte of the whole sheet", |s| {
        (s.place - 1) * LINE + s.column
    }),
    ("the field's first column", |s| {
        s.field().map_or(s.column, |f| *f.start())
    }),
    ("the field's last column", |s| {
        s.field().map_or(s.column, |f| *f.end())
    }),
    ("a 0 told one column later", |s| {
        s.column + usize::from(s.field().is_some() && s.byte(s.column) == b'0')
    }),
    ("a minus without a number told where it stands", |s| {
        let after_minus = s.field().is_some() && s.byte(s.column - 1) == b'-';
        s.column - usize::from(after_minus)
    }),
    ("a minus in the last column told after it", |s| {
        let last = s.field().is_some_and(|f| s.column == *f.end());
        s.column + usize::from(last && s.byte(s.column) == b'-')
    }),
    ("a blank field told after it", |s| {
        let text = s.field().map(|f| &s.line[f.start() - 1..*f.end()]);
        s.column + usize::from(text == Some(b"     "))
    }),
    ("a space after a digit told at the digit", |s| {
        let in_field = s.field().is_some_and(|f| s.column > *f.start());
        let after_digit = in_field && s.byte(s.column - 1).is_ascii_digit();
        s.column - usize::from(after_digit && s.byte(s.column) == b' ')
    }),
    ("the line feed looked at first", |s| {
        if s.line[LINE - 1] == b'\n' {
            s.column
        } else {
            LINE
        }
    }),
];

/// Calls this with the malformed line that a sheet is refused for; none if it is not.
fn at_stop<T>(bytes: &[u8], looked_at: impl FnOnce(&Stop) -> T) -> Option<T> {
    let refusal = read(bytes).err().filter(|r| r.number == MALFORMED)?;
    let Refusal { place, column, .. } = refusal;
    let line = &bytes[(place - 1) * LINE..place * LINE];
    Some(looked_at(&Stop {
        line,
        place,
        column,
    }))
}

#[test]
fn wrong_columns_show() {
    let mut shown = [0; WRONG_COLUMNS.len()];
    for index in 0..24_000 {
        at_stop(&planning_sheet(2, index).bytes, |stop| {
            for (count, (_, told)) in shown.iter_mut().zip(WRONG_COLUMNS) {
                *count += usize::from(told(stop) != stop.column);
            }
        });
    }
    for ((name, _), count) in WRONG_COLUMNS.iter().zip(shown) {
        println!("{count:>5} sheets: {name}");
        assert!(count >= 50, "{name}: {count}");
    }
}

/// One line is left, or two where the place matters.
#[test]
fn wrong_columns_are_shrunk() {
    for (name, told) in WRONG_COLUMNS {
        let shows = |bytes: &[u8]| at_stop(bytes, |stop| told(stop) != stop.column) == Some(true);
        let made = (0..).map(|index| planning_sheet(2, index).bytes);
        for bytes in made.filter(|bytes| shows(bytes)).take(SHRUNK) {
            let small = shrunk_bytes(Form::Sheet, &bytes, shows);
            assert!(shows(&small), "{name}");
            assert!(small.len() <= 2 * LINE, "{name}: {}", small.escape_ascii());
        }
    }
}
