//! A sheet that is made of small sheets, its parts: each has switches of its own; faults may be shared. So a
//! plan consists of plans for the parts, and the brute force need only be used on each part:
//!
//! - A plan passes a pattern if each part's own plan passes what the part has of the pattern.
//! - The best plan for some patterns consists of the parts' best ones. Costs add up, and of the plans with the
//!   lowest cost the smallest consists of the smallest ones, as no two parts share a digit.
//! - The smallest pattern that is not passed is one that some part does not pass, with no fault besides. For
//!   each part it is the smallest of its own; the smallest of these is sought.

use crate::brute::{End, Method, Planner};
use crate::form::Form;
use crate::generate::Random;
use crate::oracle::{Gate, Sheet, Wish, MAX_WEIGHT};
use crate::planning::{a_wish, part, shuffle, Weights};
use crate::shrink::{smaller_sheets, without_input, Shrink};

/// A part: a sheet, and the numbers on the whole sheet of its switches and faults, rising.
#[derive(Clone)]
struct Part {
    sheet: Sheet,
    switches: Vec<u32>,
    faults: Vec<u32>,
}

#[derive(Clone)]
pub struct Parts {
    switches: u32,
    faults: u32,
    parts: Vec<Part>,
}

// ---- the whole sheet

impl Parts {
    /// The whole sheet. Gates, rules and wishes are taken from each part in turn.
    pub fn sheet(&self) -> Sheet {
        let mut whole = Sheet {
            switches: self.switches,
            faults: self.faults,
            ..Sheet::default()
        };
        // What each part's points are called on the whole sheet.
        let mut names: Vec<Vec<u32>> = self.parts.iter().map(|part| self.inputs(part)).collect();
        for (k, gate) in in_turn(&self.parts, |part| &part.sheet.gates) {
            let named = |point: u32| match point {
                0 => 0,
                _ => names[k][point as usize - 1],
            };
            whole.gates.push(Gate {
                kind: gate.kind,
                left: named(gate.left),
                right: named(gate.right),
            });
            names[k].push(whole.points() as u32);
        }
        for (k, &rule) in in_turn(&self.parts, |part| &part.sheet.rules) {
            whole.rules.push(names[k][rule as usize - 1]);
        }
        for (k, wish) in in_turn(&self.parts, |part| &part.sheet.wishes) {
            let switch = |literal: &i32| names[k][literal.unsigned_abs() as usize - 1] as i32;
            let literals = wish.literals.iter().map(|l| switch(l) * l.signum());
            whole.wishes.push(Wish {
                literals: literals.collect(),
                weight: wish.weight,
            });
        }
        whole
    }

    fn inputs(&self, part: &Part) -> Vec<u32> {
        let faults = part.faults.iter().map(|fault| self.switches + fault);
        part.switches.iter().copied().chain(faults).collect()
    }

    pub fn method(&self) -> impl Method {
        let numbered = |part: &Part| Numbered {
            planner: Planner::new(part.sheet.clone()),
            plan: digits(self.switches, &part.switches),
            pattern: digits(self.faults, &part.faults),
        };
        ByParts(self.parts.iter().map(numbered).collect())
    }
}

/// What the parts have of something, from each in turn, with the part's index.
fn in_turn<T>(parts: &[Part], of: impl Fn(&Part) -> &Vec<T>) -> Vec<(usize, &T)> {
    let most = parts.iter().map(|part| of(part).len()).max().unwrap_or(0);
    let turns = (0..most).flat_map(|turn| (0..parts.len()).map(move |k| (turn, k)));
    turns
        .filter_map(|(turn, k)| Some((k, of(&parts[k]).get(turn)?)))
        .collect()
}

// ---- the method

/// A part with the digits of a plan and of a pattern that are its own, the highest first.
struct Numbered {
    planner: Planner,
    plan: Vec<u32>,
    pattern: Vec<u32>,
}

struct ByParts(Vec<Numbered>);

/// The values of these digits, in a number of so many. Digits are counted from 1 at the highest.
fn digits(of: u32, places: &[u32]) -> Vec<u32> {
    places.iter().map(|place| 1 << (of - place)).collect()
}

/// The number that some digits of a number make by themselves.
fn taken(number: u32, digits: &[u32]) -> u32 {
    digits
        .iter()
        .fold(0, |own, digit| 2 * own + u32::from(number & digit != 0))
}

/// A number whose digits are these of a larger one, all others being 0.
fn placed(own: u32, digits: &[u32]) -> u32 {
    let lowest_first = digits.iter().rev().enumerate();
    lowest_first.map(|(k, digit)| (own >> k & 1) * digit).sum()
}

impl Method for ByParts {
    fn passes(&self, plan: u32, pattern: u32) -> bool {
        self.0.iter().all(|part| {
            let (plan, pattern) = (taken(plan, &part.plan), taken(pattern, &part.pattern));
            part.planner.passes(plan, pattern)
        })
    }

    fn best(&self, patterns: &[u32]) -> Option<u32> {
        let best_of = |part: &Numbered| {
            let own: Vec<u32> = patterns.iter().map(|&p| taken(p, &part.pattern)).collect();
            Some(placed(part.planner.best(&own)?, &part.plan))
        };
        self.0.iter().map(best_of).sum()
    }

    fn first_failed(&self, plan: u32) -> Option<u32> {
        let failed = self.0.iter().filter_map(|part| {
            let own = part.planner.first_failed(taken(plan, &part.plan))?;
            Some(placed(own, &part.pattern))
        });
        failed.min()
    }
}

// ---- how they are made

/// The most switches of a part, and the most faults unless it has hardly a switch.
const MOST_SWITCHES: usize = 5;
const MOST_FAULTS: usize = 9;
/// The most words of a part's own list that it may have a plan after.
const LONGEST_LIST: usize = 40;

/// Gates, rules and wishes.
type Counts = [usize; 3];

impl Parts {
    /// Parts of a sheet with so many switches and faults and at most so many lines of each kind; or of a text.
    pub fn drawn(r: &mut Random, switches: u32, faults: u32, form: Form, most: Counts) -> Parts {
        let mut free: Vec<u32> = (1..=switches).collect();
        shuffle(r, &mut free);
        let no_plan = r.one_in(3);
        let mut made = Parts {
            switches,
            faults,
            parts: Vec::new(),
        };
        while !free.is_empty() {
            let own = 1 + r.below(MOST_SWITCHES.min(free.len()));
            let own = free.split_off(free.len() - own);
            // Some switches are in no part.
            if !r.one_in(10) {
                let left = made.left(form, most);
                let part = made.a_part(r, own, form, left, no_plan);
                made.parts.push(part);
            }
        }
        made
    }

    /// A part with these switches. It has a plan, unless it may have none.
    fn a_part(
        &self,
        r: &mut Random,
        mut switches: Vec<u32>,
        form: Form,
        [gates, rules, wishes]: Counts,
        no_plan: bool,
    ) -> Part {
        switches.sort_unstable();
        let mut faults: Vec<u32> = (1..=self.faults).collect();
        let all_faults = switches.len() <= 2 && r.one_in(3);
        if !all_faults {
            shuffle(r, &mut faults);
            faults.truncate(r.below(MOST_FAULTS + 1));
            faults.sort_unstable();
        }
        loop {
            let most_gates = gates.min(r.pick(&[20, 40, 40, 80, 400]));
            let sizes = (switches.len() as u32, faults.len() as u32);
            let mut sheet = part(r, sizes.0, sizes.1, most_gates);
            sheet.rules.truncate(rules);
            if form == Form::Text {
                sheet.wishes.retain(|wish| !wish.literals.is_empty());
            }
            sheet.wishes.truncate(wishes);
            if operators(&sheet, form) > gates {
                continue;
            }
            if no_plan || has_plan(&sheet) {
                return Part {
                    sheet,
                    switches,
                    faults,
                };
            }
        }
    }

    /// How many lines of each kind may still be added.
    fn left(&self, form: Form, most: Counts) -> Counts {
        let sum = |of: &dyn Fn(&Sheet) -> usize| -> usize {
            self.parts.iter().map(|part| of(&part.sheet)).sum()
        };
        [
            most[0] - sum(&|sheet| operators(sheet, form)),
            most[1] - sum(&|sheet| sheet.rules.len()),
            most[2] - sum(&|sheet| sheet.wishes.len()),
        ]
    }

    /// Adds lines up to so many of each kind.
    pub fn fill(&mut self, r: &mut Random, form: Form, most: Counts) {
        if self.parts.is_empty() {
            return;
        }
        let weights = Weights::drawn(r);
        loop {
            let [gates, rules, wishes] = self.left(form, most);
            let k = r.below(self.parts.len());
            let sheet = &mut self.parts[k].sheet;
            if rules > 0 && gates >= 2 {
                let always = always_true(r, sheet);
                let at = r.below(sheet.rules.len() + 1);
                sheet.rules.insert(at, always);
            } else if wishes > 0 {
                let wish = a_wish(r, sheet.switches as i32, &sheet.wishes, weights);
                if form == Form::Sheet || !wish.literals.is_empty() {
                    sheet.wishes.push(wish);
                }
            } else if gates > 0 && !sheet.rules.is_empty() {
                if !more_gates(r, sheet, gates, form) {
                    return;
                }
            } else if gates == 0 || self.parts.iter().all(|part| part.sheet.rules.is_empty()) {
                return;
            }
        }
    }
}

impl Parts {
    /// All wishes are for switches to be off, and weigh as much as may be: so with all switches on the cost is
    /// the greatest that so many wishes have.
    pub fn weigh_most(&mut self) {
        let parts = self.parts.iter_mut();
        for wish in parts.flat_map(|part| &mut part.sheet.wishes) {
            wish.weight = MAX_WEIGHT;
            wish.literals.iter_mut().for_each(|l| *l = -l.abs());
        }
    }
}

fn has_plan(sheet: &Sheet) -> bool {
    let run = Planner::new(sheet.clone()).run(LONGEST_LIST);
    matches!(run.end, End::Plan(_))
}

/// The gates of a sheet, or of the text that it is written out as.
fn operators(sheet: &Sheet, form: Form) -> usize {
    if form == Form::Sheet {
        return sheet.gates.len();
    }
    let inputs = (sheet.switches + sheet.faults) as usize;
    let mut trees = vec![0_usize; inputs];
    for gate in &sheet.gates {
        let at = |point: u32| match point {
            0 => 0,
            _ => trees[point as usize - 1],
        };
        let tree = 1 + at(gate.left).saturating_add(at(gate.right));
        trees.push(tree);
    }
    let rules = sheet.rules.iter().map(|&p| trees[p as usize - 1]);
    rules.fold(0, usize::saturating_add)
}

fn add_gate(sheet: &mut Sheet, kind: u8, left: u32, right: u32) -> u32 {
    sheet.gates.push(Gate { kind, left, right });
    sheet.points() as u32
}

/// A switch or a fault, or its negation: two gates.
fn always_true(r: &mut Random, sheet: &mut Sheet) -> u32 {
    let leaf = 1 + r.below((sheet.switches + sheet.faults) as usize) as u32;
    let not = add_gate(sheet, b'N', leaf, 0);
    add_gate(sheet, b'O', leaf, not)
}

/// Gates that do not change what a rule says: an and with what is always true, or two nots. Returns whether
/// any could be added.
fn more_gates(r: &mut Random, sheet: &mut Sheet, left: usize, form: Form) -> bool {
    let k = r.below(sheet.rules.len());
    let rule = sheet.rules[k];
    sheet.rules[k] = match left {
        // No two are left over in the end.
        3 | 5.. => {
            let always = always_true(r, sheet);
            add_gate(sheet, b'A', rule, always)
        }
        2 | 4 => {
            let not = add_gate(sheet, b'N', rule, 0);
            add_gate(sheet, b'N', not, 0)
        }
        // One that nothing names.
        _ if form == Form::Sheet => {
            add_gate(sheet, b'A', rule, rule);
            rule
        }
        _ => return false,
    };
    true
}

// ---- shrinking

impl Shrink for Parts {
    /// Switches go early, as each halves the time that further tries take.
    fn smaller(&self) -> Box<dyn Iterator<Item = Parts> + '_> {
        let smaller_parts = (0..self.parts.len()).flat_map(move |k| {
            let sheets = smaller_sheets(&self.parts[k].sheet);
            sheets.map(move |sheet| {
                let mut less = self.clone();
                less.parts[k].sheet = sheet;
                less
            })
        });
        let closed_up = self.fewer_inputs().map(Parts::closed_up);
        Box::new(closed_up.chain(smaller_parts).chain(self.fewer_inputs()))
    }
}

impl Part {
    /// Without its switch or fault at this place, counted from 0; none if it cannot do without.
    fn without(&self, input: usize) -> Option<Part> {
        let mut less = self.clone();
        less.sheet = without_input(&self.sheet, input as u32 + 1)?;
        match input.checked_sub(self.switches.len()) {
            None => less.switches.remove(input),
            Some(fault) => less.faults.remove(fault),
        };
        Some(less)
    }
}

impl Parts {
    /// Without a part, or without a switch or fault of a part. What is left keeps its numbers.
    fn fewer_inputs(&self) -> impl Iterator<Item = Parts> + '_ {
        let fewer_parts = (0..self.parts.len()).map(|k| {
            let mut less = self.clone();
            less.parts.remove(k);
            less
        });
        let smaller_parts = (0..self.parts.len()).flat_map(move |k| {
            let part = &self.parts[k];
            let inputs = 0..part.switches.len() + part.faults.len();
            inputs.filter_map(move |input| {
                let mut less = self.clone();
                less.parts[k] = part.without(input)?;
                Some(less)
            })
        });
        fewer_parts.chain(smaller_parts)
    }

    /// Without the switches and faults that no part has.
    fn closed_up(mut self) -> Parts {
        let switches = self.parts.iter_mut().map(|part| &mut part.switches);
        self.switches = closed_up(switches.collect());
        let faults = self.parts.iter_mut().map(|part| &mut part.faults);
        self.faults = closed_up(faults.collect());
        self
    }
}

/// Renumbers from 1 on, in the same order. Returns how many different numbers there are.
fn closed_up(lists: Vec<&mut Vec<u32>>) -> u32 {
    let mut used: Vec<u32> = lists.iter().flat_map(|list| list.iter().copied()).collect();
    used.sort_unstable();
    used.dedup();
    for number in lists.into_iter().flatten() {
        *number = 1 + used.partition_point(|other| other < number) as u32;
    }
    used.len() as u32
}

#[cfg(test)]
mod tests {
    use super::*;
    use crate::oracle::{MAX_GATES, MAX_RULES, MAX_WISHES};

    /// On sheets that are small enough the brute force says the same.
    #[test]
    fn as_the_brute_force() {
        let (mut plans, mut none) = (0, 0);
        for index in 0..400 {
            let r = &mut Random::new(1, index);
            let (switches, faults) = (r.below(9) as u32, r.below(9) as u32);
            let most = [MAX_GATES, MAX_RULES, MAX_WISHES];
            let mut parts = Parts::drawn(r, switches, faults, Form::Sheet, most);
            if r.one_in(8) {
                parts.fill(r, Form::Sheet, most);
            }
            let sheet = parts.sheet();
            let brute = Planner::new(sheet.clone());
            let by_parts = Planner::by(parts.method(), sheet);
            let run = brute.run(300);
            assert_eq!(by_parts.run(300), run, "{index}");
            match run.end {
                End::Plan(_) => plans += 1,
                _ => none += 1,
            }
            for _ in 0..20 {
                let plan = r.word() % brute.plans();
                let pattern = r.word() % brute.patterns();
                assert_eq!(by_parts.passes(plan, pattern), brute.passes(plan, pattern));
                assert_eq!(by_parts.rating(plan), brute.rating(plan), "{index}");
                let list: Vec<u32> = (0..r.below(4))
                    .map(|_| r.word() % brute.patterns())
                    .collect();
                assert_eq!(by_parts.short_run(&list), brute.short_run(&list), "{index}");
            }
        }
        assert!(plans >= 100 && none >= 50, "{plans}, {none}");
    }

    #[test]
    fn digits_taken_and_placed() {
        let own = digits(5, &[1, 4]);
        assert_eq!(own, [16, 2]);
        assert_eq!(taken(0b10100, &own), 0b10);
        assert_eq!(placed(0b11, &own), 0b10010);
    }
}
