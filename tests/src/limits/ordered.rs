//! Sheets on which a plan and a pattern are compared as numbers: some digits of the one with as many of the
//! other, in any order, some turned. The lists get thousands of words, and a table of the numbers tells what the
//! rule says.

use std::collections::HashSet;

use crate::brute::{ranked, Method};
use crate::generate::{written, Random};
use crate::oracle::{read, Sheet, Wish, MAX_FAULTS, MAX_GATES, MAX_SWITCHES};
use crate::planning::{a_wish, shuffle, with_digit, Circuit, Relation, Weights};
use crate::shrink::Shrink;

/// A digit of the numbers that are compared: a switch, on or off, and a fault.
#[derive(Clone, Copy)]
struct Digit {
    switch: u32,
    on: bool,
    fault: u32,
}

#[derive(Clone)]
pub struct Ordered {
    switches: u32,
    faults: u32,
    /// The highest first.
    digits: Vec<Digit>,
    relation: Relation,
    wishes: Vec<Wish>,
}

impl Ordered {
    /// Many digits of many switches and of all faults. Sometimes there are wishes.
    pub fn at_the_limits(r: &mut Random) -> Ordered {
        let digits = r.between(8, MAX_FAULTS) as u32;
        let switches = r.pick(&[digits, digits + 1, MAX_SWITCHES as u32]);
        let mut made = Ordered::drawn(r, switches, MAX_FAULTS as u32, digits);
        let weights = Weights::drawn(r);
        for _ in 0..r.pick(&[0, 0, 4, 12]) {
            let wish = a_wish(r, switches as i32, &made.wishes, weights);
            // A text has no empty wish.
            made.wishes
                .extend(Some(wish).filter(|wish| !wish.literals.is_empty()));
        }
        made
    }

    /// So many digits, at least one, of some of the switches and faults: the last ones in their order, or any.
    pub fn drawn(r: &mut Random, switches: u32, faults: u32, digits: u32) -> Ordered {
        let relations = [
            Relation::AtLeast,
            Relation::AtLeast,
            Relation::Differ,
            Relation::Equal,
        ];
        let relation = r.pick(&relations);
        let mut of_plan: Vec<u32> = (1 + switches - digits..=switches).collect();
        let mut of_pattern: Vec<u32> = (1 + faults - digits..=faults).collect();
        let turned = r.one_in(3);
        if r.one_in(2) {
            of_plan = (1..=switches).collect();
            of_pattern = (1..=faults).collect();
            shuffle(r, &mut of_plan);
            shuffle(r, &mut of_pattern);
        }
        let pairs = of_plan.into_iter().zip(of_pattern).take(digits as usize);
        let digits = pairs.map(|(switch, fault)| Digit {
            switch,
            on: !turned || r.one_in(2),
            fault,
        });
        Ordered {
            switches,
            faults,
            digits: digits.collect(),
            relation,
            wishes: Vec::new(),
        }
    }

    /// All digits in their order, and no wish: then the list is known, see the tests.
    pub fn plain(size: u32, relation: Relation) -> Ordered {
        let digits = (1..=size).map(|k| Digit {
            switch: k,
            on: true,
            fault: k,
        });
        Ordered {
            switches: size,
            faults: size,
            digits: digits.collect(),
            relation,
            wishes: Vec::new(),
        }
    }

    pub fn sheet(&self) -> Sheet {
        let mut c = Circuit::new(self.switches as i32, self.faults as i32, MAX_GATES);
        let mut so_far = None;
        for digit in self.digits.iter().rev() {
            let switch = digit.switch as i32;
            let switch = if digit.on { switch } else { c.negated(switch) };
            let fault = (self.switches + digit.fault) as i32;
            so_far = Some(with_digit(&mut c, self.relation, switch, fault, so_far));
        }
        let rules: Vec<i32> = so_far.into_iter().collect();
        let rows = c.sheet(&rules, &self.wishes);
        read(&written(&rows).concat()).expect("a sheet that is right")
    }

    pub fn method(&self) -> impl Method {
        let digit = |number: u32, of: u32, place: u32| number >> (of - place) & 1 == 1;
        let number_of = |is_one: &dyn Fn(&Digit) -> bool| {
            let digits = self.digits.iter();
            digits.fold(0, |number, d| 2 * number + u32::from(is_one(d)))
        };
        let plan = |x| number_of(&|d| digit(x, self.switches, d.switch) == d.on);
        let pattern = |y| number_of(&|d| digit(y, self.faults, d.fault));
        Compared {
            relation: self.relation,
            plans: (0..1 << self.switches).map(plan).collect(),
            patterns: (0..1 << self.faults).map(pattern).collect(),
            ranked: ranked(&self.sheet()),
        }
    }
}

/// The number that is compared, for each plan and each pattern.
struct Compared {
    relation: Relation,
    plans: Vec<u32>,
    patterns: Vec<u32>,
    ranked: Vec<u32>,
}

impl Compared {
    fn hold(&self, plan: u32, pattern: u32) -> bool {
        match self.relation {
            Relation::AtLeast => plan >= pattern,
            Relation::Differ => plan != pattern,
            Relation::Equal => plan == pattern,
        }
    }
}

impl Method for Compared {
    fn passes(&self, plan: u32, pattern: u32) -> bool {
        self.hold(self.plans[plan as usize], self.patterns[pattern as usize])
    }

    fn best(&self, patterns: &[u32]) -> Option<u32> {
        let numbers: HashSet<u32> = patterns
            .iter()
            .map(|&y| self.patterns[y as usize])
            .collect();
        let largest = numbers.iter().copied().max().unwrap_or(0);
        let passes_all = |number: u32| match self.relation {
            Relation::AtLeast => number >= largest,
            Relation::Differ => !numbers.contains(&number),
            Relation::Equal => numbers.iter().all(|&other| other == number),
        };
        let mut plans = self.ranked.iter().copied();
        plans.find(|&plan| passes_all(self.plans[plan as usize]))
    }

    fn first_failed(&self, plan: u32) -> Option<u32> {
        let number = self.plans[plan as usize];
        let failed = self.patterns.iter().position(|&p| !self.hold(number, p));
        failed.map(|pattern| pattern as u32)
    }
}

impl Shrink for Ordered {
    fn smaller(&self) -> Box<dyn Iterator<Item = Ordered> + '_> {
        let digits = self.digits.len() as u32;
        let plain = [digits / 2, digits.saturating_sub(1), digits]
            .into_iter()
            .map(|size| Ordered::plain(size, self.relation));
        let fewer_wishes = (0..self.wishes.len()).map(|k| {
            let mut less = self.clone();
            less.wishes.remove(k);
            less
        });
        let fewer_digits = (0..self.digits.len()).map(|k| {
            let mut less = self.clone();
            less.digits.remove(k);
            less
        });
        let size = |ordered: &Ordered| {
            let inputs = (ordered.switches + ordered.faults) as usize;
            inputs + ordered.wishes.len() + ordered.digits.len()
        };
        let all = plain.chain(fewer_wishes).chain(fewer_digits);
        Box::new(all.filter(move |less| !less.digits.is_empty() && size(less) < size(self)))
    }
}

#[cfg(test)]
mod tests {
    use super::*;
    use crate::brute::{End, Planner, PROGRAM_ROOM};

    /// On sheets that are small enough the brute force says the same.
    #[test]
    fn as_the_brute_force() {
        let mut longest = 0;
        for index in 0..300 {
            let r = &mut Random::new(1, index);
            let digits = 1 + r.below(5) as u32;
            let (switches, faults) = (digits + r.below(3) as u32, digits + r.below(3) as u32);
            let mut ordered = Ordered::drawn(r, switches, faults, digits);
            let weights = Weights::drawn(r);
            for _ in 0..r.below(4) {
                let wish = a_wish(r, switches as i32, &ordered.wishes, weights);
                ordered.wishes.push(wish);
            }
            let sheet = ordered.sheet();
            let brute = Planner::new(sheet.clone());
            let compared = Planner::by(ordered.method(), sheet);
            let run = brute.run(300);
            longest = longest.max(run.list.len());
            assert_eq!(compared.run(300), run, "{index}");
            for plan in 0..brute.plans() {
                assert_eq!(compared.rating(plan), brute.rating(plan), "{index}");
                for pattern in 0..brute.patterns() {
                    assert_eq!(compared.passes(plan, pattern), brute.passes(plan, pattern));
                }
            }
        }
        assert!(longest >= 31, "{longest}");
    }

    /// Without wishes, with all digits in their order, the candidates are the plans from 0 on. Each must be at
    /// least the pattern, and fails at the next number; or differ, and fails at its own.
    #[test]
    fn lists_in_closed_form() {
        for size in 1..8 {
            let run = |relation| {
                let ordered = Ordered::plain(size, relation);
                Planner::by(ordered.method(), ordered.sheet()).run(300)
            };
            let last = (1 << size) - 1;
            let at_least = run(Relation::AtLeast);
            assert_eq!(at_least.list, (1..=last).collect::<Vec<u32>>());
            assert_eq!(at_least.end, End::Plan(last));
            let differ = run(Relation::Differ);
            assert_eq!(differ.list, (0..=last).collect::<Vec<u32>>());
            assert_eq!(differ.end, End::NoPlan);
        }
    }

    /// The stored run that ends in 9 is of this kind: its rule, made of other gates, says the same of each plan
    /// and the patterns beside it.
    #[test]
    fn the_stored_run() {
        let sheet = include_bytes!("../../runs/9-full-list.sheet");
        let printed = include_str!("../../runs/9-full-list.expected");
        let stored = Planner::new(read(sheet).unwrap());
        let ordered = Ordered::plain(stored.sheet.switches, Relation::AtLeast);
        let planner = Planner::by(ordered.method(), stored.sheet.clone());
        for plan in 0..stored.plans() {
            for pattern in [plan.saturating_sub(1), plan, plan + 1] {
                let pattern = pattern % stored.patterns();
                assert_eq!(stored.passes(plan, pattern), planner.passes(plan, pattern));
            }
        }
        assert_eq!(planner.listing(&planner.run(PROGRAM_ROOM)), printed);
    }
}
