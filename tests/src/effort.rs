//! How much of one sheet is tried. The proved search goes through all plans in each round, so the work on a sheet
//! can be told beforehand, in gates worked out and wishes looked at.

use crate::oracle::Sheet;
use crate::planning::tree;

/// The part of the budget that one Answer may take, by what it takes at most and as a rule.
const ANSWER_PART: u64 = 4;
const ANSWER_PART_AS_A_RULE: u64 = 2;
/// No list is longer than this: sheets with more patterns get less room.
const LONGEST: usize = 1_100;
/// The gates worked out for a plan as a rule: most plans are left for their cost, or at the first rule.
const FEW_GATES: u64 = 16;

/// What is left of a sheet's budget.
pub struct Effort {
    left: u64,
    budget: u64,
    plans: u64,
    patterns: u64,
    /// The gates for one plan and one pattern.
    tree: u64,
    /// The wishes looked at for one plan's cost.
    wishes: u64,
    /// Whether the work is taken as it is at most, or as a rule.
    at_most: bool,
}

impl Effort {
    /// By what a search takes at most: each plan passes all patterns but the last.
    pub fn at_most(sheet: &Sheet, budget: u64) -> Effort {
        Effort {
            left: budget,
            budget,
            plans: 1 << sheet.switches,
            patterns: 1 << sheet.faults,
            tree: tree(sheet),
            wishes: sheet.wishes.len() as u64 + 1,
            at_most: true,
        }
    }

    /// By what a search takes as a rule.
    pub fn as_a_rule(sheet: &Sheet, budget: u64) -> Effort {
        Effort {
            at_most: false,
            ..Effort::at_most(sheet, budget)
        }
    }

    fn short_run(&self, patterns: u64) -> u64 {
        let gates = match self.at_most {
            true => self.tree * patterns,
            false => self.tree.min(FEW_GATES),
        };
        self.plans * (self.wishes + gates)
    }

    fn rating(&self) -> u64 {
        self.tree * self.patterns
    }

    /// All rounds until the list has this length.
    fn answer(&self, length: u64) -> u64 {
        let rounds = length + 1;
        match self.at_most {
            true => rounds * (self.short_run(length) / 2 + self.rating()),
            // Only the last candidate is tried on all patterns.
            false => rounds * self.short_run(length) + self.rating(),
        }
    }

    /// The longest list that an Answer may make, so that its work stays within its part.
    pub fn longest_list(&self) -> usize {
        let part = match self.at_most {
            true => self.budget / ANSWER_PART,
            false => self.budget / ANSWER_PART_AS_A_RULE,
        };
        (1..=LONGEST)
            .take_while(|&length| self.answer(length as u64) <= part)
            .last()
            .unwrap_or(1)
    }

    /// Takes this much from what is left, if there is so much.
    fn afford(&mut self, work: u64) -> bool {
        let enough = work <= self.left;
        if enough {
            self.left -= work;
        }
        enough
    }

    /// An Answer whose list reaches this length, and the short run over it.
    pub fn afford_answer(&mut self, length: usize) -> bool {
        let work = self.answer(length as u64) + self.short_run(length as u64);
        self.afford(work)
    }

    /// A short run, and the rating of its plan, which as a rule is not sound.
    pub fn afford_short_run(&mut self, patterns: usize) -> bool {
        let rating = if self.at_most { self.rating() } else { 0 };
        self.afford(self.short_run(patterns as u64) + rating)
    }

    pub fn can_afford_beginnings(&self, length: usize) -> bool {
        self.answer(length as u64) <= self.left
    }

    pub fn afford_rating(&mut self) -> bool {
        self.afford(self.rating())
    }
}

#[cfg(test)]
mod tests {
    use super::*;
    use crate::generate::sheet;
    use crate::oracle::read;

    #[test]
    fn a_larger_budget_allows_more() {
        let sheet = read(&sheet("H 4 4; O 1 5; O 9 2; R 10; W -1; Z 5")).unwrap();
        let longest = |budget| Effort::at_most(&sheet, budget).longest_list();
        assert_eq!(longest(0), 1);
        assert!(longest(100_000) < longest(1_000_000));
        assert_eq!(longest(u64::MAX), LONGEST);
        let mut effort = Effort::at_most(&sheet, 3_000);
        let afforded = (0..100).filter(|_| effort.afford_short_run(2)).count();
        assert!(0 < afforded && afforded < 100, "{afforded}");
    }

    #[test]
    fn as_a_rule_less_is_taken() {
        let sheet = read(&sheet("H 4 4; O 1 5; O 9 2; R 10; W -1; Z 5")).unwrap();
        let at_most = Effort::at_most(&sheet, 100_000).longest_list();
        assert!(at_most < Effort::as_a_rule(&sheet, 100_000).longest_list());
    }
}
