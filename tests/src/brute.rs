//! A second planner, in the plainest way, by the rules of docs/FORMAT.md alone: it tries every
//! plan on every pattern, and works out every gate for each. The proved planner is compared with
//! it, so it shares no code and no method with that one. Sheets for which this would take too long
//! bring a method of their own: see `limits`.

use std::cell::Cell;

use crate::oracle::{read, Refusal, Sheet, Wish, COLUMNS, MAX_WEIGHT, MAX_WISHES};

// The numbers that the reader does not give.
pub const NO_PLAN: u32 = 8;
pub const NO_ROOM: u32 = 9;
pub const BAD_PLAN: u32 = 10;
pub const BAD_PATTERN: u32 = 11;

/// The greatest cost: as many broken wishes as there may be, each of the largest weight.
pub const MAX_COST: u32 = MAX_WISHES as u32 * MAX_WEIGHT;

/// The words that the program lends for the list.
pub const PROGRAM_ROOM: usize = 4_096;

/// What Answer and Short run return. What a result does not name is 0.
#[derive(Clone, Copy, Debug, Default, PartialEq, Eq)]
pub struct Found {
    pub number: u32,
    pub place: usize,
    pub column: usize,
    pub plan: u32,
    pub cost: u32,
    pub length: usize,
}

/// What Rating returns. What a result does not name is 0.
#[derive(Clone, Copy, Debug, Default, PartialEq, Eq)]
pub struct Rated {
    pub number: u32,
    pub place: usize,
    pub column: usize,
    pub cost: u32,
    pub sound: u32,
    pub pattern: u32,
    pub length: usize,
}

impl From<Refusal> for Found {
    fn from(refusal: Refusal) -> Found {
        Found {
            number: refusal.number,
            place: refusal.place,
            column: refusal.column,
            ..Found::default()
        }
    }
}

impl From<Refusal> for Rated {
    fn from(refusal: Refusal) -> Rated {
        Rated {
            number: refusal.number,
            place: refusal.place,
            column: refusal.column,
            ..Rated::default()
        }
    }
}

/// How the search ended, or that it was left before its end.
#[derive(Clone, Copy, Debug, PartialEq, Eq)]
pub enum End {
    Plan(u32),
    NoPlan,
    Left,
}

/// The list, and how the search ended that made it.
#[derive(Clone, Debug, PartialEq, Eq)]
pub struct Run {
    pub list: Vec<u32>,
    pub end: End,
}

/// How a second planner finds what the list rule asks for.
pub trait Method: Send {
    fn passes(&self, plan: u32, pattern: u32) -> bool;

    /// The best plan that passes all these patterns.
    fn best(&self, patterns: &[u32]) -> Option<u32>;

    /// The smallest pattern that the plan does not pass; none if it is sound.
    fn first_failed(&self, plan: u32) -> Option<u32>;
}

/// An accepted sheet, ready for the jobs.
pub struct Planner {
    pub sheet: Sheet,
    method: Box<dyn Method>,
}

impl Planner {
    /// By brute force.
    pub fn new(sheet: Sheet) -> Planner {
        let method = BruteForce::new(&sheet);
        Planner::by(method, sheet)
    }

    /// By a method that knows this sheet.
    pub fn by(method: impl Method + 'static, sheet: Sheet) -> Planner {
        let method = Box::new(method);
        Planner { sheet, method }
    }

    pub fn plans(&self) -> u32 {
        1 << self.sheet.switches
    }

    pub fn patterns(&self) -> u32 {
        1 << self.sheet.faults
    }

    pub fn passes(&self, plan: u32, pattern: u32) -> bool {
        self.method.passes(plan, pattern)
    }

    pub fn best(&self, patterns: &[u32]) -> Option<u32> {
        self.method.best(patterns)
    }

    pub fn first_failed(&self, plan: u32) -> Option<u32> {
        self.method.first_failed(plan)
    }

    pub fn keeps(&self, plan: u32, wish: &Wish) -> bool {
        self.sheet.keeps(plan, wish)
    }

    pub fn cost(&self, plan: u32) -> u32 {
        self.sheet.cost(plan)
    }

    /// The search, left once its list has more words than `limit`.
    pub fn run(&self, limit: usize) -> Run {
        let mut list = Vec::new();
        loop {
            if list.len() > limit {
                let end = End::Left;
                return Run { list, end };
            }
            let Some(candidate) = self.best(&list) else {
                let end = End::NoPlan;
                return Run { list, end };
            };
            let Some(pattern) = self.first_failed(candidate) else {
                let end = End::Plan(candidate);
                return Run { list, end };
            };
            list.push(pattern);
        }
    }

    /// What Answer returns with room for K words, from a run whose limit was at least K. The words
    /// that it writes are the first of that run's list, as many as the length says.
    pub fn answer(&self, run: &Run, room: usize) -> Found {
        if run.list.len() > room {
            return Found {
                number: NO_ROOM,
                length: room,
                ..Found::default()
            };
        }
        match run.end {
            End::Plan(plan) => Found {
                plan,
                cost: self.cost(plan),
                length: run.list.len(),
                ..Found::default()
            },
            End::NoPlan => Found {
                number: NO_PLAN,
                length: run.list.len(),
                ..Found::default()
            },
            End::Left => panic!("the run was left before its list filled the room"),
        }
    }

    pub fn short_run(&self, patterns: &[u32]) -> Found {
        if let Some(at) = patterns.iter().position(|&p| p >= self.patterns()) {
            return Found {
                number: BAD_PATTERN,
                place: at + 1,
                ..Found::default()
            };
        }
        match self.best(patterns) {
            Some(plan) => Found {
                plan,
                cost: self.cost(plan),
                ..Found::default()
            },
            None => Found {
                number: NO_PLAN,
                ..Found::default()
            },
        }
    }

    pub fn rating(&self, plan: u32) -> Rated {
        if plan >= self.plans() {
            return Rated {
                number: BAD_PLAN,
                ..Rated::default()
            };
        }
        let failed = self.first_failed(plan);
        Rated {
            cost: self.cost(plan),
            sound: u32::from(failed.is_none()),
            pattern: failed.unwrap_or(0),
            ..Rated::default()
        }
    }

    /// Whether another plan than this answer would be the best sound one if all wishes weighed the same.
    pub fn weights_decide(&self, answer: u32) -> bool {
        let by_count = |plan: u32| (self.sheet.broken(plan).count(), plan);
        let mut better = (0..self.plans()).filter(|&plan| by_count(plan) < by_count(answer));
        better.any(|plan| self.first_failed(plan).is_none())
    }

    /// What the program prints, from a run whose limit was at least the program's room.
    pub fn listing(&self, run: &Run) -> String {
        let found = self.answer(run, PROGRAM_ROOM);
        let mut lines = vec![line('A', found.number as usize, 0, found.cost as usize)];
        if found.number == 0 {
            for k in 1..=self.sheet.switches {
                let on = digit(found.plan, self.sheet.switches, k);
                lines.push(line('S', k as usize, usize::from(on), 0));
            }
            for (before, wish) in self.sheet.wishes.iter().enumerate() {
                let kept = self.keeps(found.plan, wish);
                lines.push(line('W', before + 1, usize::from(kept), 0));
            }
        }
        for (before, &pattern) in run.list[..found.length].iter().enumerate() {
            lines.push(line('F', before + 1, pattern as usize, 0));
        }
        lines.push(line('Z', lines.len(), 0, 0));
        lines.concat()
    }
}

/// Every plan on every pattern, with every gate worked out for each.
struct BruteForce {
    sheet: Sheet,
    /// Every plan, a better one before a worse one.
    ranked: Vec<u32>,
    /// What is known already of plans passing patterns, a row for each plan; empty for large sheets.
    known: Vec<Cell<Option<bool>>>,
}

/// Sheets with more switches and faults than this are large.
const MOST_DIGITS: u32 = 22;

impl BruteForce {
    fn new(sheet: &Sheet) -> BruteForce {
        let digits = sheet.switches + sheet.faults;
        let known = match digits {
            0..=MOST_DIGITS => vec![Cell::new(None); 1 << digits],
            _ => Vec::new(),
        };
        BruteForce {
            sheet: sheet.clone(),
            ranked: ranked(sheet),
            known,
        }
    }

    /// The truth of every point, in the order of their numbers.
    fn points(&self, plan: u32, pattern: u32) -> Vec<bool> {
        let Sheet {
            switches, faults, ..
        } = self.sheet;
        let mut truth = Vec::with_capacity(self.sheet.points());
        truth.extend((1..=switches).map(|k| digit(plan, switches, k)));
        truth.extend((1..=faults).map(|k| digit(pattern, faults, k)));
        for gate in &self.sheet.gates {
            let at = |point: u32| truth[point as usize - 1];
            let value = match gate.kind {
                b'N' => !at(gate.left),
                b'A' => at(gate.left) && at(gate.right),
                _ => at(gate.left) || at(gate.right),
            };
            truth.push(value);
        }
        truth
    }

    fn all_rules_true(&self, plan: u32, pattern: u32) -> bool {
        let truth = self.points(plan, pattern);
        self.sheet.rules.iter().all(|&p| truth[p as usize - 1])
    }
}

impl Method for BruteForce {
    fn passes(&self, plan: u32, pattern: u32) -> bool {
        let entry = (plan as usize) << self.sheet.faults | pattern as usize;
        let Some(known) = self.known.get(entry) else {
            return self.all_rules_true(plan, pattern);
        };
        let passes = known
            .get()
            .unwrap_or_else(|| self.all_rules_true(plan, pattern));
        known.set(Some(passes));
        passes
    }

    fn best(&self, patterns: &[u32]) -> Option<u32> {
        let passes_all = |plan: &&u32| patterns.iter().all(|&p| self.passes(**plan, p));
        self.ranked.iter().find(passes_all).copied()
    }

    fn first_failed(&self, plan: u32) -> Option<u32> {
        (0..1 << self.sheet.faults).find(|&pattern| !self.passes(plan, pattern))
    }
}

/// Every plan, a better one before a worse one.
pub fn ranked(sheet: &Sheet) -> Vec<u32> {
    let mut plans: Vec<u32> = (0..1 << sheet.switches).collect();
    plans.sort_by_cached_key(|&plan| (sheet.cost(plan), plan));
    plans
}

impl Sheet {
    /// Whether a wish is kept: at least one of its literals holds.
    pub fn keeps(&self, plan: u32, wish: &Wish) -> bool {
        let on = |literal: &i32| digit(plan, self.switches, literal.unsigned_abs());
        let mut literals = wish.literals.iter();
        literals.any(|literal| on(literal) == (*literal > 0))
    }

    /// The broken wishes, each as often as it is written.
    fn broken(&self, plan: u32) -> impl Iterator<Item = &Wish> {
        let wishes = self.wishes.iter();
        wishes.filter(move |wish| !self.keeps(plan, wish))
    }

    /// What the broken wishes weigh together.
    pub fn cost(&self, plan: u32) -> u32 {
        self.broken(plan).map(|wish| wish.weight).sum()
    }
}

/// Whether binary digit k, counted from 1 at the highest, is 1 in a number of so many digits.
fn digit(number: u32, digits: u32, k: u32) -> bool {
    number >> (digits - k) & 1 == 1
}

fn line(letter: char, first: usize, second: usize, third: usize) -> String {
    format!("{letter}{first:>COLUMNS$}{second:>COLUMNS$}{third:>COLUMNS$}\n")
}

/// What the program prints for any bytes.
pub fn listing(bytes: &[u8]) -> String {
    listing_of(read(bytes))
}

/// What a program prints for what a reader made of its input.
pub fn listing_of(outcome: Result<Sheet, Refusal>) -> String {
    match outcome {
        Ok(sheet) => {
            let planner = Planner::new(sheet);
            planner.listing(&planner.run(PROGRAM_ROOM))
        }
        Err(refusal) => refused_listing(refusal),
    }
}

/// What the program prints for a sheet that is turned down. The third number is the column of a
/// malformed line. After any other refusal it is the cost, and both are 0 then.
pub fn refused_listing(refusal: Refusal) -> String {
    let Refusal {
        number,
        place,
        column,
    } = refusal;
    line('A', number as usize, place, column) + &line('Z', 1, 0, 0)
}

#[cfg(test)]
mod tests {
    use super::*;
    use crate::generate::sheet;
    use crate::SAMPLE_LISTING;

    const E3: &str = "H 2 2; O 1 2; O 3 4; O 5 6; R 7; W -1; W -2; Z 7";
    /// The same with weights.
    const EXAMPLE_1: &str = "H 2 2; O 1 2; O 3 4; O 5 6; R 7; W -1 0 0 2; W -2 0 0 3; Z 7";
    const E4: &str = "H 0 1; R 1; Z 2";
    const E7: &str = "H 1 1; N 1; N 2; A 1 2; A 3 4; O 5 6; R 7; Z 7";

    fn planner(short: &str) -> Planner {
        Planner::new(read(&sheet(short)).expect("an accepted sheet"))
    }

    /// Answer with room for K words: the figures and the words written.
    fn answer(short: &str, room: usize) -> (Found, Vec<u32>) {
        let planner = planner(short);
        let run = planner.run(room);
        let found = planner.answer(&run, room);
        (found, run.list[..found.length].to_vec())
    }

    fn plan(plan: u32, cost: u32, list: &[u32]) -> (Found, Vec<u32>) {
        let found = Found {
            plan,
            cost,
            length: list.len(),
            ..Found::default()
        };
        (found, list.to_vec())
    }

    fn no_plan(list: &[u32]) -> (Found, Vec<u32>) {
        let found = Found {
            number: 8,
            length: list.len(),
            ..Found::default()
        };
        (found, list.to_vec())
    }

    fn no_room(list: &[u32]) -> (Found, Vec<u32>) {
        let found = Found {
            number: 9,
            length: list.len(),
            ..Found::default()
        };
        (found, list.to_vec())
    }

    fn refused(number: u32, place: usize) -> Result<Sheet, Refusal> {
        Err(Refusal {
            number,
            place,
            column: 0,
        })
    }

    #[test]
    fn e1() {
        assert_eq!(read(b""), refused(1, 0));
        assert_eq!(listing(b""), "A    1    0    0\nZ    1    0    0\n");
    }

    #[test]
    fn e2() {
        assert_eq!(answer("H; Z 1", 0), plan(0, 0, &[]));
    }

    #[test]
    fn e3() {
        assert_eq!(answer(E3, 9), plan(1, 1, &[0]));
        assert_eq!(answer(E3, 1), plan(1, 1, &[0]));
        assert_eq!(answer(E3, 0), no_room(&[]));
        assert_eq!(listing(&sheet(E3)), SAMPLE_LISTING);
    }

    #[test]
    fn example_1_with_weights() {
        assert_eq!(answer(EXAMPLE_1, 9), plan(2, 2, &[0]));
        let weighted = planner(EXAMPLE_1);
        assert_eq!([0, 1, 2, 3].map(|p| weighted.cost(p)), [0, 3, 2, 5]);
        assert!(weighted.weights_decide(2));
        assert!(!planner(E3).weights_decide(1));
    }

    #[test]
    fn e4_and_e5() {
        assert_eq!(answer(E4, 5), no_plan(&[0]));
        assert_eq!(answer(E4, 0), no_room(&[]));
        let printed = "A    8    0    0\nF    1    0    0\nZ    2    0    0\n";
        assert_eq!(listing(&sheet(E4)), printed);
    }

    #[test]
    fn e6() {
        assert_eq!(answer("H 1 1; R 1; W -1; Z 3", 4), plan(1, 1, &[0]));
    }

    #[test]
    fn e7() {
        assert_eq!(answer(E7, 4), no_plan(&[1, 0]));
        assert_eq!(answer(E7, 2), no_plan(&[1, 0]));
        assert_eq!(answer(E7, 1), no_room(&[1]));
    }

    #[test]
    fn e8() {
        assert_eq!(answer("H 1 0; R 1; W -1; W -1; Z 4", 4), plan(1, 2, &[0]));
    }

    #[test]
    fn e9() {
        assert_eq!(answer("H; W; Z 2", 0), plan(0, 1, &[]));
    }

    #[test]
    fn e10() {
        let planner = planner(E3);
        assert_eq!(planner.short_run(&[]), plan(0, 0, &[]).0);
        let over_0 = Found {
            length: 0,
            ..plan(1, 1, &[0]).0
        };
        assert_eq!(planner.short_run(&[0]), over_0);
        assert_eq!(planner.short_run(&[0, 0, 3, 0]), over_0);
    }

    #[test]
    fn e11() {
        assert_eq!(answer("H 20 16; Z 1", 0), plan(0, 0, &[]));
        assert_eq!(planner("H 20 16; Z 1").rating(0xf_ffff).sound, 1);
        assert_eq!(read(&sheet("H 21 0; Z 1")), refused(4, 1));
        assert_eq!(read(&sheet("H 20 17; Z 1")), refused(4, 1));
    }

    #[test]
    fn e12_and_e13() {
        assert_eq!(read(&sheet("H 1 0; O 1 2; Z 2")), refused(6, 2));
        assert_eq!(read(&sheet("H 1 0; W 0 1 0; Z 2")), refused(6, 2));
        assert_eq!(read(&sheet("H; Z 2")), refused(7, 2));
        assert_eq!(read(&sheet("H")), refused(3, 1));
        let printed = "A    6    2    0\nZ    1    0    0\n";
        assert_eq!(listing(&sheet("H 1 0; O 1 2; Z 2")), printed);
    }

    #[test]
    fn e14() {
        let planner = planner(E3);
        let sound = Rated {
            cost: 2,
            sound: 1,
            ..Rated::default()
        };
        assert_eq!(planner.rating(3), sound);
        assert_eq!(planner.rating(0), Rated::default());
        let too_large = Rated {
            number: 10,
            ..Rated::default()
        };
        assert_eq!(planner.rating(4), too_large);
        let bad_pattern = Found {
            number: 11,
            place: 2,
            ..Found::default()
        };
        assert_eq!(planner.short_run(&[3, 4]), bad_pattern);
    }

    /// Refusal 11 comes before 8, wherever the pattern stands.
    #[test]
    fn bad_pattern_before_no_plan() {
        let planner = planner(E7);
        assert_eq!(planner.short_run(&[1, 0]).number, 8);
        let found = planner.short_run(&[1, 0, 1, 2, 7]);
        assert_eq!((found.number, found.place), (11, 4));
    }

    /// The order of the search follows the cost, then the number of the plan.
    #[test]
    fn better_plans() {
        // Cost 1 for plans 0, 1 and 2, cost 2 for plan 3; plan 0 is ruled out.
        let short = "H 2 0; O 1 2; R 3; W 1 2; W -1; W -2; Z 6";
        assert_eq!(answer(short, 9), plan(1, 1, &[0]));
        let planner = planner(short);
        assert_eq!([0, 1, 2, 3].map(|p| planner.cost(p)), [1, 1, 1, 2]);
    }

    /// A wish counts every time it is written, in whatever order; a literal that is repeated in it
    /// means nothing.
    #[test]
    fn repeated_wishes() {
        let repeats = planner("H 3 0; W 1 2 3; W 3 1 2; W 1 1 2; W 2 1; W 2; W 2 2 2; W; W; Z 9");
        assert_eq!(repeats.cost(0), 8);
        assert_eq!(repeats.cost(0b010), 2);
        assert_eq!(repeats.cost(0b100), 4);
        let never_broken = planner("H 1 0; W 1 -1; W -1 1 1; W -1 -1; Z 4");
        assert_eq!([0, 1].map(|p| never_broken.cost(p)), [0, 1]);
    }

    /// Each time with the weight that stands there.
    #[test]
    fn repeated_wishes_with_other_weights() {
        let repeats = planner("H 1 0; W -1 0 0 5; W -1 0 0 999; W -1 -1 0 20; W 1 0 0 3; W; Z 6");
        assert_eq!([0, 1].map(|p| repeats.cost(p)), [4, 1_025]);
    }

    #[test]
    fn the_greatest_cost() {
        let short = format!("H 1 0; R 1; {}Z 66", "W -1 0 0 999; ".repeat(64));
        assert_eq!(MAX_COST, 63_936);
        assert_eq!(answer(&short, 1), plan(1, MAX_COST, &[0]));
        assert!(listing(&sheet(&short)).starts_with("A    0    063936\n"));
    }

    #[test]
    fn a_wrong_weight() {
        let short = "H 1 0; W 1 0 0 1000; Z 2";
        assert_eq!(read(&sheet(short)), refused(14, 2));
        let printed = "A   14    2    0\nZ    1    0    0\n";
        assert_eq!(listing(&sheet(short)), printed);
    }

    /// Every job passes the column on.
    #[test]
    fn the_column_of_a_malformed_line() {
        let bytes = b"H    1    0    0    0\nR    -    0    0    0\nZ    2    0    0    0\n";
        let refusal = read(bytes).unwrap_err();
        let found = Found {
            number: 2,
            place: 2,
            column: 6,
            ..Found::default()
        };
        let rated = Rated {
            number: 2,
            place: 2,
            column: 6,
            ..Rated::default()
        };
        assert_eq!(Found::from(refusal), found);
        assert_eq!(Rated::from(refusal), rated);
        assert_eq!(listing(bytes), "A    2    2    6\nZ    1    0    0\n");
    }

    /// What is known changes nothing.
    #[test]
    fn small_and_large() {
        let short = "H 6 3; O 1 7; A 2 8; N 11; O 12 9; R 10; R 13; W -1; W 2; Z 9";
        let small = planner(short);
        let mut large = BruteForce::new(&small.sheet);
        large.known.clear();
        let large = Planner::by(large, small.sheet.clone());
        assert_eq!(small.run(99), large.run(99));
        assert_eq!(small.run(99), large.run(99));
        for plan in 0..small.plans() {
            assert_eq!(small.rating(plan), large.rating(plan));
        }
    }

    #[test]
    fn example_files() {
        let redundant = read(include_bytes!("../../examples/redundant-box.sheet")).unwrap();
        let planner = Planner::new(redundant);
        let run = planner.run(PROGRAM_ROOM);
        assert_eq!(run.list, [0, 2, 8, 32]);
        assert_eq!(run.end, End::Plan(47));
        assert_eq!(planner.cost(47), 3);
        let no_plan = listing(include_bytes!("../../examples/no-plan.sheet"));
        let printed = "A    8    0    0\nF    1    1    0\nF    2    0    0\nZ    3    0    0\n";
        assert_eq!(no_plan, printed);
        let malformed = listing(include_bytes!("../../examples/malformed.sheet"));
        assert_eq!(malformed, "A    2    4   15\nZ    1    0    0\n");
    }
}
