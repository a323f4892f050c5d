//! What came of the sheets or texts and of the calls, and whether each outcome came often enough to be tested.

use std::collections::BTreeMap;

use planner_tests::brute::{End, Found, Planner, Rated, Run, MAX_COST, NO_PLAN, NO_ROOM};
use planner_tests::form::Form;
use planner_tests::generate::has_short_lines;
use planner_tests::oracle::{BAD_WEIGHT, LINE, MALFORMED};
use planner_tests::planning::Made;
use planner_tests::typed::depth;
use planner_tests::typed::generate::kinds;

/// The numbers that a job can return, 0 and the refusals, and that of writing among them.
const NUMBERS: usize = BAD_WEIGHT as usize + 1;
/// Those that only a sheet is refused with.
const SHEETS_ALONE: [usize; 4] = [1, 2, 3, 7];
/// With more plans it is not asked whether the weights decide.
const FEW_PLANS: u32 = 64;

/// How the room lent compares with the list.
#[derive(Clone, Copy)]
pub enum Room {
    None,
    Less,
    Whole,
    More,
}

impl Room {
    const NAMES: [&'static str; 4] = ["no room", "less", "the list's length", "more"];

    pub fn of(room: usize, run: &Run) -> Room {
        match room {
            0 => Room::None,
            _ if room < run.list.len() => Room::Less,
            _ if room == run.list.len() => Room::Whole,
            _ => Room::More,
        }
    }
}

/// List lengths that are counted, each with those above it.
const LENGTHS: [usize; 6] = [1, 2, 5, 12, 30, 100];

/// The calls of one job: how often each number came, and each column with number 2.
#[derive(Clone, Default)]
struct Outcomes {
    numbers: [u64; NUMBERS],
    columns: [u64; LINE],
}

impl Outcomes {
    /// Counts one call. A number or column that no job can return is counted nowhere: the
    /// comparison reports it.
    fn count(&mut self, number: u32, column: usize) {
        if let Some(n) = self.numbers.get_mut(number as usize) {
            *n += 1;
        }
        if number == MALFORMED && (1..=LINE).contains(&column) {
            self.columns[column - 1] += 1;
        }
    }

    fn add(&mut self, other: &Outcomes) {
        add(&mut self.numbers, &other.numbers);
        add(&mut self.columns, &other.columns);
    }

    fn all(&self) -> u64 {
        self.numbers.iter().sum()
    }
}

/// The calls for one sheet or for many, by their outcome.
#[derive(Clone, Default)]
pub struct Calls {
    answers: Outcomes,
    short_runs: Outcomes,
    ratings: Outcomes,
    sound: u64,
    pub listings: u64,
    pub rooms: [u64; Room::NAMES.len()],
    /// Sheets whose list has at least so many words, with a plan and without.
    plans: [u64; LENGTHS.len()],
    no_plans: [u64; LENGTHS.len()],
    /// The same of sheets whose list goes on beyond that.
    left: [u64; LENGTHS.len()],
    /// Sheets whose list is as long as there are plans, and as there are patterns.
    all_plans: u64,
    all_patterns: u64,
    /// Sheets of which another plan would be the answer if all wishes weighed the same.
    decided: u64,
    /// Ratings with the greatest cost.
    dearest: u64,
    /// Sheets whose lines have no fourth number: those of a wrong length, and the others.
    short_lines: [u64; 2],
    /// How many texts each recipe made, how many reach the greatest depth and how many pass it.
    kinds: BTreeMap<&'static str, u64>,
    deepest: u64,
    too_deep: u64,
}

fn add<const N: usize>(to: &mut [u64; N], from: &[u64; N]) {
    for (a, b) in to.iter_mut().zip(from) {
        *a += b;
    }
}

impl Calls {
    pub fn answered(&mut self, found: &Found) {
        self.answers.count(found.number, found.column);
    }

    pub fn ran_short(&mut self, found: &Found) {
        self.short_runs.count(found.number, found.column);
    }

    pub fn rated(&mut self, rated: &Rated) {
        self.ratings.count(rated.number, rated.column);
        self.sound += u64::from(rated.number == 0 && rated.sound == 1);
        self.dearest += u64::from(rated.cost == MAX_COST);
    }

    /// The list of one sheet.
    pub fn listed(&mut self, run: &Run, planner: &Planner) {
        let sheets = match run.end {
            End::Plan(_) => &mut self.plans,
            End::NoPlan => &mut self.no_plans,
            End::Left => &mut self.left,
        };
        for (sheet, at_least) in sheets.iter_mut().zip(LENGTHS) {
            *sheet += u64::from(run.list.len() >= at_least);
        }
        let length = run.list.len();
        self.all_plans += u64::from(length == planner.plans() as usize);
        self.all_patterns += u64::from(length == planner.patterns() as usize);
        if let (End::Plan(plan), 0..=FEW_PLANS) = (run.end, planner.plans()) {
            self.decided += u64::from(planner.weights_decide(plan));
        }
    }

    /// Whether a sheet's lines have no fourth number; what a text was made by, and how deep it goes.
    pub fn made(&mut self, form: Form, Made { bytes, kind, .. }: &Made) {
        match form {
            Form::Sheet => {
                let whole_lines = bytes.len().is_multiple_of(LINE);
                self.short_lines[usize::from(whole_lines)] += u64::from(has_short_lines(bytes));
            }
            Form::Text => {
                *self.kinds.entry(kind).or_default() += 1;
                let depth = depth(bytes);
                self.deepest += u64::from(depth.reached);
                self.too_deep += u64::from(depth.passed);
            }
        }
    }

    pub fn add(&mut self, other: &Calls) {
        for (kind, count) in &other.kinds {
            *self.kinds.entry(kind).or_default() += count;
        }
        self.deepest += other.deepest;
        self.too_deep += other.too_deep;
        self.answers.add(&other.answers);
        self.short_runs.add(&other.short_runs);
        self.ratings.add(&other.ratings);
        add(&mut self.rooms, &other.rooms);
        add(&mut self.plans, &other.plans);
        add(&mut self.no_plans, &other.no_plans);
        add(&mut self.left, &other.left);
        add(&mut self.short_lines, &other.short_lines);
        self.decided += other.decided;
        self.dearest += other.dearest;
        self.sound += other.sound;
        self.listings += other.listings;
        self.all_plans += other.all_plans;
        self.all_patterns += other.all_patterns;
    }

    fn all(&self) -> u64 {
        self.answers.all() + self.short_runs.all() + self.ratings.all() + self.listings
    }

    pub fn show(&self, form: Form) {
        println!("{} calls of the jobs", self.all());
        println!("number   answers  short runs   ratings");
        for number in 0..NUMBERS {
            println!(
                "{number:>6}  {:>8}  {:>10}  {:>8}",
                self.answers.numbers[number],
                self.short_runs.numbers[number],
                self.ratings.numbers[number]
            );
        }
        match form {
            Form::Sheet => self.show_columns(),
            Form::Text => self.show_kinds(),
        }
        println!(
            "sound plans rated: {}, listings: {}",
            self.sound, self.listings
        );
        for (name, rooms) in Room::NAMES.iter().zip(self.rooms) {
            println!(
                "answers of accepted {} with room, {name}: {rooms}",
                form.name()
            );
        }
        println!(
            "list of at least   {} with a plan  without one  left",
            form.name()
        );
        for (k, at_least) in LENGTHS.iter().enumerate() {
            let (plans, none, left) = (self.plans[k], self.no_plans[k], self.left[k]);
            println!("{at_least:>16}  {plans:>18}  {none:>11}  {left:>4}");
        }
        println!(
            "lists as long as there are plans: {}, patterns: {}",
            self.all_plans, self.all_patterns
        );
        println!(
            "{} that the weights decide: {}, ratings with the greatest cost: {}",
            form.name(),
            self.decided,
            self.dearest
        );
    }

    fn show_columns(&self) {
        println!("column   answers  short runs   ratings, all with number {MALFORMED}");
        for before in 0..LINE {
            println!(
                "{:>6}  {:>8}  {:>10}  {:>8}",
                before + 1,
                self.answers.columns[before],
                self.short_runs.columns[before],
                self.ratings.columns[before]
            );
        }
        let [wrong, right] = self.short_lines;
        println!(
            "sheets without fourth numbers: {wrong} of a wrong length, {right} of a right one"
        );
    }

    fn show_kinds(&self) {
        for (kind, texts) in &self.kinds {
            println!("{texts:>6} texts: {kind}");
        }
        println!(
            "texts that go as deep as may be: {}, and deeper: {}",
            self.deepest, self.too_deep
        );
    }

    /// The same of those at the limits: they are few, and all are accepted.
    pub fn too_rare_at_the_limits(&self) -> Vec<String> {
        let lists = |at_least: usize| {
            let k = LENGTHS.iter().position(|&length| length == at_least);
            let k = k.expect("a length that is counted");
            self.plans[k] + self.no_plans[k] + self.left[k]
        };
        let came = [
            ("a plan", self.answers.numbers[0], 40),
            ("no plan", self.answers.numbers[NO_PLAN as usize], 20),
            ("no room", self.answers.numbers[NO_ROOM as usize], 50),
            ("a sound plan", self.sound, 25),
            ("a listing", self.listings, 40),
            ("a list of at least 2", lists(2), 25),
            ("a list of at least 12", lists(12), 2),
            ("the greatest cost", self.dearest, 3),
        ];
        let rare = came.iter().filter(|(_, came, fewest)| came < fewest);
        rare.map(|(what, came, fewest)| format!("{what} came {came} times, fewer than {fewest}"))
            .collect()
    }

    /// What hardly came was hardly tested: each such outcome, in words.
    pub fn too_rare(&self, form: Form) -> Vec<String> {
        let mut rare = Vec::new();
        let mut at_least = |fewest: u64, came: u64, what: String| {
            if came < fewest {
                rare.push(format!("{what} came {came} times, fewer than {fewest}"));
            }
        };
        for number in 0..NUMBERS {
            let (answer, short_run, rating) = match number {
                0 => (1_000, 1_000, 1_000),
                8 => (1_000, 1_000, 0),
                9 => (1_000, 0, 0),
                10 => (0, 0, 1_000),
                11 => (0, 1_000, 0),
                n if form == Form::Text && SHEETS_ALONE.contains(&n) => (0, 0, 0),
                12 if form == Form::Sheet => (0, 0, 0),
                // It belongs to writing.
                13 => (0, 0, 0),
                // A sheet of 401 gates, 65 rules or 65 wishes comes from one recipe only.
                5 => (50, 50, 50),
                _ => (200, 200, 200),
            };
            for (job, fewest, outcomes) in [
                ("answer", answer, &self.answers),
                ("short run", short_run, &self.short_runs),
                ("rating", rating, &self.ratings),
            ] {
                at_least(fewest, outcomes.numbers[number], format!("{job} {number}"));
            }
        }
        let (decided, short_lines) = match form {
            Form::Sheet => (1_000, 200),
            Form::Text => (200, 0),
        };
        at_least(decided, self.decided, "weights that decide".into());
        for (came, length) in self.short_lines.into_iter().zip(["a wrong", "a right"]) {
            let what = format!("a sheet without fourth numbers of {length} length");
            at_least(short_lines, came, what);
        }
        if form == Form::Text {
            for kind in kinds() {
                let texts = self.kinds.get(kind).copied().unwrap_or(0);
                at_least(200, texts, format!("a text of the recipe '{kind}'"));
            }
            at_least(200, self.deepest, "the greatest depth".into());
            at_least(200, self.too_deep, "a greater depth".into());
        }
        let columns = [
            ("answer", &self.answers),
            ("short run", &self.short_runs),
            ("rating", &self.ratings),
        ];
        for (job, outcomes) in columns.iter().filter(|_| form == Form::Sheet) {
            for (before, &came) in outcomes.columns.iter().enumerate() {
                let column = before + 1;
                at_least(20, came, format!("{job} {MALFORMED}, column {column}"));
            }
        }
        at_least(1_000, self.sound, "a sound plan".into());
        at_least(
            1_000,
            self.ratings.numbers[0] - self.sound,
            "a plan not sound".into(),
        );
        at_least(1_000, self.listings, "a listing".into());
        for (name, rooms) in Room::NAMES.iter().zip(self.rooms) {
            at_least(1_000, rooms, format!("room, {name}"));
        }
        for (k, fewest) in [2_000, 1_000, 400, 50, 5, 0].into_iter().enumerate() {
            let length = LENGTHS[k];
            at_least(
                fewest,
                self.plans[k],
                format!("a plan after {length} patterns"),
            );
            at_least(
                fewest,
                self.no_plans[k],
                format!("no plan after {length} patterns"),
            );
        }
        let longest = LENGTHS.len() - 1;
        at_least(
            1,
            self.plans[longest] + self.no_plans[longest],
            "the longest list".into(),
        );
        at_least(
            100,
            self.all_plans,
            "a list as long as there are plans".into(),
        );
        at_least(
            100,
            self.all_patterns,
            "a list as long as there are patterns".into(),
        );
        rare
    }
}
