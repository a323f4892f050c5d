//! Compares the proved library's writer with the second one: many tables, right and damaged, each with
//! many lengths of the buffer, and both ways round between tables and sheets.
//!
//! Usage: compare-writer [--count N] [--seconds T] [--seed S] [--index I] [--trace 1]
//!
//! See `cases.rs` for the options.

use std::collections::BTreeMap;
use std::hint::black_box;
use std::process::ExitCode;

use comzsered::figures::{self, Words};
use comzsered::Sheet;
use planner_tests::brute::{NO_PLAN, NO_ROOM};
use planner_tests::cases::{self, Cases};
use planner_tests::counts::TABLES;
use planner_tests::generate::Random;
use planner_tests::options::{ended, misused, Options};
use planner_tests::oracle::{self, BAD_FIELD, BAD_SIZE, BAD_WEIGHT, MAX_BYTES, TOO_MANY};
use planner_tests::planning::light;
use planner_tests::shrink::shrunk;
use planner_tests::stack::on_stated_stack;
use planner_tests::tables::Tables;
use planner_tests::writing::check::{Trial, GUARD};
use planner_tests::writing::generate::{kinds, made_tables, Made};
use planner_tests::writing::{self, put, sheet, Outcome, Written, TOO_SHORT};

/// The switches and faults of the sheets that are answered at most: others take too long here.
const ANSWERED: u32 = 8;

fn main() -> ExitCode {
    let options = Options::from_command_line(&cases::OPTIONS).filter(|o| o.words.is_empty());
    let Some(options) = options else {
        return misused(&format!("usage: compare-writer {}", cases::USAGE));
    };
    let mut total = on_stated_stack(by_hand);
    let cases = Cases::asked(&options, TABLES);
    let single = cases.single();
    let all = cases.each(
        |seed, index| try_made(seed, index, single),
        |tried| total.add(tried),
    );
    total.show();
    if all {
        for text in total.too_rare() {
            println!("FAIL: {text}");
            total.failed += 1;
        }
    }
    ended(total.passed, total.failed)
}

/// What came of all tables and calls.
#[derive(Default)]
struct Total {
    passed: u64,
    failed: u64,
    /// The writings with each number.
    numbers: BTreeMap<u32, u64>,
    /// The tables with each refusal, those of a line by the part of the sheet, and those of each recipe.
    outcomes: BTreeMap<String, u64>,
    recipes: BTreeMap<&'static str, u64>,
    /// Written sheets that were answered.
    answered: u64,
}

impl Total {
    fn count(&mut self, ok: bool) {
        if ok {
            self.passed += 1;
        } else {
            self.failed += 1;
        }
    }

    /// Adds some tables. Returns how many have failed so far.
    fn add(&mut self, tried: Tried) -> u64 {
        for (number, came) in tried.numbers {
            *self.numbers.entry(number).or_default() += came;
        }
        *self.outcomes.entry(tried.outcome).or_default() += 1;
        *self.recipes.entry(tried.recipe).or_default() += 1;
        self.answered += u64::from(tried.answered);
        self.count(tried.trouble.is_none());
        self.failed
    }
}

/// Tables with outcomes worked out by hand.
fn by_hand() -> Total {
    const FILLING: u8 = b'?';
    let mut total = Total::default();
    for case in writing::cases::all() {
        let guard = [FILLING; GUARD];
        let expected = (
            case.written(),
            [&guard[..], &case.buffer(FILLING), &guard].concat(),
        );
        let words = Words::from(&case.tables);
        let second = lent(&expected.1, FILLING, |out| put(&sheet(&case.tables), out));
        let library = lent(&expected.1, FILLING, |out| {
            figures::write(&words, out).into()
        });
        let name = format!("{}, room {}", case.why, case.room);
        let mut ok = true;
        for (who, got) in [("the second writer", second), ("the library", library)] {
            if got != expected {
                let (figures, out) = (got.0, got.1.escape_ascii());
                println!("FAIL: {name}\n  {who}: {figures:?} {out}");
                println!("  by hand: {:?}", expected.0);
                ok = false;
            }
        }
        if ok {
            println!("{name}: ok");
        }
        total.count(ok);
    }
    total
}

/// Lends a buffer, filled with this byte, within memory as long as this one. Returns what is told of
/// it, and the whole of the memory.
fn lent(like: &[u8], filling: u8, writer: impl FnOnce(&mut [u8]) -> Written) -> (Written, Vec<u8>) {
    let mut out = vec![filling; like.len()];
    let end = out.len() - GUARD;
    (writer(&mut out[GUARD..end]), out)
}

// ---- generated tables

/// What came of some tables.
struct Tried {
    recipe: &'static str,
    outcome: String,
    /// The writings with each number.
    numbers: BTreeMap<u32, u64>,
    answered: bool,
    trouble: Option<String>,
}

/// The tables of this seed and index. If they fail, or are looked at alone, they are shown.
fn try_made(seed: u64, index: u64, single: bool) -> Tried {
    let r = || Random::new(!seed, index);
    let made = made_tables(seed, index);
    let tried = try_tables(&mut r(), made.clone());
    let name = format!("seed {seed}, index {index} ({})", made.kind);
    if single {
        println!("{name}:\n  {:?}", made.tables);
    }
    if tried.trouble.is_some() {
        // Smaller tables are those of no sheet.
        let alone = |tables: &Tables| Made {
            tables: tables.clone(),
            kind: made.kind,
            sheet: None,
        };
        let trouble = |tables: &Tables| try_tables(&mut r(), alone(tables)).trouble;
        let (small, text) = match trouble(&made.tables) {
            Some(_) => {
                let small = shrunk(made.tables, |tables| trouble(tables).is_some());
                let text = trouble(&small);
                (small, text)
            }
            None => (made.tables, tried.trouble.clone()),
        };
        println!(
            "FAIL: {name}, shrunk to\n  {small:?}\n{}",
            text.unwrap_or_default()
        );
    }
    tried
}

/// Everything that is tried with some tables, with the stack that the header states.
fn try_tables(r: &mut Random, made: Made) -> Tried {
    let trial = Trial::new(r, &made.tables);
    on_stated_stack(move || {
        let words = Words::from(&made.tables);
        let mut numbers = BTreeMap::new();
        let mut trouble = trial.differs(&mut |out| {
            let got = figures::write(&words, out);
            *numbers.entry(got.number).or_default() += 1;
            got.into()
        });
        if trouble.is_none() && Tables::from(black_box(&words)) != made.tables {
            trouble = Some("the tables were changed".into());
        }
        let trouble = trouble.or_else(|| round_trip(&made, &words));
        Tried {
            recipe: made.kind,
            outcome: named(&made.tables, &trial.outcome),
            numbers,
            answered: trial.outcome.is_ok() && answered(&made.tables),
            trouble,
        }
    })
}

/// Whether what was written is answered too.
fn answered(tables: &Tables) -> bool {
    let said = tables.said();
    light(&said) && said.switches + said.faults <= ANSWERED
}

/// Both ways round, by what the library wrote: it is the sheet that the tables were read from, if
/// there is one; and the second reader and the library's own make the tables of it, up to their counts.
fn round_trip(made: &Made, words: &Words) -> Option<String> {
    let mut out = vec![0; MAX_BYTES];
    let got = figures::write(words, &mut out);
    let bytes = &out[..got.length.min(MAX_BYTES)];
    if let Some(sheet) = &made.sheet {
        if bytes != sheet {
            return Some(format!(
                "the sheet that the tables are of: {}",
                sheet.escape_ascii()
            ));
        }
    }
    if got.number != 0 {
        return None;
    }
    let said = made.tables.said();
    let read = oracle::read(bytes);
    if read.as_ref() != Ok(&said) {
        return Some(format!("what was written is read as {read:?}"));
    }
    let mut again = words.clone();
    let read = figures::read(Sheet(bytes), &mut again);
    if read.number != 0 || Tables::from(&again) != Tables::of(&said) {
        return Some(format!(
            "the library reads what it wrote as {again:?}: {read:?}"
        ));
    }
    if answered(&made.tables) {
        let found = figures::answer(Sheet(bytes), &mut [0; 4]);
        if ![0, NO_PLAN, NO_ROOM].contains(&found.number) {
            return Some(format!("an answer of what was written: {found:?}"));
        }
    }
    None
}

/// An outcome in words, with the part of the sheet that a refusal names a line of.
fn named(tables: &Tables, outcome: &Outcome) -> String {
    let refusal = match outcome {
        Ok(_) => return "written".into(),
        Err(refusal) => refusal,
    };
    if refusal.number == BAD_SIZE {
        return format!("{}", refusal.number);
    }
    let gates = 1 + tables.gates as usize;
    let part = match refusal.place {
        place if place <= gates => "a gate",
        place if place <= gates + tables.rules as usize => "a rule",
        _ => "a wish",
    };
    format!("{} at {part}", refusal.number)
}

impl Total {
    fn show(&self) {
        println!("number  writings");
        for (number, came) in &self.numbers {
            println!("{number:>6}  {came:>8}");
        }
        for (outcome, tables) in &self.outcomes {
            println!("{tables:>6} tables: {outcome}");
        }
        for (recipe, tables) in &self.recipes {
            println!("{tables:>6} tables made by: {recipe}");
        }
        println!("written sheets answered: {}", self.answered);
    }

    /// What hardly came was hardly tested: each such outcome, in words.
    fn too_rare(&self) -> Vec<String> {
        let mut rare = Vec::new();
        let mut at_least = |fewest: u64, came: Option<&u64>, what: String| {
            let came = came.copied().unwrap_or(0);
            if came < fewest {
                rare.push(format!("{what} came {came} times, fewer than {fewest}"));
            }
        };
        for number in [0, BAD_SIZE, TOO_MANY, BAD_FIELD, BAD_WEIGHT, TOO_SHORT] {
            let came = self.numbers.get(&number);
            at_least(1_000, came, format!("number {number}"));
        }
        for number in [TOO_MANY, BAD_FIELD] {
            for part in ["a gate", "a rule", "a wish"] {
                let outcome = format!("{number} at {part}");
                at_least(100, self.outcomes.get(&outcome), outcome);
            }
        }
        let outcome = format!("{BAD_WEIGHT} at a wish");
        at_least(100, self.outcomes.get(&outcome), outcome);
        for recipe in kinds() {
            let came = self.recipes.get(recipe);
            at_least(200, came, format!("tables made by '{recipe}'"));
        }
        at_least(1_000, Some(&self.answered), "a sheet answered".into());
        rare
    }
}
