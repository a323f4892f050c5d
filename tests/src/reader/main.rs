//! Compares the proved library's readers with the second ones: sheets, or typed texts, read into
//! tables, and both ways round between tables and sheets.
//!
//! Usage: compare-reader [--texts 1] [--count N] [--seconds T] [--seed S] [--index I] [--trace 1]
//!
//! See `cases.rs` for the options.

mod examples;

use std::collections::{BTreeMap, BTreeSet};
use std::hint::black_box;
use std::process::ExitCode;

use comzsered::figures::{self, Words};
use comzsered::Input;
use examples::Example;
use planner_tests::cases::{self, Cases};
use planner_tests::counts::{READ_SHEETS, READ_TEXTS};
use planner_tests::form::Form;
use planner_tests::generate::{has_short_lines, string, Random, RECIPES};
use planner_tests::options::{ended, misused, Options};
use planner_tests::oracle::{
    BAD_FIELD, BAD_LENGTH, BAD_SIZE, BAD_WEIGHT, LINE, MALFORMED, MAX_BYTES, TOO_MANY, WRONG_COUNT,
    WRONG_LETTER,
};
use planner_tests::reading::check::Trial;
use planner_tests::reading::Outcome;
use planner_tests::shrink::{shown, shrunk_bytes};
use planner_tests::stack::on_stated_stack;
use planner_tests::tables::Tables;
use planner_tests::typed::NOT_LEGAL;
use planner_tests::writing;

fn main() -> ExitCode {
    let names = [&[Form::OPTION][..], &cases::OPTIONS].concat();
    let options = Options::from_command_line(&names).filter(|o| o.words.is_empty());
    let Some(options) = options else {
        return misused(&format!(
            "usage: compare-reader [--texts 1] {}",
            cases::USAGE
        ));
    };
    let form = Form::asked(&options);
    let count = match form {
        Form::Sheet => READ_SHEETS,
        Form::Text => READ_TEXTS,
    };
    let mut tally = Tally::default();
    for example in examples::all(form) {
        tally.add_example(form, &example);
    }
    let cases = Cases::asked(&options, count);
    let single = cases.single();
    let all = cases.each(
        |seed, index| try_one(form, seed, index, single),
        |tried| tally.add(tried),
    );
    tally.show(form);
    if all {
        tally.judge(form);
    }
    ended(tally.passed, tally.failed)
}

/// The sheet or text of this seed and index, and what it was made by.
fn made(form: Form, seed: u64, index: u64) -> (Vec<u8>, &'static str) {
    match form {
        Form::Sheet => {
            let recipe = RECIPES[(index % RECIPES.len() as u64) as usize];
            (string(seed, index), recipe)
        }
        Form::Text => {
            let made = form.made(seed, index);
            (made.bytes, made.kind)
        }
    }
}

// ---- one sheet or text

/// What came of one.
struct Tried {
    length: usize,
    /// Whether its lines have no fourth number.
    short_lines: bool,
    outcome: Outcome,
    trouble: Option<String>,
}

/// The sheet or text of this seed and index. If it fails, or is looked at alone, it is shown.
fn try_one(form: Form, seed: u64, index: u64, single: bool) -> Tried {
    let try_bytes = |bytes: &[u8]| {
        // Not the numbers that it was made from.
        let trial = Trial::new(&mut Random::new(!seed, index), form.read(bytes));
        let bytes = bytes.to_vec();
        on_stated_stack(move || Tried {
            length: bytes.len(),
            short_lines: has_short_lines(&bytes),
            trouble: differs(form, &bytes, &trial).or_else(|| round_trip(form, &bytes, &trial)),
            outcome: trial.outcome,
        })
    };
    let (bytes, kind) = made(form, seed, index);
    let tried = try_bytes(&bytes);
    let name = format!("seed {seed}, index {index} ({kind})");
    if single {
        println!("{name}, {}", shown(form, &bytes));
    }
    if tried.trouble.is_some() {
        let small = shrunk_bytes(form, &bytes, |bytes| try_bytes(bytes).trouble.is_some());
        let text = try_bytes(&small).trouble.unwrap_or_default();
        println!("FAIL: {name}, shrunk to {}\n{text}", shown(form, &small));
    }
    tried
}

fn input(form: Form, bytes: &[u8]) -> Input<'_> {
    match form {
        Form::Sheet => Input::Sheet(bytes),
        Form::Text => Input::Text(bytes),
    }
}

/// Words before and after the tables, which must stay as they are.
const GUARD: [u32; 8] = [0x5a5a_a5a5; 8];

/// Tables with such words around them.
#[repr(C)]
struct Guarded {
    before: [u32; GUARD.len()],
    words: Words,
    after: [u32; GUARD.len()],
}

/// How what the library returns and leaves differs from the second reader's, if it does.
fn differs(form: Form, bytes: &[u8], trial: &Trial) -> Option<String> {
    let lent = bytes.to_vec();
    let mut around = None;
    let trouble = trial.differs(&mut |tables: &mut Tables| {
        let mut guarded = Guarded {
            before: GUARD,
            words: Words::from(&*tables),
            after: GUARD,
        };
        let read = figures::read(input(form, &lent), &mut black_box(&mut guarded).words);
        let Guarded {
            before,
            words,
            after,
        } = black_box(&guarded);
        around = Some([*before, *after]);
        *tables = Tables::from(words);
        read.into()
    });
    let untouched = around == Some([GUARD; 2]) && black_box(&lent[..]) == bytes;
    trouble.or_else(|| (!untouched).then(|| "the input or words beside the tables changed".into()))
}

/// Both ways round, by the library alone: what was read is written as the sheet that it was read from,
/// or that the text stands for, and that is read as the same tables.
fn round_trip(form: Form, bytes: &[u8], trial: &Trial) -> Option<String> {
    let Ok(sheet) = &trial.outcome else {
        return None;
    };
    let expected = match form {
        Form::Sheet => bytes.to_vec(),
        Form::Text => writing::sheet(&Tables::of(sheet)).expect("right tables"),
    };
    let mut words = Words::EMPTY;
    figures::read(input(form, bytes), &mut words);
    let mut out = vec![0; MAX_BYTES];
    let written = figures::write(&words, &mut out);
    out.truncate(written.length);
    if out != expected {
        let shown = out.escape_ascii();
        return Some(format!("what was read is written as {shown}: {written:?}"));
    }
    let mut again = Words::EMPTY;
    let read = figures::read(Input::Sheet(&out), &mut again);
    (again != words).then(|| format!("written and read again it is {again:?}: {read:?}"))
}

// ---- what came

#[derive(Default)]
struct Tally {
    passed: u64,
    failed: u64,
    /// For each number: how many came, and at which places.
    numbers: BTreeMap<u32, (u64, BTreeSet<usize>)>,
    /// For each column, 1 to 22: how many.
    columns: [u64; LINE],
    /// Strings whose lines have no fourth number: those of a wrong length, and the others.
    short_lines: [u64; 2],
    longest_accepted: usize,
}

/// At how many places each number has to come; 0 is none of them, and 1 and 4 have few.
const PLACES_IN_SHEETS: &[(u32, usize)] = &[
    (0, 1),
    (BAD_LENGTH, 1),
    (MALFORMED, 20),
    (WRONG_LETTER, 20),
    (BAD_SIZE, 1),
    (TOO_MANY, 20),
    (BAD_FIELD, 20),
    (BAD_WEIGHT, 20),
    (WRONG_COUNT, 20),
];
const PLACES_IN_TEXTS: &[(u32, usize)] = &[
    (0, 1),
    (BAD_SIZE, 2),
    (TOO_MANY, 10),
    (BAD_FIELD, 10),
    (BAD_WEIGHT, 10),
    (NOT_LEGAL, 200),
];
/// How many sheets have to be refused at each column.
const FEWEST_IN_A_COLUMN: u64 = 15;
/// How many without fourth numbers have to come, of a wrong length and of a right one.
const FEWEST_OF_SHORT_LINES: u64 = 500;

impl Tally {
    /// Adds one. Returns how many have failed so far.
    fn add(&mut self, tried: Tried) -> u64 {
        let (number, place, column) = match tried.outcome {
            Ok(_) => (0, 0, 0),
            Err(refusal) => (refusal.number, refusal.place, refusal.column),
        };
        let (came, places) = self.numbers.entry(number).or_default();
        *came += 1;
        places.insert(place);
        if column > 0 {
            self.columns[column - 1] += 1;
        }
        if tried.short_lines {
            self.short_lines[usize::from(tried.length.is_multiple_of(LINE))] += 1;
        }
        if number == 0 {
            self.longest_accepted = self.longest_accepted.max(tried.length);
        }
        self.count(tried.trouble.is_none());
        self.failed
    }

    fn count(&mut self, ok: bool) {
        if ok {
            self.passed += 1;
        } else {
            self.failed += 1;
        }
    }

    fn show(&self, form: Form) {
        println!("number    came  places");
        for (number, (came, places)) in &self.numbers {
            println!("{number:>6}  {came:>6}  {:>6}", places.len());
        }
        if form == Form::Sheet {
            println!("columns: {:?}", self.columns);
            let [wrong, right] = self.short_lines;
            println!("without fourth numbers: {wrong} of a wrong length, {right} of a right one");
        }
        println!("longest accepted: {} bytes", self.longest_accepted);
    }

    /// A refusal that hardly came was hardly tested: that is a failure of its own.
    fn judge(&mut self, form: Form) {
        let (fewest_places, columns, short_lines) = match form {
            Form::Sheet => (PLACES_IN_SHEETS, &self.columns[..], &self.short_lines[..]),
            Form::Text => (PLACES_IN_TEXTS, &[][..], &[][..]),
        };
        let mut rare = Vec::new();
        for (number, fewest) in fewest_places {
            let places = self.numbers.get(number).map_or(0, |(_, at)| at.len());
            if places < *fewest {
                rare.push(format!("number {number} came at {places} places"));
            }
        }
        for (before, came) in columns.iter().enumerate() {
            if *came < FEWEST_IN_A_COLUMN {
                rare.push(format!("column {} came {came} times", before + 1));
            }
        }
        for came in short_lines {
            if *came < FEWEST_OF_SHORT_LINES {
                rare.push(format!("lines without a fourth number came {came} times"));
            }
        }
        for what in rare {
            println!("FAIL: {what} only");
            self.failed += 1;
        }
    }

    fn add_example(&mut self, form: Form, example: &Example) {
        let Example {
            name,
            bytes,
            expected,
        } = example;
        let second = form.read(bytes).map(|sheet| Tables::of(&sheet));
        let mut trouble = None;
        if second != *expected {
            trouble = Some(format!("the second reader says: {second:?}"));
        }
        let by_hand = expected.clone().map(|tables| tables.said());
        let trial = Trial::new(&mut Random::new(0, 0), by_hand);
        let bytes = bytes.clone();
        let trouble = trouble.or_else(|| on_stated_stack(move || differs(form, &bytes, &trial)));
        match &trouble {
            None => println!("{name}: ok"),
            Some(text) => println!("{name}: FAIL\n{text}"),
        }
        self.count(trouble.is_none());
    }
}
