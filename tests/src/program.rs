//! Compares a program of the planner with the second planner: what it prints, byte for byte.
//!
//! Usage: compare-program PROGRAM [FILE...] [--texts 1] [--as-sheet 1] [--count N] [--seconds T] [--seed S]
//!     [--index I] [--trace 1]
//!
//! PROGRAM is run once for each of N sheets, for each FILE and for some sheets with long lists, as its standard
//! input. With --texts all are typed texts; with --as-sheet they are too, and PROGRAM prints the sheet that a
//! text stands for: the second reader and the second writer have it. See `cases.rs` for the other options.

use std::process::ExitCode;
use std::sync::Mutex;

use planner_tests::brute::{refused_listing, End, Planner, PROGRAM_ROOM};
use planner_tests::cases::{self, Cases};
use planner_tests::counts::RUNS;
use planner_tests::effort::Effort;
use planner_tests::form::Form;
use planner_tests::limits::Limit;
use planner_tests::options::{ended, misused, Options};
use planner_tests::oracle::LINE;
use planner_tests::process::difference;
use planner_tests::shrink::{shown, shrunk_bytes};
use planner_tests::tables::Tables;
use planner_tests::workers::work;
use planner_tests::writing;

/// The work at most for one sheet, see `effort.rs`. For one with more that of a later index is taken.
const BUDGET: u64 = 100_000_000;
const LATER: u64 = 1_000_003;

fn main() -> ExitCode {
    let names = [&[Form::OPTION, Task::OPTION][..], &cases::OPTIONS].concat();
    let options = Options::from_command_line(&names);
    let Some(options) = options.filter(|o| !o.words.is_empty()) else {
        let usage = "usage: compare-program PROGRAM [FILE...] [--texts 1] [--as-sheet 1]";
        return misused(&format!("{usage} {}", cases::USAGE));
    };
    let compared = Compared {
        program: options.words[0].clone(),
        task: Task::asked(&options),
    };
    let mut tally = Tally::default();
    for name in &options.words[1..] {
        tally.add(compared.try_file(name));
    }
    for (name, bytes) in lengths(compared.task.form()) {
        tally.add(compared.try_bytes(name, &bytes, &compared.task.printed(&bytes)));
    }
    if let Task::Answer(form) = compared.task {
        compared.try_long_lists(form, &mut tally);
    }
    let cases = Cases::asked(&options, RUNS);
    let single = cases.single();
    cases.each(
        |seed, index| compared.try_made(seed, index, single),
        |ok| tally.add(ok),
    );
    ended(tally.passed, tally.failed)
}

#[derive(Default)]
struct Tally {
    passed: u64,
    failed: u64,
}

impl Tally {
    /// Adds one run. Returns how many have failed so far.
    fn add(&mut self, ok: bool) -> u64 {
        if ok {
            self.passed += 1;
        } else {
            self.failed += 1;
        }
        self.failed
    }
}

/// What the program does with its input.
#[derive(Clone, Copy)]
enum Task {
    /// Answers it and prints the listing.
    Answer(Form),
    /// Prints the sheet that a text stands for.
    AsSheet,
}

impl Task {
    /// The option that asks for sheets of texts, whatever its number.
    const OPTION: &'static str = "--as-sheet";

    fn asked(options: &Options) -> Task {
        match options.number(Task::OPTION) {
            Some(_) => Task::AsSheet,
            None => Task::Answer(Form::asked(options)),
        }
    }

    fn form(self) -> Form {
        match self {
            Task::Answer(form) => form,
            Task::AsSheet => Form::Text,
        }
    }

    /// What the program is to print.
    fn printed(self, bytes: &[u8]) -> String {
        match self {
            Task::Answer(form) => form.listing(bytes),
            Task::AsSheet => as_sheet(bytes),
        }
    }

    /// The same; none if its search would take too long.
    fn affordable(self, bytes: &[u8]) -> Option<String> {
        match self {
            Task::Answer(form) => affordable_listing(form, bytes),
            Task::AsSheet => Some(as_sheet(bytes)),
        }
    }
}

fn as_sheet(text: &[u8]) -> String {
    match Form::Text.read(text) {
        Ok(sheet) => {
            let written = writing::sheet(&Tables::of(&sheet)).expect("right tables");
            String::from_utf8(written).expect("a sheet")
        }
        Err(refusal) => refused_listing(refusal),
    }
}

fn affordable_listing(form: Form, bytes: &[u8]) -> Option<String> {
    let sheet = match form.read(bytes) {
        Ok(sheet) => sheet,
        Err(refusal) => return Some(refused_listing(refusal)),
    };
    let longest = Effort::at_most(&sheet, BUDGET).longest_list();
    let planner = Planner::new(sheet);
    let run = planner.run(longest);
    (run.end != End::Left).then(|| planner.listing(&run))
}

/// Inputs of the lengths at which the program stops reading.
fn lengths(form: Form) -> Vec<(&'static str, Vec<u8>)> {
    let filled = |length| vec![b' '; length];
    let longest = form.longest();
    vec![
        ("no input", filled(0)),
        ("input of the greatest length", filled(longest)),
        ("input of one byte more", filled(longest + 1)),
        ("input of one line more", filled(longest + LINE)),
        ("a long input", filled(60_000)),
    ]
}

/// The program, and what it is to do.
struct Compared {
    program: String,
    task: Task,
}

impl Compared {
    fn try_file(&self, name: &str) -> bool {
        match std::fs::read(name) {
            Ok(bytes) => self.try_bytes(name, &bytes, &self.task.printed(&bytes)),
            Err(error) => {
                println!("{name}: FAIL: {error}");
                false
            }
        }
    }

    /// Runs the program on some bytes, and says whether it prints what it should.
    fn try_bytes(&self, name: &str, bytes: &[u8], expected: &str) -> bool {
        let differs = difference(&self.program, bytes, expected);
        match &differs {
            None => println!("{name}: ok"),
            Some(text) => println!("{name}: FAIL\n{text}"),
        }
        differs.is_none()
    }

    /// Lists as long as the program's room, one word shorter, and longer, which end in 9.
    fn try_long_lists(&self, form: Form, tally: &mut Tally) {
        let long = Limit::long_lists(form);
        let tally = Mutex::new(tally);
        work(|job| {
            let Some(limit) = long.get(job as usize) else {
                return false;
            };
            let bytes = limit.bytes();
            let sheet = form.read(&bytes).expect("an accepted one");
            let planner = limit.planner(sheet);
            let run = planner.run(PROGRAM_ROOM);
            let number = planner.answer(&run, PROGRAM_ROOM).number;
            let name = format!("list {job} of the long ones, which ends in {number}");
            let ok = self.try_bytes(&name, &bytes, &planner.listing(&run));
            tally.lock().expect("no worker panics").add(ok);
            true
        });
    }

    /// The sheet or text of this seed and index, or of a later one if the search would take too long. If it
    /// fails, or is looked at alone, it is shown.
    fn try_made(&self, seed: u64, index: u64, single: bool) -> bool {
        let form = self.task.form();
        let affordable = |index| {
            let bytes = form.made(seed, index).bytes;
            let expected = self.task.affordable(&bytes)?;
            Some((index, bytes, expected))
        };
        let mut tried = (0..).map(|k| index + k * LATER).filter_map(affordable);
        let (index, bytes, expected) = tried.next().expect("one that is affordable");
        let name = format!("seed {seed}, index {index}");
        if single {
            println!("{name}, {}", shown(form, &bytes));
        }
        let differs = |bytes: &[u8], expected: &str| difference(&self.program, bytes, expected);
        if differs(&bytes, &expected).is_none() {
            return true;
        }
        let trouble = |bytes: &[u8]| differs(bytes, &self.task.affordable(bytes)?);
        let small = shrunk_bytes(form, &bytes, |bytes| trouble(bytes).is_some());
        let text = trouble(&small).unwrap_or_default();
        println!("FAIL: {name}, shrunk to {}\n{text}", shown(form, &small));
        false
    }
}
