//! Compares the proved library with the second planner: every job on many sheets, or typed texts, whole and
//! damaged, or at the limits.
//!
//! Usage: compare-library [--texts 1] [--limits 1] [--count N] [--seconds T] [--seed S] [--index I] [--trace 1]
//!
//! With --texts all this is done with typed texts; with --limits the sheets or texts are at the limits. See
//! `cases.rs` for the other options.

mod check;
mod examples;
mod tally;

use std::process::ExitCode;

use check::Check;
use planner_tests::brute::Planner;
use planner_tests::cases::{self, Cases};
use planner_tests::counts::{LIMITS, SHEETS, TEXTS};
use planner_tests::effort::Effort;
use planner_tests::form::Form;
use planner_tests::limits::{Kind, Limit};
use planner_tests::options::{ended, misused, Options};
use planner_tests::oracle::Refusal;
use planner_tests::planning::{class, light, Class, Made};
use planner_tests::shrink::{shown, shrunk, shrunk_bytes};
use planner_tests::stack::on_stated_stack;
use tally::Calls;

/// The troubles of one sheet that are shown.
const SHOWN: usize = 4;

/// The option that asks for sheets at the limits, whatever its number.
const AT_THE_LIMITS: &str = "--limits";

/// The work at most for the sheets of a class, see `effort.rs`. With a faster library it can be raised: then more
/// calls are made and longer lists tried.
fn budget(class: Class) -> u64 {
    match class {
        Class::Small => 8_000_000,
        Class::Medium => 40_000_000,
        Class::Wide => 60_000_000,
        Class::Large => 400_000_000,
        Class::Long => 4_000_000_000,
    }
}

/// The same for those at the limits.
fn limit_budget(kind: Kind) -> u64 {
    match kind {
        Kind::All => 600_000_000,
        Kind::FewWishes => 400_000_000,
        Kind::FewFaults => 300_000_000,
        Kind::FewSwitches => 100_000_000,
        Kind::Ordered => 200_000_000,
    }
}

fn main() -> ExitCode {
    let names = [&[Form::OPTION, AT_THE_LIMITS][..], &cases::OPTIONS].concat();
    let options = Options::from_command_line(&names).filter(|o| o.words.is_empty());
    let Some(options) = options else {
        let usage = format!(
            "usage: compare-library [--texts 1] [--limits 1] {}",
            cases::USAGE
        );
        return misused(&usage);
    };
    let form = Form::asked(&options);
    let at_the_limits = options.number(AT_THE_LIMITS).is_some();
    let count = match form {
        _ if at_the_limits => LIMITS,
        Form::Sheet => SHEETS,
        Form::Text => TEXTS,
    };
    let mut total = Total::default();
    if !at_the_limits {
        (total.passed, total.failed) = on_stated_stack(move || examples::try_all(form));
    }
    let cases = Cases::asked(&options, count);
    let single = cases.single();
    let all = cases.each(
        |seed, index| match at_the_limits {
            true => try_limit(form, seed, index, single),
            false => try_made(form, seed, index, single),
        },
        |tried| total.add(&tried),
    );
    total.calls.show(form);
    if all {
        let rare = match at_the_limits {
            true => total.calls.too_rare_at_the_limits(),
            false => total.calls.too_rare(form),
        };
        for text in rare {
            println!("FAIL: {text}");
            total.failed += 1;
        }
    }
    ended(total.passed, total.failed)
}

/// What came of all sheets.
#[derive(Default)]
struct Total {
    passed: u64,
    failed: u64,
    calls: Calls,
}

impl Total {
    /// Adds one sheet. Returns how many have failed so far.
    fn add(&mut self, tried: &Tried) -> u64 {
        self.calls.add(&tried.calls);
        if tried.troubles.is_empty() {
            self.passed += 1;
        } else {
            self.failed += 1;
        }
        self.failed
    }
}

/// What came of one sheet or text.
struct Tried {
    calls: Calls,
    troubles: Vec<String>,
}

/// The sheet or text of this seed and index. If it fails, or is looked at alone, it is shown.
fn try_made(form: Form, seed: u64, index: u64, single: bool) -> Tried {
    let made = form.made(seed, index);
    let Made { bytes, kind, .. } = &made;
    let mut tried = try_bytes(form, bytes, seed, index);
    tried.calls.made(form, &made);
    let name = format!("seed {seed}, index {index} ({kind})");
    if single {
        println!("{name}, {}", shown(form, bytes));
    }
    if !tried.troubles.is_empty() {
        show_shrunk(&name, form, bytes, seed, index);
    }
    tried
}

/// Any sheet or text, by brute force.
fn try_bytes(form: Form, bytes: &[u8], seed: u64, index: u64) -> Tried {
    let read = form.read(bytes).map(Planner::new);
    let budget = budget(class(index));
    let effort = move |planner: &Planner| Effort::at_most(&planner.sheet, budget);
    try_jobs(form, bytes.to_vec(), read, effort, seed, index)
}

/// The same for one at the limits.
fn try_limit(form: Form, seed: u64, index: u64, single: bool) -> Tried {
    let try_one = |limit: &Limit| {
        let bytes = limit.bytes();
        let read = form.read(&bytes).map(|sheet| limit.planner(sheet));
        let budget = limit_budget(Kind::of(index));
        let effort = move |planner: &Planner| Effort::as_a_rule(&planner.sheet, budget);
        try_jobs(form, bytes, read, effort, seed, index)
    };
    let limit = Limit::made(form, seed, index);
    let tried = try_one(&limit);
    let name = format!("seed {seed}, index {index} ({:?})", Kind::of(index));
    if single {
        println!("{name}, {}", shown(form, &limit.bytes()));
    }
    if !tried.troubles.is_empty() {
        let small = shrunk(limit, |limit| !try_one(limit).troubles.is_empty());
        if fails_in_time(form, &small.bytes(), seed, index) {
            show_shrunk(&name, form, &small.bytes(), seed, index);
        } else {
            show_failure(&name, form, &small.bytes(), try_one(&small));
        }
    }
    tried
}

/// Whether a sheet or text fails. One that was not made for the planner may take it too long.
fn fails_in_time(form: Form, bytes: &[u8], seed: u64, index: u64) -> bool {
    let in_time = form.read(bytes).map_or(true, |sheet| light(&sheet));
    in_time && !try_bytes(form, bytes, seed, index).troubles.is_empty()
}

fn show_shrunk(name: &str, form: Form, bytes: &[u8], seed: u64, index: u64) {
    let small = shrunk_bytes(form, bytes, |less| fails_in_time(form, less, seed, index));
    show_failure(name, form, &small, try_bytes(form, &small, seed, index));
}

fn show_failure(name: &str, form: Form, bytes: &[u8], tried: Tried) {
    let mut troubles = tried.troubles;
    let more = troubles.len().saturating_sub(SHOWN);
    troubles.truncate(SHOWN);
    if more > 0 {
        troubles.push(format!("and {more} more"));
    }
    let text = troubles.join("\n");
    println!("FAIL: {name}, shrunk to {}\n{text}", shown(form, bytes));
}

/// All jobs on what was read from these bytes, with the stack that the header states.
fn try_jobs(
    form: Form,
    bytes: Vec<u8>,
    read: Result<Planner, Refusal>,
    effort: impl FnOnce(&Planner) -> Effort + Send + 'static,
    seed: u64,
    index: u64,
) -> Tried {
    on_stated_stack(move || {
        let mut check = Check::new(form, &bytes, seed, index);
        match read {
            Ok(planner) => {
                let effort = effort(&planner);
                check.accepted(&planner, effort);
            }
            Err(refusal) => check.refused(refusal),
        }
        Tried {
            calls: check.calls,
            troubles: check.troubles,
        }
    })
}
