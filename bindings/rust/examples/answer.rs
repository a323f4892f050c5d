//! Answers a planning sheet or a typed text and prints the answer in words.
//!
//! Usage: answer [FILE]
//!
//! A FILE whose name ends in .text is a typed text. Without FILE it answers the sheet below. The exit
//! status is 0 if the input was answered, also by "no plan", 1 if it was refused and 2 if it could
//! not be read.

use std::process::ExitCode;

use comzsered::{answer, read, Answer, Input, Pattern, Plan, LIST_MAX};

/// One of two switches or two faults must be true, and both switches are wished to be off, with the
/// weights 2 and 3.
const BUILT_IN: &[u8] = b"\
H    2    2    0    0
O    1    2    0    0
O    3    4    0    0
O    5    6    0    0
R    7    0    0    0
W   -1    0    0    2
W   -2    0    0    3
Z    7    0    0    0
";

fn main() -> ExitCode {
    let words: Vec<String> = std::env::args().skip(1).collect();
    let (bytes, typed) = match &words[..] {
        [] => (BUILT_IN.to_vec(), false),
        [name] => match std::fs::read(name) {
            Ok(bytes) => (bytes, name.ends_with(".text")),
            Err(error) => {
                eprintln!("{name}: {error}");
                return ExitCode::from(2);
            }
        },
        _ => {
            eprintln!("usage: answer [FILE]");
            return ExitCode::from(2);
        }
    };
    let input = if typed {
        Input::Text(&bytes)
    } else {
        Input::Sheet(&bytes)
    };
    let tables = match read(input) {
        Ok(tables) => tables,
        Err(refusal) => {
            println!("Refused: {refusal}");
            return ExitCode::from(1);
        }
    };
    let mut list = vec![0; LIST_MAX];
    let patterns = match answer(input, &mut list) {
        Answer::Plan {
            plan,
            cost,
            patterns,
        } => {
            print_plan(plan, cost, tables.switches);
            patterns
        }
        Answer::NoPlan { patterns } => {
            println!("No plan passes every pattern.");
            patterns
        }
        Answer::NoRoom { .. } => unreachable!("there is room for any list"),
        Answer::Refused(refusal) => unreachable!("it was read: {refusal}"),
    };
    println!("Listed patterns: {patterns}");
    for &word in &list[..patterns] {
        print_pattern(Pattern(word), tables.faults);
    }
    ExitCode::SUCCESS
}

fn print_plan(plan: Plan, cost: u32, switches: u32) {
    println!("Plan {}, cost {cost}", plan.0);
    for k in 1..=switches {
        let state = if plan.is_on(k, switches) { "on" } else { "off" };
        println!("  switch {k}: {state}");
    }
}

fn print_pattern(pattern: Pattern, faults: u32) {
    print!("  pattern {}:", pattern.0);
    if pattern == Pattern(0) {
        print!(" no fault");
    }
    for k in (1..=faults).filter(|&k| pattern.has(k, faults)) {
        print!(" fault {k}");
    }
    println!();
}
