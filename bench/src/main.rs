//! Times the proved planner beside plain Rust on the same sheets. `bench/run` builds and starts it.

mod agree;
mod baseline;
mod measure;
mod plot;
mod report;
mod rows;
mod sheets;
mod stack;
mod texts;
mod typed;
mod worker;
mod writing;

use std::env;
use std::process::ExitCode;

fn main() -> ExitCode {
    let words: Vec<String> = env::args().skip(1).collect();
    let words: Vec<&str> = words.iter().map(String::as_str).collect();
    let quick = match words[..] {
        ["--worker", side] => {
            let served = worker::Side::named(side).and_then(worker::serve);
            return ExitCode::from(u8::from(served.is_none()));
        }
        [] => false,
        ["--quick"] => true,
        _ => {
            eprintln!("usage: bench/run [--quick]");
            return ExitCode::from(2);
        }
    };
    match report::whole(quick) {
        Ok(()) => ExitCode::SUCCESS,
        Err(reason) => {
            eprintln!("bench: {reason}");
            ExitCode::FAILURE
        }
    }
}
