//! What `./planner` does around the proved programs: it reads the input, runs a program on it, and
//! shows what that printed. It answers nothing itself.
//!
//! Usage: planner-front PROGRAMS [OPTIONS] [FILE]
//!
//! PROGRAMS is the folder of the proved programs; `./planner --help` tells the rest. Standard output
//! gets what the program printed, or that in words; standard error gets why an input was refused,
//! and whatever went wrong. The README has a table of the exit statuses.

mod hints;
mod input;
mod listing;
mod options;
mod program;
mod refusal;
mod spot;
mod status;
mod words;

use std::env;
use std::fs::File;
use std::io::{self, Write};
use std::os::fd::AsFd;
use std::path::PathBuf;
use std::process::ExitCode;

use listing::{Listing, Printed};
use options::{Options, Print};
use status::{Failure, Status};

fn main() -> ExitCode {
    let status = run().unwrap_or_else(|failure| {
        say(&failure.words);
        failure.status
    });
    status.into()
}

/// Says something on standard error. Where that cannot be written, the exit status has to do.
fn say(words: &str) {
    let _ = writeln!(io::stderr(), "planner: {words}");
}

fn run() -> Result<Status, Failure> {
    let mut words = env::args_os().skip(1);
    let programs = PathBuf::from(words.next().unwrap_or_default());
    let options = options::parse(words)?;
    let input = input::read(&options)?;
    let program = programs.join(options.program());
    let output = program::run(&program, &input)?;
    let printed = listing::read(&output).ok_or_else(|| not_whole(&options, &output))?;
    let Printed::Listing(listing) = printed else {
        write(&output)?;
        return Ok(Status::Done);
    };
    match options.print {
        Print::Words => write(in_words(&listing, &options, &input)?.as_bytes())?,
        Print::Listing | Print::Sheet => write(&output)?,
    }
    if let Some(refusal) = listing.refusal {
        say(&refusal::said(
            &options.name(),
            options.form,
            &input,
            &refusal,
        ));
    }
    Ok(listing.status())
}

fn not_whole(options: &Options, output: &[u8]) -> Failure {
    let program = options.program();
    Failure::broken(match output.len() {
        0 => format!("{program} printed nothing: it could not read its input"),
        n => format!(
            "what {program} printed is not whole: {n} bytes, and no right Z line at the end"
        ),
    })
}

/// The answer in words; nothing if the input was refused, as that is said on standard error.
fn in_words(listing: &Listing, options: &Options, input: &[u8]) -> Result<String, Failure> {
    if !listing.is_searched() {
        return Ok(String::new());
    }
    match comzsered::read(options.form.input(input)) {
        Ok(tables) => Ok(words::said(listing, &tables, options.form)),
        Err(refusal) => Err(Failure::broken(format!(
            "{} took the input, and the library refuses it: {refusal}",
            options.program()
        ))),
    }
}

/// As a file, because `io::stdout()` hides some failures.
fn write(bytes: &[u8]) -> Result<(), Failure> {
    let written = io::stdout()
        .as_fd()
        .try_clone_to_owned()
        .and_then(|stdout| File::from(stdout).write_all(bytes));
    written.map_err(|error| Failure::broken(format!("standard output cannot be written: {error}")))
}
