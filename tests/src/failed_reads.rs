//! Sees that a program of the planner prints nothing if its input cannot be read to its end.
//!
//! Usage: failed-reads PROGRAM FILE...
//!
//! PROGRAM gets a beginning of FILE, and then a read fails: its input is a socket that does not wait, and
//! stays open. Each beginning that ends with a line is tried, the empty one and the whole file too. Where the
//! socket is closed instead, so that the input has ended, the same beginning is answered.

use std::io::Write;
use std::net::Shutdown;
use std::os::fd::OwnedFd;
use std::os::unix::net::UnixStream;
use std::process::{Command, ExitCode, Output, Stdio};

use planner_tests::options::{ended, misused};

const USAGE: &str = "usage: failed-reads PROGRAM FILE...";
const LINE_FEED: u8 = b'\n';
/// What the last line of every listing and of every sheet begins with.
const END: u8 = b'Z';

fn main() -> ExitCode {
    let words: Vec<String> = std::env::args().skip(1).collect();
    let [program, files @ ..] = &words[..] else {
        return misused(USAGE);
    };
    let (mut passed, mut failed) = (0, 0);
    for file in files {
        match trouble(program, file) {
            Ok(tried) => passed += tried,
            Err(text) => {
                println!("{file}: FAIL: {text}");
                failed += 1;
            }
        }
    }
    ended(passed, failed)
}

/// Tries every beginning of a file: how many, or what is wrong with one.
fn trouble(program: &str, file: &str) -> Result<u64, String> {
    let bytes = std::fs::read(file).map_err(|error| error.to_string())?;
    let ends = (0..bytes.len()).filter(|&i| bytes[i] == LINE_FEED);
    let lengths: Vec<usize> = [0].into_iter().chain(ends.map(|i| i + 1)).collect();
    for &length in &lengths {
        let begun = &bytes[..length];
        let failing = run(program, begun, After::Fails).map_err(|error| error.to_string())?;
        if !failing.stdout.is_empty() {
            let printed = failing.stdout.escape_ascii();
            return Err(format!(
                "after {length} bytes a read fails, and it prints {printed}"
            ));
        }
        if failing.stderr.is_empty() {
            return Err(format!(
                "after {length} bytes a read fails, and it says nothing"
            ));
        }
        let whole = run(program, begun, After::Ends).map_err(|error| error.to_string())?;
        if !has_end(&whole.stdout) || !whole.stderr.is_empty() {
            return Err(format!(
                "an input of {length} bytes is not answered: {whole:?}"
            ));
        }
    }
    Ok(lengths.len() as u64)
}

/// What comes after the bytes that the program can read.
#[derive(Clone, Copy, PartialEq, Eq)]
enum After {
    Fails,
    Ends,
}

fn run(program: &str, bytes: &[u8], after: After) -> std::io::Result<Output> {
    let (mut ours, theirs) = UnixStream::pair()?;
    theirs.set_nonblocking(true)?;
    ours.write_all(bytes)?;
    if after == After::Ends {
        ours.shutdown(Shutdown::Write)?;
    }
    // Ours stays open until the program has ended.
    Command::new(program)
        .stdin(Stdio::from(OwnedFd::from(theirs)))
        .output()
}

fn has_end(printed: &[u8]) -> bool {
    let lines = printed.strip_suffix(&[LINE_FEED]).unwrap_or_default();
    lines
        .rsplit(|&byte| byte == LINE_FEED)
        .next()
        .is_some_and(|last| last.first() == Some(&END))
}
