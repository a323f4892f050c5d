//! Runs a program on a byte string and compares what it prints.

use std::io::{ErrorKind, Read, Write};
use std::process::{Command, Stdio};

/// What the program prints for these bytes as its standard input, or what went wrong.
///
/// All bytes are written before anything is read. They fit into a pipe, so that the program cannot
/// keep us waiting by printing before it has read them all.
pub fn run(program: &str, bytes: &[u8]) -> Result<Vec<u8>, String> {
    let mut child = Command::new(program)
        .stdin(Stdio::piped())
        .stdout(Stdio::piped())
        .stderr(Stdio::null())
        .spawn()
        .map_err(|error| format!("cannot be started: {error}"))?;
    let fed = child.stdin.take().expect("a pipe").write_all(bytes);
    let mut printed = Vec::new();
    let heard = child
        .stdout
        .take()
        .expect("a pipe")
        .read_to_end(&mut printed);
    let status = child
        .wait()
        .map_err(|error| format!("cannot be waited for: {error}"))?;
    match fed {
        // The program need not read a string to its end, so a broken pipe is no fault.
        Err(error) if error.kind() != ErrorKind::BrokenPipe => {
            return Err(format!("cannot be written to: {error}"));
        }
        _ => {}
    }
    heard.map_err(|error| format!("cannot be read from: {error}"))?;
    if !status.success() {
        let text = printed.escape_ascii();
        return Err(format!("ended with {status}, having printed {text}"));
    }
    Ok(printed)
}

/// How the program's output differs from what is expected, if it does.
pub fn difference(program: &str, bytes: &[u8], expected: &str) -> Option<String> {
    match run(program, bytes) {
        Ok(printed) if printed == expected.as_bytes() => None,
        Ok(printed) => Some(format!(
            "expected: {}\nprinted:  {}",
            expected.escape_default(),
            printed.escape_ascii()
        )),
        Err(trouble) => Some(format!(
            "expected: {}\n{program} {trouble}",
            expected.escape_default()
        )),
    }
}
