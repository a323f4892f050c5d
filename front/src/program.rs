//! Runs a proved program on the input and takes what it prints.

use std::ffi::{c_int, c_ulong};
use std::io::{self, ErrorKind, IsTerminal, Write};
use std::os::unix::process::CommandExt;
use std::path::Path;
use std::process::{Child, Command, Output, Stdio};
use std::thread;
use std::time::Duration;

use crate::say;
use crate::status::Failure;

/// How long one waits at a terminal before something is said.
const PATIENCE: Duration = Duration::from_secs(5);

pub fn run(program: &Path, input: &[u8]) -> Result<Vec<u8>, Failure> {
    let name = program.display();
    let mut command = Command::new(program);
    command.stdin(Stdio::piped()).stdout(Stdio::piped());
    end_with_this_process(&mut command);
    let child = command
        .spawn()
        .map_err(|error| Failure::call(format!("{name} cannot be run: {error}")))?;
    speak_after(PATIENCE);
    let output = feed(child, input)
        .map_err(|error| Failure::broken(format!("{name} cannot be talked to: {error}")))?;
    if output.status.success() {
        Ok(output.stdout)
    } else {
        let words = format!("{name} ended without an answer: {}", output.status);
        Err(Failure::broken(words))
    }
}

/// Gives the child its input while its output is taken, so that neither waits for the other.
fn feed(mut child: Child, input: &[u8]) -> io::Result<Output> {
    let mut stdin = child.stdin.take().expect("it is a pipe");
    thread::scope(|scope| {
        let fed = scope.spawn(move || stdin.write_all(input));
        let output = child.wait_with_output()?;
        match fed.join().expect("writing does not panic") {
            // The child has read as much as it wants.
            Err(error) if error.kind() == ErrorKind::BrokenPipe => Ok(output),
            Err(error) => Err(error),
            Ok(()) => Ok(output),
        }
    })
}

extern "C" {
    fn prctl(option: c_int, ...) -> c_int;
}
const PR_SET_PDEATHSIG: c_int = 1;
const SIGKILL: c_ulong = 9;

/// A search may take hours: nothing is to go on with it when this process was ended.
fn end_with_this_process(command: &mut Command) {
    let tie = || match unsafe { prctl(PR_SET_PDEATHSIG, SIGKILL) } {
        0 => Ok(()),
        _ => Err(io::Error::last_os_error()),
    };
    // SAFETY: between fork and exec there is this one system call.
    unsafe { command.pre_exec(tie) };
}

/// Says that the search goes on, if this process still does then and somebody watches.
fn speak_after(patience: Duration) {
    if io::stderr().is_terminal() {
        thread::spawn(move || {
            thread::sleep(patience);
            say("still searching; with many switches and faults this can take long");
        });
    }
}

#[cfg(test)]
mod tests {
    use super::*;
    use crate::status::Status;

    /// Far more than a pipe holds.
    const LONG: usize = 1 << 20;

    fn shell(script: &str, input: &[u8]) -> io::Result<Output> {
        let child = Command::new("sh")
            .args(["-c", script])
            .stdin(Stdio::piped())
            .stdout(Stdio::piped())
            .spawn()?;
        feed(child, input)
    }

    #[test]
    fn fed() {
        let input = vec![b'x'; LONG];
        assert_eq!(shell("cat", &input).unwrap().stdout, input);
        // Output before any input is read, and input that is not read at all.
        let script = format!("head -c {LONG} /dev/zero; cat");
        let all = [vec![0; LONG], input.clone()].concat();
        assert_eq!(shell(&script, &input).unwrap().stdout, all);
        assert_eq!(shell("echo", &input).unwrap().stdout, b"\n");
    }

    #[test]
    fn failures() {
        let status = |program: &str| run(Path::new(program), b"").unwrap_err().status;
        assert_eq!(status("/no/such/program"), Status::Call);
        assert_eq!(status("/bin/false"), Status::Broken);
    }
}
