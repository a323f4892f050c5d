//! The input: a file or standard input, read as far as the programs read it.

use std::fs::File;
use std::io::{self, ErrorKind, IsTerminal, Read};
use std::os::fd::AsFd;

use crate::options::{Form, Options};
use crate::say;
use crate::status::Failure;

/// The bytes of the input. Of one that is too long, one byte more than the longest has: as much as
/// the program reads.
pub fn read(options: &Options) -> Result<Vec<u8>, Failure> {
    let name = options.name();
    let file = match &options.file {
        Some(path) => File::open(path),
        None => standard_input(options.form),
    };
    let file = file.map_err(|error| Failure::call(format!("{name} cannot be opened: {error}")))?;
    let mut bytes = Vec::new();
    match file
        .take(options.form.most() as u64 + 1)
        .read_to_end(&mut bytes)
    {
        Ok(_) => Ok(bytes),
        Err(error) if error.kind() == ErrorKind::IsADirectory && options.file.is_some() => {
            Err(Failure::call(format!("{name} is a folder, and no file")))
        }
        Err(error) => Err(Failure::broken(format!("{name} cannot be read: {error}"))),
    }
}

/// As a file, because reading `io::stdin()` takes one that cannot be read for an empty one. Whoever
/// sits at a terminal is told what is waited for.
fn standard_input(form: Form) -> io::Result<File> {
    let stdin = io::stdin();
    if stdin.is_terminal() {
        let form = match form {
            Form::Sheet => "a planning sheet",
            Form::Text => "a typed text",
        };
        say(&format!("type {form}, and Ctrl-D at its end"));
    }
    Ok(File::from(stdin.as_fd().try_clone_to_owned()?))
}

#[cfg(test)]
mod tests {
    use super::*;
    use crate::options::Print;
    use crate::status::Status;
    use comzsered::SHEET_MAX;

    fn read_file(path: &str) -> Result<Vec<u8>, Failure> {
        read(&Options {
            form: Form::Sheet,
            print: Print::Listing,
            file: Some(path.into()),
        })
    }

    fn status(path: &str) -> Status {
        read_file(path).unwrap_err().status
    }

    #[test]
    fn whole() {
        let sheet = concat!(env!("CARGO_MANIFEST_DIR"), "/../examples/sample.sheet");
        assert_eq!(read_file(sheet).unwrap(), std::fs::read(sheet).unwrap());
    }

    #[test]
    fn no_further_than_needed() {
        assert_eq!(read_file("/dev/zero").unwrap(), vec![0; SHEET_MAX + 1]);
    }

    #[test]
    fn not_there_or_a_folder() {
        assert_eq!(status("no such file"), Status::Call);
        assert_eq!(status("/"), Status::Call);
    }

    /// A file that can be opened, and whose reading fails.
    #[test]
    fn not_read() {
        assert_eq!(status("/proc/self/mem"), Status::Broken);
    }
}
