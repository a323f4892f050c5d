//! The command line: what is to be printed, of which form of input, from which file. `--help` and
//! `--version` are not here: `./planner` itself answers them, as they need no build.

use std::ffi::OsString;
use std::path::PathBuf;

use comzsered::{Input, SHEET_MAX, TEXT_MAX};

use crate::status::Failure;

/// The two forms of input.
#[derive(Clone, Copy, Debug, PartialEq, Eq)]
pub enum Form {
    Sheet,
    Text,
}

impl Form {
    /// The bytes that an input of this form has at most.
    pub fn most(self) -> usize {
        match self {
            Form::Sheet => SHEET_MAX,
            Form::Text => TEXT_MAX,
        }
    }

    pub fn input(self, bytes: &[u8]) -> Input<'_> {
        match self {
            Form::Sheet => Input::Sheet(bytes),
            Form::Text => Input::Text(bytes),
        }
    }
}

/// What is to be printed.
#[derive(Clone, Copy, Debug, PartialEq, Eq)]
pub enum Print {
    Listing,
    Words,
    /// The sheet that a typed text stands for.
    Sheet,
}

#[derive(Debug, PartialEq, Eq)]
pub struct Options {
    pub form: Form,
    pub print: Print,
    /// None is standard input.
    pub file: Option<PathBuf>,
}

/// The end of a typed text's name.
const TEXT_EXTENSION: &str = "text";

impl Options {
    /// The proved program that does this.
    pub fn program(&self) -> &'static str {
        match (self.print, self.form) {
            (Print::Sheet, _) => "as_sheet",
            (_, Form::Sheet) => "plan",
            (_, Form::Text) => "typed",
        }
    }

    /// The input's name, for messages.
    pub fn name(&self) -> String {
        match &self.file {
            Some(path) => path.display().to_string(),
            None => "standard input".to_string(),
        }
    }
}

/// The options may stand before and after FILE; after `--` there are none.
pub fn parse(words: impl IntoIterator<Item = OsString>) -> Result<Options, Failure> {
    let (mut form, mut print, mut file) = (None, None, None);
    let mut options = true;
    for word in words {
        let option = word
            .to_str()
            .filter(|word| options && word.starts_with('-'));
        match option {
            None if file.is_some() => return Err(wrong("one FILE is enough")),
            None => file = Some(PathBuf::from(word)),
            Some("--") => options = false,
            Some("--sheet") => choose(&mut form, Form::Sheet, "--sheet")?,
            Some("--typed") => choose(&mut form, Form::Text, "--typed")?,
            Some("--words") => choose(&mut print, Print::Words, "--words")?,
            Some("--as-sheet") => {
                choose(&mut print, Print::Sheet, "--as-sheet")?;
                choose(&mut form, Form::Text, "--as-sheet")?;
            }
            Some(other) => return Err(wrong(&format!("there is no option {other}"))),
        }
    }
    let text = file
        .as_ref()
        .is_some_and(|path: &PathBuf| path.extension().is_some_and(|end| end == TEXT_EXTENSION));
    let by_name = if text { Form::Text } else { Form::Sheet };
    Ok(Options {
        form: form.unwrap_or(by_name),
        print: print.unwrap_or(Print::Listing),
        file,
    })
}

/// Takes a choice, unless another one was made before.
fn choose<T: PartialEq>(slot: &mut Option<T>, choice: T, word: &str) -> Result<(), Failure> {
    match slot {
        Some(other) if *other != choice => {
            Err(wrong(&format!("{word} goes against what stands before it")))
        }
        _ => {
            *slot = Some(choice);
            Ok(())
        }
    }
}

fn wrong(words: &str) -> Failure {
    Failure::call(format!("{words} (./planner --help has the options)"))
}

#[cfg(test)]
mod tests {
    use super::*;
    use crate::status::Status;

    fn parsed(words: &str) -> Result<Options, Failure> {
        parse(words.split_whitespace().map(OsString::from))
    }

    fn options(form: Form, print: Print, file: Option<&str>) -> Options {
        let file = file.map(PathBuf::from);
        Options { form, print, file }
    }

    #[test]
    fn taken() {
        use {Form::*, Print::*};
        for (words, form, print, file) in [
            ("", Form::Sheet, Listing, None),
            ("a.sheet", Form::Sheet, Listing, Some("a.sheet")),
            ("a.text", Text, Listing, Some("a.text")),
            ("text", Form::Sheet, Listing, Some("text")),
            ("--sheet a.text", Form::Sheet, Listing, Some("a.text")),
            ("--typed a.sheet", Text, Listing, Some("a.sheet")),
            ("--typed", Text, Listing, None),
            ("a.text --words", Text, Words, Some("a.text")),
            ("--words --sheet --words", Form::Sheet, Words, None),
            ("--as-sheet a", Text, Print::Sheet, Some("a")),
            ("--typed --as-sheet", Text, Print::Sheet, None),
            ("-- --words", Form::Sheet, Listing, Some("--words")),
            ("--words -- --", Form::Sheet, Words, Some("--")),
        ] {
            assert_eq!(parsed(words), Ok(options(form, print, file)), "{words}");
        }
    }

    #[test]
    fn wrong_calls() {
        for (words, part) in [
            ("a b", "one FILE is enough"),
            ("a --words a", "one FILE is enough"),
            ("--sheet --typed", "--typed goes against"),
            ("--sheet --as-sheet", "--as-sheet goes against"),
            ("--words --as-sheet a", "--as-sheet goes against"),
            ("--as-sheet --words", "--words goes against"),
            ("--word", "there is no option --word "),
            ("-x", "there is no option -x "),
            ("-", "there is no option - "),
        ] {
            let failure = parsed(words).unwrap_err();
            assert_eq!(failure.status, Status::Call, "{words}");
            assert!(failure.words.starts_with(part), "{}", failure.words);
            assert!(failure.words.contains("--help"), "{}", failure.words);
        }
    }

    #[test]
    fn programs() {
        let program = |words| parsed(words).unwrap().program();
        assert_eq!(program("a.sheet"), "plan");
        assert_eq!(program("--words a.text"), "typed");
        assert_eq!(program("--as-sheet"), "as_sheet");
    }
}
