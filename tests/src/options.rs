//! What the comparisons share of their command lines: words, options with a number, and seeds; and
//! how they end.

use std::collections::BTreeMap;
use std::process::ExitCode;
use std::time::{SystemTime, UNIX_EPOCH};

/// What these seeds make is the same in every run. One more seed is taken from the clock.
pub const FIXED_SEEDS: [u64; 4] = [1, 2, 3, 4];

/// The last line of a comparison, and its exit status. One that tried nothing has found nothing out.
pub fn ended(passed: u64, mut failed: u64) -> ExitCode {
    if passed + failed == 0 {
        println!("FAIL: nothing was tried");
        failed = 1;
    }
    println!("{passed} passed, {failed} failed");
    if failed == 0 {
        ExitCode::SUCCESS
    } else {
        ExitCode::FAILURE
    }
}

/// For a command line that is not understood.
pub fn misused(usage: &str) -> ExitCode {
    eprintln!("{usage}");
    ended(0, 1)
}

pub struct Options {
    /// The words that belong to no option.
    pub words: Vec<String>,
    numbers: BTreeMap<String, u64>,
}

impl Options {
    /// The command line; none if it has other options than these, or one without a number.
    pub fn from_command_line(names: &[&str]) -> Option<Options> {
        Options::from_words(names, std::env::args().skip(1))
    }

    fn from_words(names: &[&str], mut given: impl Iterator<Item = String>) -> Option<Options> {
        let mut options = Options {
            words: Vec::new(),
            numbers: BTreeMap::new(),
        };
        while let Some(word) = given.next() {
            if !word.starts_with("--") {
                options.words.push(word);
                continue;
            }
            if !names.contains(&word.as_str()) {
                return None;
            }
            let number = given.next()?.parse().ok()?;
            options.numbers.insert(word, number);
        }
        Some(options)
    }

    pub fn number(&self, name: &str) -> Option<u64> {
        self.numbers.get(name).copied()
    }

    /// The seed that --seed names, or the fixed ones and a fresh one, which is printed.
    pub fn seeds(&self) -> Vec<u64> {
        if let Some(seed) = self.number("--seed") {
            println!("seed {seed}");
            return vec![seed];
        }
        let clock = SystemTime::now()
            .duration_since(UNIX_EPOCH)
            .unwrap_or_default();
        let fresh = clock.as_nanos() as u64;
        println!("fixed seeds {FIXED_SEEDS:?}, fresh seed {fresh}");
        FIXED_SEEDS.iter().copied().chain([fresh]).collect()
    }
}

#[cfg(test)]
mod tests {
    use super::*;

    fn given(line: &str) -> Option<Options> {
        let words = line.split_whitespace().map(String::from);
        Options::from_words(&["--seed", "--count"], words)
    }

    #[test]
    fn words_and_numbers() {
        let options = given("one --seed 7 two").unwrap();
        assert_eq!(options.words, ["one", "two"]);
        assert_eq!(options.number("--seed"), Some(7));
        assert_eq!(options.number("--count"), None);
        assert_eq!(options.seeds(), [7]);
        assert_eq!(given("").unwrap().seeds().len(), FIXED_SEEDS.len() + 1);
    }

    #[test]
    fn bad_usage() {
        for line in ["--speed 3", "--seed", "--seed -1", "--seed x"] {
            assert!(given(line).is_none(), "{line}");
        }
    }
}
