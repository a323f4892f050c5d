//! The two forms of input: for each the second reader, and what is generated.

use crate::brute::listing_of;
use crate::options::Options;
use crate::oracle::{self, Refusal, Sheet};
use crate::planning::{planning_sheet, Made};
use crate::typed::generate::typed_text;
use crate::typed::{self, MAX_TEXT};

#[derive(Clone, Copy, Debug, PartialEq, Eq)]
pub enum Form {
    Sheet,
    Text,
}

impl Form {
    /// The option that asks for texts, whatever its number.
    pub const OPTION: &'static str = "--texts";

    pub fn asked(options: &Options) -> Form {
        match options.number(Form::OPTION) {
            Some(_) => Form::Text,
            None => Form::Sheet,
        }
    }

    /// What several of them are called.
    pub fn name(self) -> &'static str {
        match self {
            Form::Sheet => "sheets",
            Form::Text => "texts",
        }
    }

    /// The bytes of the longest one.
    pub fn longest(self) -> usize {
        match self {
            Form::Sheet => oracle::MAX_BYTES,
            Form::Text => MAX_TEXT,
        }
    }

    pub fn read(self, bytes: &[u8]) -> Result<Sheet, Refusal> {
        match self {
            Form::Sheet => oracle::read(bytes),
            Form::Text => typed::read(bytes),
        }
    }

    /// The one of this seed and index.
    pub fn made(self, seed: u64, index: u64) -> Made {
        match self {
            Form::Sheet => planning_sheet(seed, index),
            Form::Text => typed_text(seed, index),
        }
    }

    /// What the program for this form prints.
    pub fn listing(self, bytes: &[u8]) -> String {
        listing_of(self.read(bytes))
    }
}
