//! One reading into tables that hold any words at first: what a reader returns and leaves is held to
//! the second reader.

use std::array::from_fn;

use super::{put, Outcome, Read};
use crate::generate::Random;
use crate::tables::Tables;

/// What is tried with a sheet or a text.
pub struct Trial {
    /// What the second reader makes of it.
    pub outcome: Outcome,
    /// What the tables hold at first.
    noise: Tables,
}

impl Trial {
    pub fn new(r: &mut Random, outcome: Outcome) -> Trial {
        Trial {
            outcome,
            noise: noise(r),
        }
    }

    /// Has it read once. Returns what is not as the second reader has it.
    pub fn differs(&self, reader: &mut dyn FnMut(&mut Tables) -> Read) -> Option<String> {
        let (mut got, mut expected) = (self.noise.clone(), self.noise.clone());
        let should = put(&self.outcome, &mut expected);
        let figures = reader(&mut got);
        if figures != should {
            return Some(format!(
                "second reader: {should:?}\n  this one:      {figures:?}"
            ));
        }
        let (got, expected) = (got.words(), expected.words());
        let at = got.iter().zip(&expected).position(|(a, b)| a != b)?;
        Some(format!(
            "word {at} of the tables, counted from 0, is {} and not {}",
            got[at], expected[at]
        ))
    }
}

/// Tables of any words: none is 0, so that one which is not filled shows.
fn noise(r: &mut Random) -> Tables {
    let mut word = || r.word() | 1;
    Tables {
        switches: word(),
        faults: word(),
        gates: word(),
        rules: word(),
        wishes: word(),
        gate: from_fn(|_| from_fn(|_| word())),
        rule: from_fn(|_| word()),
        wish: from_fn(|_| from_fn(|_| word())),
    }
}
