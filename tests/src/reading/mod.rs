//! What a reading into tables returns and leaves, by what a second reader makes of the input.

pub mod check;
#[cfg(test)]
mod wrong;

use crate::oracle::{Refusal, Sheet};
use crate::tables::Tables;

/// What reading returns.
#[derive(Clone, Copy, Debug, Default, PartialEq, Eq)]
pub struct Read {
    pub number: u32,
    pub place: usize,
    pub column: usize,
}

/// What a second reader makes of a sheet or a text.
pub type Outcome = Result<Sheet, Refusal>;

/// Puts what was read into the tables. After a refusal they are as they were.
pub fn put(outcome: &Outcome, tables: &mut Tables) -> Read {
    match outcome {
        Ok(sheet) => {
            *tables = Tables::of(sheet);
            Read::default()
        }
        Err(refusal) => Read::from(*refusal),
    }
}

impl From<Refusal> for Read {
    fn from(refusal: Refusal) -> Read {
        Read {
            number: refusal.number,
            place: refusal.place,
            column: refusal.column,
        }
    }
}
