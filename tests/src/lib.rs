//! What the comparisons rest on: readers, a planner and a writer written apart from the proved ones,
//! and generators of sheets, texts and tables.

pub mod brute;
pub mod cases;
#[cfg(feature = "library")]
mod convert;
pub mod counts;
pub mod effort;
pub mod form;
pub mod generate;
pub mod limits;
pub mod malformed;
pub mod options;
pub mod oracle;
pub mod planning;
pub mod process;
pub mod reading;
pub mod shrink;
pub mod stack;
pub mod tables;
pub mod typed;
pub mod workers;
pub mod writing;

/// The sample sheet of docs/FORMAT.md.
pub const SAMPLE: &str = "\
H    2    2    0    0
O    1    2    0    0
O    3    4    0    0
O    5    6    0    0
R    7    0    0    0
W   -1    0    0    1
W   -2    0    0    1
Z    7    0    0    0
";

/// What the program prints for it.
pub const SAMPLE_LISTING: &str = "\
A    0    0    1
S    1    0    0
S    2    1    0
W    1    1    0
W    2    0    0
F    1    0    0
Z    6    0    0
";
