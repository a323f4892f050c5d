//! Malformed lines, each with the column at which it stops being the beginning of any well-formed
//! line. The columns are worked out by hand: what reads the lines is held to them.

use crate::generate::sheet;
use crate::oracle::{Refusal, LINE, MALFORMED};

pub struct Malformed {
    pub why: &'static str,
    line: &'static [u8; LINE],
    pub column: usize,
}

const fn malformed(why: &'static str, line: &'static [u8; LINE], column: usize) -> Malformed {
    Malformed { why, line, column }
}

/// A sheet that is right but for the one line which a malformed one takes the place of.
const AROUND: &str = "H 3 2; O 1 4; R 6; W -1; Z 4";
/// Its lines.
pub const LINES_AROUND: usize = 5;

impl Malformed {
    /// A sheet with this line at the place, counted from 1, and nothing else wrong.
    pub fn sheet(&self, place: usize) -> Vec<u8> {
        let mut bytes = sheet(AROUND);
        bytes[(place - 1) * LINE..place * LINE].copy_from_slice(self.line);
        bytes
    }

    /// How that sheet is refused.
    pub fn refusal(&self, place: usize) -> Refusal {
        Refusal {
            number: MALFORMED,
            place,
            column: self.column,
        }
    }
}

/// Each malformed line with a place for it: now the first line, now the last, now another.
pub fn placed() -> impl Iterator<Item = (&'static Malformed, usize)> {
    MALFORMED_LINES.iter().zip((1..=LINES_AROUND).cycle())
}

/// Every column comes, and every way in which a line can stop.
#[rustfmt::skip]
pub const MALFORMED_LINES: &[Malformed] = &[
    malformed("an unknown letter", b"X    1    0    0    0\n", 1),
    malformed("a small letter", b"h    3    2    0    0\n", 1),
    malformed("a line feed for the letter", b"\n    1    0    0    0\n", 1),
    malformed("nothing right", b"xxxxxxxxxxxxxxxxxxxxxx", 1),
    malformed("a plus", b"R+   1    0    0    0\n", 2),
    malformed("five digits, the first 0", b"R00001    0    0    0\n", 2),
    malformed("a minus, then a space", b"W-   1    0    0    1\n", 3),
    malformed("a minus, then a leading zero", b"W-0001    0    0    1\n", 3),
    malformed("a digit, spaces, a digit", b"R 1  1    0    0    0\n", 4),
    malformed("a space after a digit", b"R  1      0    0    0\n", 5),
    malformed("a leading zero", b"R   01    0    0    0\n", 5),
    malformed("a minus after a digit", b"W   1-    0    0    1\n", 6),
    malformed("a blank field", b"R         0    0    0\n", 6),
    malformed("a minus in the last column", b"W    -    0    0    1\n", 6),
    malformed("minus zero", b"W   -0    0    0    1\n", 6),
    malformed("a tabulator", b"O    1\t   4    0    0\n", 7),
    malformed("a zero in the first column", b"O    10        0    0\n", 7),
    malformed("two minus signs", b"W   -1--  2    0    1\n", 8),
    malformed("a point in a number", b"O    1 1.04    0    0\n", 9),
    malformed("a leading zero, second field", b"O    1   04    0    0\n", 10),
    malformed("a space in the last column, second field", b"O    1   4     0    0\n", 11),
    malformed("a blank field, second field", b"H    3         0    0\n", 11),
    malformed("a minus in the last column, second field", b"W   -1    -    0    1\n", 11),
    malformed("a byte above 127", b"R    6    0\xa0   0    0\n", 12),
    malformed("zeros up to the last column", b"Z    4    0 0000    0\n", 13),
    malformed("a leading zero after a minus", b"W   -1   -2 -003    1\n", 14),
    malformed("a number that begins too far left", b"W   -1   -212 3     1\n", 14),
    malformed("a letter in a number", b"W   -1   -2-9x99    1\n", 14),
    malformed("a zero one column too far left", b"Z    4    0   0     0\n", 15),
    malformed("a number one column too far left", b"W   -1   -2  -3     1\n", 16),
    malformed("a blank field, third field", b"Z    4    0         0\n", 16),
    malformed("minus zero, third field", b"Z    4    0   -0    0\n", 16),
    malformed("a minus in the last column, third field", b"Z    4    0    -    0\n", 16),
    malformed("a line feed after three numbers", b"Z    4    0    0\nZ    ", 17),
    malformed("a carriage return after three numbers", b"Z    4    0    0\r\nZ   ", 17),
    malformed("a zero in the first column, fourth field", b"Z    4    0    00    \n", 17),
    malformed("a plus before a weight", b"W   -1    0    0 +999\n", 18),
    malformed("zeros before a weight", b"W   -1    0    0  007\n", 19),
    malformed("a weight one column too far left, after a minus", b"W   -1    0    0 - 1 \n", 19),
    malformed("a leading zero before a weight", b"W   -1    0    0   01\n", 20),
    malformed("a comma in a weight", b"W   -1    0    0  1,5\n", 20),
    malformed("a weight one column too far left", b"W   -1    0    0   7 \n", 21),
    malformed("a blank weight", b"W   -1    0    0     \n", 21),
    malformed("minus zero, fourth field", b"W   -1    0    0   -0\n", 21),
    malformed("a minus in the last column, fourth field", b"Z    4    0    0    -\n", 21),
    malformed("a line feed one column too early", b"Z    4    0    0    \n0", 21),
    malformed("a carriage return for the line feed", b"Z    4    0    0    0\r", 22),
    malformed("a digit for the line feed", b"W   -1    0    0999990", 22),
    malformed("a space for the line feed", b"H    3    2    0    0 ", 22),
];
