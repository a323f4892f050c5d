//! Why something is turned down.

use std::fmt;

/// Why a sheet, a text, tables or a call is turned down. `include/comzsered.h` has the same names and
/// numbers. Of an [`Answer`](crate::Answer) and a [`ShortRun`](crate::ShortRun) `NoPlan` and `NoRoom`
/// are outcomes of their own.
#[derive(Clone, Copy, Debug, PartialEq, Eq, Hash)]
#[repr(u32)]
pub enum Cause {
    /// The sheet's length is 0, above 11,660 or no multiple of 22.
    BadLength = 1,
    /// A line is malformed, or its letter is unknown. This cause alone has a column.
    Malformed = 2,
    /// A letter is not allowed at this line.
    BadOrder = 3,
    /// The number of switches (0 to 20) or of faults (0 to 16) is out of its range.
    OutOfRange = 4,
    /// One gate (400), rule (64) or wish (64) too many.
    OverLimit = 5,
    /// A point or literal is not allowed here, an unused field is not 0, or a literal follows a 0.
    BadField = 6,
    /// The count of lines at the end is wrong.
    BadCount = 7,
    /// No plan passes the patterns.
    NoPlan = 8,
    /// The list is longer than the room lent for it.
    NoRoom = 9,
    /// The plan to be rated has more binary digits than there are switches.
    HighPlan = 10,
    /// A given pattern has more binary digits than there are faults.
    HighPattern = 11,
    /// A text is longer than 16,384 bytes, or not legal.
    IllegalText = 12,
    /// The buffer is shorter than the sheet to be written. It comes from
    /// [`figures::write`](crate::figures::write) alone.
    ShortBuffer = 13,
    /// The weight of a wish is not 1 to 999.
    BadWeight = 14,
}

impl Cause {
    const ALL: [Cause; 14] = [
        Cause::BadLength,
        Cause::Malformed,
        Cause::BadOrder,
        Cause::OutOfRange,
        Cause::OverLimit,
        Cause::BadField,
        Cause::BadCount,
        Cause::NoPlan,
        Cause::NoRoom,
        Cause::HighPlan,
        Cause::HighPattern,
        Cause::IllegalText,
        Cause::ShortBuffer,
        Cause::BadWeight,
    ];

    /// The number that the library, the programs and the papers tell it by.
    pub const fn number(self) -> u32 {
        self as u32
    }

    /// The cause that is told by this number, if there is one.
    pub fn from_number(number: u32) -> Option<Cause> {
        Cause::ALL.into_iter().find(|c| c.number() == number)
    }

    /// The cause of a number that the library returned: none of 0, when the job is done.
    pub(crate) fn of(number: u32) -> Option<Cause> {
        let cause = Cause::from_number(number);
        assert!(
            number == 0 || cause.is_some(),
            "number {number} is of another version of the library than this binding"
        );
        cause
    }
}

/// Why a sheet, a text, tables or a call is turned down, and where the cause is.
///
/// ```
/// use comzsered::{answer, Answer, Cause, Sheet};
///
/// let sheet = Sheet(b"\
/// H    1    0    0    0\n\
/// O    1    2    0    0\n\
/// Z    2    0    0    0\n");
/// let Answer::Refused(refusal) = answer(sheet, &mut []) else { panic!() };
/// assert_eq!((refusal.cause, refusal.place, refusal.column), (Cause::BadField, 2, 0));
/// assert_eq!(refusal.cause.number(), 6);
/// assert_eq!(
///     refusal.to_string(),
///     "line 2: a point or literal is not allowed here, an unused field is not 0, \
///      or a literal follows a 0"
/// );
/// ```
///
/// A malformed line also tells the column. Here it is that of the 0 before the 1: a number has no
/// leading zero.
///
/// ```
/// use comzsered::{answer, Answer, Cause, Sheet};
///
/// let sheet = Sheet(b"\
/// H    1    0    0    0\n\
/// R   01    0    0    0\n\
/// Z    2    0    0    0\n");
/// let Answer::Refused(refusal) = answer(sheet, &mut []) else { panic!() };
/// assert_eq!((refusal.cause, refusal.place, refusal.column), (Cause::Malformed, 2, 5));
/// assert_eq!(
///     refusal.to_string(),
///     "line 2, column 5: no well-formed line begins like this"
/// );
/// ```
///
/// The place of an illegal text is the byte with which it ceases to be the beginning of a legal one.
///
/// ```
/// use comzsered::{answer, Answer, Cause, Text};
///
/// let Answer::Refused(refusal) = answer(Text(b"switches 1\nfaults 01\n"), &mut [])
/// else { panic!() };
/// assert_eq!((refusal.cause, refusal.place, refusal.column), (Cause::IllegalText, 20, 0));
/// assert_eq!(refusal.to_string(), "byte 20: no legal text goes on like this");
/// ```
///
/// Of tables the place is the line on which the entry would stand on the sheet: see
/// [`write`](crate::write()).
#[derive(Clone, Copy, Debug, PartialEq, Eq, Hash)]
pub struct Refusal {
    pub cause: Cause,
    /// A line, a byte or a position, counted from 1; 0 where there is none.
    pub place: usize,
    /// The column, 1 to 22, at which a malformed line stops being the beginning of any well-formed
    /// one, the line feed being 22; 0 where there is none.
    pub column: usize,
}

impl fmt::Display for Refusal {
    fn fmt(&self, f: &mut fmt::Formatter) -> fmt::Result {
        let Refusal {
            cause,
            place,
            column,
        } = *self;
        match cause {
            Cause::Malformed => write!(f, "line {place}, column {column}: ")?,
            Cause::BadOrder
            | Cause::OutOfRange
            | Cause::OverLimit
            | Cause::BadField
            | Cause::BadCount
            | Cause::BadWeight => write!(f, "line {place}: ")?,
            Cause::HighPattern => write!(f, "pattern {place} of the given ones: ")?,
            Cause::IllegalText if place != 0 => write!(f, "byte {place}: ")?,
            _ => {}
        }
        f.write_str(match cause {
            Cause::BadLength => "the sheet's length is 0, above 11,660 or no multiple of 22",
            Cause::Malformed => "no well-formed line begins like this",
            Cause::BadOrder => "this letter is not allowed at this line",
            Cause::OutOfRange => {
                "the number of switches is not 0 to 20 or that of faults is not 0 to 16"
            }
            Cause::OverLimit => "there are more than 400 gates, 64 rules or 64 wishes",
            Cause::BadField => {
                "a point or literal is not allowed here, an unused field is not 0, \
                 or a literal follows a 0"
            }
            Cause::BadCount => "the count of the lines before this one is wrong",
            Cause::NoPlan => "no plan passes the patterns",
            Cause::NoRoom => "the list is longer than the room lent for it",
            Cause::HighPlan => "the plan has more binary digits than there are switches",
            Cause::HighPattern => "the pattern has more binary digits than there are faults",
            Cause::IllegalText if place == 0 => "the text is longer than 16,384 bytes",
            Cause::IllegalText => "no legal text goes on like this",
            Cause::ShortBuffer => "the sheet is longer than the room lent for it",
            Cause::BadWeight => "the weight of this wish is not 1 to 999",
        })
    }
}

impl std::error::Error for Refusal {}

#[cfg(test)]
mod tests {
    use super::*;
    use crate::tests::refused;
    use std::collections::BTreeSet;

    #[test]
    fn numbers() {
        assert_eq!(Cause::of(0), None);
        for (i, cause) in (1..).zip(Cause::ALL) {
            assert_eq!((cause.number(), Cause::of(i)), (i, Some(cause)));
        }
    }

    #[test]
    fn no_cause() {
        assert_eq!([0, 15].map(Cause::from_number), [None, None]);
    }

    #[test]
    #[should_panic(expected = "another version")]
    fn no_such_number() {
        Cause::of(15);
    }

    #[test]
    fn refusals_in_words() {
        let said = |cause, place| refused(cause, place).to_string();
        assert_eq!(
            said(Cause::BadLength, 0),
            "the sheet's length is 0, above 11,660 or no multiple of 22"
        );
        let malformed = Refusal {
            cause: Cause::Malformed,
            place: 7,
            column: 12,
        };
        let malformed = malformed.to_string();
        assert!(malformed.starts_with("line 7, column 12: "), "{malformed}");
        for cause in &Cause::ALL[2..7] {
            assert!(said(*cause, 12).starts_with("line 12: "), "{cause:?}");
        }
        assert!(!said(Cause::HighPlan, 0).contains('0'));
        assert!(said(Cause::HighPattern, 3).starts_with("pattern 3 of the given ones: "));
        assert_eq!(
            said(Cause::IllegalText, 57),
            "byte 57: no legal text goes on like this"
        );
        assert_eq!(
            said(Cause::IllegalText, 0),
            "the text is longer than 16,384 bytes"
        );
        assert!(!said(Cause::ShortBuffer, 0).contains('0'));
        assert_eq!(
            said(Cause::BadWeight, 7),
            "line 7: the weight of this wish is not 1 to 999"
        );
        let all: BTreeSet<String> = Cause::ALL.into_iter().map(|c| said(c, 1)).collect();
        assert_eq!(all.len(), Cause::ALL.len());
    }
}
