//! What the programs print: lines of a letter and numbers of five columns each. The last line is
//! `Z`, with the number of lines before it, so that an output that was cut off shows.
//! docs/FORMAT.md, "The program", has the letters.

use comzsered::{Cause, Refusal};

use crate::status::Status;

const LINE_FEED: u8 = b'\n';
/// The columns of a number.
const FIELD: usize = 5;

const HEAD: u8 = b'H';
const ANSWER: u8 = b'A';
const SWITCH: u8 = b'S';
const WISH: u8 = b'W';
const PATTERN: u8 = b'F';
const END: u8 = b'Z';

/// A whole output.
#[derive(Debug, PartialEq, Eq)]
pub enum Printed {
    Listing(Listing),
    /// The sheet of a typed text.
    Sheet,
}

#[derive(Debug, Default, PartialEq, Eq)]
pub struct Listing {
    /// Why there is no plan; None if there is one.
    pub refusal: Option<Refusal>,
    /// What the plan costs; 0 if there is none.
    pub cost: usize,
    /// For each switch whether it is on.
    pub switches: Vec<bool>,
    /// For each wish whether it is kept.
    pub wishes: Vec<bool>,
    /// The patterns listed, in their order.
    pub patterns: Vec<u32>,
}

impl Listing {
    pub fn cause(&self) -> Option<Cause> {
        self.refusal.map(|refusal| refusal.cause)
    }

    pub fn status(&self) -> Status {
        match self.cause() {
            None => Status::Done,
            Some(Cause::NoPlan) => Status::NoPlan,
            Some(_) => Status::Refused,
        }
    }

    /// Whether the input was taken, so that a search was made.
    pub fn is_searched(&self) -> bool {
        matches!(self.cause(), None | Some(Cause::NoPlan | Cause::NoRoom))
    }
}

/// What was printed; None if it is not whole, or not what the programs print.
pub fn read(output: &[u8]) -> Option<Printed> {
    let text = output.strip_suffix(&[LINE_FEED])?;
    let lines: Option<Vec<Line>> = text.split(|&byte| byte == LINE_FEED).map(line).collect();
    let lines = lines?;
    let (end, before) = lines.split_last()?;
    if end.letter != END || end.number(0)? != before.len() {
        return None;
    }
    let (first, rest) = before.split_first()?;
    match first.letter {
        HEAD => Some(Printed::Sheet),
        ANSWER => listing(first, rest).map(Printed::Listing),
        _ => None,
    }
}

fn listing(answer: &Line, rest: &[Line]) -> Option<Listing> {
    let mut listing = Listing::default();
    let (number, place, third) = (answer.number(0)?, answer.number(1)?, answer.number(2)?);
    if number == 0 {
        listing.cost = third;
    } else {
        let cause = Cause::from_number(u32::try_from(number).ok()?)?;
        // The third number is the column, or else the cost.
        let column = if cause == Cause::Malformed { third } else { 0 };
        listing.refusal = Some(Refusal {
            cause,
            place,
            column,
        });
    }
    for line in rest {
        let second = line.number(1)?;
        match line.letter {
            SWITCH => listing.switches.push(second == 1),
            WISH => listing.wishes.push(second == 1),
            PATTERN => listing.patterns.push(u32::try_from(second).ok()?),
            _ => return None,
        }
    }
    Some(listing)
}

/// A line of a listing or of a sheet.
pub struct Line {
    letter: u8,
    pub numbers: Vec<i32>,
}

impl Line {
    /// A number that is not negative, as all of a listing are.
    fn number(&self, k: usize) -> Option<usize> {
        usize::try_from(*self.numbers.get(k)?).ok()
    }
}

/// None if this is no letter with numbers of five columns each.
pub fn line(bytes: &[u8]) -> Option<Line> {
    let (&letter, fields) = bytes.split_first()?;
    let number = |field: &[u8]| std::str::from_utf8(field).ok()?.trim_start().parse().ok();
    let whole = fields.len() % FIELD == 0;
    let numbers = fields.chunks(FIELD).map(number).collect::<Option<_>>();
    numbers
        .filter(|_| whole)
        .map(|numbers| Line { letter, numbers })
}

#[cfg(test)]
mod tests {
    use super::*;

    const PLAN: &[u8] = b"\
A    0    063936
S    1    0    0
S    2    1    0
W    1    1    0
W    2    0    0
F    1    0    0
F    265535    0
Z    7    0    0
";

    fn read_listing(output: &[u8]) -> Listing {
        match read(output) {
            Some(Printed::Listing(listing)) => listing,
            other => panic!("{other:?}"),
        }
    }

    #[test]
    fn plans() {
        let listing = read_listing(PLAN);
        let expected = Listing {
            refusal: None,
            cost: 63_936,
            switches: vec![false, true],
            wishes: vec![true, false],
            patterns: vec![0, 65_535],
        };
        assert_eq!(listing, expected);
        assert_eq!(listing.status(), Status::Done);
        assert!(listing.is_searched());
    }

    #[test]
    fn refusals() {
        for (answer, refused, status, searched) in [
            ("A    1    0    0", (1, 0, 0), Status::Refused, false),
            ("A    2    4   15", (2, 4, 15), Status::Refused, false),
            ("A    6  123    0", (6, 123, 0), Status::Refused, false),
            ("A    8    0    0", (8, 0, 0), Status::NoPlan, true),
            ("A    9    0    0", (9, 0, 0), Status::Refused, true),
            ("A   1216384    0", (12, 16_384, 0), Status::Refused, false),
            ("A   14   66    0", (14, 66, 0), Status::Refused, false),
        ] {
            let listing = read_listing(format!("{answer}\nZ    1    0    0\n").as_bytes());
            let Refusal {
                cause,
                place,
                column,
            } = listing.refusal.unwrap();
            assert_eq!((cause.number(), place, column), refused);
            assert_eq!(listing.cost, 0);
            assert_eq!(listing.status(), status, "{answer}");
            assert_eq!(listing.is_searched(), searched, "{answer}");
        }
    }

    #[test]
    fn sheets() {
        let sheet = b"H    1    0    0    0\nW   -1    0    0  999\nZ    2    0    0    0\n";
        assert_eq!(read(sheet), Some(Printed::Sheet));
    }

    /// No beginning of an output is whole, and neither is one from which a line is missing.
    #[test]
    fn cut_off() {
        for n in 0..PLAN.len() {
            assert_eq!(read(&PLAN[..n]), None, "{n}");
        }
        let line = PLAN.len() / 8;
        for k in 0..8 {
            let rest = [&PLAN[..k * line], &PLAN[(k + 1) * line..]].concat();
            assert_eq!(read(&rest), None, "{k}");
        }
    }

    #[test]
    fn not_printed_like_this() {
        for output in [
            &b"\n"[..],
            b"Z    0    0    0\n",
            b"A    0    0    0\nZ    2    0    0\n",
            b"A    0    0    0\nZ   -1    0    0\n",
            b"A    0    0    0\nX    1    1    0\nZ    2    0    0\n",
            b"A    0    0   \nZ    1    0    0\n",
            b"A    0    x    0\nZ    1    0    0\n",
            b"A   99    0    0\nZ    1    0    0\n",
            b"A    0   -1    0\nZ    1    0    0\n",
            b"S    1    1    0\nZ    1    0    0\n",
            b"A    0    0    0\nZ    1    0    0\n\n",
        ] {
            let shown = output.escape_ascii();
            assert_eq!(read(output), None, "{shown}");
        }
    }
}
