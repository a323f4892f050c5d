//! The spot of the input that a refusal is about: its line, as an editor counts lines, and the
//! column where one can be told. It is shown with a mark under the column.

use std::ops::RangeInclusive;

use comzsered::{Cause, Refusal, SHEET_MAX};

pub const LINE_FEED: u8 = b'\n';
/// The bytes of a sheet's line, with its line feed.
pub const LINE: usize = 22;
const PRINTABLE: RangeInclusive<u8> = b' '..=b'~';
/// The bytes of a longer line that are shown.
const WIDTH: usize = 72;

#[derive(Debug, PartialEq, Eq)]
pub struct Spot<'a> {
    /// Counted from 1.
    pub line: usize,
    /// Counted from 1, in bytes; None if the line as a whole is meant.
    pub column: Option<usize>,
    /// The line, without its line feed.
    pub bytes: &'a [u8],
    /// Whether a line feed ends the line.
    pub is_ended: bool,
}

impl<'a> Spot<'a> {
    /// None where a refusal is about no line.
    pub fn of(input: &'a [u8], refusal: &Refusal) -> Option<Spot<'a>> {
        match (refusal.cause, refusal.place) {
            _ if input.is_empty() => None,
            (Cause::BadLength, _) => odd_line(input),
            (_, 0) => None,
            (Cause::IllegalText, place) => of_byte(input, place),
            (_, line) => {
                let column = (refusal.column != 0).then_some(refusal.column);
                on_line(input, line, column)
            }
        }
    }

    /// The byte at the column.
    pub fn byte(&self) -> Option<u8> {
        self.bytes.get(self.column? - 1).copied()
    }

    /// Whether this is where the input ends.
    pub fn is_at_end(&self) -> bool {
        !self.is_ended && self.column == Some(self.bytes.len() + 1)
    }

    /// The line and, beneath it, the mark.
    pub fn shown(&self) -> String {
        let at = self.column.map_or(0, |column| column - 1);
        let n = self.bytes.len();
        let begin = at.saturating_sub(WIDTH / 2).min(n.saturating_sub(WIDTH));
        let end = n.min(begin + WIDTH);
        let cut = |is_cut| if is_cut { "..." } else { "" };
        let shown = |bytes: &[u8]| bytes.iter().map(|&byte| sign(byte)).collect::<String>();
        let line = cut(begin > 0).to_string() + &shown(&self.bytes[begin..end]) + cut(end < n);
        let Some(column) = self.column else {
            return line;
        };
        let under = cut(begin > 0).len() + shown(&self.bytes[begin..at]).len();
        let spaces = " ".repeat(under);
        format!("{line}\n{spaces}^ line {}, column {column}", self.line)
    }
}

/// A byte as it is shown: what a terminal may show otherwise is spelled, as `\t`.
fn sign(byte: u8) -> String {
    if PRINTABLE.contains(&byte) {
        char::from(byte).to_string()
    } else {
        byte.escape_ascii().to_string()
    }
}

/// Lines end in line feeds, whatever the form. Up to the line of a refusal this is also how the
/// lines of a sheet are cut: all before it are well-formed.
fn on_line(input: &[u8], line: usize, column: Option<usize>) -> Option<Spot<'_>> {
    let mut lines = input.split(|&byte| byte == LINE_FEED).skip(line - 1);
    let bytes = lines.next()?;
    let is_ended = lines.next().is_some();
    let is_there = column.is_none_or(|column| column <= bytes.len() + 1);
    is_there.then_some(Spot {
        line,
        column,
        bytes,
        is_ended,
    })
}

/// The spot of a byte, counted from 1; it may be the one after the last.
fn of_byte(input: &[u8], place: usize) -> Option<Spot<'_>> {
    let before = input.get(..place - 1)?;
    let mut lines = before.rsplit(|&byte| byte == LINE_FEED);
    let column = lines.next()?.len() + 1;
    on_line(input, 1 + lines.count(), Some(column))
}

/// The first line that has not the length of a sheet's lines. Its column is that of the first byte
/// that no line has, or that where it ends or should. What is too long may be cut off within a line.
fn odd_line(input: &[u8]) -> Option<Spot<'_>> {
    let longest = &input[..input.len().min(SHEET_MAX)];
    let mut lines = longest.split_inclusive(|&byte| byte == LINE_FEED);
    let is_odd = |line: &[u8]| line.len() != LINE || !line.ends_with(&[LINE_FEED]);
    let line = 1 + lines.position(is_odd)?;
    let mut spot = on_line(input, line, None)?;
    let strange = spot.bytes.iter().position(|byte| !PRINTABLE.contains(byte));
    let end = spot.bytes.len().min(LINE - 1);
    spot.column = Some(1 + strange.unwrap_or(end));
    Some(spot)
}

#[cfg(test)]
mod tests {
    use super::*;

    fn spot(input: &str, number: u32, place: usize, column: usize) -> Option<Spot<'_>> {
        let refusal = Refusal {
            cause: Cause::from_number(number).unwrap(),
            place,
            column,
        };
        Spot::of(input.as_bytes(), &refusal)
    }

    /// Line, column, the line's bytes, and whether a line feed ends it.
    fn parts<'a>(spot: &Spot<'a>) -> (usize, Option<usize>, &'a str, bool) {
        let bytes = std::str::from_utf8(spot.bytes).unwrap();
        (spot.line, spot.column, bytes, spot.is_ended)
    }

    const SHEET: &str = "H    1    0    0    0\nR   01    0    0    0\nZ    2    0    0    0\n";

    #[test]
    fn of_a_line() {
        let malformed = spot(SHEET, 2, 2, 5).unwrap();
        assert_eq!(
            parts(&malformed),
            (2, Some(5), "R   01    0    0    0", true)
        );
        assert_eq!(malformed.byte(), Some(b'0'));
        let count = spot(SHEET, 7, 3, 0).unwrap();
        assert_eq!(parts(&count), (3, None, "Z    2    0    0    0", true));
        assert_eq!(count.byte(), None);
        assert_eq!(spot(SHEET, 2, 2, LINE).unwrap().byte(), None);
        assert_eq!(spot(SHEET, 2, 2, LINE + 1), None);
        assert_eq!(spot(SHEET, 8, 0, 0), None);
        assert_eq!(spot(SHEET, 12, 0, 0), None);
    }

    #[test]
    fn of_bytes() {
        let text = "switches 3\nfaults 01\n";
        let of = |place| spot(text, 12, place, 0);
        assert_eq!(parts(&of(1).unwrap()), (1, Some(1), "switches 3", true));
        // A line feed belongs to the line that it ends.
        assert_eq!(of(11).unwrap().column, Some(11));
        assert_eq!(of(11).unwrap().byte(), None);
        assert_eq!(parts(&of(12).unwrap()), (2, Some(1), "faults 01", true));
        assert_eq!(of(20).unwrap().byte(), Some(b'1'));
        // The end, after a line feed and without one.
        let end = of(22).unwrap();
        assert_eq!(parts(&end), (3, Some(1), "", false));
        assert!(end.is_at_end() && !of(20).unwrap().is_at_end());
        assert_eq!(of(23), None);
        assert_eq!(spot("", 12, 1, 0), None);
        let end = spot("switches 3", 12, 11, 0).unwrap();
        assert_eq!(parts(&end), (1, Some(11), "switches 3", false));
        assert!(end.is_at_end());
    }

    #[test]
    fn odd_lines() {
        let odd = |input| spot(input, 1, 0, 0);
        assert_eq!(odd(""), None);
        assert_eq!(odd(SHEET), None);
        let too_long = SHEET.repeat(200);
        assert_eq!(odd(&too_long[..SHEET_MAX + 1]), None);
        let long_line = too_long.replacen("R ", "R  ", 1);
        assert_eq!(odd(&long_line).unwrap().line, 2);
        let short = odd("H    1    0    0    0\nZ  1  0  0  0\n").unwrap();
        assert_eq!(parts(&short), (2, Some(14), "Z  1  0  0  0", true));
        let long = odd("H    1    0    0    0 \nZ    1    0    0    0\n").unwrap();
        assert_eq!(
            parts(&long),
            (1, Some(LINE), "H    1    0    0    0 ", true)
        );
        let tab = odd("H    1\t0    0    0\n").unwrap();
        assert_eq!(parts(&tab), (1, Some(7), "H    1\t0    0    0", true));
        let not_ended = odd("H    1    0    0    0\nZ    1    0    0    0").unwrap();
        assert_eq!(
            parts(&not_ended),
            (2, Some(LINE), "Z    1    0    0    0", false)
        );
        let blank = odd("H    1    0    0    0\nZ    1    0    0    0\n\n").unwrap();
        assert_eq!(parts(&blank), (3, Some(1), "", true));
        let three_numbers = odd("H    1    0    0\nZ    1    0    0\n").unwrap();
        assert_eq!(
            parts(&three_numbers),
            (1, Some(17), "H    1    0    0", true)
        );
    }

    #[test]
    fn marked() {
        let shown = |input, place| spot(input, 12, place, 0).unwrap().shown();
        assert_eq!(
            shown("switches 3\nfaults 01\n", 20),
            "faults 01\n        ^ line 2, column 9"
        );
        // The mark stands under the byte, whatever stands for those before it.
        assert_eq!(
            shown("a\tbé\r\n", 3),
            "a\\tb\\xc3\\xa9\\r\n   ^ line 1, column 3"
        );
        assert_eq!(shown("a", 2), "a\n ^ line 1, column 2");
        assert_eq!(spot("ab\n", 6, 1, 0).unwrap().shown(), "ab");
    }

    /// Of a long line the part around the mark is shown.
    #[test]
    fn long_lines() {
        let line = "0123456789".repeat(20);
        for (place, part) in [
            (1, 0..WIDTH),
            (WIDTH / 2 + 2, 1..WIDTH + 1),
            (100, 63..63 + WIDTH),
            (200, 200 - WIDTH..200),
            (201, 200 - WIDTH..200),
        ] {
            let shown = spot(&line, 12, place, 0).unwrap().shown();
            let (top, mark) = shown.split_once('\n').unwrap();
            let front = if part.start > 0 { "..." } else { "" };
            let back = if part.end < 200 { "..." } else { "" };
            let under = mark.find('^').unwrap();
            assert_eq!(under, front.len() + place - 1 - part.start, "{place}");
            assert_eq!(top, [front, &line[part], back].concat(), "{place}");
        }
        assert_eq!(spot(&line, 6, 1, 0).unwrap().shown().len(), WIDTH + 3);
    }
}
