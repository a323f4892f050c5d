//! A second reader of planning sheets, in the plainest way, by the rules of docs/FORMAT.md alone.
//! The proved reader is compared with it, so it shares no code and no method with that one.

use std::collections::HashSet;
use std::ops::RangeInclusive;
use std::sync::OnceLock;

/// Numbers on a line.
pub const FIELDS: usize = 4;
/// Columns of a number.
pub const COLUMNS: usize = 5;
/// Bytes of a line: the letter, the numbers and the line feed.
pub const LINE: usize = 1 + FIELDS * COLUMNS + 1;
/// Literals of a wish at most; they stand in the first fields of its line.
pub const LITERALS: usize = 3;
/// The field of a wish's weight, after those of its literals.
pub const WEIGHT: usize = LITERALS;

pub const MAX_SWITCHES: i32 = 20;
pub const MAX_FAULTS: i32 = 16;
pub const MAX_GATES: usize = 400;
pub const MAX_RULES: usize = 64;
pub const MAX_WISHES: usize = 64;
/// One H line, the gates, the rules, the wishes and one Z line.
pub const MAX_LINES: usize = 1 + MAX_GATES + MAX_RULES + MAX_WISHES + 1;
pub const MAX_BYTES: usize = MAX_LINES * LINE;
/// What a wish may weigh.
pub const MAX_WEIGHT: u32 = 999;
pub const WEIGHTS: RangeInclusive<u32> = 1..=MAX_WEIGHT;

/// The smallest and the largest number that a field can hold.
pub const MIN_NUMBER: i32 = -9_999;
pub const MAX_NUMBER: i32 = 99_999;

// The numbers of the refusals.
pub const BAD_LENGTH: u32 = 1;
pub const MALFORMED: u32 = 2;
pub const WRONG_LETTER: u32 = 3;
pub const BAD_SIZE: u32 = 4;
pub const TOO_MANY: u32 = 5;
pub const BAD_FIELD: u32 = 6;
pub const WRONG_COUNT: u32 = 7;
pub const BAD_WEIGHT: u32 = 14;

/// Why a sheet is turned down, at which line, counted from 1 (0 if at none), and at which column of
/// a malformed line, counted from 1 (0 after any other number).
#[derive(Clone, Copy, Debug, PartialEq, Eq)]
pub struct Refusal {
    pub number: u32,
    pub place: usize,
    pub column: usize,
}

/// The kind is the letter of the gate's line. A gate N has no right point, shown as 0.
#[derive(Clone, Copy, Debug, PartialEq, Eq)]
pub struct Gate {
    pub kind: u8,
    pub left: u32,
    pub right: u32,
}

/// A wish has its literals alone, without the zeros that fill its line up.
#[derive(Clone, Debug, PartialEq, Eq)]
pub struct Wish {
    pub literals: Vec<i32>,
    pub weight: u32,
}

#[derive(Clone, Debug, Default, PartialEq, Eq)]
pub struct Sheet {
    pub switches: u32,
    pub faults: u32,
    pub gates: Vec<Gate>,
    pub rules: Vec<u32>,
    pub wishes: Vec<Wish>,
}

impl Sheet {
    /// How many points there are so far: switches, faults and gates.
    pub fn points(&self) -> usize {
        self.switches as usize + self.faults as usize + self.gates.len()
    }
}

/// Reads a sheet, or says for which cause, the first in the order of the refusals, it is refused.
pub fn read(bytes: &[u8]) -> Result<Sheet, Refusal> {
    if bytes.is_empty() || bytes.len() > MAX_BYTES || !bytes.len().is_multiple_of(LINE) {
        return Err(Refusal {
            number: BAD_LENGTH,
            place: 0,
            column: 0,
        });
    }
    let lines: Vec<&[u8]> = bytes.chunks(LINE).collect();
    let mut sheet = Sheet::default();
    let mut part_before = 0;
    for (before, line) in lines.iter().enumerate() {
        let refuse = |number| {
            Err(Refusal {
                number,
                place: before + 1,
                column: 0,
            })
        };
        let Some((letter, part, fields)) = split(line) else {
            return Err(Refusal {
                number: MALFORMED,
                place: before + 1,
                column: column(line),
            });
        };
        let first = before == 0;
        let last = before + 1 == lines.len();
        if (letter == b'H') != first || (letter == b'Z') != last || part < part_before {
            return refuse(WRONG_LETTER);
        }
        if letter == b'H' && !sizes_allowed(&fields) {
            return refuse(BAD_SIZE);
        }
        if no_room(&sheet, letter) {
            return refuse(TOO_MANY);
        }
        if !fields_allowed(&sheet, letter, &fields) {
            return refuse(BAD_FIELD);
        }
        if letter == b'W' && !weight_allowed(fields[WEIGHT]) {
            return refuse(BAD_WEIGHT);
        }
        if letter == b'Z' && fields[0] != before as i32 {
            return refuse(WRONG_COUNT);
        }
        take(&mut sheet, letter, &fields);
        part_before = part;
    }
    Ok(sheet)
}

/// The letter, the part of the sheet that it belongs to and the numbers of a well-formed line.
pub(crate) fn split(line: &[u8]) -> Option<(u8, u32, [i32; FIELDS])> {
    let part = part(line[0])?;
    let mut fields = [0; FIELDS];
    for (k, field) in fields.iter_mut().enumerate() {
        let start = 1 + k * COLUMNS;
        *field = number(&line[start..start + COLUMNS])?;
    }
    if line[LINE - 1] != b'\n' {
        return None;
    }
    Some((line[0], part, fields))
}

/// The parts of a sheet in their order: head, gates, rules, wishes, end.
fn part(letter: u8) -> Option<u32> {
    match letter {
        b'H' => Some(0),
        b'N' | b'A' | b'O' => Some(1),
        b'R' => Some(2),
        b'W' => Some(3),
        b'Z' => Some(4),
        _ => None,
    }
}

/// The number in a field: spaces, then a minus or none, then digits up to the field's end.
fn number(field: &[u8]) -> Option<i32> {
    let text = std::str::from_utf8(field).ok()?.trim_start_matches(' ');
    let digits = text.strip_prefix('-').unwrap_or(text);
    if digits.is_empty() || !digits.bytes().all(|b| b.is_ascii_digit()) {
        return None;
    }
    // This rules out "-0" and leading zeros at once.
    if digits.starts_with('0') && text != "0" {
        return None;
    }
    text.parse().ok()
}

/// The column at which a malformed line stops being the beginning of any well-formed line.
fn column(line: &[u8]) -> usize {
    (1..=LINE)
        .find(|&c| !begins_a_line(&line[..c]))
        .expect("a malformed line")
}

/// Whether a well-formed line begins with this text. Each field may hold any number, whatever the
/// others hold, so its part of the text is looked at alone.
fn begins_a_line(text: &[u8]) -> bool {
    let (before_feed, feed) = text.split_at(text.len().min(LINE - 1));
    let mut fields = before_feed[1..].chunks(COLUMNS);
    part(text[0]).is_some()
        && fields.all(|field| beginnings().contains(field))
        && feed.iter().all(|&byte| byte == b'\n')
}

/// Every beginning, of one byte up to all, of every number as it is printed.
fn beginnings() -> &'static HashSet<Vec<u8>> {
    static MADE: OnceLock<HashSet<Vec<u8>>> = OnceLock::new();
    MADE.get_or_init(|| {
        let mut made = HashSet::new();
        for n in MIN_NUMBER..=MAX_NUMBER {
            let field = format!("{n:>COLUMNS$}");
            for bytes in 1..=COLUMNS {
                made.insert(field.as_bytes()[..bytes].to_vec());
            }
        }
        made
    })
}

fn sizes_allowed(fields: &[i32; FIELDS]) -> bool {
    (0..=MAX_SWITCHES).contains(&fields[0]) && (0..=MAX_FAULTS).contains(&fields[1])
}

/// Whether the sheet already holds as many lines of this kind as it may.
fn no_room(sheet: &Sheet, letter: u8) -> bool {
    match letter {
        b'N' | b'A' | b'O' => sheet.gates.len() == MAX_GATES,
        b'R' => sheet.rules.len() == MAX_RULES,
        b'W' => sheet.wishes.len() == MAX_WISHES,
        _ => false,
    }
}

/// The tests of refusal 6. The sheet holds the lines before this one, so its points are those
/// that a gate may name.
fn fields_allowed(sheet: &Sheet, letter: u8, fields: &[i32; FIELDS]) -> bool {
    let is_point = |n: i32| n >= 1 && n as usize <= sheet.points();
    let unused_from = |k: usize| fields[k..].iter().all(|&n| n == 0);
    match letter {
        b'H' => unused_from(2),
        b'N' | b'R' => is_point(fields[0]) && unused_from(1),
        b'A' | b'O' => is_point(fields[0]) && is_point(fields[1]) && unused_from(2),
        b'W' => literals_allowed(sheet, &fields[..LITERALS]),
        _ => unused_from(1),
    }
}

/// Literals come first, zeros fill up, and each literal names a switch.
fn literals_allowed(sheet: &Sheet, literals: &[i32]) -> bool {
    let zero_then_literal = literals.windows(2).any(|w| w[0] == 0 && w[1] != 0);
    !zero_then_literal && literals.iter().all(|l| l.unsigned_abs() <= sheet.switches)
}

fn weight_allowed(number: i32) -> bool {
    u32::try_from(number).is_ok_and(|weight| WEIGHTS.contains(&weight))
}

/// Adds a line that has passed every test.
fn take(sheet: &mut Sheet, letter: u8, fields: &[i32; FIELDS]) {
    match letter {
        b'H' => {
            sheet.switches = fields[0] as u32;
            sheet.faults = fields[1] as u32;
        }
        b'N' => sheet.gates.push(Gate {
            kind: letter,
            left: fields[0] as u32,
            right: 0,
        }),
        b'A' | b'O' => sheet.gates.push(Gate {
            kind: letter,
            left: fields[0] as u32,
            right: fields[1] as u32,
        }),
        b'R' => sheet.rules.push(fields[0] as u32),
        b'W' => {
            let used = fields[..LITERALS].iter().copied().filter(|&l| l != 0);
            sheet.wishes.push(Wish {
                literals: used.collect(),
                weight: fields[WEIGHT] as u32,
            });
        }
        _ => {}
    }
}

#[cfg(test)]
mod tests {
    use super::*;
    use crate::generate::{sheet, without_fourth_numbers};
    use crate::malformed::{LINES_AROUND, MALFORMED_LINES};
    use crate::SAMPLE;

    /// The number and place of a refusal. There is a column after number 2 only.
    fn refused(bytes: &[u8]) -> (u32, usize) {
        match read(bytes) {
            Ok(_) => (0, 0),
            Err(r) => {
                assert_eq!(r.column != 0, r.number == MALFORMED, "{r:?}");
                (r.number, r.place)
            }
        }
    }

    /// The sheet written short, as in "H 1 0; Z 1": the number and place of its refusal.
    fn outcome(short: &str) -> (u32, usize) {
        refused(&sheet(short))
    }

    fn gate(kind: u8, left: u32, right: u32) -> Gate {
        Gate { kind, left, right }
    }

    fn wish(literals: &[i32], weight: u32) -> Wish {
        let literals = literals.to_vec();
        Wish { literals, weight }
    }

    #[test]
    fn e1_empty() {
        assert_eq!(refused(b""), (BAD_LENGTH, 0));
    }

    #[test]
    fn e2_smallest() {
        assert_eq!(read(&sheet("H; Z 1")), Ok(Sheet::default()));
    }

    #[test]
    fn e3_sample() {
        assert_eq!(SAMPLE.len(), 176);
        assert_eq!(
            sheet("H 2 2; O 1 2; O 3 4; O 5 6; R 7; W -1; W -2; Z 7"),
            SAMPLE.as_bytes()
        );
        let tables = Sheet {
            switches: 2,
            faults: 2,
            gates: vec![gate(b'O', 1, 2), gate(b'O', 3, 4), gate(b'O', 5, 6)],
            rules: vec![7],
            wishes: vec![wish(&[-1], 1), wish(&[-2], 1)],
        };
        assert_eq!(read(SAMPLE.as_bytes()), Ok(tables));
    }

    #[test]
    fn e7_gates_of_every_kind() {
        let tables = read(&sheet("H 1 1; N 1; N 2; A 1 2; A 3 4; O 5 6; R 7; Z 7")).unwrap();
        let gates = [
            gate(b'N', 1, 0),
            gate(b'N', 2, 0),
            gate(b'A', 1, 2),
            gate(b'A', 3, 4),
            gate(b'O', 5, 6),
        ];
        assert_eq!(tables.gates, gates);
        assert_eq!(tables.rules, [7]);
    }

    #[test]
    fn e9_empty_wish() {
        assert_eq!(read(&sheet("H; W; Z 2")).unwrap().wishes, [wish(&[], 1)]);
    }

    #[test]
    fn e11_sizes() {
        assert_eq!(outcome("H 20 16; Z 1"), (0, 0));
        assert_eq!(outcome("H 21 0; Z 1"), (BAD_SIZE, 1));
        assert_eq!(outcome("H 20 17; Z 1"), (BAD_SIZE, 1));
        assert_eq!(outcome("H -1 0; Z 1"), (BAD_SIZE, 1));
        assert_eq!(outcome("H 0 -1; Z 1"), (BAD_SIZE, 1));
    }

    #[test]
    fn e12_own_point() {
        assert_eq!(outcome("H 1 0; O 1 2; Z 2"), (BAD_FIELD, 2));
        assert_eq!(outcome("H 1 0; O 1 1; Z 2"), (0, 0));
    }

    #[test]
    fn e13_literal_count_and_end() {
        assert_eq!(outcome("H 1 0; W 0 1 0; Z 2"), (BAD_FIELD, 2));
        assert_eq!(outcome("H; Z 2"), (WRONG_COUNT, 2));
        assert_eq!(outcome("H"), (WRONG_LETTER, 1));
    }

    #[test]
    fn lengths() {
        let small = sheet("H; Z 1");
        for length in (0..2 * LINE).filter(|&n| n != LINE) {
            assert_eq!(refused(&small[..length]), (BAD_LENGTH, 0), "{length}");
        }
        assert_eq!(refused(&small[..LINE]), (WRONG_LETTER, 1));

        let full = full_sheet(MAX_GATES, MAX_RULES, MAX_WISHES);
        assert_eq!((full.len(), MAX_BYTES), (11_660, 11_660));
        assert_eq!(refused(&full), (0, 0));
        assert_eq!(refused(&full[..11_659]), (BAD_LENGTH, 0));
        assert_eq!(refused(&[&full[..], b"\n"].concat()), (BAD_LENGTH, 0));
        assert_eq!(
            refused(&[&full[..], &full[..LINE]].concat()),
            (BAD_LENGTH, 0)
        );
    }

    fn full_sheet(gates: usize, rules: usize, wishes: usize) -> Vec<u8> {
        let mut short = "H 2 1; ".to_string();
        short += &"A 1 3; ".repeat(gates);
        short += &"R 3; ".repeat(rules);
        short += &"W -1 2; ".repeat(wishes);
        short += &format!("Z {}", 1 + gates + rules + wishes);
        sheet(&short)
    }

    #[test]
    fn one_too_many() {
        assert_eq!(refused(&full_sheet(401, 0, 0)), (TOO_MANY, 402));
        assert_eq!(refused(&full_sheet(401, 63, 64)), (TOO_MANY, 402));
        assert_eq!(refused(&full_sheet(401, 64, 64)), (BAD_LENGTH, 0));
        assert_eq!(refused(&full_sheet(7, 65, 0)), (TOO_MANY, 73));
        assert_eq!(refused(&full_sheet(7, 5, 65)), (TOO_MANY, 78));
        assert_eq!(refused(&full_sheet(0, 65, 65)), (TOO_MANY, 66));
        assert_eq!(refused(&full_sheet(0, 64, 65)), (TOO_MANY, 130));
    }

    #[test]
    fn letters_in_order() {
        for (short, line) in [
            ("N 1; Z 1", 1),
            ("Z 0", 1),
            ("Z 0; H", 1),
            ("H 1 0; H 1 0; Z 2", 2),
            ("H 1 0; R 1; N 1; Z 3", 3),
            ("H 1 0; W 1; R 1; Z 3", 3),
            ("H 1 0; W 1; N 1; Z 3", 3),
            ("H 1 0; Z 1; Z 2", 2),
            ("H 1 0; N 1; R 1", 3),
            ("H 1 0; N 1; H 1 0", 3),
        ] {
            assert_eq!(outcome(short), (WRONG_LETTER, line), "{short}");
        }
        assert_eq!(outcome("H 1 0; W 1; Z 2"), (0, 0));
        assert_eq!(outcome("H 1 0; N 1; W 1; Z 3"), (0, 0));
    }

    #[test]
    fn points_literals_and_unused_fields() {
        for (short, line) in [
            ("H 1 1 1; Z 1", 1),
            ("H 1 1 0 1; Z 1", 1),
            ("H 1 1; N 3; Z 2", 2),
            ("H 1 1; N 0; Z 2", 2),
            ("H 1 1; N -1; Z 2", 2),
            ("H 1 1; N 1 1; Z 2", 2),
            ("H 1 1; N 1 0 1; Z 2", 2),
            ("H 1 1; N 1 0 0 1; Z 2", 2),
            ("H 1 1; A 1 0; Z 2", 2),
            ("H 1 1; A 0 1; Z 2", 2),
            ("H 1 1; A 1 2 1; Z 2", 2),
            ("H 1 1; O 1 2 0 -1; Z 2", 2),
            ("H 1 1; N 1; O 3 4; Z 3", 3),
            ("H 1 1; N 1; R 4; Z 3", 3),
            ("H 1 1; R 0; Z 2", 2),
            ("H 1 1; R 1 1; Z 2", 2),
            ("H 1 1; R 1 0 1; Z 2", 2),
            ("H 1 1; R 1 0 0 999; Z 2", 2),
            ("H 1 1; W 2; Z 2", 2),
            ("H 1 1; W 1 -2; Z 2", 2),
            ("H 1 1; W 0 0 1; Z 2", 2),
            ("H 1 1; W 1 0 1; Z 2", 2),
            ("H; W 1; Z 2", 2),
            ("H; N 1; Z 2", 2),
            ("H; R 1; Z 2", 2),
            ("H; Z 1 1", 2),
            ("H; Z 1 0 1", 2),
            ("H; Z 1 0 0 1", 2),
        ] {
            assert_eq!(outcome(short), (BAD_FIELD, line), "{short}");
        }
        assert_eq!(
            outcome("H 1 1; N 1; O 3 3; R 4; R 1; R 2; W 1 -1 1; W; Z 8"),
            (0, 0)
        );
    }

    #[test]
    fn weights() {
        let read = read(&sheet("H 2 0; W 1 0 0 999; W -2 1 0 20; W; W 1 2 1 1; Z 5")).unwrap();
        let wishes = [
            wish(&[1], 999),
            wish(&[-2, 1], 20),
            wish(&[], 1),
            wish(&[1, 2, 1], 1),
        ];
        assert_eq!(read.wishes, wishes);
        for weight in [0, -1, -999, -9_999, 1_000, 1_001, 9_999, 10_000, 99_999] {
            let short = format!("H 1 0; W 1; W -1 0 0 {weight}; Z 3");
            assert_eq!(outcome(&short), (BAD_WEIGHT, 3), "{weight}");
        }
    }

    /// A sheet without the fourth numbers, whose lines have 17 bytes.
    #[test]
    fn lines_of_three_numbers() {
        let at_the_line_feed = Refusal {
            number: MALFORMED,
            place: 1,
            column: 17,
        };
        for lines in 2..=66 {
            let wishes = "W 1; ".repeat(lines - 2);
            let whole = sheet(&format!("H 2 1; {wishes} Z {}", lines - 1));
            let short = without_fourth_numbers(&whole);
            match lines % LINE {
                0 => assert_eq!(read(&short), Err(at_the_line_feed)),
                _ => assert_eq!(refused(&short), (BAD_LENGTH, 0)),
            }
        }
    }

    #[test]
    fn order_of_causes() {
        // Within a line: 2 before 3 before 4 before 5 before 6 before 7 and 14.
        assert_eq!(
            refused(b"W    1    2   03    0\nZ    1    0    0    0\n"),
            (MALFORMED, 1)
        );
        assert_eq!(
            refused(b"H   21    2    0    0\rZ    1    0    0    0\n"),
            (MALFORMED, 1)
        );
        assert_eq!(outcome("W 1 0 0 0; Z 1"), (WRONG_LETTER, 1));
        assert_eq!(outcome("H 1 0; W 1 0 0 0; R 1; Z 3"), (BAD_WEIGHT, 2));
        assert_eq!(outcome("H 1 0; W 2 0 0 0; Z 2"), (BAD_FIELD, 2));
        assert_eq!(outcome("H 1 0; W 0 1 0 1000; Z 2"), (BAD_FIELD, 2));
        assert_eq!(outcome("H 1 0; W 1 0 0 0; W 2; Z 9"), (BAD_WEIGHT, 2));
        assert_eq!(outcome("H 1 0; W 2; W 1 0 0 0; Z 9"), (BAD_FIELD, 2));
        assert_eq!(outcome("H 21 17 1"), (WRONG_LETTER, 1));
        assert_eq!(outcome("H 21 0 1; Z 1"), (BAD_SIZE, 1));
        assert_eq!(outcome("H 1 0; R 9; N 9; Z 9"), (BAD_FIELD, 2));
        assert_eq!(outcome("H 1 0; R 1; N 9; Z 9"), (WRONG_LETTER, 3));
        assert_eq!(outcome("H 1 0; Z 9 9; Z 9 9"), (WRONG_LETTER, 2));
        assert_eq!(outcome("H 1 0; Z 9 9"), (BAD_FIELD, 2));
        assert_eq!(outcome("H 1 0; Z -1"), (WRONG_COUNT, 2));
        // The 401st gate, also with a point that is not allowed, after a rule, or as last line.
        let gates = "A 1 2; ".repeat(400);
        assert_eq!(
            outcome(&format!("H 2 0; {gates} A 0 0 9; Z 0")),
            (TOO_MANY, 402)
        );
        assert_eq!(
            outcome(&format!("H 2 0; {gates} R 1; A 0 0 9; Z 0")),
            (WRONG_LETTER, 403)
        );
        assert_eq!(
            outcome(&format!("H 2 0; {gates} A 1 1")),
            (WRONG_LETTER, 402)
        );
        let wishes = "W 1; ".repeat(64);
        assert_eq!(
            outcome(&format!("H 1 0; {wishes} W 9 0 0 0; Z 0")),
            (TOO_MANY, 66)
        );
        // An earlier line comes first, whatever its number.
        assert_eq!(outcome("H 1 0; W 2; H; Z 9"), (BAD_FIELD, 2));
    }

    #[test]
    fn field_texts() {
        for text in [
            "     ",
            "    -",
            "   -0",
            "   00",
            "   01",
            "  -01",
            "00000",
            "-0000",
            "   +1",
            "1    ",
            "   1 ",
            "  1 1",
            " -  1",
            "   1-",
            "  --1",
            "-    ",
            "    x",
            "  1.0",
            "\t   1",
            "   1\0",
            "   1\n",
            "    \u{7f}",
        ] {
            assert_eq!(number(text.as_bytes()), None, "{text:?}");
        }
        assert_eq!(number(b"   \xb11"), None);
        assert_eq!(number("  \u{0661}1".as_bytes()), None);
        for n in MIN_NUMBER..=MAX_NUMBER {
            assert_eq!(number(format!("{n:>COLUMNS$}").as_bytes()), Some(n));
        }
    }

    #[test]
    fn no_other_field_texts() {
        // Every text over the signs that occur in numbers: right exactly if writing the number
        // that it stands for gives the text again.
        const SIGNS: &[u8] = b" -+0123456789";
        let mut accepted = 0;
        for code in 0..SIGNS.len().pow(COLUMNS as u32) {
            let mut rest = code;
            let text: Vec<u8> = (0..COLUMNS)
                .map(|_| {
                    let sign = SIGNS[rest % SIGNS.len()];
                    rest /= SIGNS.len();
                    sign
                })
                .collect();
            if let Some(n) = number(&text) {
                assert_eq!(format!("{n:>COLUMNS$}").as_bytes(), text);
                accepted += 1;
            }
        }
        assert_eq!(accepted, MAX_NUMBER - MIN_NUMBER + 1);
    }

    /// The signs of numbers, in the order in which endings are tried.
    const NUMBER_SIGNS: &[u8] = b"0123456789 -";

    /// Whether some ending makes a well-formed line of this text: every ending of the field begun
    /// is tried, with the number 0 in the fields after it.
    fn can_be_ended(text: &[u8]) -> bool {
        if text.len() == LINE {
            return split(text).is_some();
        }
        let missing = (LINE - 1 - text.len()) % COLUMNS;
        let mut line = [text, &b"H    0    0    0    0\n"[text.len()..]].concat();
        (0..NUMBER_SIGNS.len().pow(missing as u32)).any(|code| {
            let mut rest = code;
            for byte in &mut line[text.len()..text.len() + missing] {
                *byte = NUMBER_SIGNS[rest % NUMBER_SIGNS.len()];
                rest /= NUMBER_SIGNS.len();
            }
            split(&line).is_some()
        })
    }

    #[test]
    fn malformed_lines() {
        for malformed in MALFORMED_LINES {
            for place in 1..=LINES_AROUND {
                let got = read(&malformed.sheet(place));
                let expected = Err(malformed.refusal(place));
                assert_eq!(got, expected, "{}, line {place}", malformed.why);
            }
        }
        let columns: HashSet<usize> = MALFORMED_LINES.iter().map(|m| m.column).collect();
        assert_eq!(columns, (1..=LINE).collect());
    }

    /// Every byte in every column of some lines: where the damaged line is malformed, its beginnings
    /// before the column can be ended, and the one up to the column cannot.
    #[test]
    fn every_damage_of_one_byte() {
        for line in [b"A   10   -7    0  999\n", b"W-9999  20899999-1234\n"] {
            let mut malformed = [0; LINE + 1];
            for (at, byte) in (0..LINE).flat_map(|at| (0..=255).map(move |byte| (at, byte))) {
                let mut damaged = *line;
                damaged[at] = byte;
                if split(&damaged).is_some() {
                    continue;
                }
                let naive = (1..=LINE).find(|&c| !can_be_ended(&damaged[..c]));
                let got = column(&damaged);
                assert_eq!(Some(got), naive, "{}", damaged.escape_ascii());
                malformed[got] += 1;
            }
            assert!(malformed[1..].iter().all(|&n| n >= 240), "{malformed:?}");
        }
    }

    #[test]
    fn example_files() {
        let sample: &[u8] = include_bytes!("../../examples/sample.sheet");
        assert_eq!(
            sample,
            sheet("H 2 2; O 1 2; O 3 4; O 5 6; R 7; W -1; W -2; Z 7")
        );
        let redundant = read(include_bytes!("../../examples/redundant-box.sheet")).unwrap();
        assert_eq!((redundant.switches, redundant.faults), (6, 6));
        assert_eq!(
            refused(include_bytes!("../../examples/no-plan.sheet")),
            (0, 0)
        );
        assert_eq!(
            read(include_bytes!("../../examples/malformed.sheet")),
            Err(Refusal {
                number: MALFORMED,
                place: 4,
                column: 15
            })
        );
    }
}
