//! A second writer of sheets, in the plainest way, by the rules of docs/FORMAT.md alone. The proved
//! writer is compared with it, so it shares no code and no method with that one.

pub mod cases;
pub mod check;
pub mod generate;
#[cfg(test)]
mod wrong;

use crate::oracle::{
    Refusal, BAD_FIELD, BAD_SIZE, BAD_WEIGHT, COLUMNS, FIELDS, MAX_FAULTS, MAX_GATES, MAX_RULES,
    MAX_SWITCHES, MAX_WISHES, TOO_MANY, WEIGHTS,
};
use crate::tables::{word_of, Tables};

/// The refusal of a buffer that is too short, the last in the order of refusals.
pub const TOO_SHORT: u32 = 13;

/// What writing returns.
#[derive(Clone, Copy, Debug, Default, PartialEq, Eq)]
pub struct Written {
    pub number: u32,
    pub place: usize,
    pub column: usize,
    pub length: usize,
}

/// The sheet of tables, or why they are refused, whatever the buffer.
pub type Outcome = Result<Vec<u8>, Refusal>;

fn refuse<T>(number: u32, place: usize) -> Result<T, Refusal> {
    Err(Refusal {
        number,
        place,
        column: 0,
    })
}

/// Makes the line of an entry, counted from 0, or tells the number that it is refused with.
type Entry = fn(&Tables, usize) -> Result<String, u32>;

/// The sheet of these tables. A line is tested where it would stand: after those before it.
pub fn sheet(tables: &Tables) -> Outcome {
    if tables.switches > MAX_SWITCHES as u32 || tables.faults > MAX_FAULTS as u32 {
        return refuse(BAD_SIZE, 1);
    }
    let mut lines = vec![line('H', &[tables.switches as i32, tables.faults as i32])];
    let parts: [(u32, usize, Entry); 3] = [
        (tables.gates, MAX_GATES, gate),
        (tables.rules, MAX_RULES, rule),
        (tables.wishes, MAX_WISHES, wish),
    ];
    for (count, most, entry) in parts {
        for i in 0..count as usize {
            let place = lines.len() + 1;
            if i == most {
                return refuse(TOO_MANY, place);
            }
            match entry(tables, i) {
                Ok(line) => lines.push(line),
                Err(number) => return refuse(number, place),
            }
        }
    }
    lines.push(line('Z', &[lines.len() as i32]));
    Ok(lines.concat().into_bytes())
}

/// A line with these numbers, and zeros after them.
fn line(letter: char, used: &[i32]) -> String {
    let mut fields = [0; FIELDS];
    fields[..used.len()].copy_from_slice(used);
    let [a, b, c, d] = fields;
    format!("{letter}{a:>COLUMNS$}{b:>COLUMNS$}{c:>COLUMNS$}{d:>COLUMNS$}\n")
}

fn gate(tables: &Tables, i: usize) -> Result<String, u32> {
    let [kind, left, right] = tables.gate[i];
    let kind = u8::try_from(kind).map_err(|_| BAD_FIELD)?;
    let points_before = 1..=tables.switches + tables.faults + i as u32;
    let right_allowed = match kind {
        b'N' => right == 0,
        b'A' | b'O' => points_before.contains(&right),
        _ => false,
    };
    if !right_allowed || !points_before.contains(&left) {
        return Err(BAD_FIELD);
    }
    Ok(line(kind.into(), &[left as i32, right as i32]))
}

/// All gates stand before a rule.
fn rule(tables: &Tables, i: usize) -> Result<String, u32> {
    let point = tables.rule[i];
    let points = 1..=tables.switches + tables.faults + tables.gates;
    match points.contains(&point) {
        true => Ok(line('R', &[point as i32])),
        false => Err(BAD_FIELD),
    }
}

fn wish(tables: &Tables, i: usize) -> Result<String, u32> {
    let [first, second, third, weight] = tables.wish[i];
    let number = |word: u32| match word {
        0 => Ok(0),
        _ => literals(tables.switches)
            .find(|&l| word_of(l) == word)
            .ok_or(BAD_FIELD),
    };
    let [first, second, third] = [number(first)?, number(second)?, number(third)?];
    if (first == 0 && second != 0) || (second == 0 && third != 0) {
        return Err(BAD_FIELD);
    }
    if !WEIGHTS.contains(&weight) {
        return Err(BAD_WEIGHT);
    }
    Ok(line('W', &[first, second, third, weight as i32]))
}

/// All literals that there are with so many switches.
fn literals(switches: u32) -> impl Iterator<Item = i32> {
    (1..=switches as i32).flat_map(|k| [k, -k])
}

/// Puts a sheet into the buffer's front, if it has room.
pub fn put(outcome: &Outcome, out: &mut [u8]) -> Written {
    match outcome {
        Err(refusal) => Written::from(*refusal),
        Ok(sheet) if sheet.len() > out.len() => Written {
            number: TOO_SHORT,
            ..Written::default()
        },
        Ok(sheet) => {
            out[..sheet.len()].copy_from_slice(sheet);
            Written {
                length: sheet.len(),
                ..Written::default()
            }
        }
    }
}

impl From<Refusal> for Written {
    fn from(refusal: Refusal) -> Written {
        Written {
            number: refusal.number,
            place: refusal.place,
            column: refusal.column,
            length: 0,
        }
    }
}

#[cfg(test)]
mod tests {
    use super::generate::made_tables;
    use super::*;
    use crate::generate::string;
    use crate::oracle::{self, MAX_LINES, MAX_NUMBER, MIN_NUMBER};
    use std::iter::repeat;

    /// The counted entries, with right ones where there is no room for more; none if they are too
    /// many for a sheet.
    fn entries<T: Copy>(room: &[T], count: u32, more: T) -> Option<impl Iterator<Item = T> + '_> {
        let count = usize::try_from(count).ok().filter(|&n| n < MAX_LINES)?;
        Some(room.iter().copied().chain(repeat(more)).take(count))
    }

    /// The lines of tables as they would stand on a sheet, allowed or not; none if they are too many or
    /// a word cannot stand in a field.
    fn lines_of(tables: &Tables) -> Option<Vec<u8>> {
        let field = |word: u32| i32::try_from(word).ok().filter(|&n| n <= MAX_NUMBER);
        // No field holds -0.
        let literal = |word: u32| match (field(word / 2)?, word % 2) {
            (k, 0) => Some(k),
            (k, _) => Some(-k).filter(|&n| (MIN_NUMBER..0).contains(&n)),
        };
        let head = [field(tables.switches)?, field(tables.faults)?];
        let mut lines = vec![line('H', &head)];
        let more = [u32::from(b'N'), 1, 0];
        for [kind, left, right] in entries(&tables.gate, tables.gates, more)? {
            let kind = u8::try_from(kind)
                .ok()
                .filter(|kind| b"NAO".contains(kind))?;
            lines.push(line(kind.into(), &[field(left)?, field(right)?]));
        }
        for point in entries(&tables.rule, tables.rules, 1)? {
            lines.push(line('R', &[field(point)?]));
        }
        let more = [0, 0, 0, 1];
        for [first, second, third, weight] in entries(&tables.wish, tables.wishes, more)? {
            let literals = [literal(first)?, literal(second)?, literal(third)?];
            let fields = [&literals[..], &[field(weight)?]].concat();
            lines.push(line('W', &fields));
        }
        lines.push(line('Z', &[lines.len() as i32]));
        (lines.len() <= MAX_LINES).then(|| lines.concat().into_bytes())
    }

    /// Tables are tested as the reader tests the sheet that they would give.
    #[test]
    fn as_the_reader() {
        let mut outcomes = [0; BAD_WEIGHT as usize + 1];
        for index in 0..12_000 {
            let tables = made_tables(1, index).tables;
            let Some(bytes) = lines_of(&tables) else {
                continue;
            };
            let read = oracle::read(&bytes);
            assert_eq!(
                sheet(&tables).map(|_| ()),
                read.clone().map(|_| ()),
                "{index}"
            );
            match read {
                Ok(read) => {
                    assert_eq!(sheet(&tables), Ok(bytes), "{index}");
                    assert_eq!(read, tables.said(), "{index}");
                    outcomes[0] += 1;
                }
                Err(refusal) => outcomes[refusal.number as usize] += 1,
            }
        }
        for number in [0, BAD_SIZE, TOO_MANY, BAD_FIELD, BAD_WEIGHT] {
            assert!(outcomes[number as usize] >= 300, "{outcomes:?}");
        }
    }

    /// The tables of each accepted sheet are written as that sheet.
    #[test]
    fn sheets_again() {
        let mut accepted = 0;
        for index in 0..8_000 {
            let bytes = string(1, index);
            if let Ok(read) = oracle::read(&bytes) {
                let tables = Tables::of(&read);
                assert_eq!(tables.said(), read, "{index}");
                assert_eq!(sheet(&tables), Ok(bytes), "{index}");
                accepted += 1;
            }
        }
        assert!(accepted >= 500, "{accepted}");
    }

    #[test]
    fn by_hand() {
        for case in cases::all() {
            let mut out = vec![b'?'; case.room];
            let written = put(&sheet(&case.tables), &mut out);
            assert_eq!(
                (written, out),
                (case.written(), case.buffer(b'?')),
                "{}",
                case.why
            );
        }
    }
}
