//! Tables with their outcomes worked out by hand, for the second writer and the library alike.

use super::{Written, TOO_SHORT};
use crate::generate::sheet;
use crate::oracle::{
    BAD_FIELD, BAD_SIZE, BAD_WEIGHT, MAX_BYTES, MAX_GATES, MAX_RULES, MAX_WISHES, TOO_MANY,
};
use crate::tables::Tables;

pub struct Case {
    pub why: &'static str,
    pub tables: Tables,
    /// The bytes lent.
    pub room: usize,
    /// The number and the place, or the sheet.
    outcome: Result<Vec<u8>, (u32, usize)>,
}

impl Case {
    pub fn written(&self) -> Written {
        match &self.outcome {
            Ok(sheet) => Written {
                length: sheet.len(),
                ..Written::default()
            },
            Err((number, place)) => Written {
                number: *number,
                place: *place,
                ..Written::default()
            },
        }
    }

    /// What the buffer holds afterwards, if it was filled with this byte.
    pub fn buffer(&self, filling: u8) -> Vec<u8> {
        let mut buffer = self.outcome.clone().unwrap_or_default();
        buffer.resize(self.room, filling);
        buffer
    }
}

/// The sheet of [`base`].
const BASE: &str = "H 2 1; N 3; A 1 4; O 5 2; R 6; R 1; W 1 -2 2 999; W -1 0 0 20; W; Z 9";
/// Its length.
const NEED: usize = 220;

const N: u32 = b'N' as u32;
const A: u32 = b'A' as u32;
const O: u32 = b'O' as u32;

/// Two switches (points 1, 2), one fault (3), the gates 4, 5, 6 on lines 2 to 4, two rules on lines 5
/// and 6, three wishes on lines 7 to 9.
fn base() -> Tables {
    let mut tables = Tables {
        switches: 2,
        faults: 1,
        gates: 3,
        rules: 2,
        wishes: 3,
        ..Tables::default()
    };
    tables.gate[..3].copy_from_slice(&[[N, 3, 0], [A, 1, 4], [O, 5, 2]]);
    tables.rule[..2].copy_from_slice(&[6, 1]);
    tables.wish[..3].copy_from_slice(&[[2, 5, 4, 999], [3, 0, 0, 20], [0, 0, 0, 1]]);
    tables
}

/// So many entries of each part, as far as there is room for them.
fn many(gates: u32, rules: u32, wishes: u32) -> Tables {
    let mut tables = Tables {
        switches: 20,
        faults: 16,
        gates,
        rules,
        wishes,
        ..Tables::default()
    };
    let [gates, rules, wishes] = tables.held();
    for (gate, left) in tables.gate[..gates].iter_mut().zip(36..) {
        *gate = [O, left, 1];
    }
    tables.rule[..rules].fill(436);
    tables.wish[..wishes].fill([41, 40, 2, 999]);
    tables
}

fn full() -> Tables {
    many(MAX_GATES as u32, MAX_RULES as u32, MAX_WISHES as u32)
}

/// The sheet of [`full`].
fn full_sheet() -> String {
    let gates: String = (36..436).map(|left| format!("O {left} 1; ")).collect();
    let rules = "R 436; ".repeat(MAX_RULES);
    let wishes = "W -20 20 1 999; ".repeat(MAX_WISHES);
    format!("H 20 16; {gates}{rules}{wishes}Z 529")
}

/// How the tables of [`base`] are refused after a change, with room and without.
type Refused = (&'static str, fn(&mut Tables), u32, usize);

#[rustfmt::skip]
const REFUSED: &[Refused] = &[
    ("21 switches", |t| t.switches = 21, BAD_SIZE, 1),
    ("17 faults", |t| t.faults = 17, BAD_SIZE, 1),
    ("2^32 - 1 switches", |t| t.switches = u32::MAX, BAD_SIZE, 1),
    ("2^16 + 1 faults", |t| t.faults = 0x1_0001, BAD_SIZE, 1),
    ("21 switches, and every line wrong", |t| {
        *t = Tables { switches: 21, gates: 500, rules: 500, wishes: 500, ..Tables::default() }
    }, BAD_SIZE, 1),
    ("a kind in a small letter", |t| t.gate[1][0] = b'a'.into(), BAD_FIELD, 3),
    ("the letter of a rule as a kind", |t| t.gate[0][0] = b'R'.into(), BAD_FIELD, 2),
    ("0 as a kind", |t| t.gate[2][0] = 0, BAD_FIELD, 4),
    ("a kind of 2^8 and a letter", |t| t.gate[1][0] = 0x100 + A, BAD_FIELD, 3),
    ("a kind of 2^31 and a letter", |t| t.gate[2][0] = 0x8000_0000 + O, BAD_FIELD, 4),
    ("N with a second point", |t| t.gate[0][2] = 1, BAD_FIELD, 2),
    ("N with point 0", |t| t.gate[0][1] = 0, BAD_FIELD, 2),
    ("A without a second point", |t| t.gate[1][2] = 0, BAD_FIELD, 3),
    ("O with point 0 first", |t| t.gate[2][1] = 0, BAD_FIELD, 4),
    ("a gate that names itself first", |t| t.gate[1][1] = 5, BAD_FIELD, 3),
    ("a gate that names itself second", |t| t.gate[2][2] = 6, BAD_FIELD, 4),
    ("a gate that names a later one", |t| t.gate[0][1] = 6, BAD_FIELD, 2),
    ("a point of 2^16 + 1", |t| t.gate[1][1] = 0x1_0001, BAD_FIELD, 3),
    ("a point of 2^31 + 1", |t| t.gate[1][2] = 0x8000_0001, BAD_FIELD, 3),
    ("rule with point 0", |t| t.rule[0] = 0, BAD_FIELD, 5),
    ("rule with a point that is not there", |t| t.rule[1] = 7, BAD_FIELD, 6),
    ("-0 as first literal", |t| t.wish[1][0] = 1, BAD_FIELD, 8),
    ("-0 as second literal", |t| t.wish[1][1] = 1, BAD_FIELD, 8),
    ("-0 as third literal", |t| t.wish[0][2] = 1, BAD_FIELD, 7),
    ("-0 in an empty wish", |t| t.wish[2][2] = 1, BAD_FIELD, 9),
    ("a literal of switch 3", |t| t.wish[1][0] = 6, BAD_FIELD, 8),
    ("a negative literal of switch 3", |t| t.wish[0][2] = 7, BAD_FIELD, 7),
    ("a literal of 2^31 + 2", |t| t.wish[0][0] = 0x8000_0002, BAD_FIELD, 7),
    ("a literal after a 0", |t| t.wish[1][2] = 2, BAD_FIELD, 8),
    ("a literal after two zeros", |t| t.wish[2][2] = 4, BAD_FIELD, 9),
    ("two literals after a 0", |t| t.wish[0][0] = 0, BAD_FIELD, 7),
    ("a gate that is all 0", |t| t.gates = 4, BAD_FIELD, 5),
    ("a rule that is 0", |t| t.rules = 3, BAD_FIELD, 7),
    ("2^32 - 1 gates", |t| t.gates = u32::MAX, BAD_FIELD, 5),
    ("2^16 + 2 rules", |t| t.rules = 0x1_0002, BAD_FIELD, 7),
    ("a wish that is all 0", |t| t.wishes = 4, BAD_WEIGHT, 10),
    ("2^32 - 1 wishes", |t| t.wishes = u32::MAX, BAD_WEIGHT, 10),
    ("a weight of 0", |t| t.wish[0][3] = 0, BAD_WEIGHT, 7),
    ("a weight of 1000", |t| t.wish[1][3] = 1_000, BAD_WEIGHT, 8),
    ("a weight of 0 of an empty wish", |t| t.wish[2][3] = 0, BAD_WEIGHT, 9),
    ("a weight of 2^16 + 1", |t| t.wish[1][3] = 0x1_0001, BAD_WEIGHT, 8),
    ("a weight of 2^31 + 1", |t| t.wish[1][3] = 0x8000_0001, BAD_WEIGHT, 8),
    ("a weight of 2^32 - 1, which is -1", |t| t.wish[0][3] = u32::MAX, BAD_WEIGHT, 7),
    ("two wrong weights", |t| (t.wish[1][3], t.wish[2][3]) = (0, 0), BAD_WEIGHT, 8),
    ("a weight of 0, and a literal wrong before it", |t| t.wish[0] = [2, 0, 2, 0], BAD_FIELD, 7),
    ("a weight of 1000, and -0 before it", |t| t.wish[1] = [1, 0, 0, 1_000], BAD_FIELD, 8),
    ("a weight of 0, and the next wish wrong", |t| (t.wish[0][3], t.wish[1][0]) = (0, 1), BAD_WEIGHT, 7),
    ("a weight of 0, and a rule wrong before it", |t| (t.wish[0][3], t.rule[1]) = (0, 9), BAD_FIELD, 6),
    ("a wrong wish, and a rule wrong before it", |t| (t.wish[0][0], t.rule[1]) = (1, 9), BAD_FIELD, 6),
    ("405 gates", |t| *t = many(405, 0, 0), TOO_MANY, 402),
    ("405 gates, the third wrong", |t| {
        *t = many(405, 0, 0);
        t.gate[2][2] = 39;
    }, BAD_FIELD, 4),
    ("401 gates, the 400th wrong", |t| {
        *t = many(401, 0, 0);
        t.gate[399][0] = b'?'.into();
    }, BAD_FIELD, 401),
    ("2^32 - 1 gates of which all in the room are right", |t| *t = many(u32::MAX, 0, 0), TOO_MANY, 402),
    ("401 gates, and a rule wrong", |t| {
        *t = many(401, 1, 1);
        t.rule[0] = 0;
    }, TOO_MANY, 402),
    // A writer that goes on behind the room for gates finds one there.
    ("401 gates, and rules that would be a gate", |t| {
        *t = many(401, 3, 0);
        t.rule[..3].copy_from_slice(&[A, 1, 1]);
    }, TOO_MANY, 402),
    ("65 rules after 400 gates", |t| *t = many(400, 65, 64), TOO_MANY, 466),
    ("65 rules, a gate wrong", |t| {
        *t = many(400, 65, 0);
        t.gate[399][1] = 436;
    }, BAD_FIELD, 401),
    ("65 rules and 65 wishes", |t| *t = many(400, 65, 65), TOO_MANY, 466),
    ("65 wishes on full tables", |t| *t = many(400, 64, 65), TOO_MANY, 530),
    ("2^32 - 1 wishes of which all in the room are right", |t| *t = many(0, 0, u32::MAX), TOO_MANY, 66),
    ("65 wishes, the 64th wrong", |t| {
        *t = many(400, 64, 65);
        t.wish[63][1] = 42;
    }, BAD_FIELD, 529),
    ("65 wishes, the weight of the 64th wrong", |t| {
        *t = many(400, 64, 65);
        t.wish[63][3] = 0;
    }, BAD_WEIGHT, 529),
    ("a rule without any point", |t| {
        *t = Tables { rules: 1, ..Tables::default() };
        t.rule[0] = 1;
    }, BAD_FIELD, 2),
    ("a gate without any point", |t| {
        *t = Tables { gates: 1, ..Tables::default() };
        t.gate[0] = [N, 1, 0];
    }, BAD_FIELD, 2),
];

/// Tables that are written, after a change of [`base`], and their sheets.
type Right = (&'static str, fn(&mut Tables), &'static str);

#[rustfmt::skip]
const WRITTEN: &[Right] = &[
    ("the base", |_| {}, BASE),
    ("nothing at all", |t| *t = Tables::default(), "H; Z 1"),
    ("the largest sizes", |t| {
        *t = Tables { switches: 20, faults: 16, ..Tables::default() }
    }, "H 20 16; Z 1"),
    ("an empty wish without switches", |t| {
        *t = Tables { wishes: 1, ..Tables::default() };
        t.wish[0][3] = 7;
    }, "H; W 0 0 0 7; Z 2"),
    ("a gate that names a point twice", |t| t.gate[1] = [A, 4, 4],
        "H 2 1; N 3; A 4 4; O 5 2; R 6; R 1; W 1 -2 2 999; W -1 0 0 20; W; Z 9"),
    ("fewer gates and rules than there are", |t| (t.gates, t.rules) = (2, 0),
        "H 2 1; N 3; A 1 4; W 1 -2 2 999; W -1 0 0 20; W; Z 6"),
    ("wrong entries after the counted ones", |t| {
        t.gate[3..].fill([0, u32::MAX, 5]);
        t.rule[2..].fill(99);
        t.wish[3..].fill([0, 1, 5, 0]);
    }, BASE),
    ("equal wishes with different weights", |t| {
        *t = Tables { switches: 1, wishes: 3, ..Tables::default() };
        t.wish[..3].copy_from_slice(&[[3, 0, 0, 1], [3, 0, 0, 10], [3, 0, 0, 100]]);
    }, "H 1 0; W -1 0 0 1; W -1 0 0 10; W -1 0 0 100; Z 4"),
    ("no count, and entries", |t| (t.gates, t.rules, t.wishes) = (0, 0, 0), "H 2 1; Z 1"),
];

/// All cases, each with some rooms.
pub fn all() -> Vec<Case> {
    let mut cases = Vec::new();
    for &(why, change, number, place) in REFUSED {
        let mut tables = base();
        change(&mut tables);
        for room in [0, NEED, MAX_BYTES] {
            cases.push(Case {
                why,
                tables: tables.clone(),
                room,
                outcome: Err((number, place)),
            });
        }
    }
    let mut written: Vec<(&str, Tables, Vec<u8>)> = Vec::new();
    for &(why, change, short) in WRITTEN {
        let mut tables = base();
        change(&mut tables);
        written.push((why, tables, sheet(short)));
    }
    written.push(("full tables", full(), sheet(&full_sheet())));
    for (why, tables, sheet) in written {
        let need = sheet.len();
        for room in [0, 1, need - 1, need, need + 1, need + 100] {
            let outcome = if room < need {
                Err((TOO_SHORT, 0))
            } else {
                Ok(sheet.clone())
            };
            cases.push(Case {
                why,
                tables: tables.clone(),
                room,
                outcome,
            });
        }
    }
    cases
}

#[cfg(test)]
mod tests {
    use super::*;

    #[test]
    fn lengths() {
        assert_eq!(sheet(BASE).len(), NEED);
        assert_eq!(sheet(&full_sheet()).len(), MAX_BYTES);
    }
}
