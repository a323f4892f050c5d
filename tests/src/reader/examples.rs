//! Sheets and texts with the tables that they give, or their refusals, worked out by hand.

use planner_tests::form::Form;
use planner_tests::generate::{sheet, without_fourth_numbers};
use planner_tests::malformed::placed;
use planner_tests::oracle::{Refusal, MAX_GATES, MAX_RULES, MAX_WISHES};
use planner_tests::tables::{Tables, WISH};
use planner_tests::typed::places;
use planner_tests::SAMPLE;

/// A sheet or text with its outcome worked out by hand.
pub struct Example {
    pub name: String,
    pub bytes: Vec<u8>,
    pub expected: Result<Tables, Refusal>,
}

pub fn all(form: Form) -> Vec<Example> {
    match form {
        Form::Sheet => accepted_sheets()
            .into_iter()
            .chain(refused_sheets())
            .chain(malformed())
            .collect(),
        Form::Text => accepted_texts()
            .into_iter()
            .chain(refused_texts())
            .collect(),
    }
}

fn accepted(name: &str, bytes: impl Into<Vec<u8>>, expected: Tables) -> Example {
    Example {
        name: name.into(),
        bytes: bytes.into(),
        expected: Ok(expected),
    }
}

fn refused(name: &str, bytes: Vec<u8>, number: u32, place: usize) -> Example {
    Example {
        name: name.into(),
        bytes,
        expected: Err(Refusal {
            number,
            place,
            column: 0,
        }),
    }
}

/// Tables with these entries.
fn tables(
    sizes: [u32; 2],
    gates: &[(u8, u32, u32)],
    rules: &[u32],
    wishes: &[[u32; WISH]],
) -> Tables {
    let mut tables = Tables {
        switches: sizes[0],
        faults: sizes[1],
        gates: gates.len() as u32,
        rules: rules.len() as u32,
        wishes: wishes.len() as u32,
        ..Tables::default()
    };
    for (words, &(letter, left, right)) in tables.gate.iter_mut().zip(gates) {
        *words = [letter.into(), left, right];
    }
    tables.rule[..rules.len()].copy_from_slice(rules);
    tables.wish[..wishes.len()].copy_from_slice(wishes);
    tables
}

fn sample_tables() -> Tables {
    let gates = [(b'O', 1, 2), (b'O', 3, 4), (b'O', 5, 6)];
    tables([2, 2], &gates, &[7], &[[3, 0, 0, 1], [5, 0, 0, 1]])
}

/// A sheet with so many lines of each part.
fn lines(gates: usize, rules: usize, wishes: usize) -> Vec<u8> {
    let short = "A 1 3; ".repeat(gates) + &"R 3; ".repeat(rules) + &"W -1 2 0 999; ".repeat(wishes);
    sheet(&format!("H 2 1; {short} Z {}", 1 + gates + rules + wishes))
}

fn accepted_sheets() -> Vec<Example> {
    let full = tables(
        [2, 1],
        &[(b'A', 1, 3); MAX_GATES],
        &[3; MAX_RULES],
        &[[3, 4, 0, 999]; MAX_WISHES],
    );
    vec![
        accepted("E2, the smallest sheet", sheet("H; Z 1"), Tables::default()),
        accepted("E3, the sample sheet", SAMPLE, sample_tables()),
        accepted(
            "E7, gates of every kind",
            sheet("H 1 1; N 1; N 2; A 1 2; A 3 4; O 5 6; R 7; Z 7"),
            tables(
                [1, 1],
                &[
                    (b'N', 1, 0),
                    (b'N', 2, 0),
                    (b'A', 1, 2),
                    (b'A', 3, 4),
                    (b'O', 5, 6),
                ],
                &[7],
                &[],
            ),
        ),
        accepted(
            "E11, 20 switches and 16 faults",
            sheet("H 20 16; Z 1"),
            tables([20, 16], &[], &[], &[]),
        ),
        accepted(
            "wishes of every length",
            sheet("H 20 0; W -20 20 1 2; W 3 -3 0 999; W 1 0 0 30; W; Z 5"),
            tables(
                [20, 0],
                &[],
                &[],
                &[[41, 40, 2, 2], [6, 7, 0, 999], [2, 0, 0, 30], [0, 0, 0, 1]],
            ),
        ),
        accepted(
            "equal wishes with different weights",
            sheet("H 1 0; W -1 0 0 1; W -1 0 0 10; W -1 0 0 100; Z 4"),
            tables(
                [1, 0],
                &[],
                &[],
                &[[3, 0, 0, 1], [3, 0, 0, 10], [3, 0, 0, 100]],
            ),
        ),
        accepted(
            "length 11,660, all limits met",
            lines(MAX_GATES, MAX_RULES, MAX_WISHES),
            full,
        ),
    ]
}

fn refused_sheets() -> Vec<Example> {
    let smallest = sheet("H; Z 1");
    let twenty_two = sheet(&format!("H 1 0; {}Z 21", "W 1; ".repeat(20)));
    let one_more_byte = [&lines(MAX_GATES, MAX_RULES, MAX_WISHES)[..], b"\n"].concat();
    vec![
        refused("E1, the empty sheet", vec![], 1, 0),
        refused("E11, 21 switches", sheet("H 21 0; Z 1"), 4, 1),
        refused("E11, 17 faults", sheet("H 20 17; Z 1"), 4, 1),
        refused("E12, a gate names itself", sheet("H 1 0; O 1 2; Z 2"), 6, 2),
        refused(
            "E13, a literal after a 0",
            sheet("H 1 0; W 0 1 0; Z 2"),
            6,
            2,
        ),
        refused("E13, a wrong count", sheet("H; Z 2"), 7, 2),
        refused("E13, H alone", sheet("H"), 3, 1),
        refused("length 1", b"H".to_vec(), 1, 0),
        refused("length 21", smallest[..21].to_vec(), 1, 0),
        refused("length 22", smallest[..22].to_vec(), 3, 1),
        refused("length 11,661", one_more_byte, 1, 0),
        refused("length 11,682, gate 401", lines(401, 64, 64), 1, 0),
        refused("gate 401", lines(401, 0, 0), 5, 402),
        refused("rule 65", lines(3, 65, 0), 5, 69),
        refused("wish 65", lines(3, 2, 65), 5, 71),
        refused("a weight of 0", sheet("H 1 0; W 1; W 1 0 0 0; Z 3"), 14, 3),
        refused("a weight of -1", sheet("H 1 0; W 1 0 0 -1; Z 2"), 14, 2),
        refused("a weight of 1000", sheet("H 1 0; W 1 0 0 1000; Z 2"), 14, 2),
        refused("a weight of 99999", sheet("H; W 0 0 0 99999; Z 2"), 14, 2),
        refused(
            "a weight of 0 and a wrong literal",
            sheet("H 1 0; W 2 0 0 0; Z 2"),
            6,
            2,
        ),
        refused("a rule with a weight", sheet("H 1 0; R 1 0 0 1; Z 2"), 6, 2),
        refused(
            "two lines without a fourth number",
            without_fourth_numbers(&smallest),
            1,
            0,
        ),
        Example {
            name: "22 lines without a fourth number".into(),
            bytes: without_fourth_numbers(&twenty_two),
            expected: Err(Refusal {
                number: 2,
                place: 1,
                column: 17,
            }),
        },
    ]
}

/// A sheet with each malformed line.
fn malformed() -> Vec<Example> {
    placed()
        .map(|(malformed, place)| Example {
            name: format!("{} at line {place}", malformed.why),
            bytes: malformed.sheet(place),
            expected: Err(malformed.refusal(place)),
        })
        .collect()
}

/// Texts, with their gates in the order in which the operators are complete.
fn accepted_texts() -> Vec<Example> {
    let lane_four = tables(
        [3, 3],
        &[
            (b'N', 4, 0),
            (b'A', 1, 2),
            (b'O', 7, 8),
            (b'N', 5, 0),
            (b'A', 3, 10),
            (b'O', 9, 11),
            (b'O', 12, 6),
            (b'N', 6, 0),
            (b'O', 14, 3),
            (b'O', 15, 5),
        ],
        &[13, 16],
        &[[2, 0, 0, 5], [5, 0, 0, 1], [7, 0, 0, 3]],
    );
    let of_three = |formula: &str, gates: &[(u8, u32, u32)], rule| {
        let text = format!("switches 3\nfaults 2\nrule {formula}\n");
        accepted(formula, text, tables([3, 2], gates, &[rule], &[]))
    };
    vec![
        accepted("nothing", "switches 0\nfaults 0\n", Tables::default()),
        accepted(
            "the sample typed",
            include_str!("../../../examples/sample.text"),
            sample_tables(),
        ),
        accepted(
            "lane four typed",
            include_str!("../../../examples/lane-four.text"),
            lane_four,
        ),
        accepted(
            "literals and weights",
            "switches 20\nfaults 0\nwish !s20 s20 s1 weight 999\nwish s3 !s3 weight 1\nwish s1\n",
            tables(
                [20, 0],
                &[],
                &[],
                &[[41, 40, 2, 999], [6, 7, 0, 1], [2, 0, 0, 1]],
            ),
        ),
        of_three("f2", &[], 5),
        of_three("s1|s2|s3", &[(b'O', 1, 2), (b'O', 6, 3)], 7),
        of_three("s1|(s2|s3)", &[(b'O', 2, 3), (b'O', 1, 6)], 7),
        of_three(
            "s1&s2|s3&f1",
            &[(b'A', 1, 2), (b'A', 3, 4), (b'O', 6, 7)],
            8,
        ),
        of_three("!(s1|!f2)", &[(b'N', 5, 0), (b'O', 1, 6), (b'N', 7, 0)], 8),
        of_three("!s1&!s1", &[(b'N', 1, 0), (b'N', 1, 0), (b'A', 6, 7)], 8),
    ]
}

/// The texts whose places are worked out by hand.
fn refused_texts() -> Vec<Example> {
    let cases = places::placed().into_iter();
    let refused = cases.filter_map(|case| {
        let refusal = case.refusal()?;
        Some(Example {
            name: case.why.into(),
            bytes: case.bytes,
            expected: Err(refusal),
        })
    });
    refused.collect()
}
