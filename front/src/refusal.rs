//! A refusal in words: its number and cause, the line that it is about with a mark, and what to do.

use comzsered::{Cause, Refusal};

use crate::hints::{hints, Refused};
use crate::options::Form;
use crate::spot::{Spot, LINE};

/// What is said about a refused input of this name; several lines.
pub fn said(name: &str, form: Form, input: &[u8], refusal: &Refusal) -> String {
    let spot = Spot::of(input, refusal);
    let refused = Refused { input, form, spot };
    let mut said = format!("{name}: number {}: {refusal}", refusal.cause.number());
    if let Some(spot) = &refused.spot {
        for line in spot.shown().lines() {
            said += &format!("\n    {line}");
        }
    }
    let mut to_do: Vec<String> = hints(&refused).map(str::to_string).collect();
    if to_do.is_empty() {
        to_do.push(advice(&refused, refusal));
    }
    for words in to_do {
        said += &format!("\n  {words}");
    }
    said
}

/// What to do where no hint applies.
fn advice(refused: &Refused, refusal: &Refusal) -> String {
    let Refused { input, form, spot } = refused;
    let words = match (refusal.cause, form, spot) {
        _ if input.is_empty() => "It is empty: nothing was read.",
        _ if input.len() > form.most() => "Leave something out.",
        (Cause::BadLength, _, Some(spot)) => return length_advice(spot),
        (Cause::Malformed, ..) => malformed_advice(refusal.column),
        (Cause::BadOrder, ..) => {
            "The order is H, then gates (N, A, O), rules (R), wishes (W), and Z as the last line."
        }
        (Cause::OutOfRange, Form::Sheet, _) => {
            "The first number of H is that of the switches, its second that of the faults."
        }
        (Cause::OutOfRange, Form::Text, _) => "Change the number on this line.",
        (Cause::OverLimit, Form::Sheet, _) => {
            "Leave something out. An A gate makes one rule of two."
        }
        (Cause::OverLimit, Form::Text, _) => {
            "Leave something out. Each !, & and | is a gate; an & makes one rule of two."
        }
        (Cause::BadField, Form::Sheet, _) => {
            "A gate names points before its own, a rule any point, a wish switches: k on, -k off, \
             zeros last. What a line does not use is 0."
        }
        (Cause::BadField, Form::Text, _) => {
            "The number after an s is at most that of the first line, and after an f that of the \
             second."
        }
        (Cause::BadCount, _, Some(spot)) => return count_advice(spot),
        (Cause::BadWeight, Form::Sheet, _) => {
            "The fourth number of W is the weight of the wish. Where all weigh the same it is 1."
        }
        (Cause::BadWeight, Form::Text, _) => {
            "Change the number after 'weight', or leave both out: then the wish weighs 1."
        }
        (Cause::NoPlan, ..) => {
            "Whatever the switches, some combination of faults breaks a rule; those listed show \
             it. Leave out or weaken a rule, or add a switch."
        }
        (Cause::NoRoom, ..) => {
            "So it is open whether there is a plan. The program lists at most 4,096 combinations \
             of faults; a caller of the library can lend room for more (include/comzsered.h)."
        }
        (Cause::IllegalText, _, Some(spot)) => illegal_advice(spot),
        _ => "docs/FORMAT.md, \"Refusals\", tells about this number.",
    };
    words.to_string()
}

/// The first line of a wrong length.
fn length_advice(spot: &Spot) -> String {
    let (line, length, whole) = (spot.line, spot.bytes.len(), LINE - 1);
    format!(
        "Characters on line {line}: {length}. A line has {whole}: a letter and four numbers of \
         five columns."
    )
}

/// A malformed line that went wrong at this column.
fn malformed_advice(column: usize) -> &'static str {
    match column {
        1 => "A line begins with one of the letters H, N, A, O, R, W and Z.",
        LINE => "The line must end here: it has a letter and four numbers of five columns.",
        _ => {
            "A number ends in the last of its five columns (6, 11, 16 and 21) and has spaces \
             before it. It has no plus and no leading zero, and there is no -0."
        }
    }
}

/// A wrong `Z` line.
fn count_advice(spot: &Spot) -> String {
    let before = spot.line - 1;
    format!("The first number of Z counts the lines before it: here {before}.")
}

/// A line of a text that is not legal, by its keyword.
fn illegal_advice(spot: &Spot) -> &'static str {
    let is_after = |keyword: &[u8]| spot.column != Some(1) && spot.bytes.starts_with(keyword);
    if is_after(b"rule") {
        "After 'rule' and one space stands a formula: s and f numbers, !, &, | and brackets, at \
         most 32 deep. One space may stand between its parts, and none at its end. No number \
         begins with 0."
    } else if is_after(b"wish") {
        "After 'wish' stand one to three literals, as s1 or !s2, and then a weight, as weight 5, \
         or nothing. One space stands before each. There is no s0, and no number has a leading \
         zero."
    } else {
        "The lines are 'switches N', 'faults N', then each 'rule FORMULA', then each 'wish \
         LITERALS' or 'wish LITERALS weight N'. One space stands after a keyword, and no number has a leading zero."
    }
}

#[cfg(test)]
mod tests {
    use super::*;
    use comzsered::{read, SHEET_MAX, TEXT_MAX};

    /// What is said about an input that the library refuses.
    fn of(form: Form, input: &[u8]) -> String {
        let refusal = read(form.input(input)).unwrap_err();
        said("box", form, input, &refusal)
    }

    /// A sheet written short, as "H 1 0; Z 1": numbers left out are 0.
    fn sheet(short: &str) -> String {
        let mut bytes = String::new();
        for line in short.split(';') {
            let mut words = line.split_whitespace();
            bytes += words.next().expect("a letter");
            for _ in 0..4 {
                bytes += &format!("{:>5}", words.next().unwrap_or("0"));
            }
            bytes += "\n";
        }
        bytes
    }

    /// Sheets for every number and all of its advice, with some words of that.
    fn sheets() -> Vec<(u32, String, &'static str)> {
        let rules = "; R 1".repeat(65);
        let short_line = "H    0    0    0    0\nZ    1    0    0  0\n".to_string();
        vec![
            (1, String::new(), "It is empty"),
            (1, "H".repeat(SHEET_MAX + 1), "Leave something out."),
            (1, short_line, "Characters on line 2: 19. A line has 21"),
            (2, sheet("X"), "one of the letters"),
            (2, sheet("H 01"), "no leading zero"),
            (2, sheet("H").replace('\n', "0"), "The line must end here"),
            (3, sheet("H; H; Z 2"), "The order is H"),
            (4, sheet("H 21; Z 1"), "The first number of H"),
            (5, sheet(&format!("H 1{rules}; Z 66")), "An A gate"),
            (6, sheet("H 1; N 2; Z 2"), "A gate names points before"),
            (7, sheet("H; Z 7"), "here 1."),
            (14, sheet("H 1; W 1; Z 2"), "The fourth number of W"),
        ]
    }

    /// The same for texts; of each the first two lines are left out if they are right.
    fn texts() -> Vec<(u32, String, &'static str)> {
        let after = |lines: &str| format!("switches 1\nfaults 0\n{lines}");
        let rules = "rule s1\n".repeat(65);
        vec![
            (
                4,
                "switches 1\nfaults 17\n".to_string(),
                "Change the number",
            ),
            (5, after(&rules), "Each !, & and | is a gate"),
            (6, after("rule s2\n"), "that of the first line"),
            (12, String::new(), "It is empty"),
            (12, "x".repeat(TEXT_MAX + 1), "Leave something out."),
            (12, "switches 01\n".to_string(), "The lines are"),
            (12, after("wish s1\nrule s1\n"), "The lines are"),
            (12, after("rule s1  & s1\n"), "After 'rule'"),
            (12, after("wish s1 s1 s1 s1\n"), "After 'wish'"),
            (12, after("wish s1 weight 10000\n"), "After 'wish'"),
            (14, after("wish s1 weight 0\n"), "leave both out"),
        ]
    }

    #[test]
    fn every_number_of_the_readers() {
        for (form, cases) in [(Form::Sheet, sheets()), (Form::Text, texts())] {
            for (number, input, words) in cases {
                let said = of(form, input.as_bytes());
                let begin = format!("box: number {number}: ");
                assert!(said.starts_with(&begin), "{said}");
                assert!(said.contains(words), "{said}");
                // However long the input is, what is said stays short.
                assert!(said.len() < 500, "{said}");
            }
        }
    }

    /// What only a search can say, and a cause that no program tells.
    #[test]
    fn every_other_number() {
        for (cause, words) in [
            (Cause::NoPlan, "Whatever the switches"),
            (Cause::NoRoom, "it is open"),
            (Cause::HighPlan, "docs/FORMAT.md"),
        ] {
            let refusal = Refusal {
                cause,
                place: 0,
                column: 0,
            };
            let said = said("box", Form::Sheet, sheet("H; Z 1").as_bytes(), &refusal);
            assert!(said.contains(words), "{said}");
        }
    }

    #[test]
    fn whole() {
        assert_eq!(
            of(Form::Sheet, sheet("H 1; R 01; Z 2").as_bytes()),
            "box: number 2: line 2, column 5: no well-formed line begins like this\n    \
             R   01    0    0    0\n        \
             ^ line 2, column 5\n  \
             A number ends in the last of its five columns (6, 11, 16 and 21) and has spaces \
             before it. It has no plus and no leading zero, and there is no -0."
        );
        // Of a text the byte's line and column, and hints in place of the advice.
        assert_eq!(
            of(Form::Text, b"switches 1\r\nfaults 0\r\n"),
            "box: number 12: byte 11: no legal text goes on like this\n    \
             switches 1\\r\n              \
             ^ line 1, column 11\n  \
             The line ends in CR LF (\\r and a line feed), as Windows writes it: save the file \
             with the line ends of Unix, LF alone."
        );
        // A line without a column has no mark.
        assert_eq!(
            of(Form::Sheet, sheet("H; Z 7").as_bytes()),
            "box: number 7: line 2: the count of the lines before this one is wrong\n    \
             Z    7    0    0    0\n  \
             The first number of Z counts the lines before it: here 1."
        );
    }
}
