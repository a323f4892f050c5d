//! Texts with their outcomes worked out by hand: accepted, or refused with a number and a place. A
//! text that is not legal stands here in two parts, which meet where it ceases to be the beginning of
//! a legal one.

use super::{MAX_TEXT, NOT_LEGAL};
use crate::oracle::{Refusal, BAD_FIELD, BAD_SIZE, BAD_WEIGHT, TOO_MANY};

/// A text with its outcome: number 0 is none.
pub struct Placed {
    pub why: &'static str,
    pub bytes: Vec<u8>,
    pub number: u32,
    pub place: usize,
}

impl Placed {
    /// The refusal; none for a text that is accepted.
    pub fn refusal(&self) -> Option<Refusal> {
        let refusal = Refusal {
            number: self.number,
            place: self.place,
            column: 0,
        };
        (self.number != 0).then_some(refusal)
    }
}

/// The lines before the one that is looked at, 20 bytes: so a byte of that line has a place of 20
/// more than its column.
const HEAD: &str = "switches 3\nfaults 2\n";

/// Lines after the head: the part of them that a legal text shares, and the rest.
#[rustfmt::skip]
const LINES: &[(&str, &str, &str)] = &[
    ("a line feed at once", "", "\n"),
    ("an unknown word", "ru", "n s1\n"),
    ("a capital letter", "", "Rule s1\n"),
    ("a capital s", "rule ", "S1\n"),
    ("a space before the keyword", "", " rule s1\n"),
    ("no space after the keyword", "rule", "(s1)\n"),
    ("two spaces after the keyword", "rule ", " s1\n"),
    ("a tabulator after the keyword", "rule", "\ts1\n"),
    ("an empty rule", "rule ", "\n"),
    ("a switch without a number", "rule s", "\n"),
    ("a space between letter and number", "rule s", " 1\n"),
    ("switch 0", "rule s", "0\n"),
    ("fault 0", "rule f", "0\n"),
    ("a leading zero", "rule s", "01\n"),
    ("a number of three digits", "rule s10", "0\n"),
    ("a number without a letter", "rule ", "1\n"),
    ("another letter", "rule ", "t1\n"),
    ("a space before the line feed", "rule s1 ", "\n"),
    ("two spaces", "rule s1 ", " & s2\n"),
    ("two operands", "rule s1 ", "s2\n"),
    ("two operands without a space", "rule s1", "f1\n"),
    ("an and without a right operand", "rule s1&", "\n"),
    ("an and without a left operand", "rule ", "&s1\n"),
    ("two signs", "rule s1&", "|s2\n"),
    ("a sign twice", "rule s1&", "&s2\n"),
    ("a not behind its operand", "rule s1", "!\n"),
    ("a not between operands", "rule s1 ", "!s2\n"),
    ("a not without an operand", "rule !", "\n"),
    ("a not, a space, no operand", "rule ! ", "\n"),
    ("a not before an and", "rule !", "&s1\n"),
    ("empty brackets", "rule (", ")\n"),
    ("empty brackets with a space", "rule ( ", ")\n"),
    ("an open bracket", "rule (s1", "\n"),
    ("a bracket too many", "rule (s1)", ")\n"),
    ("a bracket that was not opened", "rule s1", ")\n"),
    ("a bracket behind an operand", "rule s1", "(s2)\n"),
    ("an operand behind a bracket", "rule (s1) ", "s2\n"),
    ("a not behind a bracket", "rule (s1)", "!s2\n"),
    ("two spaces in brackets", "rule ( ", " s1)\n"),
    ("a carriage return", "rule s1", "\r\n"),
    ("a byte above 127", "rule s1", "\u{a7}\n"),
    ("a byte 0", "rule s1", "\0\n"),
    ("a comma", "rule s1", ", s2\n"),
    ("a third count", "", "switches 3\n"),
    ("an empty wish", "wish ", "\n"),
    ("no space after wish", "wish", "\n"),
    ("two spaces after wish", "wish ", " s1\n"),
    ("a fault in a wish", "wish ", "f1\n"),
    ("a wish of two, a space at its end", "wish s1 s2 ", "\n"),
    ("two spaces in a wish", "wish s1 ", " s2\n"),
    ("a space after a not in a wish", "wish !", " s1\n"),
    ("two nots in a wish", "wish !", "!s1\n"),
    ("brackets in a wish", "wish ", "(s1)\n"),
    ("an or in a wish", "wish s1", "|s2\n"),
    ("a wish without a space between literals", "wish s1", "!s2\n"),
    ("a leading zero in a wish", "wish s", "01\n"),
    ("switch 0 in a wish", "wish !s", "0\n"),
    ("four literals", "wish s1 s2 s3 ", "s1\n"),
    ("a wish of three, a space at its end", "wish s1 s2 s3 ", "\n"),
    ("a carriage return in a wish", "wish s1", "\r\n"),
    ("a weight and no literal", "wish ", "weight 2\n"),
    ("a weight before the literal", "wish ", "weight 2 s1\n"),
    ("a literal after the weight", "wish s1 weight 2", " s2\n"),
    ("a weight between two literals", "wish s1 weight 2", " s2 s3\n"),
    ("two weights", "wish s1 weight 2", " weight 3\n"),
    ("a weight on a rule", "rule s1 ", "weight 2\n"),
    ("weight without a number", "wish s1 weight", "\n"),
    ("weight, a space, no number", "wish s1 s2 weight ", "\n"),
    ("a number without weight", "wish s1 ", "2\n"),
    ("a leading zero in a weight", "wish s1 weight 0", "1\n"),
    ("a weight of two zeros", "wish s1 weight 0", "0\n"),
    ("a weight of five digits", "wish s1 s2 s3 weight 1000", "0\n"),
    ("a weight of six digits", "wish s1 weight 9999", "99\n"),
    ("a minus before a weight", "wish s1 weight ", "-1\n"),
    ("a plus before a weight", "wish s1 weight ", "+1\n"),
    ("a point in a weight", "wish s1 weight 1", ".5\n"),
    ("a switch for the weight", "wish s1 weight ", "s2\n"),
    ("two spaces before weight", "wish s1 ", " weight 2\n"),
    ("two spaces after weight", "wish s1 s2 s3 weight ", " 2\n"),
    ("no space before weight", "wish s1", "weight 2\n"),
    ("no space after weight", "wish s1 weight", "2\n"),
    ("a tabulator before weight", "wish s1", "\tweight 2\n"),
    ("an equals sign after weight", "wish s1 weight", "=2\n"),
    ("a not before weight", "wish s1 !", "weight 2\n"),
    ("a word that begins like weight", "wish s1 weigh", "s 2\n"),
    ("weight with a capital letter", "wish s1 ", "Weight 2\n"),
    ("a space after a weight", "wish s1 weight 2", " \n"),
    ("a carriage return after a weight", "wish s1 weight 2", "\r\n"),
    ("a rule after a wish", "wish s1\n", "rule s1\n"),
    ("a line more", "wish s1\n", "end\n"),
    ("a blank line", "rule s1\n", "\nwish s1\n"),
    ("a line that is not ended", "rule s1", ""),
    ("a line that is not ended, after a space", "rule s1 ", ""),
    ("a wish that is not ended", "wish s1 s2 s3", ""),
    ("a wish that is not ended, after a space", "wish s1 s2 s3 ", ""),
    ("weight that is not ended", "wish s1 wei", ""),
    ("a weight that is not ended", "wish s1 weight 9999", ""),
    ("a keyword that is not ended", "wis", ""),
];

/// Whole texts: the part of them that a legal text shares, and the rest.
#[rustfmt::skip]
const TEXTS: &[(&str, &str, &str)] = &[
    ("the empty text", "", ""),
    ("switches cut short", "switches 3", ""),
    ("switches without a number", "switches ", "\n"),
    ("switches, a leading zero", "switches 0", "3\nfaults 2\n"),
    ("switches, two zeros", "switches 0", "0\nfaults 2\n"),
    ("switches, a minus", "switches ", "-1\nfaults 2\n"),
    ("switches, three digits", "switches 10", "0\nfaults 2\n"),
    ("switches, a space at the end", "switches 3", " \nfaults 2\n"),
    ("switches, a carriage return", "switches 3", "\r\nfaults 2\n"),
    ("switches, two spaces", "switches ", " 3\nfaults 2\n"),
    ("switches alone", "switches 3\n", ""),
    ("faults first", "", "faults 2\nswitches 3\n"),
    ("switches twice", "switches 3\n", "switches 3\nfaults 2\n"),
    ("faults twice", "switches 3\nfaults 2\n", "faults 2\n"),
    ("faults, a leading zero", "switches 3\nfaults 0", "2\n"),
    ("faults cut short", "switches 3\nfaults 2", ""),
    ("no faults", "switches 3\n", "rule s1\n"),
    ("a sheet", "", "H    1    0    0\nZ    1    0    0\n"),
    ("capitals", "", "SWITCHES 3\nFAULTS 2\n"),
];

/// Lines after the head that are accepted, or refused for what they say.
#[rustfmt::skip]
const SAID: &[(&str, &str, u32, usize)] = &[
    ("nothing but a head", "", 0, 0),
    ("a switch in a rule", "rule s1\n", 0, 0),
    ("a fault in brackets", "rule ((f2))\n", 0, 0),
    ("spaces in brackets", "rule ( s1 )\n", 0, 0),
    ("nots with spaces", "rule ! ! s1\n", 0, 0),
    ("spaces everywhere", "rule ! ( s1 & ! f1 ) | s2\n", 0, 0),
    ("no spaces", "rule !(s1&!f1)|s2\n", 0, 0),
    ("a wish of two", "wish !s1 s2\n", 0, 0),
    ("a wish of three", "wish s3 !s3 s3\n", 0, 0),
    ("a weight of 1", "wish s1 weight 1\n", 0, 0),
    ("a weight of 999", "wish !s1 s2 weight 999\n", 0, 0),
    ("a weight of 10 after three literals", "wish s1 s2 s3 weight 10\n", 0, 0),
    ("a weight, and a wish without one", "wish s1 weight 20\nwish s1\n", 0, 0),
    ("a weight of 0", "wish s1 weight 0\n", BAD_WEIGHT, 3),
    ("a weight of 1000", "wish s1\nwish s1 s2 weight 1000\n", BAD_WEIGHT, 4),
    ("a weight of 9999", "rule s1\nwish s1 s2 s3 weight 9999\n", BAD_WEIGHT, 4),
    ("a weight of 0 for switch 4", "wish s4 weight 0\n", BAD_FIELD, 3),
    ("a weight of 0 before switch 4", "wish s1 weight 0\nwish s4\n", BAD_WEIGHT, 3),
    ("a weight of 0 after switch 4", "wish s4\nwish s1 weight 0\n", BAD_FIELD, 3),
    ("a weight of 0 after fault 3", "rule f3\nwish s1 weight 0\n", BAD_FIELD, 3),
    ("a legal text is wanted before its weights", "wish s1 weight 0\nwish s1 weight 00\n", NOT_LEGAL, 54),
    ("switch 4", "rule s4\n", BAD_FIELD, 3),
    ("switch 5, a point of another kind", "rule s5\n", BAD_FIELD, 3),
    ("fault 3", "rule s1\nrule s1|f3\n", BAD_FIELD, 4),
    ("switch 99 in a wish", "rule s1\nwish s1\nwish s1 !s99\n", BAD_FIELD, 5),
    ("a rule at fault before a wish", "rule f99\nwish s4\n", BAD_FIELD, 3),
    ("a legal text is wanted first", "rule s4\nrule s1", NOT_LEGAL, 36),
];

/// Every text, refused or not.
pub fn placed() -> Vec<Placed> {
    let mut all = Vec::new();
    let mut add = |why, bytes: Vec<u8>, number, place| {
        all.push(Placed {
            why,
            bytes,
            number,
            place,
        });
    };
    for &(why, shared, rest) in LINES {
        let place = HEAD.len() + shared.len() + 1;
        add(
            why,
            format!("{HEAD}{shared}{rest}").into(),
            NOT_LEGAL,
            place,
        );
    }
    for &(why, shared, rest) in TEXTS {
        let place = shared.len() + 1;
        add(why, format!("{shared}{rest}").into(), NOT_LEGAL, place);
    }
    for &(why, lines, number, place) in SAID {
        add(why, format!("{HEAD}{lines}").into(), number, place);
    }
    for (why, text, number, place) in long_ones() {
        add(why, text.into(), number, place);
    }
    all
}

/// Texts with many lines, deep nests or large counts.
#[rustfmt::skip]
fn long_ones() -> Vec<(&'static str, String, u32, usize)> {
    let text = |lines: &str| format!("{HEAD}{lines}");
    let deep = |open: &str, n, close: &str| {
        text(&format!("rule {}s1{}\n", open.repeat(n), close.repeat(n)))
    };
    let endless = |sign: &str| text(&format!("rule {}", sign.repeat(MAX_TEXT - 25)));
    let rules = |n| "rule s1\n".repeat(n);
    let wishes = |n| "wish s1\n".repeat(n);
    let gates = |n| format!("rule s1{}\n", "&s1".repeat(n));
    let counts = |a: u32, f: u32, lines: &str| format!("switches {a}\nfaults {f}\n{lines}");
    // The 33rd stands after the head, "rule " and 32 others.
    let too_deep = 20 + 5 + 33;
    // Each time 32 nots, a switch and a sign; then a bracket, and the 32nd not after it.
    let too_deep_at_last = 20 + 5 + 35 + 35 + 1 + 32;
    let nots = "!".repeat(32);
    vec![
        ("32 brackets", deep("(", 32, ")"), 0, 0),
        ("33 brackets", deep("(", 33, ")"), NOT_LEGAL, too_deep),
        ("32 nots", deep("!", 32, ""), 0, 0),
        ("33 nots", deep("!", 33, ""), NOT_LEGAL, too_deep),
        ("32 nots and brackets", deep("!(", 16, ")"), 0, 0),
        ("34 nots and brackets", deep("(!", 17, ")"), NOT_LEGAL, too_deep),
        ("33 nots and spaces", deep("! ", 33, ""), NOT_LEGAL, 20 + 5 + 65),
        ("nots that are done count no more", text(&format!("rule {nots}s1&{nots}s2\n")), 0, 0),
        (
            "nots that are done, and a bracket that is not",
            text(&format!("rule {nots}s1&{nots}s2|({nots}s3)\n")),
            NOT_LEGAL,
            too_deep_at_last,
        ),
        ("brackets without an end", endless("("), NOT_LEGAL, too_deep),
        ("nots without an end", endless("!"), NOT_LEGAL, too_deep),
        ("20 switches, 16 faults", counts(20, 16, ""), 0, 0),
        ("no switches, no faults", counts(0, 0, ""), 0, 0),
        ("a rule without switches", counts(0, 0, "rule s1\n"), BAD_FIELD, 3),
        ("21 switches", counts(21, 16, ""), BAD_SIZE, 1),
        ("17 faults", counts(20, 17, ""), BAD_SIZE, 2),
        ("99 switches and faults", counts(99, 99, ""), BAD_SIZE, 1),
        ("99 faults, and a rule", counts(3, 99, "rule s4\n"), BAD_SIZE, 2),
        ("64 rules", text(&rules(64)), 0, 0),
        ("65 rules", text(&rules(65)), TOO_MANY, 67),
        ("66 rules", text(&rules(66)), TOO_MANY, 67),
        ("rule 65 of switch 4", text(&(rules(64) + "rule s4\n")), TOO_MANY, 67),
        ("rule 2 of switch 4, then 65", text(&(rules(1) + "rule s4\n" + &rules(63))), BAD_FIELD, 4),
        ("64 wishes", text(&wishes(64)), 0, 0),
        ("65 wishes", text(&wishes(65)), TOO_MANY, 67),
        ("wish 65 of switch 4", text(&(wishes(64) + "wish s4\n")), TOO_MANY, 67),
        ("wish 65 of weight 0", text(&(wishes(64) + "wish s1 weight 0\n")), TOO_MANY, 67),
        ("wish 64 of weight 0, then 65", text(&(wishes(63) + "wish s1 weight 0\n" + &wishes(1))), BAD_WEIGHT, 66),
        ("99 switches, and a weight of 0", counts(99, 2, "wish s1 weight 0\n"), BAD_SIZE, 1),
        ("400 gates", text(&gates(400)), 0, 0),
        ("401 gates", text(&gates(401)), TOO_MANY, 3),
        ("401 gates in two rules", text(&(gates(399) + &gates(2))), TOO_MANY, 4),
        ("400 gates, then a switch", text(&(gates(400) + "rule s2\n")), 0, 0),
        ("400 gates, then a not", text(&(gates(400) + "rule !s2\n")), TOO_MANY, 4),
        ("400 gates, then a not of switch 4", text(&(gates(400) + "rule !s4\n")), TOO_MANY, 4),
        ("16,384 bytes", of_length(MAX_TEXT, ")\n"), 0, 0),
        ("16,384 bytes, the last one wrong", of_length(MAX_TEXT, "))"), NOT_LEGAL, 16_384),
        ("16,384 bytes, not ended", of_length(MAX_TEXT + 2, ")\n")[..MAX_TEXT].into(), NOT_LEGAL, 16_385),
        ("16,385 bytes", of_length(MAX_TEXT + 1, ")\n"), NOT_LEGAL, 0),
        ("16,385 bytes, the first one wrong", "x".repeat(MAX_TEXT + 1), NOT_LEGAL, 0),
    ]
}

/// A text of this length within all limits, which ends in these two bytes. Its rules join operands
/// in many brackets, as a gate takes few bytes only.
fn of_length(length: usize, end: &str) -> String {
    let operand = format!("{}s1{}", "(".repeat(24), ")".repeat(24));
    let rule = format!("rule {}\n", [&operand[..]; 6].join(" & "));
    let mut text = HEAD.to_string();
    while length - text.len() > 2 * rule.len() {
        text += &rule;
    }
    text += "rule ";
    while length - text.len() > 60 {
        text += "(s1) & ";
    }
    // What is left are brackets: one more of them opens here than is closed before the end.
    if (length - text.len()).is_multiple_of(2) {
        text += "s1|";
    }
    let open = (length - text.len() - "s1".len() - end.len()).div_ceil(2);
    text + &"(".repeat(open) + "s1" + &")".repeat(open - 1) + end
}
