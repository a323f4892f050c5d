//! Typed texts of a given length, for the reading alone.

use planner_tests::generate::Random;
use planner_tests::oracle::{MAX_GATES, MAX_RULES, MAX_WEIGHT, MAX_WISHES};

use crate::sheets::Sheet;

const SWITCHES: i32 = 20;
const FAULTS: i32 = 16;
/// The brackets around an operand at most, so that a few stand around the rule besides.
const BRACKETS: usize = 24;
/// The longest wish: three literals and a weight.
const WISH: usize = "wish !s20 !s20 !s20 weight 999\n".len();

/// A text being made, of the length that is wanted.
struct Draft {
    text: String,
    length: usize,
    gates: usize,
    rules: usize,
    wishes: usize,
}

impl Draft {
    fn new(length: usize) -> Draft {
        Draft {
            text: format!("switches {SWITCHES}\nfaults {FAULTS}\n"),
            length,
            gates: 0,
            rules: 0,
            wishes: 0,
        }
    }

    fn left(&self) -> usize {
        self.length - self.text.len()
    }

    /// A switch or a fault, perhaps negated, in so many brackets.
    fn operand(&mut self, r: &mut Random, brackets: usize) {
        if r.one_in(5) {
            self.text += "!";
            self.gates += 1;
        }
        let leaf = match r.one_in(2) {
            true => format!("s{}", r.between(1, SWITCHES)),
            false => format!("f{}", r.between(1, FAULTS)),
        };
        self.text += &format!("{}{leaf}{}", "(".repeat(brackets), ")".repeat(brackets));
    }

    /// A rule with so many operands, and nothing where the text would become too long.
    fn rule(&mut self, r: &mut Random, operands: usize, brackets: usize) {
        if self.left() < 16 + operands * (2 * brackets + 7) {
            return;
        }
        self.text += "rule ";
        self.operand(r, brackets);
        for _ in 1..operands {
            self.text += r.pick(&[" & ", " | ", "&"]);
            self.operand(r, brackets);
            self.gates += 1;
        }
        self.text += "\n";
        self.rules += 1;
    }

    fn wish(&mut self, r: &mut Random) {
        if self.left() < WISH {
            return;
        }
        let mut literal = || format!("!s{}", r.between(1, SWITCHES));
        let literals = [literal(), literal(), literal()].join(" ");
        let weight = r.between(1, MAX_WEIGHT as i32);
        self.text += &format!("wish {literals} weight {weight}\n");
        self.wishes += 1;
    }

    fn done(self) -> Sheet {
        assert!(self.left() < 256, "{} bytes are left", self.left());
        Sheet {
            bytes: self.text.into_bytes(),
            a: SWITCHES as u32,
            f: FAULTS as u32,
            gates: self.gates,
            rules: self.rules,
            wishes: self.wishes,
            plan: 0,
        }
    }
}

/// A text of nearly this length that is accepted, with all lines that it may have: brackets fill
/// it up.
pub fn accepted(length: usize) -> Sheet {
    let r = &mut Random::new(1, 8);
    let mut draft = Draft::new(length);
    let wishes = MAX_WISHES * WISH;
    for rule in 0..MAX_RULES {
        // The bytes for each rule that is still to come, and for each of its five operands.
        let share = (draft.left() - wishes) / (MAX_RULES - rule) - 6;
        let brackets = (share / 5 - 6) / 2;
        draft.rule(r, 5, brackets.min(BRACKETS));
    }
    for _ in 0..MAX_WISHES {
        draft.wish(r);
    }
    assert!(draft.gates <= MAX_GATES && draft.rules == MAX_RULES && draft.wishes == MAX_WISHES);
    draft.done()
}

/// A text of nearly this length with as many operators as it can hold, and so with too many gates
/// if it is long.
pub fn crowded(length: usize) -> Sheet {
    let r = &mut Random::new(1, 9);
    let mut draft = Draft::new(length);
    while draft.left() >= 256 {
        draft.rule(r, 12, 0);
    }
    draft.done()
}

/// The same, which is not legal at its last byte.
pub fn broken(length: usize) -> Sheet {
    let mut sheet = crowded(length);
    sheet.bytes.pop();
    sheet.bytes.push(b'?');
    sheet
}

/// A chain of ands as deep in brackets and nots as may be: the deepest recursion of a reader, and of
/// the gates. The plan to be rated has its first switch on.
pub fn ands() -> Sheet {
    let deep = "(!(!".repeat(8);
    let ands = "&s1".repeat(MAX_GATES - 16);
    let mut draft = Draft::new(0);
    draft.text = format!(
        "switches 4\nfaults 4\nrule {deep}s1{}{ands}\n",
        "))".repeat(8)
    );
    draft.length = draft.text.len();
    draft.gates = MAX_GATES;
    draft.rules = 1;
    Sheet {
        plan: 0b1000,
        a: 4,
        f: 4,
        ..draft.done()
    }
}
