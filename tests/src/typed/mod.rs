//! A second reader of typed texts, by the rules of docs/FORMAT.md alone. The proved reader is
//! compared with it, so it shares no code and no method with that one: whether a text is legal is
//! found by a grammar that stands as data, and what a formula says by splitting it.

mod formula;
pub mod generate;
mod grammar;
pub mod places;
#[cfg(test)]
mod wrong;

use std::sync::OnceLock;

use crate::oracle::{
    Gate, Refusal, Sheet, Wish, BAD_FIELD, BAD_SIZE, BAD_WEIGHT, MAX_FAULTS, MAX_GATES, MAX_RULES,
    MAX_SWITCHES, MAX_WISHES, TOO_MANY, WEIGHTS,
};
use formula::{Formula, Manner, Operand, LEFT};
use grammar::{Bounds, Grammar, LEGAL};

/// The longest text.
pub const MAX_TEXT: usize = 16_384;

/// The number of the refusal of a text that is too long or not legal.
pub const NOT_LEGAL: u32 = 12;

/// The lines with the counts.
const SWITCHES_LINE: usize = 1;
const FAULTS_LINE: usize = 2;

/// Reads a text, or says for which cause, the first in the order of the refusals, it is refused.
pub fn read(bytes: &[u8]) -> Result<Sheet, Refusal> {
    legal(bytes, right_grammar())?;
    tables(&value(bytes, LEFT), MAX_GATES)
}

fn right_grammar() -> &'static Grammar {
    static MADE: OnceLock<Grammar> = OnceLock::new();
    MADE.get_or_init(|| Grammar::new(LEGAL))
}

fn refuse<T>(number: u32, place: usize) -> Result<T, Refusal> {
    let column = 0;
    Err(Refusal {
        number,
        place,
        column,
    })
}

/// The tests of refusal 12.
fn legal(bytes: &[u8], grammar: &Grammar) -> Result<(), Refusal> {
    if bytes.len() > MAX_TEXT {
        return refuse(NOT_LEGAL, 0);
    }
    let reach = grammar.reach(bytes);
    if reach.legal {
        Ok(())
    } else {
        refuse(NOT_LEGAL, reach.shared + 1)
    }
}

/// What a legal text says, before anything is asked of its numbers.
#[derive(Clone)]
struct Value {
    switches: u32,
    faults: u32,
    rules: Vec<Formula>,
    wishes: Vec<Wish>,
}

/// Reads a legal text.
fn value(bytes: &[u8], manner: Manner) -> Value {
    let text = std::str::from_utf8(bytes).expect("a legal text");
    let said = |keyword: &'static str| {
        let lines = text.lines();
        lines.filter_map(move |line| Some(line.strip_prefix(keyword)?.trim()))
    };
    let count = |keyword| -> u32 {
        let written = said(keyword).next().expect("a count");
        written.parse().expect("a number")
    };
    Value {
        switches: count("switches"),
        faults: count("faults"),
        rules: said("rule")
            .map(|line| formula::read(line.as_bytes(), manner))
            .collect(),
        wishes: said("wish").map(wish).collect(),
    }
}

/// The weight is 1 where it is missing.
fn wish(line: &str) -> Wish {
    let mut wish = Wish {
        literals: Vec::new(),
        weight: 1,
    };
    let mut words = line.split_whitespace();
    while let Some(word) = words.next() {
        match word {
            "weight" => {
                let number = words.next().expect("a number");
                wish.weight = number.parse().expect("a number");
            }
            _ => wish.literals.push(literal(word)),
        }
    }
    wish
}

/// `s4` is 4, and `!s4` is -4.
fn literal(word: &str) -> i32 {
    let switch = word.trim_start_matches(['!', 's']);
    let number: i32 = switch.parse().expect("a number");
    if word.starts_with('!') {
        -number
    } else {
        number
    }
}

/// The sheet that a legal text stands for, or the refusal of its first line at fault.
fn tables(value: &Value, most_gates: usize) -> Result<Sheet, Refusal> {
    if value.switches > MAX_SWITCHES as u32 {
        return refuse(BAD_SIZE, SWITCHES_LINE);
    }
    if value.faults > MAX_FAULTS as u32 {
        return refuse(BAD_SIZE, FAULTS_LINE);
    }
    let mut sheet = Sheet {
        switches: value.switches,
        faults: value.faults,
        ..Sheet::default()
    };
    let mut line = FAULTS_LINE;
    for formula in &value.rules {
        line += 1;
        let gates = sheet.gates.len() + formula.operators.len();
        if sheet.rules.len() == MAX_RULES || gates > most_gates {
            return refuse(TOO_MANY, line);
        }
        if !all_there(formula, &sheet) {
            return refuse(BAD_FIELD, line);
        }
        add_rule(&mut sheet, formula);
    }
    for wish in &value.wishes {
        line += 1;
        if sheet.wishes.len() == MAX_WISHES {
            return refuse(TOO_MANY, line);
        }
        let beyond = |literal: &i32| literal.unsigned_abs() > sheet.switches;
        if wish.literals.iter().any(beyond) {
            return refuse(BAD_FIELD, line);
        }
        if !WEIGHTS.contains(&wish.weight) {
            return refuse(BAD_WEIGHT, line);
        }
        sheet.wishes.push(wish.clone());
    }
    Ok(sheet)
}

/// Whether each switch and fault of the formula is one that there is.
fn all_there(formula: &Formula, sheet: &Sheet) -> bool {
    let is_there = |operand: &Operand| match *operand {
        Operand::Switch(k) => k <= sheet.switches,
        Operand::Fault(k) => k <= sheet.faults,
        Operand::Operator(_) => true,
    };
    let operators = formula.operators.iter();
    let mut operands = operators.flat_map(|o| [Some(o.left), o.right]).flatten();
    is_there(&formula.whole) && operands.all(|operand| is_there(&operand))
}

fn add_rule(sheet: &mut Sheet, formula: &Formula) {
    let before = sheet.points() as u32;
    let switches = sheet.switches;
    let point = |operand| match operand {
        Operand::Switch(k) => k,
        Operand::Fault(k) => switches + k,
        Operand::Operator(k) => before + k as u32 + 1,
    };
    sheet.gates.extend(formula.operators.iter().map(|o| Gate {
        kind: match o.sign {
            b'!' => b'N',
            b'&' => b'A',
            _ => b'O',
        },
        left: point(o.left),
        right: o.right.map_or(0, point),
    }));
    sheet.rules.push(point(formula.whole));
}

/// Whether a text is at the greatest depth, and whether it is refused for going beyond it.
#[derive(Clone, Copy, Debug, Default, PartialEq, Eq)]
pub struct Depth {
    pub reached: bool,
    pub passed: bool,
}

/// The depth is told by other grammars: one that allows less refuses a text which reaches it, and
/// one that allows more goes on where a text passes it.
pub fn depth(bytes: &[u8]) -> Depth {
    static OTHERS: OnceLock<[Grammar; 2]> = OnceLock::new();
    let [less, more] = OTHERS.get_or_init(|| {
        [LEGAL.deepest - 1, LEGAL.deepest + 1]
            .map(|deepest| Grammar::new(Bounds { deepest, ..LEGAL }))
    });
    if bytes.len() > MAX_TEXT {
        return Depth::default();
    }
    let reach = right_grammar().reach(bytes);
    Depth {
        reached: reach.legal && !less.reach(bytes).legal,
        passed: more.reach(bytes).shared > reach.shared,
    }
}

#[cfg(test)]
mod tests {
    use super::generate::{kinds, typed_text};
    use super::places::placed;
    use super::*;
    use crate::brute::listing_of;
    use crate::oracle::{self, LITERALS, MAX_WEIGHT};
    use std::collections::{BTreeMap, BTreeSet};

    /// The gates of one rule over 3 switches and 2 faults, as "A 1 2", and the rule's point.
    fn rule(formula: &str) -> (Vec<String>, u32) {
        let text = format!("switches 3\nfaults 2\nrule {formula}\n");
        let sheet = read(text.as_bytes()).expect("an accepted text");
        let gates = sheet.gates.iter().map(|gate| match gate.right {
            0 => format!("{} {}", char::from(gate.kind), gate.left),
            right => format!("{} {} {right}", char::from(gate.kind), gate.left),
        });
        (gates.collect(), sheet.rules[0])
    }

    fn gates(gates: &[&str], point: u32) -> (Vec<String>, u32) {
        (gates.iter().map(|gate| gate.to_string()).collect(), point)
    }

    /// Every refusal and every place as worked out by hand.
    #[test]
    fn places_by_hand() {
        for case in placed() {
            let said = read(&case.bytes).err();
            let text = case.bytes.escape_ascii();
            assert_eq!(said, case.refusal(), "{}: {text}", case.why);
        }
    }

    /// Generated texts that are not legal and not too long, up to so many bytes, and how many bytes
    /// of each a legal text shares.
    fn not_legal(seed: u64, count: u64, most: usize) -> impl Iterator<Item = (Vec<u8>, usize)> {
        let texts = (0..count).map(move |index| typed_text(seed, index).bytes);
        texts
            .filter(move |bytes| bytes.len() <= most)
            .filter_map(|bytes| {
                let refusal = read(&bytes).err().filter(|r| r.number == NOT_LEGAL)?;
                Some((bytes, refusal.place - 1))
            })
    }

    /// A beginning of a text shares as much as the text does, or all of itself.
    #[test]
    fn places_by_beginnings() {
        for (bytes, shared) in not_legal(5, 2_000, 400) {
            for length in 0..=bytes.len() {
                let reach = right_grammar().reach(&bytes[..length]);
                assert_eq!(reach.shared, length.min(shared), "{}", bytes.escape_ascii());
            }
        }
    }

    /// Whether some text begins so, by trying: the word under way is ended in each way that there
    /// is, and the open brackets of the line are closed.
    fn can_go_on(beginning: &[u8]) -> bool {
        let mut lines = beginning.rsplit(|&byte| byte == b'\n');
        let line = lines.next().unwrap_or_default();
        let count = |bracket| line.iter().filter(|&&byte| byte == bracket).count();
        let close = ")".repeat(count(b'(').saturating_sub(count(b')'))) + "\n";
        let (rule, and) = (format!("rule s1{close}"), format!("&s1{close}"));
        let ends = [
            "switches 0\nfaults 0\n",
            &rule,
            &and,
            "wish s1\n",
            " weight 1\n",
        ];
        let ended = |end: &[u8]| right_grammar().reach(&[beginning, end].concat()).legal;
        ends.iter()
            .any(|end| (0..=end.len()).any(|from| ended(&end.as_bytes()[from..])))
    }

    /// The part that is shared can go on, and with the next byte it cannot.
    #[test]
    fn places_by_trying() {
        let mut tried = 0;
        for (bytes, shared) in not_legal(6, 3_000, 2_000) {
            assert!(can_go_on(&bytes[..shared]), "{}", bytes.escape_ascii());
            if shared < bytes.len() {
                assert!(!can_go_on(&bytes[..=shared]), "{}", bytes.escape_ascii());
            }
            tried += 1;
        }
        assert!(tried >= 500, "{tried}");
    }

    #[test]
    fn binding_and_grouping() {
        assert_eq!(rule("s2"), gates(&[], 2));
        assert_eq!(rule("((f2))"), gates(&[], 5));
        assert_eq!(rule("s1&s2|s3"), gates(&["A 1 2", "O 6 3"], 7));
        assert_eq!(rule("s1|s2&s3"), gates(&["A 2 3", "O 1 6"], 7));
        assert_eq!(rule("(s1|s2)&s3"), gates(&["O 1 2", "A 6 3"], 7));
        assert_eq!(rule("!s1&s2"), gates(&["N 1", "A 6 2"], 7));
        assert_eq!(rule("!(s1&s2)"), gates(&["A 1 2", "N 6"], 7));
        assert_eq!(rule("! !f1"), gates(&["N 4", "N 6"], 7));
        assert_eq!(rule("s1&s2&s3"), gates(&["A 1 2", "A 6 3"], 7));
        assert_eq!(rule("s1 & (s2 & s3)"), gates(&["A 2 3", "A 1 6"], 7));
        assert_eq!(rule("s1|s2|s3|f1"), gates(&["O 1 2", "O 6 3", "O 7 4"], 8));
        assert_eq!(rule("s1|s1|!s1"), gates(&["O 1 1", "N 1", "O 6 7"], 8));
    }

    /// Operators are complete from the left, inner ones before outer ones, and none is shared.
    #[test]
    fn gates_in_their_order() {
        assert_eq!(
            rule("!f1 | s1&s2 | s3&!f2 | s1"),
            gates(
                &["N 4", "A 1 2", "O 6 7", "N 5", "A 3 9", "O 8 10", "O 11 1"],
                12
            )
        );
        assert_eq!(
            rule("s1&!(s2|f2)|!s1"),
            gates(&["O 2 5", "N 6", "A 1 7", "N 1", "O 8 9"], 10)
        );
        assert_eq!(
            rule("!s1 & !s1 & !s1"),
            gates(&["N 1", "N 1", "A 6 7", "N 1", "A 8 9"], 10)
        );
    }

    /// The examples of the repository, typed and as sheets.
    #[test]
    fn examples() {
        let sample = read(include_bytes!("../../../examples/sample.text"));
        assert_eq!(sample, oracle::read(crate::SAMPLE.as_bytes()));
        assert_eq!(listing_of(sample), crate::SAMPLE_LISTING);
        let typed = read(include_bytes!("../../../examples/lane-four.text"));
        let sheet = oracle::read(include_bytes!("../../../examples/lane-four.sheet"));
        // The same gates in another order.
        let sizes = |s: &Sheet| (s.points(), s.rules.clone(), s.wishes.clone());
        assert_eq!(
            sizes(typed.as_ref().unwrap()),
            sizes(sheet.as_ref().unwrap())
        );
        assert_eq!(listing_of(typed), listing_of(sheet));
    }

    #[test]
    fn literals_weights_and_counts() {
        let text = b"switches 20\nfaults 16\nrule s20&f16\n\
            wish !s1 s20\nwish s3 weight 999\nwish s1 s1 !s1 weight 10\n";
        let sheet = read(text).unwrap();
        assert_eq!((sheet.switches, sheet.faults), (20, 16));
        assert_eq!(sheet.rules, [37]);
        assert_eq!(sheet.gates[0].right, 36);
        let wish = |literals: &[i32], weight| Wish {
            literals: literals.to_vec(),
            weight,
        };
        let wishes = [wish(&[-1, 20], 1), wish(&[3], 999), wish(&[1, 1, -1], 10)];
        assert_eq!(sheet.wishes, wishes);
        let twice = read(b"switches 1\nfaults 0\nrule !s1\nrule !s1\n").unwrap();
        assert_eq!((twice.gates.len(), &twice.rules[..]), (2, &[2, 3][..]));
    }

    // ---- the generator

    #[test]
    fn same_seed_same_texts() {
        for index in 0..200 {
            assert_eq!(typed_text(7, index).bytes, typed_text(7, index).bytes);
        }
    }

    /// What the comparison relies on does come, within the texts of one seed.
    #[test]
    fn the_limits_are_reached() {
        let mut numbers: BTreeMap<u32, usize> = BTreeMap::new();
        let mut made: BTreeMap<&str, usize> = BTreeMap::new();
        let mut places = BTreeSet::new();
        let (mut reached, mut passed, mut longest, mut too_long) = (0, 0, 0, 0);
        let mut weights = [0; 4];
        for index in 0..8_000 {
            let text = typed_text(1, index);
            let outcome = read(&text.bytes);
            let depth = depth(&text.bytes);
            reached += usize::from(depth.reached);
            passed += usize::from(depth.passed);
            longest += usize::from(outcome.is_ok() && text.bytes.len() == MAX_TEXT);
            too_long += usize::from(text.bytes.len() == MAX_TEXT + 1);
            *made.entry(text.kind).or_default() += 1;
            let wishes = outcome.iter().flat_map(|sheet| &sheet.wishes);
            for Wish { literals, weight } in wishes {
                let kinds = [
                    *weight == 1,
                    *weight == MAX_WEIGHT,
                    (2..MAX_WEIGHT).contains(weight),
                    *weight > 1 && literals.len() == LITERALS,
                ];
                for (count, is_it) in weights.iter_mut().zip(kinds) {
                    *count += usize::from(is_it);
                }
            }
            let number = outcome.as_ref().map_or_else(|r| r.number, |_| 0);
            *numbers.entry(number).or_default() += 1;
            places.extend(outcome.err().map(|refusal| refusal.place));
        }
        for number in [0, BAD_SIZE, TOO_MANY, BAD_FIELD, BAD_WEIGHT, NOT_LEGAL] {
            assert!(numbers[&number] >= 60, "{numbers:?}");
        }
        assert!(weights.iter().all(|&n| n >= 500), "{weights:?}");
        assert!(kinds().all(|kind| made[kind] >= 80), "{made:?}");
        assert!(places.len() >= 250, "{}", places.len());
        assert!(reached >= 100 && passed >= 100, "{reached}, {passed}");
        assert!(longest >= 5 && too_long >= 5, "{longest}, {too_long}");
    }
}
