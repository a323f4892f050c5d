//! Typed texts for the comparison: texts of sheets that make the planner work, texts at every limit
//! and beyond, damaged ones and noise. A text follows from its seed and its index alone.

use std::ops::Range;

use super::grammar::LEGAL;
use super::{read, MAX_TEXT};
use crate::generate::{odd_byte, weight, Random};
use crate::oracle::{
    Sheet, Wish, LITERALS, MAX_FAULTS, MAX_GATES, MAX_RULES, MAX_SWITCHES, MAX_WEIGHT, MAX_WISHES,
};
use crate::planning::{class, light, whole, Class, Made};

// ---- formulas

/// A formula before it is written.
#[derive(Clone)]
enum Tree {
    Leaf(u8, u32),
    Not(Box<Tree>),
    Join(u8, Box<Tree>, Box<Tree>),
    Bracket(Box<Tree>),
}

fn bracket(tree: Tree) -> Tree {
    Tree::Bracket(Box::new(tree))
}

fn bracket_if(needed: bool, tree: Tree) -> Tree {
    if needed {
        bracket(tree)
    } else {
        tree
    }
}

/// The not of a formula, with brackets where they are needed.
fn not(tree: Tree) -> Tree {
    let joined = matches!(tree, Tree::Join(..));
    Tree::Not(Box::new(bracket_if(joined, tree)))
}

/// Two formulas joined, with brackets where they are needed.
fn join(sign: u8, left: Tree, right: Tree) -> Tree {
    let is = |tree: &Tree, of: &[u8]| matches!(tree, Tree::Join(sign, ..) if of.contains(sign));
    let (on_the_left, on_the_right): (&[u8], &[u8]) = match sign {
        b'&' => (b"|", b"&|"),
        _ => (b"", b"|"),
    };
    let left = bracket_if(is(&left, on_the_left), left);
    let right = bracket_if(is(&right, on_the_right), right);
    Tree::Join(sign, Box::new(left), Box::new(right))
}

impl Tree {
    /// The words and signs of the formula.
    fn words(&self, out: &mut Vec<String>) {
        let sign = |byte: u8| char::from(byte).to_string();
        match self {
            Tree::Leaf(letter, number) => out.push(format!("{}{number}", char::from(*letter))),
            Tree::Not(tree) => {
                out.push(sign(b'!'));
                tree.words(out);
            }
            Tree::Join(joint, left, right) => {
                left.words(out);
                out.push(sign(*joint));
                right.words(out);
            }
            Tree::Bracket(tree) => {
                out.push(sign(b'('));
                tree.words(out);
                out.push(sign(b')'));
            }
        }
    }
}

// ---- texts

/// A text before it is written.
#[derive(Clone, Default)]
struct Draft {
    switches: u32,
    faults: u32,
    rules: Vec<Tree>,
    wishes: Vec<Wish>,
}

/// A space at no place, and at every place.
const NEVER: usize = usize::MAX;
const ALWAYS: usize = 1;

impl Draft {
    fn written(&self, r: &mut Random) -> Vec<u8> {
        let spaces = r.pick(&[NEVER, ALWAYS, 2, 2, 5]);
        self.spaced(r, spaces)
    }

    /// The text with spaces at one in so many places between two words or signs.
    fn spaced(&self, r: &mut Random, spaces: usize) -> Vec<u8> {
        let Draft {
            switches, faults, ..
        } = self;
        let mut text = format!("switches {switches}\nfaults {faults}\n");
        for rule in &self.rules {
            let mut words = Vec::new();
            rule.words(&mut words);
            text += "rule ";
            for (k, word) in words.iter().enumerate() {
                if k > 0 && r.one_in(spaces) {
                    text += " ";
                }
                text += word;
            }
            text += "\n";
        }
        for Wish { literals, weight } in &self.wishes {
            let literals: Vec<String> = literals.iter().copied().map(literal).collect();
            text += &format!("wish {}", literals.join(" "));
            // A weight of 1 may be left out.
            if *weight != 1 || r.one_in(3) {
                text += &format!(" weight {weight}");
            }
            text += "\n";
        }
        text.into_bytes()
    }

    /// A switch or a fault that there is; switch 1 if there is none.
    fn leaf(&self, r: &mut Random) -> Tree {
        let a_switch = self.faults == 0 || (self.switches > 0 && r.one_in(2));
        let (letter, count) = if a_switch {
            (b's', self.switches)
        } else {
            (b'f', self.faults)
        };
        Tree::Leaf(letter, r.between(1, count.max(1) as i32) as u32)
    }

    /// A formula with so many operators, and some brackets more than it needs.
    fn formula(&self, r: &mut Random, operators: usize) -> Tree {
        let tree = match operators {
            0 => self.leaf(r),
            n if r.one_in(4) => not(self.formula(r, n - 1)),
            n => {
                let on_the_left = match r.below(3) {
                    0 => n - 1,
                    _ => r.below(n),
                };
                let left = self.formula(r, on_the_left);
                let right = self.formula(r, n - 1 - on_the_left);
                join(r.pick(b"&|"), left, right)
            }
        };
        let more = r.one_in(9);
        bracket_if(more, tree)
    }

    /// A formula that goes exactly so deep.
    fn nest(&self, r: &mut Random, depth: usize) -> Tree {
        if depth == 0 {
            return self.leaf(r);
        }
        let inner = self.nest(r, depth - 1);
        match r.below(8) {
            0..=3 => Tree::Not(Box::new(inner)),
            4 | 5 => bracket(inner),
            6 => bracket(join(r.pick(b"&|"), inner, self.leaf(r))),
            _ => bracket(join(r.pick(b"&|"), self.leaf(r), inner)),
        }
    }

    fn wish(&self, r: &mut Random) -> Wish {
        let literals = (0..1 + r.below(LITERALS)).map(|_| {
            let switch = r.between(1, self.switches.max(1) as i32);
            r.pick(&[switch, -switch])
        });
        Wish {
            literals: literals.collect(),
            weight: if r.one_in(3) { 1 } else { weight(r) as u32 },
        }
    }

    fn some_wishes(&mut self, r: &mut Random, count: usize) {
        self.wishes = (0..count).map(|_| self.wish(r)).collect();
    }
}

/// The wish for one literal to hold.
fn plain(literal: i32) -> Wish {
    Wish {
        literals: vec![literal],
        weight: 1,
    }
}

/// Weights at the ends of what is allowed and of what is legal.
const WEIGHTS_AROUND: [u32; 7] = {
    const MORE: u32 = MAX_WEIGHT + 1;
    [0, 0, 1, MAX_WEIGHT, MORE, MORE, MAX_LEGAL]
};
/// The largest weight of a legal text.
const MAX_LEGAL: u32 = 9_999;

fn literal(literal: i32) -> String {
    let sign = if literal < 0 { "!" } else { "" };
    format!("{sign}s{}", literal.unsigned_abs())
}

/// The text of a sheet. A gate that is named twice is written twice, one that is not named is left
/// out, and so is a wish without literals: texts have none of these.
fn of_sheet(r: &mut Random, sheet: &Sheet) -> Draft {
    let brackets = r.pick(&[NEVER, 20, 6]);
    Draft {
        switches: sheet.switches,
        faults: sheet.faults,
        rules: sheet
            .rules
            .iter()
            .map(|&point| of_point(r, sheet, point, brackets))
            .collect(),
        wishes: sheet
            .wishes
            .iter()
            .filter(|wish| !wish.literals.is_empty())
            .cloned()
            .collect(),
    }
}

/// The formula of a point, with brackets more than it needs at one place in so many.
fn of_point(r: &mut Random, sheet: &Sheet, point: u32, brackets: usize) -> Tree {
    let Sheet {
        switches, faults, ..
    } = *sheet;
    let tree = if point <= switches {
        Tree::Leaf(b's', point)
    } else if point <= switches + faults {
        Tree::Leaf(b'f', point - switches)
    } else {
        let gate = sheet.gates[(point - switches - faults) as usize - 1];
        let left = of_point(r, sheet, gate.left, brackets);
        match gate.kind {
            b'N' => not(left),
            kind => {
                let right = of_point(r, sheet, gate.right, brackets);
                join(if kind == b'A' { b'&' } else { b'|' }, left, right)
            }
        }
    };
    let more = r.one_in(brackets);
    bracket_if(more, tree)
}

/// The text of a sheet, with spaces and brackets more than it needs.
pub(crate) fn written_out(r: &mut Random, sheet: &Sheet) -> Vec<u8> {
    of_sheet(r, sheet).written(r)
}

/// The text of a sheet that makes the planner work.
fn planning(r: &mut Random, class: Class) -> Vec<u8> {
    for _ in 0..20 {
        let sheet = whole(r, class).0;
        let bytes = written_out(r, &sheet);
        // Written out, a sheet may have too many gates or brackets. Some of these are kept.
        if read(&bytes).is_ok() || (class == Class::Small && r.one_in(8)) {
            return bytes;
        }
    }
    small(r)
}

fn sizes(r: &mut Random) -> Draft {
    Draft {
        switches: r.below(6) as u32,
        faults: r.below(6) as u32,
        ..Draft::default()
    }
}

/// A few random rules and wishes.
fn small_draft(r: &mut Random) -> Draft {
    let mut draft = sizes(r);
    if draft.switches + draft.faults > 0 || r.one_in(8) {
        for _ in 0..r.below(6) {
            let operators = r.below(9);
            let rule = draft.formula(r, operators);
            draft.rules.push(rule);
        }
    }
    if draft.switches > 0 || r.one_in(8) {
        let count = r.below(8);
        draft.some_wishes(r, count);
    }
    draft
}

fn small(r: &mut Random) -> Vec<u8> {
    small_draft(r).written(r)
}

// ---- texts at the limits

/// Rules near the greatest depth, and beyond it.
fn deep(r: &mut Random) -> Vec<u8> {
    let mut draft = small_draft(r);
    draft.switches = draft.switches.max(1);
    let limit = LEGAL.deepest;
    let nests = 1 + r.below(2);
    for _ in 0..nests {
        let depth = r.pick(&[
            limit - 1,
            limit,
            limit,
            limit,
            limit + 1,
            limit + 1,
            limit + 8,
        ]);
        let mut tree = draft.nest(r, depth);
        if r.one_in(2) {
            let operators = r.below(4);
            let other = draft.formula(r, operators);
            let other = bracket_if(r.one_in(2), other);
            tree = if r.one_in(2) {
                join(b'|', tree, other)
            } else {
                join(b'|', other, tree)
            };
        }
        let at = r.below(draft.rules.len() + 1);
        draft.rules.insert(at, tree);
    }
    draft.written(r)
}

/// Rules, wishes and gates at their limits, and just beyond.
fn full(r: &mut Random) -> Vec<u8> {
    let mut draft = sizes(r);
    draft.switches = draft.switches.max(1);
    let near = |r: &mut Random, limit: usize| limit - 2 + r.below(5);
    let few = |r: &mut Random, limit: usize| match r.one_in(2) {
        true => near(r, limit),
        false => r.below(limit),
    };
    let rules = few(r, MAX_RULES).max(1);
    let gates = few(r, MAX_GATES);
    let mut left = gates;
    for k in 0..rules {
        let share = left / (rules - k);
        let operators = match k + 1 == rules {
            true => left,
            false => r.below(2 * share + 1).min(left),
        };
        left -= operators;
        let rule = draft.formula(r, operators);
        draft.rules.push(rule);
    }
    let wishes = few(r, MAX_WISHES);
    draft.some_wishes(r, wishes);
    draft.written(r)
}

/// A rule, wish or gate too many, and a number beyond the counts on that line or near it.
fn crowded(r: &mut Random) -> Vec<u8> {
    let mut draft = small_draft(r);
    draft.switches = draft.switches.max(1);
    let beyond = draft.switches + 1;
    let before = r.pick(&[0, 0, 0, 1]);
    let after = r.below(3);
    if r.one_in(3) {
        draft.some_wishes(r, MAX_WISHES - before);
        let mut wrong = plain(r.pick(&[1, -(beyond as i32)]));
        wrong.weight = r.pick(&WEIGHTS_AROUND);
        draft.wishes.push(wrong);
        draft.wishes.extend(vec![plain(1); before + after]);
    } else {
        draft.rules.clear();
        if r.one_in(2) {
            let gates = MAX_GATES - before;
            let rule = draft.formula(r, gates);
            draft.rules.push(rule);
        } else {
            draft.rules = vec![Tree::Leaf(b's', 1); MAX_RULES - before];
        }
        let sign = r.pick(b"&|");
        draft
            .rules
            .push(join(sign, draft.leaf(r), Tree::Leaf(b's', beyond)));
        draft
            .rules
            .extend(vec![not(Tree::Leaf(b's', 1)); before + after]);
    }
    draft.written(r)
}

/// Texts near the greatest length, and beyond it.
fn long(r: &mut Random) -> Vec<u8> {
    let limit = MAX_TEXT as i32;
    let length = match r.below(4) {
        0 => r.between(limit - 3, limit + 3),
        1 => limit,
        2 => r.between(limit - 2_000, limit),
        _ => r.pick(&[limit + 1, limit + 17, 20_000, 30_000]),
    };
    let length = length as usize;
    let mut draft = sizes(r);
    draft.switches = draft.switches.max(1);
    // Operands in many brackets, so that there are few gates. Joining them takes some more.
    let brackets = r.between(16, LEGAL.deepest as i32 - 4) as usize;
    let spaces = r.pick(&[NEVER, ALWAYS]);
    let bytes_of_operand = if spaces == NEVER { 2 } else { 4 } * brackets + 4;
    let rules = r.pick(&[20, 40, 50, 90]);
    for k in 0..length / bytes_of_operand {
        let leaf = draft.leaf(r);
        let operand = (0..brackets).fold(leaf, |tree, _| bracket(tree));
        if k < rules {
            draft.rules.push(operand);
        } else {
            let rule = &mut draft.rules[k % rules];
            let before = std::mem::replace(rule, Tree::Leaf(b's', 1));
            *rule = join(r.pick(b"&|"), before, operand);
        }
    }
    let wishes = r.below(MAX_WISHES);
    draft.some_wishes(r, wishes);
    let mut bytes = draft.spaced(r, spaces);
    while bytes.len() > length && !draft.rules.is_empty() {
        draft.rules.pop();
        bytes = draft.spaced(r, spaces);
    }
    fill(&mut bytes, length);
    bytes
}

/// Makes a text longer, up to this length if it can, by rules before all others.
fn fill(bytes: &mut Vec<u8>, length: usize) {
    let head = lines(bytes).get(1).map_or(0, |line| line.end);
    while bytes.len() < length {
        let shortest = "rule s1\n".len();
        // Brackets come in pairs, and one space may stand before the first that is closed.
        let left = (length - bytes.len()).min(shortest + 2 * LEGAL.deepest);
        let more = left.saturating_sub(shortest);
        let (pairs, space) = (more / 2, if more % 2 == 1 { " " } else { "" });
        if left < shortest || (pairs == 0 && more == 1) {
            return;
        }
        let (open, close) = ("(".repeat(pairs), ")".repeat(pairs));
        let rule = format!("rule {open}s1{space}{close}\n");
        bytes.splice(head..head, rule.bytes());
    }
}

/// Counts of every size.
fn counts(r: &mut Random) -> Vec<u8> {
    let mut draft = small_draft(r);
    let any = r.below(100) as u32;
    let count = |r: &mut Random, limit: i32| {
        let limit = limit as u32;
        r.pick(&[0, 1, limit, limit + 1, limit + 1, 99, any])
    };
    match r.below(5) {
        0 => draft.switches = count(r, MAX_SWITCHES),
        1 => draft.faults = count(r, MAX_FAULTS),
        2 => {
            draft.switches = count(r, MAX_SWITCHES);
            draft.faults = count(r, MAX_FAULTS);
        }
        _ => {
            draft.switches = r.between(MAX_SWITCHES + 1, 99) as u32;
            draft.faults = r.between(MAX_FAULTS + 1, 99) as u32;
        }
    }
    draft.written(r)
}

/// Numbers just beyond the counts, and far.
fn beyond(r: &mut Random) -> Vec<u8> {
    let mut draft = small_draft(r);
    let number = |r: &mut Random, count: u32| match r.below(4) {
        // A point of another kind, or none.
        0 => count + 2,
        1 => 99,
        2 => count.max(1),
        _ => count + 1,
    };
    for _ in 0..1 + r.below(2) {
        if r.one_in(3) {
            let mut wish = draft.wish(r);
            let switch = number(r, draft.switches) as i32;
            let at = r.below(wish.literals.len());
            wish.literals[at] = r.pick(&[switch, -switch]);
            let at = r.below(draft.wishes.len() + 1);
            draft.wishes.insert(at, wish);
        } else {
            let leaf = match r.one_in(2) {
                true => Tree::Leaf(b's', number(r, draft.switches)),
                false => Tree::Leaf(b'f', number(r, draft.faults)),
            };
            let tree = match r.below(3) {
                0 => leaf,
                1 => join(b'&', draft.leaf(r), not(leaf)),
                _ => join(b'|', leaf, draft.leaf(r)),
            };
            let at = r.below(draft.rules.len() + 1);
            draft.rules.insert(at, tree);
        }
    }
    draft.written(r)
}

/// Wishes whose weights are right, but for some of them.
fn weights(r: &mut Random) -> Vec<u8> {
    let mut draft = small_draft(r);
    draft.switches = draft.switches.max(1);
    let count = 1 + r.below(6);
    draft.some_wishes(r, count);
    for _ in 0..1 + r.below(2) {
        let at = r.below(count);
        draft.wishes[at].weight = match r.below(4) {
            0 => r.below(MAX_LEGAL as usize + 1) as u32,
            _ => r.pick(&WEIGHTS_AROUND),
        };
    }
    draft.written(r)
}

/// A wrong weight, and a switch beyond the counts on the same line or after it.
fn weights_and_switches(r: &mut Random) -> Vec<u8> {
    let mut draft = small_draft(r);
    draft.switches = draft.switches.max(1);
    let count = 2 + r.below(4);
    draft.some_wishes(r, count);
    let beyond = draft.switches as i32 + 1;
    let heavy = r.below(count);
    let wrong = heavy + r.below(count - heavy);
    draft.wishes[heavy].weight = r.pick(&[0, MAX_WEIGHT + 1]);
    draft.wishes[wrong].literals[0] = r.pick(&[beyond, -beyond]);
    draft.written(r)
}

// ---- noise

/// Bytes of any kind, after a head or not.
fn noise(r: &mut Random) -> Vec<u8> {
    let mut bytes = Vec::new();
    if r.one_in(2) {
        bytes.extend(b"switches 2\nfaults 2\n");
    }
    let length = r.pick(&[0, 1, 30, 300, MAX_TEXT - 40, MAX_TEXT, MAX_TEXT + 1]);
    for _ in 0..r.below(length + 1) {
        bytes.push(odd_byte(r));
    }
    bytes
}

/// Words and signs in any order.
fn words(r: &mut Random) -> Vec<u8> {
    const WORDS: [&str; 22] = [
        "switches ",
        "faults ",
        "rule ",
        "wish ",
        "rule s1",
        "wish s1",
        " weight ",
        "weight",
        "\n",
        "\n",
        " ",
        "!",
        "&",
        "|",
        "(",
        ")",
        "s1",
        "f1",
        "s2",
        "s",
        "0",
        "9",
    ];
    let mut text = String::new();
    if !r.one_in(4) {
        text += "switches 2\nfaults 1\nrule ";
    }
    for _ in 0..r.below(40) {
        text += r.pick(&WORDS);
    }
    text.into_bytes()
}

// ---- damage

/// The lines, with their line feeds.
pub(crate) fn lines(bytes: &[u8]) -> Vec<Range<usize>> {
    let mut from = 0;
    let each = bytes.split_inclusive(|&byte| byte == b'\n');
    each.map(|line| {
        from += line.len();
        from - line.len()..from
    })
    .collect()
}

/// The numbers.
pub(crate) fn numbers(bytes: &[u8]) -> Vec<Range<usize>> {
    let digit = |at: usize| bytes.get(at).is_some_and(u8::is_ascii_digit);
    let first = |&at: &usize| digit(at) && (at == 0 || !digit(at - 1));
    let starts = (0..bytes.len()).filter(first);
    let end = |at: usize| (at..=bytes.len()).find(|&to| !digit(to)).unwrap_or(at);
    starts.map(|at| at..end(at)).collect()
}

/// Where this byte stands.
fn all_of(bytes: &[u8], wanted: &[u8]) -> Vec<usize> {
    let at = |&at: &usize| wanted.contains(&bytes[at]);
    (0..bytes.len()).filter(at).collect()
}

fn any<T: Clone>(r: &mut Random, of: &[T]) -> Option<T> {
    (!of.is_empty()).then(|| of[r.below(of.len())].clone())
}

/// A byte that may or may not belong somewhere.
fn telling_byte(r: &mut Random) -> u8 {
    match r.below(6) {
        0 => odd_byte(r),
        _ => r.pick(b"0019 !&|()sf\nrw"),
    }
}

fn insert(r: &mut Random, bytes: &mut Vec<u8>) {
    let at = r.below(bytes.len() + 1);
    bytes.insert(at, telling_byte(r));
}

fn leave_out(r: &mut Random, bytes: &mut Vec<u8>) {
    let at = r.below(bytes.len());
    bytes.remove(at);
}

#[allow(clippy::ptr_arg)] // it is a damage like the others
fn change(r: &mut Random, bytes: &mut Vec<u8>) {
    let at = r.below(bytes.len());
    bytes[at] = telling_byte(r);
}

fn cut(r: &mut Random, bytes: &mut Vec<u8>) {
    let at = match r.below(4) {
        0 => bytes.len() - 1,
        1 => any(r, &lines(bytes)).map_or(0, |line| line.end),
        _ => r.below(bytes.len()),
    };
    bytes.truncate(at);
}

fn line_twice(r: &mut Random, bytes: &mut Vec<u8>) {
    let all = lines(bytes);
    if let (Some(line), Some(to)) = (any(r, &all), any(r, &all)) {
        let again = bytes[line].to_vec();
        bytes.splice(to.start..to.start, again);
    }
}

fn line_left_out(r: &mut Random, bytes: &mut Vec<u8>) {
    if let Some(line) = any(r, &lines(bytes)) {
        bytes.drain(line);
    }
}

fn lines_swapped(r: &mut Random, bytes: &mut Vec<u8>) {
    let mut all: Vec<Vec<u8>> = lines(bytes)
        .into_iter()
        .map(|l| bytes[l].to_vec())
        .collect();
    let (one, other) = (r.below(all.len()), r.below(all.len()));
    all.swap(one, other);
    *bytes = all.concat();
}

fn leading_zero(r: &mut Random, bytes: &mut Vec<u8>) {
    if let Some(number) = any(r, &numbers(bytes)) {
        bytes.insert(number.start, b'0');
    }
}

fn space_at_an_end(r: &mut Random, bytes: &mut Vec<u8>) {
    if let Some(at) = any(r, &all_of(bytes, b"\n")) {
        bytes.insert(at, b' ');
    }
}

fn space(r: &mut Random, bytes: &mut Vec<u8>) {
    let at = match r.below(3) {
        0 => any(r, &all_of(bytes, b" ")),
        1 => any(r, &lines(bytes)).map(|line| line.start),
        _ => any(r, &numbers(bytes)).map(|number| number.start),
    };
    if let Some(at) = at {
        bytes.insert(at, b' ');
    }
}

fn carriage_return(r: &mut Random, bytes: &mut Vec<u8>) {
    if let Some(at) = any(r, &all_of(bytes, b"\n")) {
        bytes.insert(at, b'\r');
    }
}

#[allow(clippy::ptr_arg)] // it is a damage like the others
fn capital(r: &mut Random, bytes: &mut Vec<u8>) {
    match r.below(4) {
        0 => bytes.make_ascii_uppercase(),
        1 => {
            if let Some(line) = any(r, &lines(bytes)) {
                bytes[line].make_ascii_uppercase();
            }
        }
        _ => {
            if let Some(at) = any(r, &all_of(bytes, b"sfrw")) {
                bytes[at].make_ascii_uppercase();
            }
        }
    }
}

fn sign(r: &mut Random, bytes: &mut Vec<u8>) {
    if let Some(at) = any(r, &all_of(bytes, b"()!&|")) {
        match r.below(3) {
            0 => bytes.insert(at, r.pick(b"()!&|")),
            1 => bytes[at] = r.pick(b"()!&|"),
            _ => {
                bytes.remove(at);
            }
        }
    }
}

fn number(r: &mut Random, bytes: &mut Vec<u8>) {
    const NUMBERS: [&str; 12] = [
        "0", "1", "2", "6", "16", "17", "20", "21", "99", "100", "00", "",
    ];
    if let Some(number) = any(r, &numbers(bytes)) {
        bytes.splice(number, r.pick(&NUMBERS).bytes());
    }
}

/// Writes a wish anew: from its literals, and its weight with the space before it. If there is no wish, one
/// is added.
fn rewrite_wish(bytes: &mut Vec<u8>, r: &mut Random, again: fn(&mut Random, &str, &str) -> String) {
    let wishes: Vec<Range<usize>> = lines(bytes)
        .into_iter()
        .filter(|line| bytes[line.clone()].starts_with(b"wish"))
        .collect();
    let line = any(r, &wishes).unwrap_or_else(|| {
        let from = bytes.len();
        bytes.extend(b"wish s1 s1\n");
        from..bytes.len()
    });
    let text = String::from_utf8_lossy(&bytes[line.clone()]).into_owned();
    let text = text.trim_end_matches('\n');
    let weight = text.find(" weight").unwrap_or(text.len());
    let (literals, weight) = text.split_at(weight);
    let again = again(r, literals, weight) + "\n";
    bytes.splice(line, again.into_bytes());
}

fn literal_more(r: &mut Random, bytes: &mut Vec<u8>) {
    rewrite_wish(bytes, r, |r, literals, weight| {
        let there = literals.split_whitespace().count().saturating_sub(1);
        // One too many, if it is not more.
        let missing = (LITERALS + 1).saturating_sub(there);
        match r.below(6) {
            0 => format!("{literals}{weight}{}", r.pick(&[" s1", " !s1", "s1"])),
            1 => format!("{literals}{}{weight}", r.pick(&[" s1", " !s1", "s1"])),
            _ => format!("{literals}{}{weight}", " s1".repeat(missing + r.below(2))),
        }
    });
}

/// A number that is no weight.
fn weight_number(r: &mut Random, bytes: &mut Vec<u8>) {
    rewrite_wish(bytes, r, |r, literals, _| {
        let number = match r.below(4) {
            0 => r.pick(&["00", "01", "007", "0999", "01000"]),
            1 => r.pick(&["", "-1", "+1", "1.5", "s1"]),
            _ => r.pick(&["10000", "12345", "99999", "100000"]),
        };
        format!("{literals} weight {number}")
    });
}

/// What may stand before a weight, after it or in its place.
fn weight_place(r: &mut Random, bytes: &mut Vec<u8>) {
    const ENDINGS: [&str; 9] = [
        "  weight 2",
        " weight  2",
        " weight 2 s1",
        " weight 2 weight 3",
        " weigh",
        " weight",
        " weights 2",
        "weight 2",
        " 2",
    ];
    rewrite_wish(bytes, r, |r, literals, _| match r.below(4) {
        0 => literals.replacen("wish", "wish weight 2", 1),
        _ => format!("{literals}{}", r.pick(&ENDINGS)),
    });
}

fn several(r: &mut Random, bytes: &mut Vec<u8>) {
    for _ in 0..2 + r.below(3) {
        if bytes.is_empty() {
            return;
        }
        let Recipe::Damage(damage) = RECIPES[FIRST_DAMAGE + r.below(DAMAGES - 1)].1 else {
            unreachable!("damages stand together");
        };
        damage(r, bytes);
    }
}

// ---- putting it together

#[derive(Clone, Copy)]
enum Recipe {
    Whole(fn(&mut Random) -> Vec<u8>),
    Damage(fn(&mut Random, &mut Vec<u8>)),
}

use Recipe::{Damage, Whole};

/// What a text is made by, one after another by its index. Half of all are the texts of sheets that
/// make the planner work, which stand apart.
const RECIPES: [(&str, Recipe); 29] = [
    ("small", Whole(small)),
    ("deep", Whole(deep)),
    ("full", Whole(full)),
    ("crowded", Whole(crowded)),
    ("long", Whole(long)),
    ("counts", Whole(counts)),
    ("beyond the counts", Whole(beyond)),
    ("weights", Whole(weights)),
    ("weights and switches", Whole(weights_and_switches)),
    ("noise", Whole(noise)),
    ("words", Whole(words)),
    ("a byte inserted", Damage(insert)),
    ("a byte left out", Damage(leave_out)),
    ("a byte changed", Damage(change)),
    ("cut short", Damage(cut)),
    ("a line twice", Damage(line_twice)),
    ("a line left out", Damage(line_left_out)),
    ("two lines swapped", Damage(lines_swapped)),
    ("a leading zero", Damage(leading_zero)),
    ("a space before a line feed", Damage(space_at_an_end)),
    ("a space", Damage(space)),
    ("a carriage return", Damage(carriage_return)),
    ("capitals", Damage(capital)),
    ("a sign", Damage(sign)),
    ("a number", Damage(number)),
    ("a literal more", Damage(literal_more)),
    ("the number of a weight", Damage(weight_number)),
    ("the place of a weight", Damage(weight_place)),
    ("several damages", Damage(several)),
];
const FIRST_DAMAGE: usize = 11;
const DAMAGES: usize = RECIPES.len() - FIRST_DAMAGE;

const PLANNING: &str = "planning";

/// The names of all that a text can be made by.
pub fn kinds() -> impl Iterator<Item = &'static str> {
    let recipes = RECIPES.iter().map(|(name, _)| *name);
    std::iter::once(PLANNING).chain(recipes)
}

/// The text of this seed and index. One that is accepted can be answered at once.
pub fn typed_text(seed: u64, index: u64) -> Made {
    let r = &mut Random::new(seed, index);
    let class = class(index);
    if class == Class::Small && index % 2 == 1 {
        let (kind, recipe) = RECIPES[(index / 2) as usize % RECIPES.len()];
        for _ in 0..20 {
            let bytes = cooked(r, recipe);
            if read(&bytes).map_or(true, |sheet| light(&sheet)) {
                return Made {
                    bytes,
                    kind,
                    damaged: matches!(recipe, Damage(_)),
                };
            }
        }
    }
    Made {
        bytes: planning(r, class),
        kind: PLANNING,
        damaged: false,
    }
}

fn cooked(r: &mut Random, recipe: Recipe) -> Vec<u8> {
    match recipe {
        Whole(made) => made(r),
        Damage(damage) => {
            let mut bytes = match r.below(4) {
                0 => deep(r),
                1 => small(r),
                _ => planning(r, Class::Small),
            };
            damage(r, &mut bytes);
            bytes
        }
    }
}
