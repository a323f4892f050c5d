//! The baseline: the jobs of docs/FORMAT.md in plain Rust, written for speed in the ordinary way.
//! The method is the proved planner's: recursion over the gates with no memory of what is known,
//! all plans and all patterns tried in a loop, a plan's cost looked at before its patterns.

use comzsered::figures::{Found, Rated};
use comzsered::Input;
use planner_tests::oracle::{Gate, Sheet, Wish};

use crate::typed;

const LINE: usize = 22;
const MAX_LINES: usize = 530;

/// A sheet's tables, a column for each field.
pub struct Tables {
    pub a: u32,
    pub f: u32,
    pub kind: Vec<u8>,
    pub left: Vec<u32>,
    pub right: Vec<u32>,
    pub rules: Vec<u32>,
    pub wishes: Vec<[i32; 3]>,
    pub weights: Vec<u32>,
}

impl Tables {
    /// Empty tables with room for so many gates.
    pub fn new(gates: usize) -> Tables {
        Tables {
            a: 0,
            f: 0,
            kind: Vec::with_capacity(gates),
            left: Vec::with_capacity(gates),
            right: Vec::with_capacity(gates),
            rules: Vec::with_capacity(64),
            wishes: Vec::with_capacity(64),
            weights: Vec::with_capacity(64),
        }
    }

    /// The same in the tests' own type.
    pub fn said(&self) -> Sheet {
        let gate = |i: usize| Gate {
            kind: self.kind[i],
            left: self.left[i],
            right: self.right[i],
        };
        let wish = |i: usize| Wish {
            literals: self.wishes[i].into_iter().filter(|&l| l != 0).collect(),
            weight: self.weights[i],
        };
        Sheet {
            switches: self.a,
            faults: self.f,
            gates: (0..self.kind.len()).map(gate).collect(),
            rules: self.rules.clone(),
            wishes: (0..self.wishes.len()).map(wish).collect(),
        }
    }
}

// ---- reading

/// The number in a field of five columns.
fn number(field: &[u8]) -> Option<i32> {
    let spaces = field.iter().take_while(|&&b| b == b' ').count();
    let (negative, digits) = match &field[spaces..] {
        [b'-', rest @ ..] => (true, rest),
        rest => (false, rest),
    };
    if digits.is_empty() || (digits[0] == b'0' && (digits.len() > 1 || negative)) {
        return None;
    }
    let mut value = 0;
    for &b in digits {
        if !b.is_ascii_digit() {
            return None;
        }
        value = value * 10 + i32::from(b - b'0');
    }
    Some(if negative { -value } else { value })
}

fn part(letter: u8) -> Option<u32> {
    match letter {
        b'H' => Some(0),
        b'N' | b'A' | b'O' => Some(1),
        b'R' => Some(2),
        b'W' => Some(3),
        b'Z' => Some(4),
        _ => None,
    }
}

/// The letter with its part, and the numbers.
fn line(bytes: &[u8]) -> Option<(u8, u32, [i32; 4])> {
    let part = part(bytes[0])?;
    let numbers = [
        number(&bytes[1..6])?,
        number(&bytes[6..11])?,
        number(&bytes[11..16])?,
        number(&bytes[16..21])?,
    ];
    (bytes[21] == b'\n').then_some((bytes[0], part, numbers))
}

/// The column at which a malformed line stops being the beginning of any well-formed line.
#[cold]
fn column(bytes: &[u8]) -> usize {
    if part(bytes[0]).is_none() {
        return 1;
    }
    for start in [1, 6, 11, 16] {
        let field = &bytes[start..start + 5];
        if number(field).is_none() {
            return start + 1 + right_bytes(field);
        }
    }
    LINE
}

/// How many bytes of a malformed field could begin a number: spaces, a minus, then digits of which
/// the first is not 0. At least the last column is wrong.
fn right_bytes(field: &[u8]) -> usize {
    let spaces = field.iter().take_while(|&&b| b == b' ').count().min(4);
    let minus = usize::from(field[spaces] == b'-');
    let first = (spaces + minus).min(4);
    if !(b'1'..=b'9').contains(&field[first]) {
        return first;
    }
    let digits = field[first..].iter().take_while(|b| b.is_ascii_digit());
    first + digits.count()
}

/// Number, place and column.
pub type Refusal = (u32, usize, usize);

pub fn read<'a>(input: impl Into<Input<'a>>) -> Result<Tables, Refusal> {
    match input.into() {
        Input::Sheet(sheet) => read_sheet(sheet),
        Input::Text(text) => typed::read(text),
    }
}

/// The tables, or the refusal.
fn read_sheet(bytes: &[u8]) -> Result<Tables, Refusal> {
    if bytes.is_empty() || !bytes.len().is_multiple_of(LINE) || bytes.len() > MAX_LINES * LINE {
        return Err((1, 0, 0));
    }
    let lines = bytes.len() / LINE;
    let mut t = Tables::new(lines);
    let mut part_before = 0;
    for (before, bytes) in bytes.chunks_exact(LINE).enumerate() {
        let place = before + 1;
        let Some((letter, part, [p, q, r, w])) = line(bytes) else {
            return Err((2, place, column(bytes)));
        };
        let (first, last) = (before == 0, place == lines);
        if (letter == b'H') != first || (letter == b'Z') != last || part < part_before {
            return Err((3, place, 0));
        }
        part_before = part;
        let points = (t.a + t.f) as i32 + t.kind.len() as i32;
        let is_point = |p: i32| 1 <= p && p <= points;
        let a = t.a as i32;
        let is_literal = |l: i32| -a <= l && l <= a;
        let full;
        let fits;
        match letter {
            b'H' => {
                if !(0..=20).contains(&p) || !(0..=16).contains(&q) {
                    return Err((4, place, 0));
                }
                (t.a, t.f) = (p as u32, q as u32);
                full = false;
                fits = r == 0 && w == 0;
            }
            b'N' => {
                full = t.kind.len() == 400;
                fits = is_point(p) && q == 0 && r == 0 && w == 0;
            }
            b'A' | b'O' => {
                full = t.kind.len() == 400;
                fits = is_point(p) && is_point(q) && r == 0 && w == 0;
            }
            b'R' => {
                full = t.rules.len() == 64;
                fits = is_point(p) && q == 0 && r == 0 && w == 0;
            }
            b'W' => {
                full = t.wishes.len() == 64;
                let first_zeros = (p == 0 && q != 0) || (q == 0 && r != 0);
                fits = is_literal(p) && is_literal(q) && is_literal(r) && !first_zeros;
            }
            _ => {
                full = false;
                fits = q == 0 && r == 0 && w == 0;
            }
        }
        if full {
            return Err((5, place, 0));
        }
        if !fits {
            return Err((6, place, 0));
        }
        match letter {
            b'N' | b'A' | b'O' => {
                t.kind.push(letter);
                t.left.push(p as u32);
                t.right.push(q as u32);
            }
            b'R' => t.rules.push(p as u32),
            b'W' if !(1..=999).contains(&w) => return Err((14, place, 0)),
            b'W' => {
                t.wishes.push([p, q, r]);
                t.weights.push(w as u32);
            }
            b'Z' if p != before as i32 => return Err((7, place, 0)),
            _ => {}
        }
    }
    Ok(t)
}

// ---- what a plan means

/// How the cost of a plan is added up.
pub trait Cost {
    fn cost(&self, plan: u32) -> u32;
}

/// Literal by literal.
struct Literals<'t> {
    a: u32,
    wishes: &'t [[i32; 3]],
    weights: &'t [u32],
}

impl Cost for Literals<'_> {
    fn cost(&self, plan: u32) -> u32 {
        let holds = |l: &i32| *l != 0 && (plan >> (self.a - l.unsigned_abs()) & 1 == 1) == (*l > 0);
        let wishes = self.wishes.iter().zip(self.weights);
        let broken = wishes.filter(|(wish, _)| !wish.iter().any(holds));
        broken.map(|(_, weight)| weight).sum()
    }
}

/// A wish as two masks, the switches that should be on and those that should be off, and its weight.
struct Masks(Vec<(u32, u32, u32)>);

impl Masks {
    fn new(t: &Tables) -> Masks {
        let mask = |w: &[i32; 3], sign: i32| {
            let of_sign = w.iter().filter(|&&l| l * sign > 0);
            of_sign.fold(0, |m, l| m | 1 << (t.a - l.unsigned_abs()))
        };
        let wishes = t.wishes.iter().zip(&t.weights);
        let masks = wishes.map(|(w, &weight)| (mask(w, 1), mask(w, -1), weight));
        Masks(masks.collect())
    }
}

impl Cost for Masks {
    fn cost(&self, plan: u32) -> u32 {
        let broken = |&&(on, off, _): &&(u32, u32, u32)| (plan & on) | (!plan & off) == 0;
        self.0.iter().filter(broken).map(|wish| wish.2).sum()
    }
}

impl Tables {
    fn truth(&self, plan: u32, pattern: u32, point: u32) -> bool {
        if point <= self.a {
            return plan >> (self.a - point) & 1 == 1;
        }
        let inputs = self.a + self.f;
        if point <= inputs {
            return pattern >> (inputs - point) & 1 == 1;
        }
        let i = (point - inputs - 1) as usize;
        let truth = |point| self.truth(plan, pattern, point);
        match self.kind[i] {
            b'N' => !truth(self.left[i]),
            b'A' => truth(self.left[i]) && truth(self.right[i]),
            _ => truth(self.left[i]) || truth(self.right[i]),
        }
    }

    fn passes(&self, plan: u32, pattern: u32) -> bool {
        self.rules.iter().all(|&p| self.truth(plan, pattern, p))
    }

    fn first_missed(&self, plan: u32) -> Option<u32> {
        (0..1 << self.f).find(|&pattern| !self.passes(plan, pattern))
    }

    /// The best plan that passes all listed patterns, and its cost.
    fn best(&self, wishes: &impl Cost, list: &[u32]) -> Option<(u32, u32)> {
        let mut best: Option<(u32, u32)> = None;
        for plan in 0..1 << self.a {
            let cost = wishes.cost(plan);
            if best.is_none_or(|(_, least)| cost < least)
                && list.iter().all(|&pattern| self.passes(plan, pattern))
            {
                best = Some((plan, cost));
            }
        }
        best
    }
}

// ---- the jobs

const NOTHING: Found = Found {
    number: 0,
    place: 0,
    column: 0,
    plan: 0,
    cost: 0,
    length: 0,
};

fn refused((number, place, column): Refusal) -> Found {
    Found {
        number,
        place,
        column,
        ..NOTHING
    }
}

fn found(best: Option<(u32, u32)>, length: usize) -> Found {
    match best {
        Some((plan, cost)) => Found {
            plan,
            cost,
            length,
            ..NOTHING
        },
        None => Found {
            number: 8,
            length,
            ..NOTHING
        },
    }
}

fn search(t: &Tables, wishes: &impl Cost, list: &mut [u32]) -> Found {
    let mut length = 0;
    loop {
        let best = t.best(wishes, &list[..length]);
        let Some(missed) = best.and_then(|(plan, _)| t.first_missed(plan)) else {
            return found(best, length);
        };
        if length == list.len() {
            return Found {
                number: 9,
                length,
                ..NOTHING
            };
        }
        list[length] = missed;
        length += 1;
    }
}

pub fn answer<'a>(input: impl Into<Input<'a>>, list: &mut [u32], masks: bool) -> Found {
    match read(input) {
        Ok(t) if masks => search(&t, &Masks::new(&t), list),
        Ok(t) => search(&t, &t.literals(), list),
        Err(refusal) => refused(refusal),
    }
}

pub fn short_run<'a>(input: impl Into<Input<'a>>, patterns: &[u32], masks: bool) -> Found {
    let t = match read(input) {
        Ok(t) => t,
        Err(refusal) => return refused(refusal),
    };
    if let Some(at) = patterns.iter().position(|&p| p >> t.f != 0) {
        return refused((11, at + 1, 0));
    }
    if masks {
        found(t.best(&Masks::new(&t), patterns), 0)
    } else {
        found(t.best(&t.literals(), patterns), 0)
    }
}

pub fn rating<'a>(input: impl Into<Input<'a>>, plan: u32) -> Rated {
    let refused = |(number, place, column)| Rated {
        number,
        place,
        column,
        cost: 0,
        sound: 0,
        pattern: 0,
        length: 0,
    };
    let t = match read(input) {
        Ok(t) => t,
        Err(refusal) => return refused(refusal),
    };
    if plan >> t.a != 0 {
        return refused((10, 0, 0));
    }
    let missed = t.first_missed(plan);
    Rated {
        cost: t.literals().cost(plan),
        sound: u32::from(missed.is_none()),
        pattern: missed.unwrap_or(0),
        ..refused((0, 0, 0))
    }
}

impl Tables {
    fn literals(&self) -> Literals<'_> {
        Literals {
            a: self.a,
            wishes: &self.wishes,
            weights: &self.weights,
        }
    }
}
