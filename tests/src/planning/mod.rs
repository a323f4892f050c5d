//! Sheets that make the planner work: long lists, sheets without a plan, wishes that are repeated,
//! conflict or cannot be broken, weights that decide, rules that hold for each fault alone and not for several.
//! A sheet follows from its seed and its index alone, so each can be made again.
//!
//! The planner may work out a gate again each time that another one names it. So what counts as
//! the size of a circuit is the size of its rules written out as trees, and that is kept small.

#[cfg(test)]
mod wrong;

use crate::generate::{damaged, string, weight, written, Random, Row, DAMAGES};
use crate::oracle::{read, Sheet, Wish, LITERALS, MAX_GATES, MAX_RULES, MAX_WEIGHT, MAX_WISHES};

/// The largest tree of one point.
const MAX_TREE: u64 = 1_000;
/// Sheets with more switches or faults come from the other generator, and only if refused.
pub const MOST_SWITCHES: u32 = 12;
pub const MOST_FAULTS: u32 = 10;
/// The most gates, all trees written out, that one pass over all plans and patterns may cost.
const MAX_PASS: u64 = 4_000_000;

// ---- circuits

/// Gates under construction. Points are numbered as on the sheet.
pub(crate) struct Circuit {
    switches: i32,
    faults: i32,
    gates: Vec<Row>,
    most_gates: usize,
    /// The tree of each point.
    trees: Vec<u64>,
}

impl Circuit {
    pub(crate) fn new(switches: i32, faults: i32, most_gates: usize) -> Circuit {
        Circuit {
            switches,
            faults,
            gates: Vec::new(),
            most_gates,
            trees: vec![1; (switches + faults) as usize],
        }
    }

    fn points(&self) -> i32 {
        self.trees.len() as i32
    }

    fn tree(&self, point: i32) -> u64 {
        self.trees[point as usize - 1]
    }

    /// The new gate's point. Where the sheet is full or the tree too large, the left point stands
    /// for it: the sheet is another one then, and as good for the comparison.
    fn add(&mut self, letter: u8, left: i32, right: Option<i32>) -> i32 {
        let tree = 1 + self.tree(left) + right.map_or(0, |point| self.tree(point));
        if self.gates.len() == self.most_gates || tree > MAX_TREE {
            return left;
        }
        let row = match right {
            Some(right) => Row::new(letter, &[left, right]),
            None => Row::new(letter, &[left]),
        };
        self.gates.push(row);
        self.trees.push(tree);
        self.points()
    }

    fn not(&mut self, p: i32) -> i32 {
        self.add(b'N', p, None)
    }

    fn and(&mut self, p: i32, q: i32) -> i32 {
        self.add(b'A', p, Some(q))
    }

    fn or(&mut self, p: i32, q: i32) -> i32 {
        self.add(b'O', p, Some(q))
    }

    /// True when exactly one of the two is.
    fn differ(&mut self, p: i32, q: i32) -> i32 {
        let one = self.or(p, q);
        let both = self.and(p, q);
        let not_both = self.not(both);
        self.and(one, not_both)
    }

    /// The points joined by one kind of gate, in their order.
    fn chain(&mut self, letter: u8, points: &[i32]) -> i32 {
        let mut so_far = points[0];
        for &point in &points[1..] {
            so_far = self.add(letter, so_far, Some(point));
        }
        so_far
    }

    /// The point's negation, by a gate that is there already if there is one.
    pub(crate) fn negated(&mut self, point: i32) -> i32 {
        let leaves = self.switches + self.faults;
        let is_it = |row: &Row| row.letter == b'N' && row.fields[0] == point;
        match self.gates.iter().position(is_it) {
            Some(before) => leaves + before as i32 + 1,
            None => self.not(point),
        }
    }

    /// The point itself or its negation.
    fn literal(&mut self, point: i32, plain: bool) -> i32 {
        if plain {
            point
        } else {
            self.negated(point)
        }
    }

    fn either(&mut self, r: &mut Random, point: i32) -> i32 {
        let plain = r.one_in(2);
        self.literal(point, plain)
    }

    fn a_switch(&self, r: &mut Random) -> i32 {
        r.between(1, self.switches)
    }

    fn a_fault(&self, r: &mut Random) -> i32 {
        self.switches + r.between(1, self.faults)
    }

    /// A switch or a fault; a switch if there is one, two times in three.
    fn a_leaf(&self, r: &mut Random) -> i32 {
        if self.faults == 0 || (self.switches > 0 && !r.one_in(3)) {
            self.a_switch(r)
        } else {
            self.a_fault(r)
        }
    }

    /// The sheet with these gates, rules and wishes.
    pub(crate) fn sheet(self, rules: &[i32], wishes: &[Wish]) -> Vec<Row> {
        let mut rows = vec![Row::new(b'H', &[self.switches, self.faults])];
        rows.extend(self.gates);
        rows.extend(rules.iter().map(|&point| Row::new(b'R', &[point])));
        let wish = |wish: &Wish| Row::wish(&wish.literals, wish.weight as i32);
        rows.extend(wishes.iter().map(wish));
        let before = rows.len() as i32;
        rows.push(Row::new(b'Z', &[before]));
        rows
    }

    /// Any point, those of late gates more often.
    fn a_point(&self, r: &mut Random) -> i32 {
        let last = self.points();
        match r.below(3) {
            0 => last,
            1 => r.between((last - 5).max(1), last),
            _ => r.between(1, last),
        }
    }
}

/// Gates that nothing needs, so that those that matter get high numbers.
fn unused(r: &mut Random, c: &mut Circuit) {
    if c.points() == 0 {
        return;
    }
    for _ in 0..r.below(c.most_gates.saturating_sub(20).max(1)) {
        let (left, right) = (c.a_leaf(r), c.a_leaf(r));
        c.and(left, right);
    }
}

// ---- rules

/// Random gates; most rules are softened by a switch, so that not every sheet is without a plan.
fn loose(r: &mut Random, c: &mut Circuit) -> Vec<i32> {
    for _ in 0..r.below(30) {
        let left = c.a_point(r);
        match r.below(4) {
            0 => c.not(left),
            1 => c.and(left, left),
            2 => {
                let right = c.a_point(r);
                c.and(left, right)
            }
            _ => {
                let right = c.a_point(r);
                c.or(left, right)
            }
        };
    }
    let soften = !r.one_in(3);
    (0..r.below(6))
        .map(|_| {
            let point = c.a_point(r);
            if soften {
                let leaf = c.a_leaf(r);
                let leaf = c.either(r, leaf);
                c.or(point, leaf)
            } else {
                point
            }
        })
        .collect()
}

/// Clauses over switches and faults. With all faults in each clause, one clause speaks of one
/// pattern, and the list grows as the patterns rule out one candidate after another.
fn clauses(r: &mut Random, c: &mut Circuit) -> Vec<i32> {
    let all_faults = r.one_in(2);
    let most_switches = r.below(3) + 1;
    let most = if r.one_in(4) { 60 } else { 16 };
    let count = 1 + r.below(most);
    let mut rules = Vec::new();
    for _ in 0..count {
        let mut literals = Vec::new();
        if c.switches > 0 {
            for _ in 0..1 + r.below(most_switches) {
                let switch = c.a_switch(r);
                literals.push(c.either(r, switch));
            }
        }
        if all_faults {
            for fault in c.switches + 1..=c.switches + c.faults {
                literals.push(c.either(r, fault));
            }
        } else if c.faults > 0 {
            for _ in 0..r.below(4) {
                let fault = c.a_fault(r);
                literals.push(c.either(r, fault));
            }
        }
        if !literals.is_empty() {
            rules.push(c.chain(b'O', &literals));
        }
    }
    rules
}

/// Almost every plan is forbidden by a pattern of its own: so one candidate after another falls,
/// and the list grows.
fn forbidden(r: &mut Random, c: &mut Circuit) -> Vec<i32> {
    let plans = 1 << c.switches.min(8);
    let mut order: Vec<u32> = (0..plans).collect();
    shuffle(r, &mut order);
    if r.one_in(2) {
        // What stays allowed has many switches on, and so is often dear and found late.
        order.sort_by_key(|plan| plan.count_zeros());
    }
    let allowed = r.pick(&[0, 1, 1, 1, 2]);
    let mut rules = Vec::new();
    for &plan in order.iter().skip(allowed).take(MAX_RULES) {
        let pattern = r.word();
        // The clause is false for this plan under this pattern, and for few others.
        let mut literals = Vec::new();
        for switch in 1..=c.switches {
            if !r.one_in(25) {
                literals.push(c.literal(switch, plan >> (switch - 1) & 1 == 0));
            }
        }
        for fault in 1..=c.faults {
            if !r.one_in(25) {
                literals.push(c.literal(c.switches + fault, pattern >> fault & 1 == 0));
            }
        }
        if c.gates.len() + literals.len() > c.most_gates {
            break;
        }
        if !literals.is_empty() {
            shuffle(r, &mut literals);
            rules.push(c.chain(b'O', &literals));
        }
    }
    rules
}

/// How a plan and a pattern have to compare.
#[derive(Clone, Copy, Debug, PartialEq, Eq)]
pub enum Relation {
    AtLeast,
    Differ,
    Equal,
}

/// The switches of a plan and the faults of a pattern, paired at random, compared as numbers.
/// Lists become as long as there are patterns, unless the numbers have to be equal.
fn compared(r: &mut Random, c: &mut Circuit) -> Vec<i32> {
    if c.switches == 0 || c.faults == 0 {
        return loose(r, c);
    }
    let relations = [
        Relation::AtLeast,
        Relation::AtLeast,
        Relation::Differ,
        Relation::Differ,
        Relation::Equal,
    ];
    let relation = r.pick(&relations);
    let mut rule = comparison(r, c, relation);
    if r.one_in(2) {
        // A way out for some plans, whatever the pattern; mostly such as have many switches on.
        let literals: Vec<i32> = (0..2 + r.below(4))
            .map(|_| {
                let switch = c.a_switch(r);
                let plain = !r.one_in(5);
                c.literal(switch, plain)
            })
            .collect();
        let way_out = c.chain(b'A', &literals);
        rule = c.or(rule, way_out);
    }
    vec![rule]
}

fn comparison(r: &mut Random, c: &mut Circuit, relation: Relation) -> i32 {
    let mut switches: Vec<i32> = (1..=c.switches).collect();
    let mut faults: Vec<i32> = (c.switches + 1..=c.switches + c.faults).collect();
    if r.one_in(3) {
        shuffle(r, &mut switches);
        shuffle(r, &mut faults);
    }
    let negate = r.one_in(3);
    let mut so_far = None;
    // The lowest digits stand last on the sheet, and come first here.
    for (&switch, &f) in switches.iter().rev().zip(faults.iter().rev()) {
        let s = if negate { c.either(r, switch) } else { switch };
        so_far = Some(with_digit(c, relation, s, f, so_far));
    }
    so_far.expect("a pair")
}

/// The comparison of all digits up to this one, from that of the lower ones.
pub(crate) fn with_digit(
    c: &mut Circuit,
    relation: Relation,
    s: i32,
    f: i32,
    lower: Option<i32>,
) -> i32 {
    match relation {
        Relation::AtLeast => {
            let not_f = c.negated(f);
            let not_smaller = c.or(s, not_f);
            let Some(lower) = lower else {
                return not_smaller;
            };
            let greater = c.and(s, not_f);
            let decided_lower = c.and(not_smaller, lower);
            c.or(greater, decided_lower)
        }
        Relation::Differ => {
            let differ = c.differ(s, f);
            lower.map_or(differ, |lower| c.or(differ, lower))
        }
        Relation::Equal => {
            let differ = c.differ(s, f);
            let same = c.not(differ);
            lower.map_or(same, |lower| c.and(same, lower))
        }
    }
}

/// Services that units keep up, each unit with a switch and a fault of its own. Several faults
/// together may excuse a service.
fn services(r: &mut Random, c: &mut Circuit) -> Vec<i32> {
    if c.switches == 0 || c.faults == 0 {
        return loose(r, c);
    }
    let mut rules = Vec::new();
    for _ in 0..1 + r.below(3) {
        let mut faults: Vec<i32> = (0..1 + r.below(4)).map(|_| c.a_fault(r)).collect();
        let mut units = Vec::new();
        for &fault in &faults {
            let works = c.negated(fault);
            let switch = c.a_switch(r);
            units.push(c.and(switch, works));
        }
        if r.one_in(4) {
            // Not the faults of this service's units, or not all of them.
            let last = faults.len() - 1;
            faults[last] = c.a_fault(r);
        }
        let mut service = c.chain(b'O', &units);
        if !r.one_in(6) {
            let excuse = c.chain(b'A', &faults);
            service = c.or(service, excuse);
        }
        if r.one_in(4) {
            let switch = c.a_switch(r);
            let spare = c.either(r, switch);
            service = c.or(service, spare);
        }
        rules.push(service);
    }
    if r.one_in(3) {
        // Two switches are not on together while a fault is there.
        let (one, other, fault) = (c.a_switch(r), c.a_switch(r), c.a_fault(r));
        let both = c.and(one, other);
        let clash = c.and(both, fault);
        rules.push(c.not(clash));
    }
    rules
}

/// A switch has to be on exactly when a fault is there, unless something else helps. Here a fault
/// stands both plain and negated in one formula, and must not be struck out of it.
fn followers(r: &mut Random, c: &mut Circuit) -> Vec<i32> {
    if c.switches == 0 || c.faults == 0 {
        return loose(r, c);
    }
    let mut rules = Vec::new();
    for _ in 0..1 + r.below(4) {
        let (switch, fault) = (c.a_switch(r), c.a_fault(r));
        let differ = c.differ(switch, fault);
        let mut rule = c.either(r, differ);
        for _ in 0..r.below(3) {
            let leaf = c.a_leaf(r);
            let help = c.either(r, leaf);
            rule = c.or(rule, help);
        }
        rules.push(rule);
    }
    rules
}

/// Rules that fail only under several faults at once: trying faults singly shows nothing.
fn together(r: &mut Random, c: &mut Circuit) -> Vec<i32> {
    if c.switches == 0 || c.faults < 2 {
        return clauses(r, c);
    }
    let mut rules = Vec::new();
    for _ in 0..1 + r.below(8) {
        let first = c.a_fault(r);
        let mut literals = vec![first];
        for _ in 0..1 + r.below(3) {
            let fault = c.a_fault(r);
            literals.push(if r.one_in(4) { c.not(fault) } else { fault });
        }
        let bad = c.chain(b'A', &literals);
        let survived = c.not(bad);
        let switch = c.a_switch(r);
        let answer = c.either(r, switch);
        rules.push(c.or(survived, answer));
    }
    rules
}

/// Of some switches one has to be on, unless a fault is there: which of them, the weights of the wishes tell.
fn choices(r: &mut Random, c: &mut Circuit) -> Vec<i32> {
    if c.switches < 2 {
        return loose(r, c);
    }
    let mut rules = Vec::new();
    for _ in 0..1 + r.below(5) {
        let mut literals = Vec::new();
        for _ in 0..2 + r.below(3) {
            let switch = c.a_switch(r);
            let plain = !r.one_in(6);
            literals.push(c.literal(switch, plain));
        }
        if c.faults > 0 && r.one_in(2) {
            let fault = c.a_fault(r);
            literals.push(c.either(r, fault));
        }
        rules.push(c.chain(b'O', &literals));
    }
    rules
}

/// One long chain of gates.
fn deep(r: &mut Random, c: &mut Circuit) -> Vec<i32> {
    let mut point = c.a_leaf(r);
    let mut rules = Vec::new();
    let most = if r.one_in(8) { 385 } else { 60 };
    for _ in 0..10 + r.below(most) {
        let leaf = c.a_leaf(r);
        point = match r.below(5) {
            0 | 1 => c.not(point),
            2 => c.and(point, leaf),
            3 => c.or(leaf, point),
            _ => c.or(point, leaf),
        };
        if r.one_in(60) {
            rules.push(point);
        }
    }
    rules.push(point);
    rules
}

/// Rules on switches and faults themselves. One on a fault leaves no plan, and one on each switch
/// leaves one plan, which may break many wishes.
fn bare(r: &mut Random, c: &mut Circuit) -> Vec<i32> {
    if r.one_in(3) {
        let on = r.one_in(2);
        return (1..=c.switches).map(|k| c.literal(k, on)).collect();
    }
    let faults_too = r.one_in(4);
    (0..r.below(6))
        .filter_map(|_| match faults_too || c.switches == 0 {
            true => Some(c.a_leaf(r)).filter(|_| r.one_in(2)),
            false => Some(c.a_switch(r)),
        })
        .collect()
}

/// The same meaning with more gates: double negations, copies, one rule for two, unused gates.
fn dressed(r: &mut Random, c: &mut Circuit, rules: Vec<i32>) -> Vec<i32> {
    let mut again = Vec::new();
    for rule in rules {
        let point = match r.below(8) {
            0 => {
                let not = c.not(rule);
                c.not(not)
            }
            1 => c.and(rule, rule),
            2 => c.or(rule, rule),
            _ => rule,
        };
        match again.last_mut() {
            Some(last) if r.one_in(6) => *last = c.and(*last, point),
            _ => again.push(point),
        }
        if r.one_in(8) {
            let (left, right) = (c.a_point(r), c.a_point(r));
            c.or(left, right);
        }
        if r.one_in(10) {
            again.push(point);
        }
    }
    if r.one_in(4) {
        shuffle(r, &mut again);
    }
    if r.one_in(25) && !again.is_empty() {
        // A full sheet of rules, whose last ones matter.
        let copies = MAX_RULES.saturating_sub(again.len());
        again.splice(..0, vec![again[0]; copies]);
    }
    again.truncate(MAX_RULES);
    again
}

// ---- wishes

/// Puts the items in any order.
pub fn shuffle<T>(r: &mut Random, items: &mut [T]) {
    for k in (1..items.len()).rev() {
        items.swap(k, r.below(k + 1));
    }
}

/// How the wishes of a sheet weigh.
#[derive(Clone, Copy)]
pub(crate) enum Weights {
    Ones,
    /// So little that different wishes often weigh the same together.
    Few,
    Any,
    /// As little or as much as may be.
    Ends,
}

impl Weights {
    pub(crate) fn drawn(r: &mut Random) -> Weights {
        use Weights::*;
        r.pick(&[Ones, Few, Few, Any, Ends])
    }

    /// A wish of these literals. Equal ones may get different weights.
    fn wish(self, r: &mut Random, literals: Vec<i32>) -> Wish {
        let weight = match self {
            Weights::Ones => 1,
            Weights::Few => r.between(1, 4) as u32,
            Weights::Any => weight(r) as u32,
            Weights::Ends => r.pick(&[1, MAX_WEIGHT]),
        };
        Wish { literals, weight }
    }
}

/// The literals of a wish once more: as they were written, or in any order and perhaps with one repeated.
fn again(r: &mut Random, wish: &Wish) -> Vec<i32> {
    let mut literals = wish.literals.clone();
    if r.one_in(3) {
        return literals;
    }
    if !literals.is_empty() && literals.len() < LITERALS && r.one_in(2) {
        literals.push(r.pick(&wish.literals));
    }
    shuffle(r, &mut literals);
    literals
}

fn a_literal(r: &mut Random, switches: i32) -> i32 {
    let switch = r.between(1, switches);
    // Off is wished for more often: so the candidates begin with few switches on.
    if r.one_in(3) {
        switch
    } else {
        -switch
    }
}

pub(crate) fn a_wish(r: &mut Random, switches: i32, earlier: &[Wish], weights: Weights) -> Wish {
    let literals = some_literals(r, switches, earlier);
    weights.wish(r, literals)
}

fn some_literals(r: &mut Random, switches: i32, earlier: &[Wish]) -> Vec<i32> {
    if !earlier.is_empty() && r.one_in(4) {
        let k = r.below(earlier.len());
        return again(r, &earlier[k]);
    }
    if switches == 0 || r.one_in(24) {
        return Vec::new();
    }
    let mut literals: Vec<i32> = (0..r.pick(&[1, 1, 1, 2, 2, 3]))
        .map(|_| a_literal(r, switches))
        .collect();
    let last = literals.len() - 1;
    if last > 0 && r.one_in(6) {
        literals[last] = -literals[0];
    }
    literals
}

/// Every clause of one, two or three switches, all on or all off.
fn every_clause(switches: i32, on: bool) -> Vec<Vec<i32>> {
    let sign = if on { 1 } else { -1 };
    let mut clauses = Vec::new();
    for i in 1..=switches {
        clauses.push(vec![sign * i]);
        for j in i + 1..=switches {
            clauses.push(vec![sign * i, sign * j]);
            clauses.extend((j + 1..=switches).map(|k| vec![sign * i, sign * j, sign * k]));
        }
    }
    clauses
}

fn wishes(r: &mut Random, switches: i32) -> Vec<Wish> {
    let weights = Weights::drawn(r);
    let clauses: Vec<Vec<i32>> = match r.below(20) {
        0 | 1 => return Vec::new(),
        2..=7 => (1..=switches).map(|k| vec![-k]).collect(),
        8 | 9 => (1..=switches).map(|k| vec![k]).collect(),
        10..=12 => (1..=switches).flat_map(|k| [vec![k], vec![-k]]).collect(),
        13 => every_clause(switches, r.one_in(2)),
        _ => Vec::new(),
    };
    let clauses = clauses.into_iter();
    let mut made: Vec<Wish> = clauses.map(|literals| weights.wish(r, literals)).collect();
    let most = match r.below(30) {
        0 => MAX_WISHES + 1,
        1..=9 => 20,
        _ => 7,
    };
    for _ in 0..r.below(most) {
        let wish = a_wish(r, switches, &made, weights);
        made.push(wish);
    }
    if r.one_in(3) {
        shuffle(r, &mut made);
    }
    if r.one_in(25) && !made.is_empty() {
        // A full sheet of wishes, the first of them many times.
        for _ in made.len()..MAX_WISHES {
            let first = again(r, &made[0]);
            let first = weights.wish(r, first);
            made.insert(0, first);
        }
    }
    made.truncate(MAX_WISHES);
    made
}

// ---- whole sheets

/// How large the sheet of an index is, and how much work its comparison may be.
#[derive(Clone, Copy, Debug, PartialEq, Eq)]
pub enum Class {
    Small,
    Medium,
    Large,
    Long,
    Wide,
}

/// The few large ones take most of the time, so the class follows from the index alone.
pub fn class(index: u64) -> Class {
    match index % 2_000 {
        999 => Class::Long,
        n if n % 400 == 200 => Class::Large,
        n if n % 125 == 60 => Class::Wide,
        n if n % 40 == 20 => Class::Medium,
        _ => Class::Small,
    }
}

fn sizes(r: &mut Random, class: Class, kind: usize) -> (i32, i32) {
    match class {
        Class::Small => match r.below(8) {
            0 => (r.between(0, 5), r.between(0, 2)),
            1 => (r.between(0, 2), r.between(0, 5)),
            _ if LENGTHY.contains(&kind) || kind == CHOICES => (r.between(2, 5), r.between(2, 5)),
            _ => (r.between(1, 4), r.between(1, 4)),
        },
        Class::Medium => (r.between(3, 6), r.between(3, 6)),
        Class::Large => (r.between(5, 8), r.between(5, 8)),
        Class::Long => (8, 8),
        Class::Wide => (
            r.pick(&[7, 8, 9, 10, 11, MOST_SWITCHES as i32]),
            r.pick(&[0, 2, 5, 7, 8, 9, MOST_FAULTS as i32]),
        ),
    }
}

/// What the rules are made by.
pub const KINDS: [&str; 10] = [
    "loose",
    "clauses",
    "forbidden",
    "compared",
    "services",
    "followers",
    "together",
    "choices",
    "deep",
    "bare",
];

const FORBIDDEN: usize = 2;
const COMPARED: usize = 3;
const CHOICES: usize = 7;
/// Those whose lists grow long.
const LENGTHY: [usize; 2] = [FORBIDDEN, COMPARED];

fn rules(r: &mut Random, kind: usize, c: &mut Circuit) -> Vec<i32> {
    if c.points() == 0 {
        return Vec::new();
    }
    match kind {
        0 => loose(r, c),
        1 => clauses(r, c),
        2 => forbidden(r, c),
        3 => compared(r, c),
        4 => services(r, c),
        5 => followers(r, c),
        6 => together(r, c),
        7 => choices(r, c),
        8 => deep(r, c),
        _ => bare(r, c),
    }
}

/// Any kind, those with long lists more often.
fn a_kind(r: &mut Random) -> usize {
    r.pick(&[0, 1, 2, 2, 2, 2, 3, 3, 3, 3, 4, 4, 5, 6, 6, 7, 7, 7, 8, 9])
}

fn rows(r: &mut Random, class: Class) -> (Vec<Row>, &'static str) {
    let kind = match class {
        Class::Large => r.pick(&LENGTHY),
        Class::Long => COMPARED,
        _ => a_kind(r),
    };
    let (switches, faults) = sizes(r, class, kind);
    let mut c = Circuit::new(switches, faults, MAX_GATES);
    let (rules, wishes) = if class == Class::Long {
        let relation = r.pick(&[Relation::AtLeast, Relation::Differ]);
        let few = r.one_in(2);
        let wishes = if few { Vec::new() } else { wishes(r, switches) };
        (vec![comparison(r, &mut c, relation)], wishes)
    } else {
        content(r, &mut c, kind)
    };
    (c.sheet(&rules, &wishes), KINDS[kind])
}

/// Rules of this kind, sometimes with others, and wishes.
fn content(r: &mut Random, c: &mut Circuit, kind: usize) -> (Vec<i32>, Vec<Wish>) {
    if r.one_in(25) {
        unused(r, c);
    }
    let mut made = rules(r, kind, c);
    if r.one_in(6) {
        let more = r.below(KINDS.len());
        made.extend(rules(r, more, c));
    }
    (dressed(r, c, made), wishes(r, c.switches))
}

/// A sheet with so many switches and faults and at most so many gates, for a part of a larger one.
pub(crate) fn part(r: &mut Random, switches: u32, faults: u32, most_gates: usize) -> Sheet {
    let mut c = Circuit::new(switches as i32, faults as i32, most_gates);
    let kind = a_kind(r);
    let (rules, wishes) = content(r, &mut c, kind);
    let bytes = written(&c.sheet(&rules, &wishes)).concat();
    read(&bytes).expect("a sheet that is right")
}

/// The gates, all trees written out, that it takes to try one plan on one pattern.
pub fn tree(sheet: &Sheet) -> u64 {
    let mut trees = vec![1_u64; (sheet.switches + sheet.faults) as usize];
    for gate in &sheet.gates {
        let at = |point: u32| match point {
            0 => 0,
            _ => trees[point as usize - 1],
        };
        trees.push(1_u64.saturating_add(at(gate.left).saturating_add(at(gate.right))));
    }
    let rules = sheet.rules.iter().map(|&p| trees[p as usize - 1]);
    rules.fold(1, u64::saturating_add)
}

/// Whether the planner can be expected to answer the sheet at once.
pub fn light(sheet: &Sheet) -> bool {
    let fits = sheet.switches <= MOST_SWITCHES && sheet.faults <= MOST_FAULTS;
    fits && tree(sheet).saturating_mul((1 << sheet.switches) + (1 << sheet.faults)) <= MAX_PASS
}

/// A byte string and what it was made by.
pub struct Made {
    pub bytes: Vec<u8>,
    pub kind: &'static str,
    pub damaged: bool,
}

/// The sheet of this seed and index. One in four is damaged; a damaged one that is accepted all
/// the same is light too.
pub fn planning_sheet(seed: u64, index: u64) -> Made {
    let r = &mut Random::new(seed, index);
    let class = class(index);
    if class == Class::Small && index % 4 == 3 {
        for _ in 0..20 {
            let bytes = spoilt(r);
            if read(&bytes).map_or(true, |sheet| light(&sheet)) {
                return Made {
                    bytes,
                    kind: "damaged",
                    damaged: true,
                };
            }
        }
    }
    let (_, bytes, kind) = whole(r, class);
    Made {
        bytes,
        kind,
        damaged: false,
    }
}

/// A sheet of this class that the planner can be expected to answer at once, its bytes, and what its
/// rules are made by.
pub(crate) fn whole(r: &mut Random, class: Class) -> (Sheet, Vec<u8>, &'static str) {
    loop {
        let (rows, kind) = rows(r, class);
        let bytes = written(&rows).concat();
        if let Ok(sheet) = read(&bytes) {
            if light(&sheet) {
                return (sheet, bytes, kind);
            }
        }
    }
}

fn spoilt(r: &mut Random) -> Vec<u8> {
    if r.one_in(3) {
        let (seed, index) = (u64::from(r.word()), u64::from(r.word()));
        return string(seed, index);
    }
    let (rows, _) = rows(r, Class::Small);
    let recipe = r.pick(&DAMAGES);
    damaged(r, recipe, rows)
}

#[cfg(test)]
mod tests {
    use super::*;
    use crate::brute::{End, Planner, Run};

    /// More rounds than any sheet of the classes needs.
    pub(super) const LIMIT: usize = 2_000;

    pub(super) fn accepted(seed: u64, count: u64) -> impl Iterator<Item = Planner> {
        (0..count)
            .filter_map(move |index| read(&planning_sheet(seed, index).bytes).ok())
            .map(Planner::new)
    }

    #[test]
    fn same_seed_same_sheets() {
        for index in 0..200 {
            assert_eq!(
                planning_sheet(7, index).bytes,
                planning_sheet(7, index).bytes
            );
        }
    }

    #[test]
    fn undamaged_sheets_are_accepted_and_light() {
        for index in 0..4_000 {
            let made = planning_sheet(1, index);
            match read(&made.bytes) {
                Ok(sheet) => assert!(light(&sheet), "index {index}"),
                Err(_) => assert!(made.damaged, "index {index}"),
            }
        }
    }

    #[test]
    fn trees() {
        let tree_of = |short| tree(&read(&crate::generate::sheet(short)).unwrap());
        assert_eq!(tree_of("H 1 0; Z 1"), 1);
        assert_eq!(tree_of("H 1 0; N 1; A 1 2; R 3; R 1; Z 5"), 1 + 4 + 1);
        let doubling: String = (1..200).map(|p| format!("A {p} {p}; ")).collect();
        assert_eq!(
            tree_of(&format!("H 1 0; {doubling} R 200; Z 201")),
            u64::MAX
        );
    }

    /// Another plan would often be the answer if all wishes weighed the same.
    #[test]
    fn weights_decide() {
        let decided = accepted(1, 6_000).filter(|planner| match planner.run(LIMIT).end {
            End::Plan(plan) => planner.weights_decide(plan),
            _ => false,
        });
        let count = decided.count();
        assert!(count >= 100, "{count}");
    }

    /// Both verdicts come often, after short lists and after long ones.
    #[test]
    fn verdicts_and_lengths() {
        let mut plans = Vec::new();
        let mut none = Vec::new();
        let (mut all_plans, mut all_patterns) = (0, 0);
        for planner in accepted(1, 12_000) {
            let Run { list, end } = planner.run(LIMIT);
            match end {
                End::Plan(_) => plans.push(list.len()),
                End::NoPlan => none.push(list.len()),
                End::Left => panic!("a list longer than {LIMIT}"),
            }
            all_plans += usize::from(list.len() == planner.plans() as usize);
            all_patterns += usize::from(list.len() == planner.patterns() as usize);
        }
        let longer = |lengths: &[usize], than| lengths.iter().filter(|&&n| n > than).count();
        for lengths in [plans, none] {
            assert!(lengths.len() > 3_000, "{}", lengths.len());
            for (than, fewest) in [(0, 2_000), (4, 400), (12, 40), (20, 8)] {
                let count = longer(&lengths, than);
                assert!(count >= fewest, "longer than {than}: {count}");
            }
        }
        assert!(all_plans > 200, "{all_plans}");
        assert!(all_patterns > 200, "{all_patterns}");
    }
}
