//! The families of sheets. A sheet follows from its family, its sizes and its seed alone.

use planner_tests::generate::Random;
use planner_tests::oracle::{COLUMNS, LINE, MAX_WEIGHT};

/// A sheet being made. Points are numbered as on the sheet.
pub struct Draft {
    pub a: u32,
    pub f: u32,
    gates: Vec<(char, u32, u32)>,
    rules: Vec<u32>,
    /// Literals and weight.
    wishes: Vec<[i32; 4]>,
    /// The numbers for the weights alone: so rules and literals do not depend on them.
    weights: Random,
}

/// A sheet, and a plan that it makes sound (if its family has one).
pub struct Sheet {
    pub bytes: Vec<u8>,
    pub a: u32,
    pub f: u32,
    pub gates: usize,
    pub rules: usize,
    pub wishes: usize,
    pub plan: u32,
}

impl Draft {
    fn new(a: u32, f: u32) -> Draft {
        Draft {
            a,
            f,
            gates: Vec::new(),
            rules: Vec::new(),
            wishes: Vec::new(),
            weights: Random::new(1, 10),
        }
    }

    fn add(&mut self, letter: char, left: u32, right: u32) -> u32 {
        self.gates.push((letter, left, right));
        self.a + self.f + self.gates.len() as u32
    }

    fn not(&mut self, p: u32) -> u32 {
        self.add('N', p, 0)
    }

    fn and(&mut self, p: u32, q: u32) -> u32 {
        self.add('A', p, q)
    }

    fn or(&mut self, p: u32, q: u32) -> u32 {
        self.add('O', p, q)
    }

    fn fault(&self, k: u32) -> u32 {
        self.a + k
    }

    fn leaf(&self, r: &mut Random) -> u32 {
        1 + r.below((self.a + self.f) as usize) as u32
    }

    /// A wish of any weight.
    fn wish(&mut self, [l1, l2, l3]: [i32; 3]) {
        let weight = self.weights.between(1, MAX_WEIGHT as i32);
        self.wishes.push([l1, l2, l3, weight]);
    }

    /// A random tree of so many gates.
    fn tree(&mut self, r: &mut Random, gates: usize) -> u32 {
        if gates == 0 {
            return self.leaf(r);
        }
        if r.one_in(5) {
            let below = self.tree(r, gates - 1);
            return self.not(below);
        }
        let left = r.below(gates);
        let left_point = self.tree(r, left);
        let right_point = self.tree(r, gates - 1 - left);
        self.add(r.pick(&['A', 'O']), left_point, right_point)
    }

    /// Whether each gate is named exactly once, by a gate or a rule.
    fn tree_like(&self) -> bool {
        let inputs = (self.a + self.f) as usize;
        let mut named = vec![0; inputs + self.gates.len() + 1];
        for &(_, left, right) in &self.gates {
            named[left as usize] += 1;
            named[right as usize] += 1;
        }
        for &rule in &self.rules {
            named[rule as usize] += 1;
        }
        named[inputs + 1..].iter().all(|&n| n == 1)
    }

    fn done(self, plan: u32) -> Sheet {
        assert!(self.gates.len() <= 400 && self.rules.len() <= 64 && self.wishes.len() <= 64);
        assert!(self.tree_like(), "a gate is not named exactly once");
        let mut text = line('H', [self.a as i32, self.f as i32, 0, 0]);
        for &(letter, left, right) in &self.gates {
            text += &line(letter, [left as i32, right as i32, 0, 0]);
        }
        for &rule in &self.rules {
            text += &line('R', [rule as i32, 0, 0, 0]);
        }
        for &wish in &self.wishes {
            text += &line('W', wish);
        }
        let before = 1 + self.gates.len() + self.rules.len() + self.wishes.len();
        text += &line('Z', [before as i32, 0, 0, 0]);
        Sheet {
            bytes: text.into_bytes(),
            a: self.a,
            f: self.f,
            gates: self.gates.len(),
            rules: self.rules.len(),
            wishes: self.wishes.len(),
            plan,
        }
    }
}

fn line(letter: char, numbers: [i32; 4]) -> String {
    let numbers = numbers.map(|n| format!("{n:>COLUMNS$}")).concat();
    format!("{letter}{numbers}\n")
}

fn on(plan: u32, a: u32, switch: u32) -> bool {
    plan >> (a - switch) & 1 == 1
}

/// A plan with both switches on and switches off, if there are two.
fn a_plan(r: &mut Random, a: u32) -> u32 {
    let mask = ((1_u64 << a) - 1) as u32;
    (r.word() & mask & !1) | (mask + 1) >> 1
}

fn a_switch_that_is(r: &mut Random, d: &Draft, plan: u32, state: bool) -> u32 {
    let all: Vec<u32> = (1..=d.a).filter(|&k| on(plan, d.a, k) == state).collect();
    r.pick(&all)
}

/// No gate, no rule, no wish.
pub fn empty(a: u32, f: u32) -> Sheet {
    Draft::new(a, f).done(0)
}

/// Rules that are random trees; `gates` gates in all. Each rule ends in "or a switch of the plan",
/// looked at last, so that the plan is sound and every tree is worked out on the way.
pub fn rated(seed: u64, a: u32, f: u32, rules: usize, gates: usize) -> Sheet {
    let r = &mut Random::new(seed, 1);
    let mut d = Draft::new(a, f);
    let plan = a_plan(r, a);
    for k in 0..rules {
        let share = (gates - d.gates.len()) / (rules - k);
        let tree = d.tree(r, share - 1);
        let way_out = a_switch_that_is(r, &d, plan, true);
        let rule = d.or(tree, way_out);
        d.rules.push(rule);
    }
    some_wishes(r, &mut d, plan, 16);
    d.done(plan)
}

/// Wishes with up to three literals, of which most do not agree with the plan.
fn some_wishes(r: &mut Random, d: &mut Draft, plan: u32, count: usize) {
    for _ in 0..count {
        let mut wish = [0; 3];
        let literals = 1 + r.below(3);
        for literal in &mut wish[..literals] {
            let k = 1 + r.below(d.a as usize) as u32;
            let agree = r.one_in(4);
            *literal = if on(plan, d.a, k) == agree {
                k as i32
            } else {
                -(k as i32)
            };
        }
        d.wish(wish);
    }
}

/// Random trees over switches and faults, each "or a literal that a hidden plan has", and wishes
/// that pull away from that plan.
pub fn trees(seed: u64, a: u32, f: u32, rules: usize, wishes: usize) -> Sheet {
    let r = &mut Random::new(seed, 2);
    let mut d = Draft::new(a, f);
    let plan = a_plan(r, a);
    hidden_rules(r, &mut d, plan, rules);
    some_wishes(r, &mut d, plan, wishes);
    d.done(plan)
}

fn hidden_rules(r: &mut Random, d: &mut Draft, plan: u32, rules: usize) {
    for _ in 0..rules {
        // False under few patterns each, so that these are met one after another.
        let mut points = Vec::new();
        for _ in 0..3 + r.below(2) {
            let fault = d.fault(1 + r.below(d.f as usize) as u32);
            points.push(if r.one_in(2) { fault } else { d.not(fault) });
        }
        if r.one_in(2) {
            let switch = 1 + r.below(d.a as usize) as u32;
            points.push(if r.one_in(2) { switch } else { d.not(switch) });
        }
        // Two at a time are joined until one is left.
        while points.len() > 1 {
            let left = points.swap_remove(r.below(points.len()));
            let right = points.swap_remove(r.below(points.len()));
            let letter = if r.one_in(6) { 'A' } else { 'O' };
            points.push(d.add(letter, left, right));
        }
        let state = r.one_in(2);
        let switch = a_switch_that_is(r, d, plan, state);
        let literal = if state { switch } else { d.not(switch) };
        let rule = d.or(points[0], literal);
        d.rules.push(rule);
    }
}

/// The timing boxes of one to three lanes, as examples/redundant-box.sheet has one.
pub fn lanes(count: u32) -> Sheet {
    let lamp = count < 3;
    let each = if lamp { 6 } else { 5 };
    let mut d = Draft::new(6 * count, each * count);
    for lane in 0..count {
        let s = 6 * lane;
        let [pad, spare, button, mains, battery, radio] = [1, 2, 3, 4, 5, 6].map(|k| s + k);
        let faults = each * lane;
        let [dead_pad, dead_spare, out, flat, jammed] =
            [1, 2, 3, 4, 5].map(|k| d.fault(faults + k));
        let pad_lives = d.not(dead_pad);
        let pad_works = d.and(pad, pad_lives);
        let spare_lives = d.not(dead_spare);
        let spare_works = d.and(spare, spare_lives);
        let one_works = d.or(pad_works, spare_works);
        let touch = d.or(button, one_works);
        let both_dead = d.and(dead_pad, dead_spare);
        let touched = d.or(touch, both_dead);
        let there = d.not(out);
        let from_mains = d.and(mains, there);
        let either = d.or(battery, from_mains);
        let power = d.or(flat, either);
        let noise = d.and(radio, jammed);
        let quiet = d.not(noise);
        let sent = d.or(button, quiet);
        d.rules.extend([touched, power, sent, mains]);
        let [pad, spare, button, battery, radio] =
            [pad, spare, button, battery, radio].map(|k| k as i32);
        d.wishes.extend([
            [pad, 0, 0, 1],
            [-spare, 0, 0, 1],
            [-button, 0, 0, 1],
            [-battery, 0, 0, 1],
            [radio, 0, 0, 1],
            [-button, 0, 0, 1],
            [-spare, -button, 0, 1],
        ]);
    }
    d.done(0)
}

/// One chain: each gate names the one before first and then a switch or a fault. The last gate ends
/// in a switch of the plan, so that the plan is sound.
pub fn chain(seed: u64, a: u32, f: u32, gates: usize) -> Sheet {
    let r = &mut Random::new(seed, 3);
    let mut d = Draft::new(a, f);
    let plan = a_plan(r, a);
    let mut so_far = d.leaf(r);
    for _ in 1..gates {
        so_far = if r.one_in(6) {
            d.not(so_far)
        } else {
            let leaf = d.leaf(r);
            d.add(r.pick(&['A', 'O']), so_far, leaf)
        };
    }
    let way_out = a_switch_that_is(r, &d, plan, true);
    let rule = d.or(so_far, way_out);
    d.rules.push(rule);
    some_wishes(r, &mut d, plan, 8);
    d.done(plan)
}

/// A chain of ands, each of which names the one before first: the deepest recursion there is.
/// All switches on make it true.
pub fn ands(a: u32, f: u32, gates: usize) -> Sheet {
    let mut d = Draft::new(a, f);
    let mut so_far = 1;
    for k in 0..gates {
        so_far = d.and(so_far, 1 + k as u32 % a);
    }
    d.rules.push(so_far);
    d.done((1 << a) - 1)
}

/// A plan must be at least the pattern, as numbers: the list gets 2^n - 1 patterns.
pub fn at_least(n: u32, wishes: usize) -> Sheet {
    let mut d = Draft::new(n, n);
    compare(&mut d, n);
    let plan = (1 << n) - 1;
    some_wishes(&mut Random::new(4, 4), &mut d, plan, wishes);
    d.done(plan)
}

/// The same of the last n of a switches: the list gets 2^n - 1 patterns.
pub fn at_least_of(a: u32, n: u32) -> Sheet {
    let mut d = Draft::new(a, n);
    compare(&mut d, n);
    d.done((1 << n) - 1)
}

/// The rule that the last n switches, as a number, are at least the pattern of the n faults.
fn compare(d: &mut Draft, n: u32) {
    let mut lower = None;
    for digit in (1..=n).rev() {
        let k = d.a - n + digit;
        let f = d.fault(digit);
        let not_f = d.not(f);
        let not_smaller = d.or(k, not_f);
        lower = Some(match lower {
            None => not_smaller,
            Some(lower) => {
                let not_f = d.not(f);
                let greater = d.and(k, not_f);
                let decided_lower = d.and(not_smaller, lower);
                d.or(greater, decided_lower)
            }
        });
    }
    d.rules.extend(lower);
}

/// A plan must differ from the pattern: no plan, and all 2^n patterns are listed.
pub fn differ(n: u32) -> Sheet {
    let mut d = Draft::new(n, n);
    let mut so_far = None;
    for k in (1..=n).rev() {
        let f = d.fault(k);
        let one = d.or(k, f);
        let both = d.and(k, f);
        let not_both = d.not(both);
        let differ = d.and(one, not_both);
        so_far = Some(match so_far {
            None => differ,
            Some(so_far) => d.or(differ, so_far),
        });
    }
    d.rules.extend(so_far);
    d.done(0)
}

/// Random trees as above, and then a switch that must be on exactly when a fault occurs.
pub fn no_plan(seed: u64, a: u32, f: u32, rules: usize, wishes: usize) -> Sheet {
    let r = &mut Random::new(seed, 5);
    let mut d = Draft::new(a, f);
    let plan = a_plan(r, a);
    hidden_rules(r, &mut d, plan, rules);
    let last = d.fault(f);
    let both = d.and(a, last);
    let off = d.not(a);
    let not_there = d.not(last);
    let neither = d.and(off, not_there);
    let equal = d.or(both, neither);
    d.rules.push(equal);
    some_wishes(r, &mut d, plan, wishes);
    d.done(plan)
}

/// As many wishes as a sheet holds, three literals each and many against each other; few rules.
pub fn conflicts(seed: u64, a: u32, f: u32) -> Sheet {
    let r = &mut Random::new(seed, 6);
    let mut d = Draft::new(a, f);
    let plan = a_plan(r, a);
    hidden_rules(r, &mut d, plan, 6);
    for _ in 0..64 {
        let mut wish = [0; 3];
        for literal in &mut wish {
            let k = r.between(1, a as i32);
            *literal = if r.one_in(2) { k } else { -k };
        }
        d.wish(wish);
    }
    d.done(plan)
}

/// A full sheet: 400 gates, 64 rules, 64 wishes.
pub fn full(seed: u64) -> Sheet {
    let mut sheet = rated(seed, 20, 16, 64, 400);
    let r = &mut Random::new(seed, 7);
    let before = sheet.bytes.len() - LINE;
    sheet.bytes.truncate(before);
    for _ in sheet.wishes..64 {
        let k = r.between(1, 20);
        let (third, weight) = (r.between(1, 20), r.between(1, MAX_WEIGHT as i32));
        sheet
            .bytes
            .extend(line('W', [-k, k, third, weight]).bytes());
    }
    sheet.wishes = 64;
    sheet.bytes.extend(line('Z', [529, 0, 0, 0]).bytes());
    sheet
}
