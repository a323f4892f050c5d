//! Smaller tables, right or damaged: entries left out, what stands beyond the counts cleared, switches and
//! faults left out, counts and words made smaller. What names a point is renumbered.

use std::ops::Range;

use super::{lower, ranges, renumbered, Shrink};
use crate::oracle::{LITERALS, WEIGHT};
use crate::tables::{Tables, WISH};

impl Shrink for Tables {
    fn smaller(&self) -> Box<dyn Iterator<Item = Tables> + '_> {
        let [gates, rules, wishes] = self.held();
        let fewer_gates = ranges(gates).map(|range| without_gates(self, range));
        let fewer_rules = ranges(rules).map(|range| {
            let mut tables = self.clone();
            tables.rules -= range.len() as u32;
            leave_out(&mut tables.rule, range);
            tables
        });
        let fewer_wishes = ranges(wishes).map(|range| {
            let mut tables = self.clone();
            tables.wishes -= range.len() as u32;
            leave_out(&mut tables.wish, range);
            tables
        });
        let inputs = (1..=self.switches.saturating_add(self.faults)).take(MOST_INPUTS);
        let fewer_inputs = inputs.map(|input| without_input(self, input));
        let cleared = std::iter::once_with(|| cleared(self));
        let plainer = plainer(self).filter(move |less| less != self);
        let all = lower_words(self, 0..COUNTS)
            .chain(fewer_gates)
            .chain(fewer_rules)
            .chain(fewer_wishes)
            .chain(cleared.filter(move |less| less != self))
            .chain(fewer_inputs)
            .chain(plainer)
            .chain(lower_words(self, COUNTS..self.words().len()));
        Box::new(all)
    }
}

/// The words before the entries.
const COUNTS: usize = 5;
/// Of damaged sizes not every input is left out by itself.
const MOST_INPUTS: usize = 99;

/// Zeros in place of some entries, or the plainest ones. No number gets larger by that.
fn plainer(tables: &Tables) -> impl Iterator<Item = Tables> + '_ {
    let [gates, rules, wishes] = tables.held();
    let changed = |change: &dyn Fn(&mut Tables)| {
        let mut tables = tables.clone();
        change(&mut tables);
        tables
    };
    let no_gates = move |range: Range<usize>| changed(&|t| t.gate[range.clone()].fill([0; 3]));
    let no_rules = move |range: Range<usize>| changed(&|t| t.rule[range.clone()].fill(0));
    let no_wishes = move |range: Range<usize>| changed(&|t| t.wish[range.clone()].fill([0; WISH]));
    let plain_gates = move |range: Range<usize>| {
        changed(&|t| t.gate[range.clone()].iter_mut().for_each(plain_gate))
    };
    let plain_rules = move |range: Range<usize>| {
        let plain = |rule: &mut u32| *rule = 1.min(*rule);
        changed(&|t| t.rule[range.clone()].iter_mut().for_each(plain))
    };
    let plain_wishes = move |range: Range<usize>| {
        changed(&|t| t.wish[range.clone()].iter_mut().for_each(plain_wish))
    };
    ranges(gates)
        .map(no_gates)
        .chain(ranges(rules).map(no_rules))
        .chain(ranges(wishes).map(no_wishes))
        .chain(ranges(gates).map(plain_gates))
        .chain(ranges(rules).map(plain_rules))
        .chain(ranges(wishes).map(plain_wishes))
}

/// No literal, and a weight that is right if it was.
fn plain_wish(wish: &mut [u32; WISH]) {
    let weight = wish[WEIGHT].min(1);
    *wish = [0; WISH];
    wish[WEIGHT] = weight;
}

fn plain_gate(gate: &mut [u32; 3]) {
    if *gate != [0; 3] {
        *gate = [b'N'.into(), gate[1].min(1), 0];
    }
}

/// Single words made smaller. The letter of a gate is no number.
fn lower_words(tables: &Tables, places: Range<usize>) -> impl Iterator<Item = Tables> + '_ {
    let words = tables.words();
    let letters = b"NAO".map(u32::from);
    let numbers = places.filter(move |&at| !letters.contains(&words[at]));
    let words = tables.words();
    numbers.flat_map(move |at| {
        let less = lower(words[at].into());
        less.map(move |less| with_word(tables, at, less as u32))
    })
}

/// Moves what stands behind the range to its front.
fn leave_out<T: Default + Copy>(entries: &mut [T], range: Range<usize>) {
    let length = entries.len();
    entries.copy_within(range.end.., range.start);
    entries[length - range.len()..].fill(T::default());
}

fn without_gates(tables: &Tables, range: Range<usize>) -> Tables {
    let mut left = tables.clone();
    let inputs = left.switches.saturating_add(left.faults);
    // The highest first, as what stands in a gate's place may be left out too.
    for at in range.clone().rev() {
        let point = i64::from(inputs) + at as i64 + 1;
        let instead = left.gate[at][1].into();
        leave_out_point(&mut left, point, instead);
    }
    left.gates -= range.len() as u32;
    leave_out(&mut left.gate, range);
    left
}

fn leave_out_point(tables: &mut Tables, left_out: i64, instead: i64) {
    let gates = tables.gate.iter_mut().flat_map(|gate| &mut gate[1..]);
    for point in gates.chain(&mut tables.rule) {
        *point = renumbered((*point).into(), left_out, instead) as u32;
    }
}

/// Without a switch or a fault, by its point. Another input takes its place in gates and rules.
fn without_input(tables: &Tables, input: u32) -> Tables {
    let mut left = tables.clone();
    leave_out_point(&mut left, input.into(), (i64::from(input) - 1).max(1));
    if input > tables.switches {
        left.faults -= 1;
        return left;
    }
    left.switches -= 1;
    let wishes = left.wish.iter_mut();
    for word in wishes.flat_map(|wish| &mut wish[..LITERALS]) {
        let switch = *word / 2;
        *word -= if switch >= input && switch > 1 { 2 } else { 0 };
    }
    left
}

/// Nothing beyond the counts.
fn cleared(tables: &Tables) -> Tables {
    let mut left = tables.clone();
    let [gates, rules, wishes] = tables.held();
    left.gate[gates..].fill([0; 3]);
    left.rule[rules..].fill(0);
    left.wish[wishes..].fill([0; WISH]);
    left
}

fn with_word(tables: &Tables, at: usize, word: u32) -> Tables {
    let mut left = tables.clone();
    *left.word_mut(at) = word;
    left
}

#[cfg(test)]
mod tests {
    use super::*;
    use crate::generate::sheet;
    use crate::oracle::read;

    fn tables(short: &str) -> Tables {
        Tables::of(&read(&sheet(short)).unwrap())
    }

    #[test]
    fn gates_and_inputs_left_out() {
        let all = tables("H 2 1; N 1; A 4 3; O 5 2; R 6; R 5; W -1; Z 7");
        let left = tables("H 2 1; N 1; O 4 2; R 5; R 4; W -1; Z 6");
        assert_eq!(without_gates(&all, 1..2), left);
        let left = tables("H 2 0; N 1; A 3 2; O 4 2; R 5; R 4; W -1; Z 7");
        assert_eq!(without_input(&all, 3), left);
        let all = tables("H 3 0; W -1 3 -2 9; Z 2");
        assert_eq!(without_input(&all, 2), tables("H 2 0; W -1 2 -1 9; Z 2"));
    }

    #[test]
    fn every_number_is_made_smaller() {
        let all = tables("H 2 1; O 1 3; R 4; W -2 0 0 20; Z 4");
        for at in 0..all.words().len() {
            let smaller = || all.smaller().any(|less| less.words()[at] < all.words()[at]);
            assert!(all.words()[at] == 0 || smaller(), "{at}");
        }
    }
}
