//! Smaller typed texts, legal or not: lines left out or made plainer, parts of formulas and wishes left out,
//! any bytes left out, numbers made smaller.

use std::ops::Range;

use super::{lower, ranges, without};
use crate::typed::generate::{lines, numbers};

pub fn smaller(bytes: &[u8]) -> impl Iterator<Item = Vec<u8>> + '_ {
    let lines: Vec<&[u8]> = bytes.split_inclusive(|&byte| byte == b'\n').collect();
    let plain_lines = ranges(lines.len()).map({
        let lines = lines.clone();
        move |range| with_plain(&lines, range)
    });
    let fewer_lines = ranges(lines.len()).map(move |range| without(&lines, range).concat());
    let fewer_parts = parts(bytes).into_iter().map(|part| part.left_out(bytes));
    let fewer_bytes = ranges(bytes.len()).map(|range| without(bytes, range));
    let lower_numbers = numbers(bytes).into_iter().flat_map(|at| lowered(bytes, at));
    fewer_lines
        .chain(plain_lines.filter(move |less| less != bytes))
        .chain(fewer_parts)
        .chain(lower_numbers)
        .chain(fewer_bytes)
}

/// The plainest rules and wishes in place of some.
fn with_plain(lines: &[&[u8]], range: Range<usize>) -> Vec<u8> {
    let mut lines = lines.to_vec();
    for line in &mut lines[range] {
        let plain: [&[u8]; 2] = [b"rule s1\n", b"wish s1\n"];
        let same_keyword = plain.iter().find(|plain| line.starts_with(&plain[..5]));
        *line = same_keyword.unwrap_or(line);
    }
    lines.concat()
}

fn lowered(bytes: &[u8], at: Range<usize>) -> Vec<Vec<u8>> {
    let digits = std::str::from_utf8(&bytes[at.clone()]).expect("digits");
    let number: i64 = digits.parse().unwrap_or(0);
    lower(number)
        .map(|less| {
            let mut bytes = bytes.to_vec();
            bytes.splice(at.clone(), less.to_string().into_bytes());
            bytes
        })
        .collect()
}

// ---- parts

/// What can be left out together: one range, or a bracket and the one that closes it.
struct Part([Range<usize>; 2]);

impl Part {
    fn one(range: Range<usize>) -> Part {
        Part([range, 0..0])
    }

    fn length(&self) -> usize {
        self.0.iter().map(Range::len).sum()
    }

    fn left_out(&self, bytes: &[u8]) -> Vec<u8> {
        let stays = |at: &usize| !self.0.iter().any(|range| range.contains(at));
        (0..bytes.len()).filter(stays).map(|at| bytes[at]).collect()
    }
}

/// The parts of all lines, the longest first. A line without one of them is legal if it was before.
fn parts(bytes: &[u8]) -> Vec<Part> {
    let mut all = Vec::new();
    for line in lines(bytes) {
        let words = words(bytes, line.clone());
        match &bytes[line] {
            text if text.starts_with(b"rule ") => formula_parts(bytes, &words[1..], &mut all),
            text if text.starts_with(b"wish ") => wish_parts(bytes, &words[1..], &mut all),
            _ => {}
        }
    }
    all.sort_by_key(|part| std::cmp::Reverse(part.length()));
    all
}

/// The words and signs of a line, each with the space before it.
fn words(bytes: &[u8], line: Range<usize>) -> Vec<Range<usize>> {
    let joined = |at: usize| {
        let [before, byte] = [bytes[at - 1], bytes[at]];
        before == b' ' || (before.is_ascii_alphanumeric() && byte.is_ascii_alphanumeric())
    };
    let mut words: Vec<Range<usize>> = Vec::new();
    for at in line.filter(|&at| bytes[at] != b'\n') {
        match words.last_mut() {
            Some(word) if joined(at) => word.end = at + 1,
            _ => words.push(at..at + 1),
        }
    }
    words
}

/// The first byte of a word or sign.
fn sign(bytes: &[u8], word: &Range<usize>) -> u8 {
    let text = bytes[word.clone()].trim_ascii_start();
    text.first().copied().unwrap_or(b' ')
}

/// An operator with what stands on one side of it, a not, and brackets.
fn formula_parts(bytes: &[u8], words: &[Range<usize>], all: &mut Vec<Part>) {
    let sign = |k: usize| sign(bytes, &words[k]);
    // What stands after an operand goes with the space before it, and what stands before with that after it.
    let after = |first: usize, last: usize| words[first].start..words[last].end;
    let before = |first: usize, last: usize| {
        let space = |at: usize| usize::from(bytes.get(at) == Some(&b' '));
        let (start, end) = (words[first].start, words[last].end);
        start + space(start)..end + space(end)
    };
    for k in 0..words.len() {
        match sign(k) {
            b'&' | b'|' => {
                let last = operand_after(words.len(), k + 1, &sign);
                all.extend(last.map(|last| Part::one(after(k, last))));
                let first = operand_before(k, &sign);
                all.extend(first.map(|first| Part::one(before(first, k))));
            }
            b'!' => all.push(Part::one(before(k, k))),
            b'(' => {
                let close = operand_after(words.len(), k, &sign);
                all.extend(close.map(|close| Part([before(k, k), after(close, close)])));
            }
            _ => {}
        }
    }
}

/// The last word of the operand that begins at this one.
fn operand_after(words: usize, first: usize, sign: &dyn Fn(usize) -> u8) -> Option<usize> {
    let mut open = 0;
    (first..words).find(|&k| {
        match sign(k) {
            b'(' => open += 1,
            b')' => open -= 1,
            _ => {}
        }
        open <= 0 && sign(k) != b'!'
    })
}

/// The first word of the operand that ends before this one.
fn operand_before(end: usize, sign: &dyn Fn(usize) -> u8) -> Option<usize> {
    let mut open = 0;
    let mut first = (0..end).rev().find(|&k| {
        match sign(k) {
            b')' => open += 1,
            b'(' => open -= 1,
            _ => {}
        }
        open <= 0
    })?;
    while first > 0 && sign(first - 1) == b'!' {
        first -= 1;
    }
    Some(first)
}

/// A literal, with its not; and the weight, with its keyword.
fn wish_parts(bytes: &[u8], words: &[Range<usize>], all: &mut Vec<Part>) {
    for (k, word) in words.iter().enumerate() {
        let first = match k.checked_sub(1).map(|before| &words[before]) {
            Some(before) if b"!w".contains(&sign(bytes, before)) => before.start,
            _ => word.start,
        };
        if !b"!w".contains(&sign(bytes, word)) {
            all.push(Part::one(first..word.end));
        }
    }
}

#[cfg(test)]
mod tests {
    use super::*;
    use crate::typed::read;

    fn left(text: &str) -> Vec<String> {
        let all = parts(text.as_bytes()).into_iter();
        let left = all.map(|part| String::from_utf8(part.left_out(text.as_bytes())).unwrap());
        left.collect()
    }

    #[test]
    fn parts_of_formulas() {
        let left = left("rule s1 & !(f2|s3)\n");
        for expected in [
            "rule s1\n",
            "rule !(f2|s3)\n",
            "rule s1 & (f2|s3)\n",
            "rule s1 & !f2|s3\n",
            "rule s1 & !(f2)\n",
            "rule s1 & !(s3)\n",
        ] {
            assert!(
                left.iter().any(|text| text == expected),
                "{expected}: {left:?}"
            );
        }
        assert_eq!(left.len(), 6);
    }

    /// A legal formula without a part is legal, wherever it has spaces.
    #[test]
    fn legal_formulas_stay_legal() {
        let formulas = [
            "!s1&!(f1|!!s2)",
            "! ( s1 ) & ! ! ( f1 | s2 ) | ! f2",
            "((s1))",
            "( ! ( ! s1 | s2 ) )",
        ];
        for formula in formulas {
            let text = format!("switches 3\nfaults 2\nrule {formula}\nwish !s1 s2 !s3 weight 20\n");
            assert!(read(text.as_bytes()).is_ok());
            for left in left(&text) {
                assert!(read(left.as_bytes()).is_ok(), "{left}");
            }
        }
    }

    #[test]
    fn parts_of_wishes() {
        let left = left("wish s1 !s2 s30\n");
        assert_eq!(left, ["wish s1 s30\n", "wish s1 !s2\n", "wish !s2 s30\n"]);
    }

    #[test]
    fn a_weight() {
        let left = left("wish s1 !s2 weight 30\n");
        assert_eq!(
            left,
            [
                "wish s1 !s2\n",
                "wish s1 weight 30\n",
                "wish !s2 weight 30\n"
            ]
        );
    }
}
