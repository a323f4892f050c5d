//! Smaller sheets, whole or damaged: lines left out, switches and faults left out, lines made plainer, numbers
//! made smaller. What names a point is renumbered, and the last line counts as many lines too many or too few
//! as before.

use std::ops::Range;
use std::rc::Rc;

use super::{lower, ranges, renumbered, without};
use crate::generate::{has_short_lines, Row, SHORT_LINE};
use crate::oracle::{self, FIELDS, LINE, LITERALS, WEIGHT};

/// A line of a sheet.
#[derive(Clone)]
enum Line {
    Row(Row),
    /// A malformed one, or the rest of the bytes.
    Other(Vec<u8>),
}

use Line::{Other, Row as Whole};

impl Line {
    fn of(bytes: &[u8]) -> Line {
        let whole = (bytes.len() == LINE)
            .then(|| oracle::split(bytes))
            .flatten();
        match whole {
            Some((letter, _, fields)) => Whole(Row { letter, fields }),
            None => Other(bytes.to_vec()),
        }
    }

    fn written(&self) -> Vec<u8> {
        match self {
            Whole(row) => row.written(),
            Other(bytes) => bytes.clone(),
        }
    }

    /// The points that the line names.
    fn points(&mut self) -> &mut [i32] {
        match self {
            Whole(Row { letter, fields }) => match letter {
                b'N' | b'R' => &mut fields[..1],
                b'A' | b'O' => &mut fields[..2],
                _ => &mut [],
            },
            Other(_) => &mut [],
        }
    }

    fn is_gate(&self) -> bool {
        matches!(self, Whole(row) if b"NAO".contains(&row.letter))
    }
}

fn lines_of(bytes: &[u8]) -> Rc<[Line]> {
    bytes.chunks(LINE).map(Line::of).collect()
}

fn written(lines: &[Line]) -> Vec<u8> {
    lines.iter().flat_map(Line::written).collect()
}

/// The sheet without a switch or a fault, by its point.
pub fn without_input(bytes: &[u8], input: u32) -> Vec<u8> {
    written(&without_point(&lines_of(bytes), input as i32))
}

pub fn smaller(bytes: &[u8]) -> impl Iterator<Item = Vec<u8>> + '_ {
    let lines = lines_of(bytes);
    let [switches, faults] = sizes(&lines);
    let fewer_lines = each(&lines, ranges(lines.len()), |lines, range| {
        vec![without_lines(lines, range)]
    });
    let fewer_inputs = each(&lines, 1..=switches + faults, |lines, input| {
        vec![without_point(lines, input)]
    });
    let plain_lines = each(&lines, ranges(lines.len()), |lines, range| {
        vec![plain_lines(lines, range)]
    });
    let plain_bytes = each(&lines, 0..lines.len(), plain_bytes);
    let lower_numbers = each(&lines, 0..lines.len(), lower_numbers);
    let all = fewer_lines
        .chain(fewer_inputs)
        .chain(plain_lines)
        .chain(plain_bytes)
        .chain(lower_numbers);
    let smaller = all.map(|lines| written(&lines));
    fewer_short_lines(bytes).chain(smaller.filter(move |less| less != bytes))
}

/// Without some lines, where these have no fourth number.
fn fewer_short_lines(bytes: &[u8]) -> impl Iterator<Item = Vec<u8>> + '_ {
    let lines: Vec<&[u8]> = match has_short_lines(bytes) {
        true => bytes.chunks(SHORT_LINE).collect(),
        false => Vec::new(),
    };
    ranges(lines.len()).map(move |range| without(&lines, range).concat())
}

/// What these lines are made into, for each of the places.
fn each<P, I: Iterator<Item = P>>(
    lines: &Rc<[Line]>,
    places: I,
    made: fn(&[Line], P) -> Vec<Vec<Line>>,
) -> impl Iterator<Item = Vec<Line>> {
    let lines = lines.clone();
    places.flat_map(move |place| made(&lines, place))
}

/// The switches and faults of the first line; none if it has not any number of them that can be meant.
fn sizes(lines: &[Line]) -> [i32; 2] {
    match lines.first() {
        Some(Whole(Row {
            letter: b'H',
            fields,
        })) if (0..99).contains(&fields[0]) && (0..99).contains(&fields[1]) => {
            [fields[0], fields[1]]
        }
        _ => [0, 0],
    }
}

fn without_lines(lines: &[Line], range: Range<usize>) -> Vec<Line> {
    let inputs: i32 = sizes(lines).iter().sum();
    let mut left = lines.to_vec();
    // The highest first, as what stands in a gate's place may be left out too.
    for at in range.clone().rev().filter(|&at| lines[at].is_gate()) {
        let point = inputs + at as i32;
        let instead = left[at].points()[0];
        leave_out_point(&mut left, point, instead);
    }
    if let (Some(Whole(last)), true) = (left.last_mut(), range.end < lines.len()) {
        if last.letter == b'Z' {
            last.fields[0] -= range.len() as i32;
        }
    }
    without(&left, range)
}

fn leave_out_point(lines: &mut [Line], left_out: i32, instead: i32) {
    for point in lines.iter_mut().flat_map(Line::points) {
        *point = renumbered((*point).into(), left_out.into(), instead.into()) as i32;
    }
}

/// Without a switch or a fault, by its point. Another input takes its place in gates and rules.
fn without_point(lines: &[Line], input: i32) -> Vec<Line> {
    let [switches, _] = sizes(lines);
    let a_switch = input <= switches;
    let mut left = lines.to_vec();
    leave_out_point(&mut left, input, (input - 1).max(1));
    for line in &mut left {
        match line {
            Whole(Row {
                letter: b'H',
                fields,
            }) => fields[usize::from(!a_switch)] -= 1,
            Whole(Row {
                letter: b'W',
                fields,
            }) if a_switch => leave_out_literal(&mut fields[..LITERALS], input),
            _ => {}
        }
    }
    left
}

fn leave_out_literal(literals: &mut [i32], switch: i32) {
    let mut left = [0; LITERALS];
    let others = literals.iter().filter(|literal| literal.abs() != switch);
    for (to, literal) in left.iter_mut().zip(others) {
        let below = literal.abs() < switch;
        *to = literal - if below { 0 } else { literal.signum() };
    }
    literals.copy_from_slice(&left);
}

/// The plainest line of each kind in place of some. No number gets larger by that.
fn plain_lines(lines: &[Line], range: Range<usize>) -> Vec<Line> {
    let mut lines = lines.to_vec();
    for line in &mut lines[range] {
        let Whole(row) = line else {
            continue;
        };
        let point = row.fields[0].signum();
        match row.letter {
            b'N' | b'A' | b'O' => *row = Row::new(b'N', &[point]),
            b'R' => *row = Row::new(b'R', &[point]),
            b'W' => *row = Row::wish(&[], row.fields[WEIGHT].min(1)),
            _ => {}
        }
    }
    lines
}

/// A malformed line with one more byte of a plain one.
fn plain_bytes(lines: &[Line], at: usize) -> Vec<Vec<Line>> {
    const PLAIN: &[u8; LINE] = b"H    0    0    0    0\n";
    let Other(bytes) = &lines[at] else {
        return Vec::new();
    };
    let with_plain = |k: usize| {
        let mut bytes = bytes.clone();
        bytes[k] = PLAIN[k];
        replaced(lines, at, Line::of(&bytes))
    };
    (0..bytes.len()).map(with_plain).collect()
}

fn lower_numbers(lines: &[Line], at: usize) -> Vec<Vec<Line>> {
    let Whole(row) = lines[at] else {
        return Vec::new();
    };
    let numbers = (0..FIELDS).flat_map(|k| lower(row.fields[k].into()).map(move |n| (k, n)));
    numbers
        .map(|(field, number)| {
            let mut row = row;
            row.fields[field] = number as i32;
            replaced(lines, at, Whole(row))
        })
        .collect()
}

fn replaced(lines: &[Line], at: usize, line: Line) -> Vec<Line> {
    let mut lines = lines.to_vec();
    lines[at] = line;
    lines
}

#[cfg(test)]
mod tests {
    use super::*;
    use crate::generate::sheet;

    fn left(short: &str, range: Range<usize>) -> Vec<u8> {
        written(&without_lines(&lines_of(&sheet(short)), range))
    }

    #[test]
    fn gates_left_out() {
        let short = "H 2 1; N 1; A 4 3; O 5 2; R 6; R 5; W -1; Z 7";
        let one = sheet("H 2 1; N 1; O 4 2; R 5; R 4; W -1; Z 6");
        assert_eq!(left(short, 2..3), one);
        assert_eq!(left(short, 1..4), sheet("H 2 1; R 1; R 1; W -1; Z 4"));
    }

    #[test]
    fn a_wrong_count_stays_wrong() {
        assert_eq!(left("H 2 1; R 1; W; Z 9", 1..3), sheet("H 2 1; Z 7"));
    }

    #[test]
    fn inputs_left_out() {
        let all = sheet("H 3 2; A 2 5; R 6; W 1 -2 -3 7; Z 4");
        let no_switch = sheet("H 2 2; A 1 4; R 5; W 1 -2 0 7; Z 4");
        assert_eq!(without_input(&all, 2), no_switch);
        let no_fault = sheet("H 3 1; A 2 4; R 5; W 1 -2 -3 7; Z 4");
        assert_eq!(without_input(&all, 4), no_fault);
    }

    #[test]
    fn plain_wishes() {
        let plain = |short| written(&plain_lines(&lines_of(&sheet(short)), 0..1));
        assert_eq!(plain("W 1 2 3 40"), sheet("W"));
        assert_eq!(plain("W 1 2 3 -40"), sheet("W 0 0 0 -40"));
    }
}
