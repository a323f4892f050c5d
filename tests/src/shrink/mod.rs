//! Makes a failing case smaller before it is shown: what can be left out is left out and numbers are made
//! smaller, as long as the case still fails.

mod sheets;
mod tables;
mod texts;

use std::iter::successors;
use std::ops::Range;
use std::time::{Duration, Instant};

use crate::counts::{SHRINK_SECONDS, SMALLER};
use crate::form::Form;
use crate::oracle::{self, Sheet, LINE};
use crate::tables::Tables;
use crate::writing;

/// The time after which no further case is tried.
const LONGEST: Duration = Duration::from_secs(SHRINK_SECONDS);

/// A case that can be made smaller in single steps.
pub trait Shrink: Sized {
    /// Smaller cases, those that leave out most first.
    fn smaller(&self) -> Box<dyn Iterator<Item = Self> + '_>;
}

/// Takes a smaller case that still fails, and again, until there is none or no time is left.
pub fn shrunk<T: Shrink>(mut case: T, fails: impl Fn(&T) -> bool) -> T {
    let end = Instant::now() + LONGEST;
    let mut tried = 0;
    // What did not help before will hardly help after one step, so the search goes on from there.
    let mut from = 0;
    loop {
        let in_bounds = |_: &(usize, T)| {
            tried += 1;
            tried <= SMALLER && Instant::now() < end
        };
        let smaller = case.smaller().enumerate().skip(from);
        let found = smaller.take_while(in_bounds).find(|(_, next)| fails(next));
        match found {
            Some((at, next)) => (from, case) = (at, next),
            None if from == 0 || tried > SMALLER || Instant::now() >= end => return case,
            None => from = 0,
        }
    }
}

/// A sheet or a text, whole or damaged.
#[derive(Clone, Debug, PartialEq, Eq)]
pub struct Input {
    pub form: Form,
    pub bytes: Vec<u8>,
}

impl Shrink for Input {
    fn smaller(&self) -> Box<dyn Iterator<Item = Input> + '_> {
        let form = self.form;
        let bytes: Box<dyn Iterator<Item = Vec<u8>>> = match form {
            Form::Sheet => Box::new(sheets::smaller(&self.bytes)),
            Form::Text => Box::new(texts::smaller(&self.bytes)),
        };
        Box::new(bytes.map(move |bytes| Input { form, bytes }))
    }
}

/// The bytes of a sheet or a text for which this still holds, made smaller.
pub fn shrunk_bytes(form: Form, bytes: &[u8], fails: impl Fn(&[u8]) -> bool) -> Vec<u8> {
    let bytes = bytes.to_vec();
    shrunk(Input { form, bytes }, |input| fails(&input.bytes)).bytes
}

/// A sheet or text in lines, in such a way that every byte can be seen.
pub fn shown(form: Form, bytes: &[u8]) -> String {
    let lines: Vec<&[u8]> = match form {
        Form::Sheet => bytes.chunks(LINE).collect(),
        Form::Text => bytes.split_inclusive(|&byte| byte == b'\n').collect(),
    };
    let lines = lines
        .iter()
        .map(|line| format!("\n  {}", line.escape_ascii()));
    format!("{} bytes:{}", bytes.len(), lines.collect::<String>())
}

/// Smaller sheets with the same switches and faults.
pub fn smaller_sheets(sheet: &Sheet) -> impl Iterator<Item = Sheet> {
    let smaller: Vec<Vec<u8>> = sheets::smaller(&bytes_of(sheet)).collect();
    let sizes = (sheet.switches, sheet.faults);
    let accepted = smaller
        .into_iter()
        .filter_map(|bytes| oracle::read(&bytes).ok());
    accepted.filter(move |less| (less.switches, less.faults) == sizes)
}

/// The sheet without a switch or a fault, by its point; none if it cannot do without.
pub fn without_input(sheet: &Sheet, input: u32) -> Option<Sheet> {
    oracle::read(&sheets::without_input(&bytes_of(sheet), input)).ok()
}

fn bytes_of(sheet: &Sheet) -> Vec<u8> {
    writing::sheet(&Tables::of(sheet)).expect("right tables")
}

// ---- what the kinds of cases share

/// Ranges of so many places: all of them, then the halves, and so on down to single places.
fn ranges(places: usize) -> impl Iterator<Item = Range<usize>> {
    let half = |&size: &usize| (size > 1).then(|| size.div_ceil(2));
    let sizes = successors((places > 0).then_some(places), half);
    sizes.flat_map(move |size| {
        let starts = (0..places).step_by(size);
        starts.map(move |start| start..places.min(start + size))
    })
}

/// All items but those in the range.
fn without<T: Clone>(items: &[T], range: Range<usize>) -> Vec<T> {
    [&items[..range.start], &items[range.end..]].concat()
}

/// Numbers nearer to 0, with the same sign, the nearest first.
fn lower(number: i64) -> impl Iterator<Item = i64> {
    let size = number.abs();
    let sizes = [0, 1, size / 2, size - 1];
    let less = (0..sizes.len()).filter(move |&k| {
        let earlier = sizes[..k].contains(&sizes[k]);
        (0..size).contains(&sizes[k]) && !earlier
    });
    less.map(move |k| sizes[k] * number.signum())
}

/// What a point is called once another one is left out, and named by another in its place.
fn renumbered(point: i64, left_out: i64, instead: i64) -> i64 {
    match point {
        _ if point == left_out => instead,
        _ if point > left_out => point - 1,
        _ => point,
    }
}

#[cfg(test)]
mod tests {
    use super::*;

    #[test]
    fn ranges_from_all_to_single_ones() {
        assert_eq!(ranges(0).count(), 0);
        let all: Vec<Range<usize>> = ranges(3).collect();
        assert_eq!(all, [0..3, 0..2, 2..3, 0..1, 1..2, 2..3]);
    }

    #[test]
    fn lower_numbers() {
        let lower = |n| lower(n).collect::<Vec<i64>>();
        assert_eq!(lower(0), []);
        assert_eq!(lower(1), [0]);
        assert_eq!(lower(9), [0, 1, 4, 8]);
        assert_eq!(lower(-3), [0, -1, -2]);
    }

    /// A sheet that fails if this line is on it.
    #[test]
    fn a_line_is_found() {
        let short = "H 3 2; N 1; A 4 6; O 7 5; R 8; R 2; W -1 2; W 3 0 0 20; Z 8";
        let bytes = crate::generate::sheet(short);
        let has = |bytes: &[u8]| bytes.windows(6).any(|w| w == b"W    3");
        let small = shrunk_bytes(Form::Sheet, &bytes, has);
        assert_eq!(small, crate::generate::sheet("W 3 0 0 0"));
    }

    /// Whatever fails always fails as nothing.
    #[test]
    fn nothing_is_left() {
        for form in [Form::Sheet, Form::Text] {
            for index in 0..40 {
                let bytes = form.made(1, index).bytes;
                assert_eq!(shrunk_bytes(form, &bytes, |_| true), b"");
            }
        }
    }

    /// A case that gets no smaller at all ends as well.
    #[test]
    fn it_ends() {
        struct Same;
        impl Shrink for Same {
            fn smaller(&self) -> Box<dyn Iterator<Item = Same>> {
                Box::new(std::iter::once(Same))
            }
        }
        shrunk(Same, |_| true);
    }
}
