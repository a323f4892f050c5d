//! The baseline of writing: tables as a sheet, in plain Rust, written for speed in the ordinary way.

use comzsered::figures::{Words, Written};
use planner_tests::oracle::{
    BAD_FIELD, BAD_SIZE, BAD_WEIGHT, COLUMNS, FIELDS, LINE, MAX_FAULTS, MAX_GATES, MAX_RULES,
    MAX_SWITCHES, MAX_WISHES, TOO_MANY, WEIGHTS,
};
use planner_tests::writing::TOO_SHORT;

fn refused(number: u32, place: usize) -> Written {
    Written {
        number,
        place,
        column: 0,
        length: 0,
    }
}

pub fn write(t: &Words, out: &mut [u8]) -> Written {
    let lines = match test(t) {
        Ok(lines) => lines,
        Err((number, place)) => return refused(number, place),
    };
    let length = lines * LINE;
    if out.len() < length {
        return refused(TOO_SHORT, 0);
    }
    let mut rest = out.chunks_exact_mut(LINE);
    let mut put = |letter: u8, fields: [i32; FIELDS]| {
        if let Some(line) = rest.next() {
            line[0] = letter;
            for (field, n) in line[1..].chunks_exact_mut(COLUMNS).zip(fields) {
                number(field, n);
            }
            line[LINE - 1] = b'\n';
        }
    };
    put(b'H', [t.switches as i32, t.faults as i32, 0, 0]);
    for &[letter, left, right] in &t.gate[..t.gates as usize] {
        put(letter as u8, [left as i32, right as i32, 0, 0]);
    }
    for &rule in &t.rule[..t.rules as usize] {
        put(b'R', [rule as i32, 0, 0, 0]);
    }
    for &[x, y, z, weight] in &t.wish[..t.wishes as usize] {
        put(b'W', [literal(x), literal(y), literal(z), weight as i32]);
    }
    put(b'Z', [lines as i32 - 1, 0, 0, 0]);
    Written {
        number: 0,
        place: 0,
        column: 0,
        length,
    }
}

/// The lines of the sheet, or the number and the line of the first fault.
fn test(t: &Words) -> Result<usize, (u32, usize)> {
    if t.switches > MAX_SWITCHES as u32 || t.faults > MAX_FAULTS as u32 {
        return Err((BAD_SIZE, 1));
    }
    let inputs = t.switches + t.faults;
    let mut line = 1;
    for i in 0..t.gates as usize {
        line += 1;
        if i == MAX_GATES {
            return Err((TOO_MANY, line));
        }
        let before = inputs + i as u32;
        let point = |p: u32| 1 <= p && p <= before;
        let [letter, left, right] = t.gate[i];
        let second = match u8::try_from(letter) {
            Ok(b'N') => right == 0,
            Ok(b'A' | b'O') => point(right),
            _ => false,
        };
        if !(point(left) && second) {
            return Err((BAD_FIELD, line));
        }
    }
    for i in 0..t.rules as usize {
        line += 1;
        if i == MAX_RULES {
            return Err((TOO_MANY, line));
        }
        if t.rule[i] < 1 || t.rule[i] > inputs + t.gates {
            return Err((BAD_FIELD, line));
        }
    }
    for i in 0..t.wishes as usize {
        line += 1;
        if i == MAX_WISHES {
            return Err((TOO_MANY, line));
        }
        // A literal may be missing only if those after it are.
        let there = |word: u32| 2 <= word && word <= 2 * t.switches + 1;
        let [x, y, z, weight] = t.wish[i];
        let right = match [x, y, z] {
            [0, 0, 0] => true,
            [x, 0, 0] => there(x),
            [x, y, 0] => there(x) && there(y),
            [x, y, z] => there(x) && there(y) && there(z),
        };
        if !right {
            return Err((BAD_FIELD, line));
        }
        if !WEIGHTS.contains(&weight) {
            return Err((BAD_WEIGHT, line));
        }
    }
    Ok(line + 1)
}

fn literal(word: u32) -> i32 {
    let switch = (word / 2) as i32;
    if word & 1 == 0 {
        switch
    } else {
        -switch
    }
}

/// A number into its columns, from the right.
fn number(field: &mut [u8], n: i32) {
    field.fill(b' ');
    let mut at = field.len() - 1;
    let mut left = n.unsigned_abs();
    field[at] = b'0' + (left % 10) as u8;
    left /= 10;
    while left > 0 {
        at -= 1;
        field[at] = b'0' + (left % 10) as u8;
        left /= 10;
    }
    if n < 0 {
        field[at - 1] = b'-';
    }
}
