//! Byte strings for the comparison: valid sheets, sheets damaged in many ways, and noise.
//! A string follows from its seed and its index alone, so each can be made again.

use crate::oracle::{
    COLUMNS, FIELDS, LINE, LITERALS, MAX_BYTES, MAX_FAULTS, MAX_GATES, MAX_LINES, MAX_NUMBER,
    MAX_RULES, MAX_SWITCHES, MAX_WEIGHT, MAX_WISHES, MIN_NUMBER, WEIGHT,
};

/// The letters that begin the lines of a sheet.
const LETTERS: &[u8] = b"HNAORWZ";
/// Those of gates.
const GATES: &[u8] = b"NAO";

/// Lengths at which a reader may trip.
const LENGTHS: &[usize] = &[
    0,
    1,
    LINE - 1,
    LINE,
    LINE + 1,
    2 * LINE,
    MAX_BYTES - 1,
    MAX_BYTES,
    MAX_BYTES + 1,
    MAX_BYTES + LINE,
    20_000,
];

/// The generator splitmix64: small, and good enough for choosing.
pub struct Random(u64);

impl Random {
    pub fn new(seed: u64, index: u64) -> Random {
        let mut start = Random(seed);
        Random(start.next() ^ index.wrapping_mul(0x9e37_79b9_7f4a_7c15).rotate_left(17))
    }

    fn next(&mut self) -> u64 {
        self.0 = self.0.wrapping_add(0x9e37_79b9_7f4a_7c15);
        let mut z = self.0;
        z = (z ^ (z >> 30)).wrapping_mul(0xbf58_476d_1ce4_e5b9);
        z = (z ^ (z >> 27)).wrapping_mul(0x94d0_49bb_1331_11eb);
        z ^ (z >> 31)
    }

    /// A number from 0 up to and without n.
    pub fn below(&mut self, n: usize) -> usize {
        (self.next() % n as u64) as usize
    }

    /// A number from low to high, both included.
    pub fn between(&mut self, low: i32, high: i32) -> i32 {
        low + self.below((high - low + 1) as usize) as i32
    }

    pub fn one_in(&mut self, n: usize) -> bool {
        self.below(n) == 0
    }

    pub fn pick<T: Copy>(&mut self, from: &[T]) -> T {
        from[self.below(from.len())]
    }

    /// Any word of 32 bits.
    pub fn word(&mut self) -> u32 {
        self.next() as u32
    }

    fn byte(&mut self) -> u8 {
        self.below(256) as u8
    }

    /// An index into something of this length: its first, its last or any, equally often.
    pub fn place(&mut self, length: usize) -> usize {
        match self.below(3) {
            0 => 0,
            1 => length - 1,
            _ => self.below(length),
        }
    }
}

/// A line before it is written.
#[derive(Clone, Copy)]
pub(crate) struct Row {
    pub(crate) letter: u8,
    pub(crate) fields: [i32; FIELDS],
}

impl Row {
    /// Numbers left out are 0, but the weight of a wish is 1.
    pub(crate) fn new(letter: u8, used: &[i32]) -> Row {
        let mut fields = [0; FIELDS];
        fields[WEIGHT] = i32::from(letter == b'W');
        fields[..used.len()].copy_from_slice(used);
        Row { letter, fields }
    }

    pub(crate) fn wish(literals: &[i32], weight: i32) -> Row {
        let mut row = Row::new(b'W', literals);
        row.fields[WEIGHT] = weight;
        row
    }

    pub(crate) fn written(&self) -> Vec<u8> {
        let mut line = vec![self.letter];
        for n in self.fields {
            line.extend(format!("{n:>COLUMNS$}").bytes());
        }
        line.push(b'\n');
        line
    }
}

/// The bytes of a sheet that is written short, as "H 1 0; W 1; Z 2": numbers left out are 0, but the weight
/// of a wish is 1.
pub fn sheet(short: &str) -> Vec<u8> {
    let mut bytes = Vec::new();
    for row in short.split(';') {
        let mut words = row.split_whitespace();
        let letter = words.next().expect("a letter").as_bytes()[0];
        let used: Vec<i32> = words.map(|w| w.parse().expect("a number")).collect();
        bytes.extend(Row::new(letter, &used).written());
    }
    bytes
}

// ---- valid sheets

/// How many lines of each kind a sheet has.
#[derive(Clone, Copy)]
struct Counts {
    gates: usize,
    rules: usize,
    wishes: usize,
}

const FULL: Counts = Counts {
    gates: MAX_GATES,
    rules: MAX_RULES,
    wishes: MAX_WISHES,
};

fn counts_below(r: &mut Random, gates: usize, rules: usize, wishes: usize) -> Counts {
    Counts {
        gates: r.below(gates),
        rules: r.below(rules),
        wishes: r.below(wishes),
    }
}

fn any_counts(r: &mut Random) -> Counts {
    match r.below(16) {
        0..=4 => counts_below(r, 4, 4, 4),
        5..=9 => counts_below(r, 14, 7, 7),
        10..=12 => counts_below(r, 90, 25, 25),
        13 => counts_below(r, MAX_GATES + 1, MAX_RULES + 1, MAX_WISHES + 1),
        14 => {
            let mut counts = counts_below(r, 6, 6, 6);
            match r.below(3) {
                0 => counts.gates = MAX_GATES,
                1 => counts.rules = MAX_RULES,
                _ => counts.wishes = MAX_WISHES,
            }
            counts
        }
        _ if r.one_in(3) => FULL,
        _ => counts_below(r, 200, MAX_RULES + 1, MAX_WISHES + 1),
    }
}

/// A number from 0 to the limit, its ends more often than the others.
pub(crate) fn size(r: &mut Random, limit: i32) -> i32 {
    match r.below(6) {
        0 => 0,
        1 => 1,
        2 => limit,
        3 => r.between(0, 3),
        _ => r.between(0, limit),
    }
}

/// A point from 1 to the last one; the last, and a low one, more often than the others.
pub(crate) fn point(r: &mut Random, last: i32) -> i32 {
    match r.below(5) {
        0 => last,
        1 => r.between(1, last.min(3)),
        _ => r.between(1, last),
    }
}

fn gate(r: &mut Random, points_before: i32) -> Row {
    let left = point(r, points_before);
    match r.pick(GATES) {
        b'N' => Row::new(b'N', &[left]),
        letter => {
            let right = if r.one_in(5) {
                left
            } else {
                point(r, points_before)
            };
            Row::new(letter, &[left, right])
        }
    }
}

fn literal(r: &mut Random, switches: i32) -> i32 {
    let switch = r.between(1, switches);
    if r.one_in(2) {
        switch
    } else {
        -switch
    }
}

/// A weight that a wish may have, the least and the largest more often than the others.
pub(crate) fn weight(r: &mut Random) -> i32 {
    let most = MAX_WEIGHT as i32;
    match r.below(5) {
        0 => 1,
        1 => most,
        2 => r.between(1, 12),
        _ => r.between(1, most),
    }
}

/// A wish: any, empty, never broken, with a literal twice, or an earlier one again, with the same weight or
/// another.
fn wish(r: &mut Random, switches: i32, earlier: &[Row]) -> Row {
    if !earlier.is_empty() && r.one_in(5) {
        let mut row = r.pick(earlier);
        let used = row.fields[..LITERALS]
            .iter()
            .take_while(|&&l| l != 0)
            .count();
        if used > 1 && r.one_in(2) {
            row.fields[..used].reverse();
        }
        if r.one_in(2) {
            row.fields[WEIGHT] = weight(r);
        }
        return row;
    }
    let most = if switches == 0 { 0 } else { LITERALS };
    let mut literals: Vec<i32> = (0..r.below(most + 1))
        .map(|_| literal(r, switches))
        .collect();
    let used = literals.len();
    if used > 1 {
        match r.below(6) {
            0 => literals[used - 1] = -literals[0],
            1 => literals[used - 1] = literals[0],
            _ => {}
        }
    }
    Row::wish(&literals, weight(r))
}

/// A sheet with these counts, right in everything but perhaps the counts. Without any switch or
/// fault there is no point, so gates and rules are left out then.
fn rows(r: &mut Random, counts: Counts) -> Vec<Row> {
    let switches = size(r, MAX_SWITCHES);
    let mut faults = size(r, MAX_FAULTS);
    if switches + faults == 0 && (counts.gates > MAX_GATES / 2 || counts.rules > MAX_RULES / 2) {
        faults = 1;
    }
    let mut points = switches + faults;
    let mut rows = vec![Row::new(b'H', &[switches, faults])];
    if points > 0 {
        for _ in 0..counts.gates {
            rows.push(gate(r, points));
            points += 1;
        }
        for _ in 0..counts.rules {
            let named = match r.below(4) {
                0 if switches > 0 => r.between(1, switches),
                1 if faults > 0 => switches + r.between(1, faults),
                _ => point(r, points),
            };
            rows.push(Row::new(b'R', &[named]));
        }
    }
    let before_wishes = rows.len();
    for _ in 0..counts.wishes {
        let row = wish(r, switches, &rows[before_wishes..]);
        rows.push(row);
    }
    let before = rows.len() as i32;
    rows.push(Row::new(b'Z', &[before]));
    rows
}

fn any_rows(r: &mut Random) -> Vec<Row> {
    let counts = any_counts(r);
    rows(r, counts)
}

// ---- damage to numbers and letters: the lines stay well-formed

/// Makes the count on the last line right again, so that the damage before it decides alone.
fn mend_count(rows: &mut [Row]) {
    let before = rows.len() as i32 - 1;
    if let Some(last) = rows.last_mut() {
        if last.letter == b'Z' {
            last.fields[0] = before;
        }
    }
}

/// A number that is likely to matter in this field of this line.
fn telling_number(r: &mut Random, rows: &[Row], at: usize, field: usize) -> i32 {
    let head = rows[0];
    let old = rows[at].fields[field];
    // The own point of a gate, if the lines before are in order.
    let own = head.fields[0].clamp(0, 99) + head.fields[1].clamp(0, 99) + at as i32;
    let gates = rows
        .iter()
        .filter(|row| GATES.contains(&row.letter))
        .count() as i32;
    let points = head.fields[0].clamp(0, 99) + head.fields[1].clamp(0, 99) + gates;
    let switches = head.fields[0];
    let general = [
        0,
        1,
        -1,
        -old,
        old + 1,
        old - 1,
        MAX_NUMBER,
        MIN_NUMBER,
        10_000,
        256,
        65_536,
    ];
    let special: &[i32] = match (rows[at].letter, field) {
        (b'H', 0) => &[
            MAX_SWITCHES,
            MAX_SWITCHES + 1,
            MAX_SWITCHES + 12,
            -MAX_SWITCHES,
        ],
        (b'H', 1) => &[MAX_FAULTS, MAX_FAULTS + 1, MAX_FAULTS + 16, -MAX_FAULTS],
        (b'N' | b'A' | b'O', _) => &[own, own - 1, own + 1, points, points + 1, 0, -own],
        (b'R', _) => &[points, points + 1, own, 0, -points, 1],
        (b'W', WEIGHT) => WEIGHTS_AROUND,
        (b'W', _) => &[switches, switches + 1, -switches, -switches - 1, 0, 1, -1],
        _ => &[at as i32, at as i32 + 1, at as i32 - 1, -(at as i32), 0, 1],
    };
    let n = match r.below(8) {
        0 => r.between(MIN_NUMBER, MAX_NUMBER),
        1 | 2 => r.pick(&general),
        _ => r.pick(special),
    };
    n.clamp(MIN_NUMBER, MAX_NUMBER)
}

/// Weights at the ends of what is allowed, and beyond.
const WEIGHTS_AROUND: &[i32] = &[
    0,
    1,
    -1,
    MAX_WEIGHT as i32,
    MAX_WEIGHT as i32 + 1,
    -(MAX_WEIGHT as i32),
    MAX_NUMBER,
    MIN_NUMBER,
];

fn damage_weight(r: &mut Random, rows: &mut [Row], at: usize) {
    rows[at].fields[WEIGHT] = telling_number(r, rows, at, WEIGHT);
}

fn damage_number(r: &mut Random, rows: &mut [Row], at: usize) {
    if rows[at].letter == b'W' && r.one_in(3) {
        // A literal after a 0, and perhaps a wrong weight besides.
        let l = rows[0].fields[0].clamp(1, 99);
        let shapes = [[0, l, 0], [0, 0, l], [l, 0, -l], [0, -l, l], [0, l + 1, 0]];
        rows[at].fields[..LITERALS].copy_from_slice(&r.pick(&shapes));
        if r.one_in(4) {
            damage_weight(r, rows, at);
        }
        return;
    }
    let field = r.below(FIELDS);
    rows[at].fields[field] = telling_number(r, rows, at, field);
}

fn any_row(r: &mut Random) -> Row {
    let mut row = Row::new(r.pick(LETTERS), &[]);
    for field in row.fields.iter_mut() {
        *field = match r.below(5) {
            0 | 1 => 0,
            2 | 3 => r.between(-3, 25),
            _ => r.between(MIN_NUMBER, MAX_NUMBER),
        };
    }
    row
}

/// Puts one line out of the order of letters.
fn damage_order(r: &mut Random, rows: &mut Vec<Row>) {
    let at = r.place(rows.len());
    let next = (at + 1).min(rows.len() - 1);
    let other = r.below(rows.len());
    let head = rows[0];
    match r.below(14) {
        0 => {
            let row = rows[at];
            rows.insert(other, row);
        }
        1 => {
            rows.remove(at);
        }
        2 => rows.swap(at, other),
        3 => rows.swap(at, next),
        4 => rows[at].letter = r.pick(LETTERS),
        5 => {
            let row = any_row(r);
            rows.insert(at, row);
        }
        6 => rows.insert(other, head),
        7 => rows.insert(other, Row::new(b'Z', &[other as i32])),
        8 => {
            rows.pop();
        }
        9 => rows.truncate(1),
        10 => rows.push(head),
        11 => rows.rotate_right(1),
        12 => {
            rows.truncate(other.max(1));
            if r.one_in(2) {
                rows.push(Row::new(b'Z', &[0]));
            }
        }
        _ => {
            // A line of each kind where it may or may not be allowed, right in itself.
            let extra = r.pick(&[
                Row::new(b'N', &[1]),
                Row::new(b'A', &[1, 1]),
                Row::new(b'R', &[1]),
                Row::new(b'W', &[1]),
                Row::new(b'W', &[]),
                Row::wish(&[], 0),
            ]);
            rows.insert(other.max(1), extra);
        }
    }
    if rows.is_empty() {
        rows.push(head);
    }
    if r.one_in(2) {
        mend_count(rows);
    }
}

/// A sheet with one kind of line at its limit or beyond it, and the line of the first too many.
fn beyond_limit(r: &mut Random) -> (Vec<Row>, usize) {
    let extra = r.pick(&[0, 1, 1, 1, 2, 3]);
    let mut counts = counts_below(r, 40, 20, 20);
    let kind = r.below(3);
    match kind {
        0 => counts.gates = MAX_GATES + extra,
        1 => counts.rules = MAX_RULES + extra,
        _ => counts.wishes = MAX_WISHES + extra,
    }
    if r.one_in(4) {
        // A second limit on a later kind, met or passed.
        counts.wishes = MAX_WISHES + r.below(2);
    }
    let made = rows(r, counts);
    let gates = made
        .iter()
        .filter(|row| GATES.contains(&row.letter))
        .count();
    let rules = made.iter().filter(|row| row.letter == b'R').count();
    let first_too_many = match kind {
        0 => 1 + MAX_GATES,
        1 => 1 + gates + MAX_RULES,
        _ => 1 + gates + rules + MAX_WISHES,
    };
    let at = first_too_many.min(made.len() - 1);
    (made, at)
}

// ---- damage to the text of a line: its length stays

pub(crate) fn odd_byte(r: &mut Random) -> u8 {
    match r.below(4) {
        0 => r.byte(),
        1 => r.pick(b"0123456789 -"),
        2 => 0x80 | r.byte(),
        _ => r.pick(b"+.,:;/?xX_'\"*#hnaorwzHNAORWZ\n\r\t\x0b\x0c\0\x7f"),
    }
}

/// Texts as wide as a field. The first are malformed, the last are numbers.
#[rustfmt::skip]
const FIELD_TEXTS: &[&[u8; COLUMNS]] = &[
    b"     ", b"    -", b"   - ", b"-    ", b"   -0", b"  -00", b"-0000", b"   00", b"  007",
    b"00000", b"00001", b"  -01", b"   +1", b"   +0", b"+1234", b"1    ", b"1   1", b"  1  ",
    b" 1 2 ", b"12 34", b"  - 1", b"-   1", b"- 123", b"  1-1", b"   1-", b"  --1", b"1e  3",
    b"  1.0", b"  0x1", b"  1,0", b"    x", b"    O", b"    l", b"0    ", b"-1   ", b"9999-",
    b"\t   1", b"   1\t", b"   1\n", b"\n   1", b"   1\r", b"   1\0", b"\0   1", b"   \xa01",
    b"  \xd9\xa11", b"   \xb1 ",
    b"    0", b"    1", b"   -1", b"   10", b"  100", b"  999", b" 1000", b"99999", b"-9999",
    b"10000", b"-1000",
];

/// The number of a field written in some way that a careless reader might take.
fn rewritten(r: &mut Random, field: &[u8]) -> Vec<u8> {
    let text = String::from_utf8_lossy(field).trim().to_string();
    let n: i32 = text.parse().unwrap_or(0);
    let again = match r.below(7) {
        0 => format!("{n:<COLUMNS$}"),
        1 => format!("{n:^COLUMNS$}"),
        2 => format!("{n:0COLUMNS$}"),
        3 => format!("{n:>+COLUMNS$}"),
        4 => format!("{:>COLUMNS$}", format!("0{n}")),
        5 => format!("{:>COLUMNS$}", format!("-{n}")),
        _ => format!("{:>COLUMNS$}", format!("{n} ")),
    };
    let mut bytes = again.into_bytes();
    bytes.truncate(COLUMNS);
    bytes
}

/// Texts that nearly are numbers, and in which the column of the first wrong byte is easily mistaken.
#[rustfmt::skip]
const NEARLY: &[&[u8; COLUMNS]] = &[
    b"     ", b"    -", b"   -0", b"   05", b" -040", b"   3 ", b" 4  7", b"-  12",
];

/// Numbers of every width, with and without a minus.
const WIDTHS: &[i32] = &[0, 7, 42, 305, 1_000, 54_321, -3, -15, -404, -1_234];

/// Makes the line stop at any column: a byte is put there, mostly one that can stand in a number and
/// not here. In a field the bytes before it become the beginning of a number.
fn stop_line(r: &mut Random, line: &mut [u8]) {
    if r.one_in(3) {
        let start = 1 + COLUMNS * r.below(FIELDS);
        line[start..start + COLUMNS].copy_from_slice(&r.pick(NEARLY)[..]);
        return;
    }
    let at = r.below(LINE);
    let in_field = (1..LINE - 1).contains(&at).then(|| (at - 1) % COLUMNS);
    if let Some(before) = in_field {
        let number = format!("{:>COLUMNS$}", r.pick(WIDTHS));
        line[at - before..at].copy_from_slice(&number.as_bytes()[..before]);
    }
    // A field may begin with a space or a minus.
    let wrong: &[u8] = if in_field == Some(0) { b"0" } else { b"0 -" };
    line[at] = if r.one_in(3) {
        odd_byte(r)
    } else {
        r.pick(wrong)
    };
}

fn damage_text(r: &mut Random, line: &mut [u8]) {
    let start = 1 + COLUMNS * r.below(FIELDS);
    match r.below(12) {
        0 => line[r.below(LINE)] = odd_byte(r),
        1 => line[start + r.below(COLUMNS)] = odd_byte(r),
        2 => line[start + COLUMNS - 1] = r.pick(b"- +"),
        3 => {
            let again = rewritten(r, &line[start..start + COLUMNS]);
            line[start..start + COLUMNS].copy_from_slice(&again);
        }
        4 => {
            line[0] = match r.below(4) {
                0 => line[0].to_ascii_lowercase(),
                1 => r.pick(LETTERS),
                2 => line[0] ^ 0x80,
                _ => odd_byte(r),
            }
        }
        5 => line[LINE - 1] = r.pick(b"\r \0\x0b\x0c\x8a\xff0Z\n"),
        6 => line.rotate_left(1),
        7 => line.rotate_right(1),
        8 | 9 => stop_line(r, line),
        _ => line[start..start + COLUMNS].copy_from_slice(&r.pick(FIELD_TEXTS)[..]),
    }
}

// ---- damage to the whole string: its length may change

fn damage_bytes(r: &mut Random, bytes: &mut Vec<u8>) {
    if bytes.is_empty() {
        bytes.push(odd_byte(r));
        return;
    }
    let at = r.below(bytes.len());
    match r.below(10) {
        0 => bytes.insert(at, odd_byte(r)),
        1 => {
            bytes.remove(at);
        }
        2 => bytes.truncate(at),
        3 => bytes.truncate(at / LINE * LINE),
        4 => {
            for _ in 0..1 + r.below(LINE + 1) {
                bytes.push(odd_byte(r));
            }
        }
        5 => bytes.push(r.pick(b"\n \0\x1a")),
        6 => {
            // As many bytes as a line has, cut out anywhere.
            let end = (at + LINE).min(bytes.len());
            bytes.drain(at..end);
        }
        7 => {
            // One byte moved: the lines in between are shifted, the length stays.
            let byte = bytes.remove(at);
            let to = r.below(bytes.len() + 1);
            bytes.insert(to, byte);
        }
        8 => {
            let last = bytes[bytes.len() - LINE.min(bytes.len())..].to_vec();
            bytes.extend(last);
        }
        _ => {
            bytes.remove(at);
            bytes.push(b'\n');
        }
    }
}

// ---- noise

fn noise(r: &mut Random) -> Vec<u8> {
    let lines = match r.below(8) {
        0 => MAX_LINES - r.below(3),
        _ => 1 + r.below(30),
    };
    let mut bytes: Vec<u8> = match r.below(4) {
        0 => (0..lines * LINE).map(|_| r.byte()).collect(),
        1 => (0..lines * LINE)
            .map(|_| r.pick(b"HNAORWZ0123456789-    \n"))
            .collect(),
        2 => {
            // Letters and line feeds in their places, anything between.
            let mut bytes: Vec<u8> = (0..lines * LINE).map(|_| r.pick(b"   0123-")).collect();
            for line in bytes.chunks_mut(LINE) {
                line[0] = r.pick(LETTERS);
                line[LINE - 1] = b'\n';
            }
            bytes
        }
        _ => (0..lines).flat_map(|_| any_row(r).written()).collect(),
    };
    if r.one_in(2) {
        let head = Row::new(b'H', &[size(r, MAX_SWITCHES), size(r, MAX_FAULTS)]);
        bytes[..LINE].copy_from_slice(&head.written());
    }
    if lines > 1 && r.one_in(2) {
        let end = Row::new(b'Z', &[lines as i32 - 1]);
        bytes[(lines - 1) * LINE..].copy_from_slice(&end.written());
    }
    bytes
}

/// A string of one of the lengths above: part of a sheet, a sheet and more, or noise.
fn of_length(r: &mut Random) -> Vec<u8> {
    let length = r.pick(LENGTHS);
    let mut bytes = match r.below(4) {
        0 => (0..length).map(|_| r.byte()).collect(),
        1 => written(&any_rows(r)).concat(),
        _ => written(&rows(r, FULL)).concat(),
    };
    while bytes.len() < length {
        let again = Row::new(b'W', &[]).written();
        bytes.extend(again);
    }
    bytes.truncate(length);
    bytes
}

// ---- lines without a fourth number

/// The bytes of such a line.
pub(crate) const SHORT_LINE: usize = LINE - COLUMNS;

/// A sheet without its fourth numbers.
pub fn without_fourth_numbers(bytes: &[u8]) -> Vec<u8> {
    let short = |line: &[u8]| [&line[..SHORT_LINE - 1], b"\n"].concat();
    bytes.chunks(LINE).flat_map(short).collect()
}

/// The sheet without its fourth numbers, half of the time with so many lines that its length is right all the
/// same.
fn of_short_lines(r: &mut Random, mut rows: Vec<Row>) -> Vec<u8> {
    if r.one_in(2) {
        let lines = rows.len().next_multiple_of(LINE);
        let at = rows.len() - 1;
        rows.splice(at..at, vec![Row::new(b'W', &[]); lines - rows.len()]);
        mend_count(&mut rows);
    }
    without_fourth_numbers(&written(&rows).concat())
}

/// Whether these are lines without a fourth number.
pub fn has_short_lines(bytes: &[u8]) -> bool {
    let mut lines = bytes.chunks(SHORT_LINE);
    !bytes.is_empty() && lines.all(|line| line.get(SHORT_LINE - 1) == Some(&b'\n'))
}

// ---- putting it together

pub(crate) fn written(rows: &[Row]) -> Vec<Vec<u8>> {
    rows.iter().map(Row::written).collect()
}

/// Damages of one or both kinds at one line.
fn pile_on_line(r: &mut Random, rows: &mut [Row], at: usize, damages: usize) -> Vec<Vec<u8>> {
    let mut text = 0;
    for _ in 0..damages {
        match r.below(5) {
            0 => text += 1,
            1 => rows[at].letter = r.pick(LETTERS),
            2 => damage_weight(r, rows, at),
            _ => damage_number(r, rows, at),
        }
    }
    let mut lines = written(rows);
    for _ in 0..text {
        damage_text(r, &mut lines[at]);
    }
    lines
}

/// What a string is made by, one after another by its index, so that each comes equally often.
pub const RECIPES: [&str; 19] = [
    "valid",
    "valid, one number damaged on the H line",
    "one number",
    "one number, count mended",
    "one text",
    "the last line",
    "order of lines",
    "order of lines and one more",
    "at or beyond a limit",
    "beyond a limit, same line damaged again",
    "several on one line",
    "several on several lines",
    "several of every kind",
    "bytes",
    "noise",
    "length",
    "columns of one line",
    "one weight",
    "no fourth numbers",
];

/// The recipes that begin from a whole sheet, undamaged ones left out. That of the columns stands
/// here twice, as there are many columns.
pub(crate) const DAMAGES: [usize; 15] = [1, 2, 3, 4, 5, 6, 7, 10, 11, 12, 13, 16, 16, 17, 18];

/// The byte string of this seed and index.
pub fn string(seed: u64, index: u64) -> Vec<u8> {
    let r = &mut Random::new(seed, index);
    let recipe = (index % RECIPES.len() as u64) as usize;
    match recipe {
        8 => {
            let (rows, _) = beyond_limit(r);
            written(&rows).concat()
        }
        9 => {
            let (mut rows, at) = beyond_limit(r);
            let at = if r.one_in(4) { r.below(rows.len()) } else { at };
            let damages = 1 + r.below(2);
            pile_on_line(r, &mut rows, at, damages).concat()
        }
        14 => noise(r),
        15 => of_length(r),
        _ => {
            let rows = any_rows(r);
            damaged(r, recipe, rows)
        }
    }
}

/// The bytes of this sheet, damaged by one of the recipes that begin from a whole sheet.
pub(crate) fn damaged(r: &mut Random, recipe: usize, mut rows: Vec<Row>) -> Vec<u8> {
    match recipe {
        1 => {
            damage_number(r, &mut rows, 0);
            written(&rows).concat()
        }
        2 => {
            let at = r.place(rows.len());
            damage_number(r, &mut rows, at);
            written(&rows).concat()
        }
        3 => {
            let at = r.below(rows.len());
            damage_number(r, &mut rows, at);
            mend_count(&mut rows);
            written(&rows).concat()
        }
        4 => {
            let mut lines = written(&rows);
            let at = r.place(lines.len());
            damage_text(r, &mut lines[at]);
            lines.concat()
        }
        5 => {
            let at = rows.len() - 1;
            let damages = 1 + r.below(2);
            match r.below(3) {
                0 => pile_on_line(r, &mut rows, at, damages).concat(),
                _ => {
                    rows[at].fields[0] = telling_number(r, &rows, at, 0);
                    written(&rows).concat()
                }
            }
        }
        6 => {
            damage_order(r, &mut rows);
            written(&rows).concat()
        }
        7 => {
            damage_order(r, &mut rows);
            let at = r.place(rows.len());
            pile_on_line(r, &mut rows, at, 1).concat()
        }
        10 => {
            let at = r.place(rows.len());
            let damages = 2 + r.below(3);
            pile_on_line(r, &mut rows, at, damages).concat()
        }
        11 => {
            for _ in 0..1 + r.below(3) {
                let at = r.below(rows.len());
                damage_number(r, &mut rows, at);
            }
            let at = r.below(rows.len());
            let damages = 1 + r.below(2);
            pile_on_line(r, &mut rows, at, damages).concat()
        }
        12 => {
            damage_order(r, &mut rows);
            let at = r.place(rows.len());
            damage_number(r, &mut rows, at);
            let at = r.place(rows.len());
            let damages = 1 + r.below(3);
            let mut bytes = pile_on_line(r, &mut rows, at, damages).concat();
            if r.one_in(4) {
                damage_bytes(r, &mut bytes);
            }
            bytes
        }
        13 => {
            let mut bytes = written(&rows).concat();
            for _ in 0..1 + r.below(2) {
                damage_bytes(r, &mut bytes);
            }
            bytes
        }
        16 => {
            let mut lines = written(&rows);
            let at = r.below(lines.len());
            for _ in 0..1 + r.below(2) {
                stop_line(r, &mut lines[at]);
            }
            lines.concat()
        }
        17 => {
            let wishes: Vec<usize> = (0..rows.len())
                .filter(|&at| rows[at].letter == b'W')
                .collect();
            let at = match wishes[..] {
                [] => {
                    let end = rows.len() - 1;
                    rows.insert(end, Row::new(b'W', &[]));
                    mend_count(&mut rows);
                    end
                }
                _ => wishes[r.place(wishes.len())],
            };
            damage_weight(r, &mut rows, at);
            written(&rows).concat()
        }
        18 => of_short_lines(r, rows),
        _ => written(&rows).concat(),
    }
}

#[cfg(test)]
mod tests {
    use super::*;
    use crate::oracle::{read, split, Wish, BAD_LENGTH, BAD_WEIGHT, MALFORMED, TOO_MANY};
    use std::collections::BTreeSet;

    #[test]
    fn same_seed_same_strings() {
        for index in 0..200 {
            assert_eq!(string(7, index), string(7, index));
        }
        let differ = (0..200).filter(|&i| string(7, i) != string(8, i)).count();
        assert!(differ > 150, "{differ}");
    }

    #[test]
    fn undamaged_sheets_are_accepted() {
        for index in (0..8_000).step_by(RECIPES.len()) {
            assert!(read(&string(1, index)).is_ok(), "index {index}");
        }
    }

    /// Lines stop at every column, within the strings of one seed.
    #[test]
    fn every_column_is_reached() {
        let mut columns = [0; LINE];
        for index in 0..12_000 {
            match read(&string(1, index)) {
                Err(refusal) if refusal.number == MALFORMED => columns[refusal.column - 1] += 1,
                _ => {}
            }
        }
        assert!(columns.iter().all(|&n| n >= 25), "{columns:?}");
    }

    /// Wrong weights of every kind come, and lines without a fourth number.
    #[test]
    fn weights_and_short_lines() {
        let mut wrong = [0; 4];
        let mut short = [0; 2];
        for index in 0..12_000 {
            let bytes = string(1, index);
            let Err(refusal) = read(&bytes) else {
                continue;
            };
            if refusal.number == BAD_WEIGHT {
                let line = &bytes[(refusal.place - 1) * LINE..refusal.place * LINE];
                let (_, _, fields) = split(line).expect("a well-formed line");
                let kinds = [
                    fields[WEIGHT] == 0,
                    fields[WEIGHT] < 0,
                    fields[WEIGHT] == MAX_WEIGHT as i32 + 1,
                    fields[WEIGHT] == MAX_NUMBER,
                ];
                for (count, is_it) in wrong.iter_mut().zip(kinds) {
                    *count += usize::from(is_it);
                }
            }
            if has_short_lines(&bytes) {
                let at_the_line_feed = (MALFORMED, 1, SHORT_LINE);
                match (refusal.number, refusal.place, refusal.column) {
                    (BAD_LENGTH, _, _) => short[0] += 1,
                    stopped if stopped == at_the_line_feed => short[1] += 1,
                    other => panic!("index {index}: {other:?}"),
                }
            }
        }
        assert!(wrong.iter().all(|&n| n >= 40), "{wrong:?}");
        assert!(short.iter().all(|&n| n >= 100), "{short:?}");
    }

    /// The sheets that the comparison relies on do come, within the strings of one seed.
    #[test]
    fn the_limits_are_reached() {
        let mut full = 0;
        let mut exact = [0; 3];
        let mut too_many = BTreeSet::new();
        let mut lengths = BTreeSet::new();
        let mut kinds_of_wish = [0; 6];
        for index in 0..8_000 {
            let bytes = string(1, index);
            lengths.insert(bytes.len());
            match read(&bytes) {
                Ok(sheet) => {
                    full += usize::from(bytes.len() == MAX_BYTES);
                    exact[0] += usize::from(sheet.gates.len() == MAX_GATES);
                    exact[1] += usize::from(sheet.rules.len() == MAX_RULES);
                    exact[2] += usize::from(sheet.wishes.len() == MAX_WISHES);
                    for (k, Wish { literals, weight }) in sheet.wishes.iter().enumerate() {
                        let same = |earlier: &Wish| earlier.literals == *literals;
                        let earlier = sheet.wishes[..k].iter().find(|wish| same(wish));
                        let kinds = [
                            literals.is_empty(),
                            literals.iter().any(|l| literals.contains(&-l)),
                            earlier.is_some_and(|earlier| earlier.weight == *weight),
                            earlier.is_some_and(|earlier| earlier.weight != *weight),
                            literals.len() == LITERALS,
                            *weight == MAX_WEIGHT,
                        ];
                        for (count, is_it) in kinds_of_wish.iter_mut().zip(kinds) {
                            *count += usize::from(is_it);
                        }
                    }
                }
                Err(refusal) if refusal.number == TOO_MANY => {
                    let line = (refusal.place - 1) * LINE;
                    too_many.insert(bytes[line]);
                }
                Err(_) => {}
            }
        }
        assert!(full >= 10, "{full}");
        assert!(exact.iter().all(|&n| n >= 20), "{exact:?}");
        assert_eq!(
            too_many,
            LETTERS
                .iter()
                .copied()
                .filter(|l| b"NAORW".contains(l))
                .collect()
        );
        assert!(kinds_of_wish.iter().all(|&n| n >= 100), "{kinds_of_wish:?}");
        assert!(LENGTHS.iter().all(|n| lengths.contains(n)), "{lengths:?}");
    }
}
