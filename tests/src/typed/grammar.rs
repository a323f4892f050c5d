//! Which texts are legal but for their length, and how much of any text can begin such a one.
//!
//! The grammar stands here as data, one shape for each way to write a thing. A text is tried by
//! Earley's method: each place has the set of all shapes that may be under way there, and none is
//! chosen before another. Every thing can be written somehow, so the set is empty exactly from the
//! byte on with which no legal text goes on.

use std::ops::Range;

use crate::oracle::LITERALS;

/// What may be written. The number is the depth: open brackets, and nots whose operand is not
/// complete.
#[derive(Clone, Copy, Debug, PartialEq, Eq)]
enum Thing {
    Text,
    Ruled,
    Rule,
    Wish,
    Literal,
    Weight,
    Count,
    Number,
    Or(usize),
    And(usize),
    Operand(usize),
}

/// A part of a shape.
#[derive(Clone, Copy)]
enum Part {
    /// One of these bytes.
    Byte(&'static [u8]),
    /// One space, or nothing.
    MaySpace,
    Of(Thing),
}

use Part::{Byte, MaySpace, Of};
use Thing::{And, Count, Literal, Number, Operand, Or, Rule, Ruled, Text, Weight, Wish};

/// What a grammar can have otherwise, so that wrong ones can be tried too.
#[derive(Clone, Copy)]
pub struct Bounds {
    /// The greatest depth.
    pub deepest: usize,
    pub leading_zeros: bool,
    pub space_before_line_feed: bool,
    /// The most literals and the most digits of a weight.
    pub literals: usize,
    pub weight_digits: usize,
    /// Whether a weight may stand alone, before the literals or between them.
    pub weight_anywhere: bool,
}

/// The bounds of legal texts.
pub const LEGAL: Bounds = Bounds {
    deepest: 32,
    leading_zeros: false,
    space_before_line_feed: false,
    literals: LITERALS,
    weight_digits: 4,
    weight_anywhere: false,
};

/// How far a text goes.
#[derive(Clone, Copy, Debug, PartialEq, Eq)]
pub struct Reach {
    /// The length of the longest beginning that a legal text shares.
    pub shared: usize,
    /// Whether the whole text is legal.
    pub legal: bool,
}

struct Shape {
    of: Thing,
    parts: Vec<Part>,
}

pub struct Grammar {
    shapes: Vec<Shape>,
    /// The shapes of each thing, which stand together, by the thing's index.
    of: Vec<Range<usize>>,
}

/// A shape under way: so many of its parts are there, since this place.
#[derive(Clone, Copy, PartialEq, Eq)]
struct Item {
    shape: usize,
    there: usize,
    since: usize,
}

/// Things without a depth.
const FLAT: [Thing; 8] = [Text, Ruled, Rule, Wish, Literal, Weight, Count, Number];
const DEEP: [fn(usize) -> Thing; 3] = [Or, And, Operand];

/// A thing's own number.
fn index(thing: Thing) -> usize {
    let deep = |kind: usize, depth: usize| FLAT.len() + depth * DEEP.len() + kind;
    match thing {
        Or(depth) => deep(0, depth),
        And(depth) => deep(1, depth),
        Operand(depth) => deep(2, depth),
        flat => FLAT.iter().position(|&t| t == flat).expect("a flat thing"),
    }
}

/// These bytes, one after another.
fn word(text: &'static str) -> Vec<Part> {
    text.as_bytes().chunks(1).map(Byte).collect()
}

/// Every way to write a thing.
fn shapes(thing: Thing, bounds: Bounds) -> Vec<Vec<Part>> {
    let digit = Byte(b"0123456789");
    let feed = |mut parts: Vec<Part>| {
        if bounds.space_before_line_feed {
            parts.push(MaySpace);
        }
        parts.push(Byte(b"\n"));
        parts
    };
    match thing {
        Text => vec![vec![Of(Ruled)], vec![Of(Text), Of(Wish)]],
        Ruled => {
            let switches = feed([word("switches "), vec![Of(Count)]].concat());
            let faults = feed([word("faults "), vec![Of(Count)]].concat());
            vec![[switches, faults].concat(), vec![Of(Ruled), Of(Rule)]]
        }
        Rule => vec![feed([word("rule "), vec![Of(Or(0))]].concat())],
        Wish => wishes(bounds).into_iter().map(feed).collect(),
        Literal => {
            let plain = vec![Byte(b"s"), Of(Number)];
            vec![plain.clone(), [vec![Byte(b"!")], plain].concat()]
        }
        Weight => {
            let first = Byte(b"123456789");
            let digits = |n: usize| [vec![first], vec![digit; n - 1]].concat();
            let numbers = (1..=bounds.weight_digits).map(digits);
            let mut ways: Vec<Vec<Part>> = [vec![Byte(b"0")]].into_iter().chain(numbers).collect();
            if bounds.leading_zeros {
                ways.push(vec![Byte(b"0"), first]);
            }
            ways
        }
        Count => vec![vec![Byte(b"0")], vec![Of(Number)]],
        Number => {
            let first = Byte(b"123456789");
            let mut ways = vec![vec![first], vec![first, digit]];
            if bounds.leading_zeros {
                ways.push(vec![Byte(b"0"), first]);
            }
            ways
        }
        Or(d) => vec![
            vec![Of(And(d))],
            vec![Of(Or(d)), MaySpace, Byte(b"|"), MaySpace, Of(And(d))],
        ],
        And(d) => vec![
            vec![Of(Operand(d))],
            vec![Of(And(d)), MaySpace, Byte(b"&"), MaySpace, Of(Operand(d))],
        ],
        Operand(d) => {
            let mut ways = vec![vec![Byte(b"sf"), Of(Number)]];
            if d < bounds.deepest {
                ways.push(vec![Byte(b"!"), MaySpace, Of(Operand(d + 1))]);
                let inside = Of(Or(d + 1));
                ways.push(vec![Byte(b"("), MaySpace, inside, MaySpace, Byte(b")")]);
            }
            ways
        }
    }
}

/// Every way to write a wish, up to its line feed: its literals, and its weight or none.
fn wishes(bounds: Bounds) -> Vec<Vec<Part>> {
    let weight = [word("weight "), vec![Of(Weight)]].concat();
    let mut ways = Vec::new();
    for literals in 1..=bounds.literals {
        let words = vec![vec![Of(Literal)]; literals];
        let with_weight = |at: usize| {
            let mut words = words.clone();
            words.insert(at, weight.clone());
            words
        };
        let first = if bounds.weight_anywhere { 0 } else { literals };
        ways.push(words.clone());
        ways.extend((first..=literals).map(with_weight));
    }
    if bounds.weight_anywhere {
        ways.push(vec![weight]);
    }
    let wish = |words: Vec<Vec<Part>>| [word("wish "), words.join(&Byte(b" "))].concat();
    ways.into_iter().map(wish).collect()
}

impl Grammar {
    pub fn new(bounds: Bounds) -> Grammar {
        let deep = (0..=bounds.deepest).flat_map(|depth| DEEP.map(|thing| thing(depth)));
        let mut grammar = Grammar {
            shapes: Vec::new(),
            of: Vec::new(),
        };
        for of in FLAT.into_iter().chain(deep) {
            assert_eq!(index(of), grammar.of.len());
            let first = grammar.shapes.len();
            let ways = shapes(of, bounds).into_iter();
            grammar.shapes.extend(ways.map(|parts| Shape { of, parts }));
            grammar.of.push(first..grammar.shapes.len());
        }
        grammar
    }

    fn next(&self, item: Item) -> Option<Part> {
        self.shapes[item.shape].parts.get(item.there).copied()
    }

    /// How much of the text begins a legal one, and whether it is one.
    pub fn reach(&self, text: &[u8]) -> Reach {
        // The sets of all places, one after another, and where each begins.
        let mut items: Vec<Item> = Vec::new();
        let mut begins = vec![0];
        self.begin(Text, 0, &mut items, 0);
        self.close(&mut items, &begins);
        for (shared, &byte) in text.iter().enumerate() {
            let here = begins[shared]..items.len();
            let next = here.end;
            begins.push(next);
            for k in here {
                let item = items[k];
                let taken = match self.next(item) {
                    Some(Byte(bytes)) => bytes.contains(&byte),
                    Some(MaySpace) => byte == b' ',
                    _ => false,
                };
                if taken {
                    add(&mut items, next, after(item));
                }
            }
            if items.len() == next {
                let legal = false;
                return Reach { shared, legal };
            }
            self.close(&mut items, &begins);
        }
        let whole = |item: &Item| self.shapes[item.shape].of == Text && item.since == 0;
        let last = &items[begins[text.len()]..];
        Reach {
            shared: text.len(),
            legal: last.iter().any(|i| whole(i) && self.next(*i).is_none()),
        }
    }

    /// Adds all shapes of a thing to the set that begins at `from`, the set of this place.
    fn begin(&self, thing: Thing, place: usize, items: &mut Vec<Item>, from: usize) {
        for shape in self.of[index(thing)].clone() {
            let item = Item {
                shape,
                there: 0,
                since: place,
            };
            add(items, from, item);
        }
    }

    /// Adds to the last set what follows from its items without a further byte.
    fn close(&self, items: &mut Vec<Item>, begins: &[usize]) {
        let place = begins.len() - 1;
        let from = begins[place];
        let mut k = from;
        while k < items.len() {
            let item = items[k];
            match self.next(item) {
                Some(Of(thing)) => self.begin(thing, place, items, from),
                Some(MaySpace) => add(items, from, after(item)),
                Some(Byte(_)) => {}
                None => {
                    // A thing has at least one byte, so the set where it began is an earlier one.
                    let thing = self.shapes[item.shape].of;
                    for earlier in begins[item.since]..begins[item.since + 1] {
                        let waiting = items[earlier];
                        if matches!(self.next(waiting), Some(Of(of)) if of == thing) {
                            add(items, from, after(waiting));
                        }
                    }
                }
            }
            k += 1;
        }
    }
}

/// The item with one part more.
fn after(item: Item) -> Item {
    let there = item.there + 1;
    Item { there, ..item }
}

/// Adds an item to the set that begins at `from`, if it is not there.
fn add(items: &mut Vec<Item>, from: usize, item: Item) {
    if !items[from..].contains(&item) {
        items.push(item);
    }
}
