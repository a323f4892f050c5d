//! What a sheet says, as values that a program can edit, and as the words that the archive takes.

use crate::figures::Words;
use crate::LITERALS_MAX;

/// A switch, a fault or a gate, by its number: first the switches from 1, then the faults, then the
/// gates. [`Tables`] has functions that count for you.
#[derive(Clone, Copy, Debug, PartialEq, Eq, PartialOrd, Ord, Hash)]
pub struct Point(pub u32);

/// A gate: the opposite of a point, or two points together. They stand before it.
#[derive(Clone, Copy, Debug, PartialEq, Eq, Hash)]
pub enum Gate {
    Not(Point),
    And(Point, Point),
    Or(Point, Point),
}

/// A switch, counted from 1, that is on or off.
#[derive(Clone, Copy, Debug, PartialEq, Eq, Hash)]
pub struct Literal {
    pub switch: u32,
    pub on: bool,
}

/// At least one of up to three literals should hold. A wish without any is always broken. Its weight
/// is what it costs to break it, 1 unless another is named.
///
/// ```
/// use comzsered::{Literal, Wish};
///
/// let wish = Wish::from([Literal::on(1), Literal::off(2)]);
/// assert_eq!(wish.literals().count(), 2);
/// assert_eq!((wish.weight, wish.weighing(20).weight), (1, 20));
/// assert_eq!(Wish::new(&[Literal::on(1); 4]), None);
/// ```
#[derive(Clone, Copy, Debug, PartialEq, Eq, Hash)]
pub struct Wish {
    /// The literals stand first.
    literals: [Option<Literal>; LITERALS_MAX],
    /// 1 to [`WEIGHT_MAX`](crate::WEIGHT_MAX); another is not written
    /// ([`Cause::BadWeight`](crate::Cause::BadWeight)).
    pub weight: u32,
}

/// What a sheet says: [`read`](crate::read) gives it, and [`write`](crate::write) takes it.
///
/// ```
/// use comzsered::{Gate, Literal, Tables, Wish};
///
/// // The switch or the fault must be true, and the switch is wished to be off.
/// let mut tables = Tables { switches: 1, faults: 1, ..Tables::default() };
/// let either = tables.add(Gate::Or(tables.switch(1), tables.fault(1)));
/// tables.rules.push(either);
/// tables.wishes.push(Wish::from([Literal::off(1)]).weighing(20));
///
/// let sheet = b"\
/// H    1    1    0    0\n\
/// O    1    2    0    0\n\
/// R    3    0    0    0\n\
/// W   -1    0    0   20\n\
/// Z    4    0    0    0\n";
/// assert_eq!(comzsered::write(&tables).unwrap(), sheet);
/// ```
#[derive(Clone, Debug, Default, PartialEq, Eq)]
pub struct Tables {
    pub switches: u32,
    pub faults: u32,
    pub gates: Vec<Gate>,
    /// The points that must be true.
    pub rules: Vec<Point>,
    pub wishes: Vec<Wish>,
}

/// The word of no literal at all: -0. It is refused wherever it stands.
const NO_LITERAL: u32 = 1;

impl Gate {
    /// The letter of its line, and its points; the opposite has no second one.
    fn words(self) -> [u32; 3] {
        match self {
            Gate::Not(p) => [b'N'.into(), p.0, 0],
            Gate::And(p, q) => [b'A'.into(), p.0, q.0],
            Gate::Or(p, q) => [b'O'.into(), p.0, q.0],
        }
    }

    /// The gate that the library read.
    fn of([letter, first, second]: [u32; 3]) -> Gate {
        let (p, q) = (Point(first), Point(second));
        match u8::try_from(letter) {
            Ok(b'N') => Gate::Not(p),
            Ok(b'A') => Gate::And(p, q),
            Ok(b'O') => Gate::Or(p, q),
            _ => unreachable!("the library reads gates of three letters"),
        }
    }
}

impl Literal {
    pub const fn on(switch: u32) -> Literal {
        Literal { switch, on: true }
    }

    pub const fn off(switch: u32) -> Literal {
        Literal { switch, on: false }
    }

    /// 2k for switch k on, 2k + 1 for switch k off. What has no such word is no switch of any sheet,
    /// and is given one that is refused like it.
    fn word(self) -> u32 {
        let twice = self.switch.checked_mul(2).filter(|&twice| twice > 0);
        twice.map_or(NO_LITERAL, |twice| twice + u32::from(!self.on))
    }

    /// None for 0.
    fn of(word: u32) -> Option<Literal> {
        let literal = Literal {
            switch: word / 2,
            on: word & 1 == 0,
        };
        (word != 0).then_some(literal)
    }
}

impl Wish {
    /// None if there are more than three literals.
    pub fn new(literals: &[Literal]) -> Option<Wish> {
        let mut wish = Wish::default();
        let room = wish.literals.get_mut(..literals.len())?;
        for (place, &literal) in room.iter_mut().zip(literals) {
            *place = Some(literal);
        }
        Some(wish)
    }

    /// The same wish with this weight.
    pub const fn weighing(self, weight: u32) -> Wish {
        Wish { weight, ..self }
    }

    pub fn literals(&self) -> impl Iterator<Item = Literal> + '_ {
        self.literals.iter().copied().flatten()
    }

    fn words(&self) -> [u32; LITERALS_MAX + 1] {
        let [first, second, third] = self
            .literals
            .map(|literal| literal.map_or(0, Literal::word));
        [first, second, third, self.weight]
    }

    /// The wish that the library read.
    fn of([first, second, third, weight]: [u32; LITERALS_MAX + 1]) -> Wish {
        Wish {
            literals: [first, second, third].map(Literal::of),
            weight,
        }
    }
}

/// No literal, and the weight 1.
impl Default for Wish {
    fn default() -> Wish {
        Wish {
            literals: [None; LITERALS_MAX],
            weight: 1,
        }
    }
}

/// More than three literals do not compile.
impl<const N: usize> From<[Literal; N]> for Wish {
    fn from(literals: [Literal; N]) -> Wish {
        const { assert!(N <= LITERALS_MAX, "a wish has at most three literals") };
        Wish::new(&literals).expect("at most three literals")
    }
}

impl Tables {
    /// The point of switch k, counted from 1.
    pub fn switch(&self, k: u32) -> Point {
        Point(k)
    }

    /// The point of fault k, counted from 1.
    pub fn fault(&self, k: u32) -> Point {
        Point(self.switches.saturating_add(k))
    }

    /// The point of gate k, counted from 1.
    pub fn gate(&self, k: u32) -> Point {
        self.fault(self.faults.saturating_add(k))
    }

    /// Adds a gate and returns its point.
    pub fn add(&mut self, gate: Gate) -> Point {
        self.gates.push(gate);
        self.gate(count(&self.gates))
    }

    /// The words of these tables. What there is no room for is counted and left out: the library
    /// refuses it by the count alone, after it has tested what there is room for.
    pub(crate) fn words(&self) -> Words {
        let mut words = Words {
            switches: self.switches,
            faults: self.faults,
            gates: count(&self.gates),
            rules: count(&self.rules),
            wishes: count(&self.wishes),
            ..Words::EMPTY
        };
        for (to, gate) in words.gate.iter_mut().zip(&self.gates) {
            *to = gate.words();
        }
        for (to, rule) in words.rule.iter_mut().zip(&self.rules) {
            *to = rule.0;
        }
        for (to, wish) in words.wish.iter_mut().zip(&self.wishes) {
            *to = wish.words();
        }
        words
    }

    /// The tables that the library read.
    pub(crate) fn of(words: &Words) -> Tables {
        let gates = &words.gate[..words.gates as usize];
        let rules = &words.rule[..words.rules as usize];
        let wishes = &words.wish[..words.wishes as usize];
        Tables {
            switches: words.switches,
            faults: words.faults,
            gates: gates.iter().copied().map(Gate::of).collect(),
            rules: rules.iter().copied().map(Point).collect(),
            wishes: wishes.iter().copied().map(Wish::of).collect(),
        }
    }
}

/// How many there are, as the words have it.
fn count<T>(entries: &[T]) -> u32 {
    u32::try_from(entries.len()).unwrap_or(u32::MAX)
}

#[cfg(test)]
mod tests {
    use super::*;
    use crate::tests::{refused, sheet, SAMPLE, TEXT};
    use crate::{read, write, Cause, Refusal, Sheet, Text, WEIGHT_MAX};

    /// What [`SAMPLE`] says.
    fn sample() -> Tables {
        let or = |p, q| Gate::Or(Point(p), Point(q));
        Tables {
            switches: 2,
            faults: 2,
            gates: vec![or(1, 2), or(3, 4), or(5, 6)],
            rules: vec![Point(7)],
            wishes: vec![[Literal::off(1)].into(), [Literal::off(2)].into()],
        }
    }

    /// The sample after a change.
    fn changed(change: impl FnOnce(&mut Tables)) -> Tables {
        let mut tables = sample();
        change(&mut tables);
        tables
    }

    #[test]
    fn read_and_written() {
        assert_eq!(read(Sheet(&sheet(SAMPLE))), Ok(sample()));
        assert_eq!(read(TEXT), Ok(sample()));
        assert_eq!(write(&sample()), Ok(sheet(SAMPLE)));
        let all = "H 3 1; N 4; A 1 5; O 6 2; R 7; R 1; \
                   W 1 -2 3 999; W -3 3 0 2; W 1 0 0 1; W 0 0 0 1; Z 10";
        let tables = read(Sheet(&sheet(all))).unwrap();
        assert_eq!(tables.gates[0], Gate::Not(tables.fault(1)));
        assert_eq!(tables.gates[1], Gate::And(tables.switch(1), tables.gate(1)));
        let literals: Vec<Literal> = tables.wishes[0].literals().collect();
        assert_eq!(literals, [Literal::on(1), Literal::off(2), Literal::on(3)]);
        let weights: Vec<u32> = tables.wishes.iter().map(|wish| wish.weight).collect();
        assert_eq!(weights, [WEIGHT_MAX, 2, 1, 1]);
        assert_eq!(tables.wishes[3], Wish::default());
        assert_eq!(write(&tables), Ok(sheet(all)));
    }

    #[test]
    fn nothing_at_all() {
        assert_eq!(write(&Tables::default()), Ok(sheet("H; Z 1")));
        assert_eq!(read(Sheet(&sheet("H; Z 1"))), Ok(Tables::default()));
    }

    #[test]
    fn not_read() {
        assert_eq!(read(Sheet(b"")), Err(refused(Cause::BadLength, 0)));
        assert_eq!(
            read(Sheet(&sheet("H; Z 2"))),
            Err(refused(Cause::BadCount, 2))
        );
        assert_eq!(
            read(Text(b"switches 9\nfault")),
            Err(refused(Cause::IllegalText, 17))
        );
        assert_eq!(
            read(Sheet(&sheet("H 1; W 1; Z 2"))),
            Err(refused(Cause::BadWeight, 2))
        );
        let malformed = Sheet(b"H    0    0    0    0\nZ    1    0    0   0 \n");
        let refusal = Refusal {
            cause: Cause::Malformed,
            place: 2,
            column: 20,
        };
        assert_eq!(read(malformed), Err(refusal));
    }

    #[test]
    fn not_written() {
        let no_such = [Literal::on(3), Literal::on(0), Literal::off(0)];
        let too_large = [Literal::on(1 << 31), Literal::off(u32::MAX)];
        let mut cases = vec![
            (changed(|t| t.switches = 21), Cause::OutOfRange, 1),
            (changed(|t| t.faults = u32::MAX), Cause::OutOfRange, 1),
            (
                changed(|t| t.gates[0] = Gate::Not(Point(0))),
                Cause::BadField,
                2,
            ),
            (
                changed(|t| t.gates[1] = Gate::And(Point(1), Point(0))),
                Cause::BadField,
                3,
            ),
            (
                changed(|t| t.gates[2] = Gate::Not(t.gate(3))),
                Cause::BadField,
                4,
            ),
            (changed(|t| t.rules[0] = t.gate(4)), Cause::BadField, 5),
        ];
        for literal in no_such.into_iter().chain(too_large) {
            let wish = Wish::from([Literal::on(1), literal]);
            cases.push((changed(|t| t.wishes[1] = wish), Cause::BadField, 7));
            // The weight comes after the literals.
            let wish = wish.weighing(0);
            cases.push((changed(|t| t.wishes[1] = wish), Cause::BadField, 7));
        }
        for weight in [0, WEIGHT_MAX + 1, u32::MAX] {
            let wish = Wish::from([Literal::on(1)]).weighing(weight);
            cases.push((changed(|t| t.wishes[1] = wish), Cause::BadWeight, 7));
        }
        for (tables, cause, place) in cases {
            assert_eq!(write(&tables), Err(refused(cause, place)), "{tables:?}");
        }
    }

    /// What there is no room for is refused at its line, and what is wrong before it is told first.
    #[test]
    fn beyond_the_room() {
        let or = sample().gates[0];
        let gates = |t: &mut Tables| t.gates.resize(405, or);
        assert_eq!(write(&changed(gates)), Err(refused(Cause::OverLimit, 402)));
        let wrong = changed(|t| {
            gates(t);
            t.gates[2] = Gate::Not(Point(0));
        });
        assert_eq!(write(&wrong), Err(refused(Cause::BadField, 4)));
        let rules = changed(|t| t.rules.resize(65, Point(7)));
        assert_eq!(write(&rules), Err(refused(Cause::OverLimit, 69)));
        let wishes = changed(|t| t.wishes.resize(65, Wish::default()));
        assert_eq!(write(&wishes), Err(refused(Cause::OverLimit, 70)));
        let full = changed(|t| {
            t.gates.resize(400, or);
            t.rules.resize(64, Point(1));
            t.wishes.resize(64, Wish::default().weighing(WEIGHT_MAX));
        });
        assert_eq!(read(Sheet(&write(&full).unwrap())), Ok(full));
    }

    #[test]
    fn points() {
        let mut tables = sample();
        assert_eq!([tables.switch(2), tables.fault(1)], [Point(2), Point(3)]);
        assert_eq!(tables.gate(3), Point(7));
        assert_eq!(tables.add(Gate::Not(Point(7))), Point(8));
        assert_eq!(tables.gates.len(), 4);
        // Sums that have no room name no point, and do not fail.
        tables.switches = u32::MAX;
        assert_eq!(tables.gate(1), Point(u32::MAX));
    }

    #[test]
    fn literals() {
        let words = |literals: [Literal; 2]| literals.map(Literal::word);
        assert_eq!(words([Literal::on(1), Literal::off(1)]), [2, 3]);
        assert_eq!(words([Literal::on(0), Literal::off(0)]), [NO_LITERAL; 2]);
        let last = u32::MAX / 2;
        assert_eq!(
            words([Literal::on(last), Literal::off(last)]),
            [u32::MAX - 1, u32::MAX]
        );
        assert_eq!(Literal::on(last + 1).word(), NO_LITERAL);
        for word in [2, 3, u32::MAX] {
            assert_eq!(Literal::of(word).map(Literal::word), Some(word));
        }
        assert_eq!(Literal::of(0), None);
    }

    #[test]
    fn wishes() {
        let all = [
            Literal::on(1),
            Literal::off(1),
            Literal::on(2),
            Literal::on(3),
        ];
        for n in 0..=LITERALS_MAX {
            let wish = Wish::new(&all[..n]).unwrap();
            assert_eq!(wish.literals().collect::<Vec<_>>(), all[..n]);
            assert_eq!(wish.weight, 1);
            let heavy = wish.weighing(u32::MAX);
            assert_eq!(heavy.literals().collect::<Vec<_>>(), all[..n]);
            assert_eq!(Wish::of(heavy.words()), heavy);
        }
        assert_eq!(Wish::new(&all), None);
    }
}
