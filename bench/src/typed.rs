//! The baseline's reader of typed texts: recursive descent over the bytes, with one byte of
//! look-ahead, which fills the tables as it goes.

use crate::baseline::{Refusal, Tables};

const MAX_BYTES: usize = 16_384;
const MAX_DEPTH: usize = 32;
const MAX_GATES: usize = 400;
const MAX_RULES: usize = 64;
const MAX_WISHES: usize = 64;
const MAX_WEIGHT: u32 = 999;

/// The byte at `at` is the first that is wrong.
struct Wrong;

struct Parser<'t> {
    bytes: &'t [u8],
    at: usize,
    tables: Tables,
    depth: usize,
    /// All gates, also those beyond the table's room.
    gates: usize,
    /// Whether this line names a switch or a fault that there is not, and whether its weight is not allowed.
    beyond: bool,
    bad_weight: bool,
}

/// The tables, or the refusal.
pub fn read(bytes: &[u8]) -> Result<Tables, Refusal> {
    if bytes.len() > MAX_BYTES {
        return Err((12, 0, 0));
    }
    let mut parser = Parser {
        bytes,
        at: 0,
        tables: Tables::new(bytes.len() / 8),
        depth: 0,
        gates: 0,
        beyond: false,
        bad_weight: false,
    };
    match parser.text() {
        Err(Wrong) => Err((12, parser.at + 1, 0)),
        Ok(_) if parser.tables.a > 20 => Err((4, 1, 0)),
        Ok(_) if parser.tables.f > 16 => Err((4, 2, 0)),
        Ok(Some(refusal)) => Err(refusal),
        Ok(None) => Ok(parser.tables),
    }
}

impl Parser<'_> {
    fn peek(&self) -> Option<u8> {
        self.bytes.get(self.at).copied()
    }

    fn expect(&mut self, byte: u8) -> Result<(), Wrong> {
        if self.peek() != Some(byte) {
            return Err(Wrong);
        }
        self.at += 1;
        Ok(())
    }

    fn word(&mut self, word: &[u8]) -> Result<(), Wrong> {
        if self.bytes[self.at..].starts_with(word) {
            self.at += word.len();
            return Ok(());
        }
        word.iter().try_for_each(|&byte| self.expect(byte))
    }

    /// Whether there was a space.
    fn space(&mut self) -> bool {
        let there = self.peek() == Some(b' ');
        self.at += usize::from(there);
        there
    }

    /// The whole text. Gives the refusal of its first line at fault, if it has one.
    fn text(&mut self) -> Result<Option<Refusal>, Wrong> {
        self.word(b"switches ")?;
        self.tables.a = self.count()?;
        self.word(b"faults ")?;
        self.tables.f = self.count()?;
        let mut fault = None;
        let (mut line, mut rules, mut wishes) = (2, 0, 0);
        while let Some(byte) = self.peek() {
            line += 1;
            self.beyond = false;
            self.bad_weight = false;
            let full = match byte {
                b'r' if wishes == 0 => {
                    self.rule()?;
                    rules += 1;
                    rules > MAX_RULES || self.gates > MAX_GATES
                }
                b'w' => {
                    self.wish()?;
                    wishes += 1;
                    wishes > MAX_WISHES
                }
                _ => return Err(Wrong),
            };
            if fault.is_none() {
                fault = match (full, self.beyond, self.bad_weight) {
                    (true, _, _) => Some((5, line, 0)),
                    (_, true, _) => Some((6, line, 0)),
                    (_, _, true) => Some((14, line, 0)),
                    _ => None,
                };
            }
        }
        Ok(fault)
    }

    fn count(&mut self) -> Result<u32, Wrong> {
        let count = if self.peek() == Some(b'0') {
            self.at += 1;
            0
        } else {
            self.number()?
        };
        self.expect(b'\n')?;
        Ok(count)
    }

    /// 1 to 99.
    fn number(&mut self) -> Result<u32, Wrong> {
        let Some(first @ b'1'..=b'9') = self.peek() else {
            return Err(Wrong);
        };
        self.at += 1;
        let first = u32::from(first - b'0');
        let Some(second @ b'0'..=b'9') = self.peek() else {
            return Ok(first);
        };
        self.at += 1;
        Ok(10 * first + u32::from(second - b'0'))
    }

    fn rule(&mut self) -> Result<(), Wrong> {
        self.word(b"rule ")?;
        let (point, space) = self.formula()?;
        if space {
            return Err(Wrong);
        }
        self.expect(b'\n')?;
        if self.tables.rules.len() < MAX_RULES {
            self.tables.rules.push(point);
        }
        Ok(())
    }

    /// The point of a formula, and whether a space stood after it.
    fn formula(&mut self) -> Result<(u32, bool), Wrong> {
        let mut sum = None;
        let mut product = self.operand()?;
        loop {
            let space = self.space();
            let sign = self.peek();
            if sign == Some(b'&') {
                self.at += 1;
                self.space();
                let right = self.operand()?;
                product = self.gate(b'A', product, right);
                continue;
            }
            let so_far = match sum {
                Some(sum) => self.gate(b'O', sum, product),
                None => product,
            };
            if sign != Some(b'|') {
                return Ok((so_far, space));
            }
            self.at += 1;
            self.space();
            sum = Some(so_far);
            product = self.operand()?;
        }
    }

    fn operand(&mut self) -> Result<u32, Wrong> {
        let (a, f) = (self.tables.a, self.tables.f);
        match self.peek() {
            Some(b's') => {
                self.at += 1;
                let number = self.number()?;
                self.beyond |= number > a;
                Ok(number)
            }
            Some(b'f') => {
                self.at += 1;
                let number = self.number()?;
                self.beyond |= number > f;
                Ok(a + number)
            }
            Some(sign @ (b'!' | b'(')) if self.depth < MAX_DEPTH => {
                self.at += 1;
                self.space();
                self.depth += 1;
                let point = if sign == b'!' {
                    let point = self.operand()?;
                    self.gate(b'N', point, 0)
                } else {
                    let (point, _) = self.formula()?;
                    self.expect(b')')?;
                    point
                };
                self.depth -= 1;
                Ok(point)
            }
            _ => Err(Wrong),
        }
    }

    fn gate(&mut self, kind: u8, left: u32, right: u32) -> u32 {
        if self.gates < MAX_GATES {
            self.tables.kind.push(kind);
            self.tables.left.push(left);
            self.tables.right.push(right);
        }
        self.gates += 1;
        self.tables.a + self.tables.f + self.gates as u32
    }

    fn wish(&mut self) -> Result<(), Wrong> {
        self.word(b"wish ")?;
        let mut wish = [self.literal()?, 0, 0];
        let mut weight = 1;
        let mut literals = 1;
        while self.space() {
            if literals == wish.len() || self.peek() == Some(b'w') {
                self.word(b"weight ")?;
                weight = self.weight()?;
                break;
            }
            wish[literals] = self.literal()?;
            literals += 1;
        }
        self.expect(b'\n')?;
        self.bad_weight = !(1..=MAX_WEIGHT).contains(&weight);
        if self.tables.wishes.len() < MAX_WISHES {
            self.tables.wishes.push(wish);
            self.tables.weights.push(weight);
        }
        Ok(())
    }

    /// 0 to 9999.
    fn weight(&mut self) -> Result<u32, Wrong> {
        if self.peek() == Some(b'0') {
            self.at += 1;
            return Ok(0);
        }
        let rest = &self.bytes[self.at..];
        let digits = rest.iter().take(4).take_while(|b| b.is_ascii_digit());
        let (mut weight, mut length) = (0, 0);
        for digit in digits {
            weight = 10 * weight + u32::from(digit - b'0');
            length += 1;
        }
        self.at += length;
        match length {
            0 => Err(Wrong),
            _ => Ok(weight),
        }
    }

    fn literal(&mut self) -> Result<i32, Wrong> {
        let negative = self.peek() == Some(b'!');
        self.at += usize::from(negative);
        self.expect(b's')?;
        let number = self.number()?;
        self.beyond |= number > self.tables.a;
        Ok(if negative {
            -(number as i32)
        } else {
            number as i32
        })
    }
}
