//! Tables as the library takes and gives them: counts, and words for the gates, rules and wishes that
//! there is room for.

use std::fmt;

use crate::oracle::{Gate, Sheet, Wish, LITERALS, MAX_GATES, MAX_RULES, MAX_WISHES, WEIGHT};

/// Words of a wish: its literals and its weight.
pub const WISH: usize = LITERALS + 1;

/// What a sheet says, in words: right ones or any others.
#[derive(Clone, PartialEq, Eq)]
pub struct Tables {
    pub switches: u32,
    pub faults: u32,
    pub gates: u32,
    pub rules: u32,
    pub wishes: u32,
    /// A gate's letter, first point and second point.
    pub gate: [[u32; 3]; MAX_GATES],
    pub rule: [u32; MAX_RULES],
    /// A wish's literals and its weight.
    pub wish: [[u32; WISH]; MAX_WISHES],
}

impl Default for Tables {
    fn default() -> Tables {
        Tables {
            switches: 0,
            faults: 0,
            gates: 0,
            rules: 0,
            wishes: 0,
            gate: [[0; 3]; MAX_GATES],
            rule: [0; MAX_RULES],
            wish: [[0; WISH]; MAX_WISHES],
        }
    }
}

impl Tables {
    /// The tables of a sheet that was read, with zeros beyond the counts.
    pub fn of(sheet: &Sheet) -> Tables {
        let mut tables = Tables {
            switches: sheet.switches,
            faults: sheet.faults,
            gates: sheet.gates.len() as u32,
            rules: sheet.rules.len() as u32,
            wishes: sheet.wishes.len() as u32,
            ..Tables::default()
        };
        for (words, gate) in tables.gate.iter_mut().zip(&sheet.gates) {
            *words = [gate.kind.into(), gate.left, gate.right];
        }
        tables.rule[..sheet.rules.len()].copy_from_slice(&sheet.rules);
        for (words, wish) in tables.wish.iter_mut().zip(&sheet.wishes) {
            for (word, &literal) in words.iter_mut().zip(&wish.literals) {
                *word = word_of(literal);
            }
            words[WEIGHT] = wish.weight;
        }
        tables
    }

    /// What tables that are allowed say, up to their counts.
    pub fn said(&self) -> Sheet {
        let gate = |&[kind, left, right]: &[u32; 3]| Gate {
            kind: kind as u8,
            left,
            right,
        };
        let literal = |&word: &u32| match word % 2 {
            0 => (word / 2) as i32,
            _ => -((word / 2) as i32),
        };
        let wish = |words: &[u32; WISH]| {
            let used = words[..LITERALS].iter().filter(|&&word| word != 0);
            Wish {
                literals: used.map(literal).collect(),
                weight: words[WEIGHT],
            }
        };
        let [gates, rules, wishes] = self.held();
        Sheet {
            switches: self.switches,
            faults: self.faults,
            gates: self.gate[..gates].iter().map(gate).collect(),
            rules: self.rule[..rules].to_vec(),
            wishes: self.wish[..wishes].iter().map(wish).collect(),
        }
    }

    /// The counted gates, rules and wishes that there is room for.
    pub fn held(&self) -> [usize; 3] {
        let within = |count: u32, most: usize| most.min(count as usize);
        [
            within(self.gates, MAX_GATES),
            within(self.rules, MAX_RULES),
            within(self.wishes, MAX_WISHES),
        ]
    }

    /// The word at this place among all words.
    pub fn word_mut(&mut self, at: usize) -> &mut u32 {
        let counts = [
            &mut self.switches,
            &mut self.faults,
            &mut self.gates,
            &mut self.rules,
            &mut self.wishes,
        ];
        let gates = self.gate.as_flattened_mut().iter_mut();
        let wishes = self.wish.as_flattened_mut().iter_mut();
        let mut all = counts
            .into_iter()
            .chain(gates)
            .chain(&mut self.rule)
            .chain(wishes);
        all.nth(at).expect("a word of the tables")
    }

    /// All words, one after another as they lie in memory.
    pub fn words(&self) -> Vec<u32> {
        let counts = [
            self.switches,
            self.faults,
            self.gates,
            self.rules,
            self.wishes,
        ];
        [
            &counts,
            self.gate.as_flattened(),
            &self.rule,
            self.wish.as_flattened(),
        ]
        .concat()
    }
}

/// Zeros at the end of the room are left out.
impl fmt::Debug for Tables {
    fn fmt(&self, f: &mut fmt::Formatter) -> fmt::Result {
        f.debug_struct("Tables")
            .field("switches", &self.switches)
            .field("faults", &self.faults)
            .field("gates", &self.gates)
            .field("rules", &self.rules)
            .field("wishes", &self.wishes)
            .field("gate", &without_zeros(&self.gate))
            .field("rule", &without_zeros(&self.rule))
            .field("wish", &without_zeros(&self.wish))
            .finish()
    }
}

fn without_zeros<T: PartialEq + Default>(entries: &[T]) -> &[T] {
    let last = entries.iter().rposition(|entry| *entry != T::default());
    &entries[..last.map_or(0, |last| last + 1)]
}

/// The word of a literal: k is 2k, and -k is 2k + 1. So none has the word 1, which would be -0.
pub fn word_of(literal: i32) -> u32 {
    2 * literal.unsigned_abs() + u32::from(literal < 0)
}

#[cfg(test)]
mod tests {
    use super::*;
    use crate::oracle::read;
    use crate::SAMPLE;

    #[test]
    fn sample() {
        let sheet = read(SAMPLE.as_bytes()).unwrap();
        let tables = Tables::of(&sheet);
        let words = tables.words();
        assert_eq!(words.len(), 1_525);
        let o = u32::from(b'O');
        assert_eq!(words[..14], [2, 2, 3, 1, 2, o, 1, 2, o, 3, 4, o, 5, 6]);
        assert_eq!(words[1_205], 7);
        assert_eq!(words[1_269..1_277], [3, 0, 0, 1, 5, 0, 0, 1]);
        assert_eq!(words.iter().filter(|&&word| word != 0).count(), 19);
        assert_eq!(tables.said(), sheet);
        let shown = format!("{tables:?}");
        assert!(
            shown.ends_with("rule: [7], wish: [[3, 0, 0, 1], [5, 0, 0, 1]] }"),
            "{shown}"
        );
    }
}
