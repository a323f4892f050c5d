//! What a legal formula says: its operators with their operands, in the order in which they are
//! complete.
//!
//! A formula is split at the signs that bind loosest and stand in no bracket. The last of them
//! joins all that stands before it to the rest, as operators group from the left.

/// A switch, a fault, or what an operator gives, by its place among the operators.
#[derive(Clone, Copy, Debug, PartialEq, Eq)]
pub enum Operand {
    Switch(u32),
    Fault(u32),
    Operator(usize),
}

/// An operator: its sign, where that stands, and where its last operand ends. A not has no right
/// operand.
#[derive(Clone, Copy, Debug, PartialEq, Eq)]
pub struct Operator {
    pub sign: u8,
    at: usize,
    end: usize,
    pub left: Operand,
    pub right: Option<Operand>,
}

/// The operators in the order of the gates, and what the whole formula is.
#[derive(Clone, Debug, PartialEq, Eq)]
pub struct Formula {
    pub operators: Vec<Operator>,
    pub whole: Operand,
}

/// How a formula is read, so that wrong ways can be tried too.
#[derive(Clone, Copy)]
pub struct Manner {
    /// The signs of two operands, the one that binds looser first.
    pub loosest_first: [u8; 2],
    pub from_the_right: bool,
    /// Operators with a smaller one come first among the gates.
    pub order: fn(&Operator) -> (usize, usize),
}

/// The manner of legal texts.
pub const LEFT: Manner = Manner {
    loosest_first: *b"|&",
    from_the_right: false,
    order: Operator::complete,
};

impl Operator {
    /// When the operator is complete: at the end of its last operand. Of those that end together
    /// one stands inside the other, and the inner one's sign is the later one.
    fn complete(&self) -> (usize, usize) {
        (self.end, usize::MAX - self.at)
    }

    /// Where its sign stands.
    #[cfg(test)]
    pub fn sign_at(&self) -> (usize, usize) {
        (self.at, 0)
    }
}

/// Reads a legal formula.
pub fn read(text: &[u8], manner: Manner) -> Formula {
    // Spaces mean nothing here.
    let signs: Vec<u8> = text.iter().copied().filter(|&b| b != b' ').collect();
    let mut reader = Reader {
        signs: &signs,
        manner,
        operators: Vec::new(),
    };
    let whole = reader.part(0, signs.len());
    in_order(reader.operators, whole, manner)
}

struct Reader<'a> {
    signs: &'a [u8],
    manner: Manner,
    /// In any order, each after its operands' operators.
    operators: Vec<Operator>,
}

impl Reader<'_> {
    /// What the signs from one place up to another say.
    fn part(&mut self, from: usize, to: usize) -> Operand {
        for sign in self.manner.loosest_first {
            let at = self.outside_brackets(sign, from, to);
            if !at.is_empty() {
                return self.joined(&at, from, to);
            }
        }
        match self.signs[from] {
            b'!' => {
                let left = self.part(from + 1, to);
                self.operator(from, to, left, None)
            }
            b'(' => self.part(from + 1, to - 1),
            letter => {
                let digits = std::str::from_utf8(&self.signs[from + 1..to]).expect("digits");
                let number = digits.parse().expect("a number");
                match letter {
                    b's' => Operand::Switch(number),
                    _ => Operand::Fault(number),
                }
            }
        }
    }

    /// Where this sign stands outside of all brackets.
    fn outside_brackets(&self, sign: u8, from: usize, to: usize) -> Vec<usize> {
        let mut open = 0;
        let mut places = Vec::new();
        for at in from..to {
            match self.signs[at] {
                b'(' => open += 1,
                b')' => open -= 1,
                byte if byte == sign && open == 0 => places.push(at),
                _ => {}
            }
        }
        places
    }

    /// The parts between these signs, joined from the left.
    fn joined(&mut self, at: &[usize], from: usize, to: usize) -> Operand {
        if self.manner.from_the_right {
            let left = self.part(from, at[0]);
            let right = match &at[1..] {
                [] => self.part(at[0] + 1, to),
                later => self.joined(later, at[0] + 1, to),
            };
            return self.operator(at[0], to, left, Some(right));
        }
        let ends = at[1..].iter().copied().chain([to]);
        let mut so_far = self.part(from, at[0]);
        for (&sign, end) in at.iter().zip(ends) {
            let right = self.part(sign + 1, end);
            so_far = self.operator(sign, end, so_far, Some(right));
        }
        so_far
    }

    fn operator(
        &mut self,
        at: usize,
        end: usize,
        left: Operand,
        right: Option<Operand>,
    ) -> Operand {
        self.operators.push(Operator {
            sign: self.signs[at],
            at,
            end,
            left,
            right,
        });
        Operand::Operator(self.operators.len() - 1)
    }
}

/// The operators put in order, with what they name.
fn in_order(operators: Vec<Operator>, whole: Operand, manner: Manner) -> Formula {
    let mut sorted: Vec<usize> = (0..operators.len()).collect();
    sorted.sort_by_key(|&k| (manner.order)(&operators[k]));
    let mut place = vec![0; operators.len()];
    for (to, &from) in sorted.iter().enumerate() {
        place[from] = to;
    }
    let moved = |operand| match operand {
        Operand::Operator(k) => Operand::Operator(place[k]),
        leaf => leaf,
    };
    let moved_operator = |&k: &usize| Operator {
        left: moved(operators[k].left),
        right: operators[k].right.map(moved),
        ..operators[k]
    };
    Formula {
        operators: sorted.iter().map(moved_operator).collect(),
        whole: moved(whole),
    }
}
