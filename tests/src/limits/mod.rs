//! Sheets and texts at the limits: 20 switches, 16 faults, 400 gates, 64 rules, 64 wishes, lists of thousands of
//! words. The brute force takes too long for them, so each brings a method of its own, which knows how it was
//! made. A sheet follows from its seed and its index alone.

pub mod ordered;
pub mod parts;

use crate::brute::{Planner, PROGRAM_ROOM};
use crate::counts::LONG_LISTS;
use crate::form::Form;
use crate::generate::Random;
use crate::oracle::{Sheet, MAX_FAULTS, MAX_GATES, MAX_RULES, MAX_SWITCHES, MAX_WISHES};
use crate::planning::Relation;
use crate::shrink::Shrink;
use crate::tables::Tables;
use crate::typed::generate::written_out;
use crate::writing;
use ordered::Ordered;
use parts::Parts;

/// A sheet or text at the limits, before it is written.
#[derive(Clone)]
pub struct Limit {
    form: Form,
    seed: u64,
    index: u64,
    made: Made,
}

#[derive(Clone)]
enum Made {
    Parts(Parts),
    Ordered(Ordered),
}

/// Which limits are met. With 20 switches the library takes long, and with many wishes longest, so most have few
/// of the one or of the other.
#[derive(Clone, Copy, Debug, PartialEq, Eq)]
pub enum Kind {
    All,
    FewWishes,
    FewFaults,
    FewSwitches,
    Ordered,
}

/// The kinds of so many sheets, which come in turn.
const KINDS: [Kind; 16] = {
    use Kind::*;
    [
        All,
        FewSwitches,
        FewWishes,
        FewSwitches,
        FewFaults,
        FewSwitches,
        Ordered,
        FewSwitches,
        FewWishes,
        FewSwitches,
        FewWishes,
        FewSwitches,
        FewFaults,
        FewSwitches,
        Ordered,
        FewSwitches,
    ]
};

impl Kind {
    pub fn of(index: u64) -> Kind {
        KINDS[(index % KINDS.len() as u64) as usize]
    }

    fn made(self, r: &mut Random, form: Form) -> Made {
        let (switches, faults) = (MAX_SWITCHES as u32, MAX_FAULTS as u32);
        let most = |wishes| [MAX_GATES, MAX_RULES, wishes];
        let fill = self == Kind::All || r.one_in(2);
        let of_parts = |r: &mut Random, switches, faults, most| {
            let mut parts = Parts::drawn(r, switches, faults, form, most);
            if fill {
                parts.fill(r, form, most);
            }
            if fill && r.one_in(2) {
                parts.weigh_most();
            }
            Made::Parts(parts)
        };
        match self {
            Kind::All => of_parts(r, switches, faults, most(MAX_WISHES)),
            Kind::FewWishes => of_parts(r, switches, faults, most(FEW_WISHES)),
            Kind::FewFaults => {
                let few = r.below(7) as u32;
                of_parts(r, switches, few, most(FEW_WISHES))
            }
            Kind::FewSwitches => {
                let few = 1 + r.below(12) as u32;
                of_parts(r, few, faults, most(MAX_WISHES))
            }
            Kind::Ordered => Made::Ordered(Ordered::at_the_limits(r)),
        }
    }
}

/// The seed of the long lists for the programs.
const LONG_SEED: u64 = 1;

/// The most wishes where they are few.
const FEW_WISHES: usize = 8;

impl Limit {
    /// The one of this seed and index.
    pub fn made(form: Form, seed: u64, index: u64) -> Limit {
        let r = &mut Random::new(seed, index);
        loop {
            let made = Kind::of(index).made(r, form);
            let limit = Limit {
                form,
                seed,
                index,
                made,
            };
            // Written out, a sheet may have too many gates or brackets.
            if form.read(&limit.bytes()).is_ok() {
                return limit;
            }
        }
    }

    /// Those whose lists are about as long as the program's room: one word shorter, just as long, and longer.
    pub fn long_lists(form: Form) -> Vec<Limit> {
        let full = PROGRAM_ROOM.ilog2();
        let plain = [full, full + 1].into_iter().flat_map(|size| {
            [Relation::AtLeast, Relation::Differ].map(|r| Ordered::plain(size, r))
        });
        let r = &mut Random::new(LONG_SEED, 0);
        let drawn = std::iter::repeat_with(|| {
            let faults = r.between(full as i32 + 1, MAX_FAULTS) as u32;
            Ordered::drawn(r, full + 1, faults, full + 1)
        });
        let limit = |(index, ordered)| Limit {
            form,
            seed: LONG_SEED,
            index,
            made: Made::Ordered(ordered),
        };
        (0..LONG_LISTS).zip(plain.chain(drawn)).map(limit).collect()
    }

    pub fn bytes(&self) -> Vec<u8> {
        let sheet = match &self.made {
            Made::Parts(parts) => parts.sheet(),
            Made::Ordered(ordered) => ordered.sheet(),
        };
        match self.form {
            Form::Sheet => writing::sheet(&Tables::of(&sheet)).expect("right tables"),
            Form::Text => written_out(&mut Random::new(!self.seed, self.index), &sheet),
        }
    }

    /// A planner for the sheet that was read from the bytes.
    pub fn planner(&self, read: Sheet) -> Planner {
        match &self.made {
            Made::Parts(parts) => Planner::by(parts.method(), read),
            Made::Ordered(ordered) => Planner::by(ordered.method(), read),
        }
    }
}

impl Shrink for Limit {
    fn smaller(&self) -> Box<dyn Iterator<Item = Limit> + '_> {
        let made: Box<dyn Iterator<Item = Made>> = match &self.made {
            Made::Parts(parts) => Box::new(parts.smaller().map(Made::Parts)),
            Made::Ordered(ordered) => Box::new(ordered.smaller().map(Made::Ordered)),
        };
        let limits = made.map(|made| Limit { made, ..*self });
        Box::new(limits.filter(|limit| limit.form.read(&limit.bytes()).is_ok()))
    }
}

#[cfg(test)]
mod tests {
    use super::*;
    use crate::brute::MAX_COST;
    use crate::shrink::shrunk;

    /// Each limit is met by many, and all together by some; and so is the greatest cost.
    #[test]
    fn the_limits_are_reached() {
        for form in [Form::Sheet, Form::Text] {
            let mut met = [0; 6];
            let mut dearest = 0;
            for index in 0..160 {
                let bytes = Limit::made(form, 1, index).bytes();
                let sheet = form.read(&bytes).expect("an accepted one");
                let last_plan = (1 << sheet.switches) - 1;
                dearest += usize::from(sheet.cost(last_plan) == MAX_COST);
                let limits = [
                    sheet.switches == MAX_SWITCHES as u32,
                    sheet.faults == MAX_FAULTS as u32,
                    sheet.gates.len() == MAX_GATES,
                    sheet.rules.len() == MAX_RULES,
                    sheet.wishes.len() == MAX_WISHES,
                ];
                let all = limits.iter().all(|&is_met| is_met);
                for (count, is_met) in met.iter_mut().zip(limits.into_iter().chain([all])) {
                    *count += usize::from(is_met);
                }
            }
            println!("{form:?} {met:?}, {dearest}");
            assert!(met[..5].iter().all(|&count| count >= 40), "{met:?}");
            assert!(met[5] >= 8, "{met:?}");
            assert!(dearest >= 8, "{dearest}");
        }
    }

    #[test]
    fn same_seed_same_bytes() {
        for form in [Form::Sheet, Form::Text] {
            for index in 0..16 {
                let bytes = || Limit::made(form, 7, index).bytes();
                assert_eq!(bytes(), bytes());
            }
        }
    }

    /// Of sheets whose list is longer than one word hardly anything is left.
    #[test]
    fn they_are_shrunk() {
        for (form, index) in [(Form::Sheet, 0), (Form::Text, 0), (Form::Sheet, 6)] {
            let two_listed = |limit: &Limit| {
                let read = form.read(&limit.bytes()).expect("an accepted one");
                limit.planner(read).run(1).list.len() > 1
            };
            let mut made = (0..).map(|seed| Limit::made(form, seed, index));
            let limit = made.find(two_listed).expect("one of many");
            let small = shrunk(limit, two_listed);
            let read = form.read(&small.bytes()).expect("an accepted one");
            assert!(two_listed(&small));
            let lines = read.gates.len() + read.rules.len() + read.wishes.len();
            let inputs = read.switches + read.faults;
            assert!(lines <= 8 && inputs <= 6, "{lines} lines: {read:?}");
        }
    }
}
