//! Before anything is timed: the sides agree on generated sheets, texts and tables, also on damaged
//! ones.

use comzsered::figures::{self, Words, Written};
use comzsered::Input;
use planner_tests::form::Form;
use planner_tests::generate::Random;
use planner_tests::planning::{class, Class};
use planner_tests::writing::check::Trial;
use planner_tests::writing::generate::made_tables;

use crate::worker::{ours, plain};
use crate::{baseline, writing};

/// The words lent for the list; some sheets need more, so that number 9 comes too.
const ROOM: usize = 20;

/// How many sheets or texts were tried.
pub fn agree(form: Form, count: u64) -> Result<u64, String> {
    let mut tried = 0;
    for index in (0..count).filter(|&index| class(index) == Class::Small) {
        let bytes = form.made(1, index).bytes;
        let input = match form {
            Form::Sheet => Input::Sheet(&bytes),
            Form::Text => Input::Text(&bytes),
        };
        let mut list = [u32::MAX; ROOM];
        let mut plain_list = list;
        let mut masks_list = list;
        let found = figures::answer(input, &mut list);
        let same = found == baseline::answer(input, &mut plain_list, false)
            && found == baseline::answer(input, &mut masks_list, true)
            && list == plain_list
            && list == masks_list;
        // One pattern more than was listed, which may be too large.
        let given: Vec<u32> = list[..found.length.min(ROOM)]
            .iter()
            .copied()
            .chain([index as u32 % 40])
            .collect();
        let short = figures::short_run(input, &given);
        let same = same
            && short == baseline::short_run(input, &given, false)
            && short == baseline::short_run(input, &given, true);
        let mut words = Words::EMPTY;
        let read = figures::read(input, &mut words);
        let same = same && ours(read, &words) == plain(baseline::read(input));
        let rated = |plan| figures::rating(input, plan) == baseline::rating(input, plan);
        if !same || !(0..20).chain([found.plan, u32::MAX]).all(rated) {
            return Err(format!(
                "WRONG RESULT: index {index} of seed 1 of the {} of the tests' generator",
                form.name()
            ));
        }
        tried += 1;
    }
    Ok(tried)
}

/// Both sides' writing is held to the second writer of the tests. How many tables were tried.
pub fn agree_on_tables(count: u64) -> Result<u64, String> {
    for index in 0..count {
        let tables = made_tables(1, index).tables;
        let trial = Trial::new(&mut Random::new(2, index), &tables);
        let words = Words::from(&tables);
        let sides: [fn(&Words, &mut [u8]) -> Written; 2] = [figures::write, writing::write];
        for write in sides {
            if let Some(what) = trial.differs(&mut |out| write(&words, out).into()) {
                return Err(format!(
                    "WRONG RESULT: index {index} of seed 1 of the tables of the tests' generator: {what}"
                ));
            }
        }
    }
    Ok(count)
}
