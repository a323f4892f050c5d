//! All jobs on one sheet or text: what the library returns and writes is held to the brute force, and what
//! is claimed of Answer and Short run together is tried on what the library returned.

use comzsered::figures::{self, Words};
use comzsered::{Input, LISTING_MAX};
use planner_tests::brute::{self, refused_listing, End, Found, Planner, Rated, Run};
use planner_tests::effort::Effort;
use planner_tests::form::Form;
use planner_tests::generate::Random;
use planner_tests::oracle::Refusal;
use planner_tests::planning::shuffle;
use planner_tests::tables::Tables;
use planner_tests::writing;

use crate::tally::{Calls, Room};

/// Words before and after a lent list, and bytes after a lent text, that must stay as they are.
const GUARD: usize = 8;

/// One sheet or text, and what came of its calls.
pub struct Check<'a> {
    form: Form,
    bytes: &'a [u8],
    seed: u64,
    index: u64,
    r: Random,
    pub calls: Calls,
    pub troubles: Vec<String>,
}

/// What random choices are made for. Each has numbers of its own, so that it chooses alike on a smaller sheet.
#[derive(Clone, Copy)]
enum Choice {
    Buffers,
    Rooms,
    Lists,
    Plans,
}

/// The figures in the brute force's own type.
fn found(f: figures::Found) -> Found {
    Found {
        number: f.number,
        place: f.place,
        column: f.column,
        plan: f.plan,
        cost: f.cost,
        length: f.length,
    }
}

fn rated(f: figures::Rated) -> Rated {
    Rated {
        number: f.number,
        place: f.place,
        column: f.column,
        cost: f.cost,
        sound: f.sound,
        pattern: f.pattern,
        length: f.length,
    }
}

impl<'a> Check<'a> {
    /// The random choices follow from the seed and the index, so that each check can be made again.
    pub fn new(form: Form, bytes: &'a [u8], seed: u64, index: u64) -> Check<'a> {
        Check {
            form,
            bytes,
            seed,
            index,
            r: random(seed, index, Choice::Buffers),
            calls: Calls::default(),
            troubles: Vec::new(),
        }
    }

    fn choose(&mut self, what: Choice) {
        self.r = random(self.seed, self.index, what);
    }

    fn input(&self) -> Input<'a> {
        match self.form {
            Form::Sheet => Input::Sheet(self.bytes),
            Form::Text => Input::Text(self.bytes),
        }
    }

    fn trouble(&mut self, what: String) {
        self.troubles.push(what);
    }

    fn hold<T: PartialEq + std::fmt::Debug>(&mut self, what: &str, got: T, expected: T) {
        if got != expected {
            self.trouble(format!(
                "{what}:\n  expected:    {expected:?}\n  library:     {got:?}"
            ));
        }
    }

    fn claim(&mut self, holds: bool, what: impl FnOnce() -> String) {
        if !holds {
            self.trouble(format!("not so: {}", what()));
        }
    }

    // ---- single calls

    /// What a lent buffer may hold at first: any words, or such as could be patterns.
    fn noise(&mut self, length: usize) -> Vec<u32> {
        let shift = self.r.pick(&[0, 28, 31]);
        (0..length).map(|_| self.r.word() >> shift).collect()
    }

    /// Answer with room for so many words. Returns the figures and the words listed.
    pub fn answer(&mut self, room: usize, expected: Found, list: &[u32]) -> (Found, Vec<u32>) {
        let mut words = self.noise(room + 2 * GUARD);
        let mut after = words.clone();
        after[GUARD..GUARD + expected.length].copy_from_slice(&list[..expected.length]);
        let got = found(figures::answer(
            self.input(),
            &mut words[GUARD..GUARD + room],
        ));
        self.calls.answered(&got);
        self.hold(&format!("answer, room {room}"), got, expected);
        if words != after {
            let at = first_difference(&words, &after);
            self.trouble(format!(
                "answer, room {room}: word {} of the list, counted from 0, is {} and not {}",
                at as i64 - GUARD as i64,
                words[at],
                after[at]
            ));
        }
        let listed = words[GUARD..GUARD + got.length.min(room)].to_vec();
        (got, listed)
    }

    pub fn short_run(&mut self, patterns: &[u32], expected: Found) -> Found {
        let lent = patterns.to_vec();
        let got = found(figures::short_run(self.input(), &lent));
        self.calls.ran_short(&got);
        let what = format!("short run over {}", shown(patterns));
        self.hold(&what, got, expected);
        let written = std::hint::black_box(&lent[..]) != patterns;
        self.claim(!written, || format!("{what} writes no pattern"));
        got
    }

    pub fn rating(&mut self, plan: u32, expected: Rated) -> Rated {
        let got = rated(figures::rating(self.input(), plan));
        self.calls.rated(&got);
        self.hold(&format!("rating of plan {plan}"), got, expected);
        got
    }

    pub fn listing(&mut self, expected: &str) {
        let filling = self.r.word() as u8;
        let length = LISTING_MAX + self.r.pick(&[0, 0, 1, 5_000]);
        let mut out = vec![filling; length + GUARD];
        let mut after = out.clone();
        after[..expected.len()].copy_from_slice(expected.as_bytes());
        let got = figures::listing(self.input(), &mut out[..length]);
        self.calls.listings += 1;
        self.hold("length of the listing", got, expected.len());
        if out != after {
            let at = first_difference(&out, &after);
            let printed = out[..got.min(length)].escape_ascii();
            self.trouble(format!(
                "listing: byte {at}, counted from 0, is {} and not {}\n  \
                 expected:    {}\n  library:     {printed}",
                out[at],
                after[at],
                expected.escape_default()
            ));
        }
    }

    /// Listing into too little room: nothing is written.
    fn no_listing(&mut self) {
        let filling = self.r.word() as u8;
        let length = match self.r.below(4) {
            0 => LISTING_MAX - 1,
            1 => 0,
            2 => 17,
            _ => self.r.below(LISTING_MAX),
        };
        let mut out = vec![filling; length + GUARD];
        let got = figures::listing(self.input(), &mut out[..length]);
        self.calls.listings += 1;
        self.hold("length of a listing without room", got, 0);
        let untouched = out.iter().all(|&byte| byte == filling);
        self.claim(untouched, || {
            format!("a listing into {length} bytes writes nothing")
        });
    }

    // ---- a refused sheet or text

    pub fn refused(&mut self, refusal: Refusal) {
        let expected = Found::from(refusal);
        for room in [0, 1 + self.r.below(9)] {
            let (answered, _) = self.answer(room, expected, &[]);
            self.pair(answered, &[], None);
        }
        let count = 1 + self.r.below(6);
        let words = self.noise(count);
        self.short_run(&words, expected);
        for plan in [0, self.r.word()] {
            self.rating(plan, refusal.into());
        }
        self.listing(&refused_listing(refusal));
        if self.r.one_in(8) {
            self.no_listing();
        }
    }

    // ---- an accepted sheet or text

    /// Every job, as far as the effort goes.
    pub fn accepted(&mut self, planner: &Planner, mut effort: Effort) {
        self.tables(planner);
        let run = planner.run(effort.longest_list());
        self.calls.listed(&run, planner);
        if run.end != End::Left && effort.afford_answer(run.list.len()) {
            self.listing(&planner.listing(&run));
        }
        if self.r.one_in(16) {
            self.no_listing();
        }
        let listed = self.answers(planner, &run, &mut effort);
        self.beginnings(planner, &run, &listed, &mut effort);
        self.other_lists(planner, &run, &mut effort);
        self.ratings(planner, &run, &mut effort);
    }

    /// Reading into tables, and writing what was read.
    fn tables(&mut self, planner: &Planner) {
        let tables = Tables::of(&planner.sheet);
        let sheet = writing::sheet(&tables).expect("right tables");
        let mut words = Words::EMPTY;
        let read = figures::read(self.input(), &mut words);
        self.hold("number of the reading", read.number, 0);
        self.claim(Tables::from(&words) == tables, || {
            format!("it is read as the second reader reads it: {words:?}")
        });
        let mut out = vec![0; sheet.len()];
        let written = figures::write(&words, &mut out);
        self.hold("number of the writing", written.number, 0);
        self.claim(out == sheet, || {
            let text = out.escape_ascii();
            format!("what was read is written as its sheet: {text}")
        });
    }

    /// Answer with several rooms: for the whole list, for none, for less and for more. Returns the
    /// words of the longest list that the library wrote.
    fn answers(&mut self, planner: &Planner, run: &Run, effort: &mut Effort) -> Vec<u32> {
        self.choose(Choice::Rooms);
        let length = run.list.len();
        // Of a run that was left, one word more is known than there may be room for.
        let whole = if run.end == End::Left {
            length - 1
        } else {
            length
        };
        let longest = self.one_answer(planner, run, whole);
        effort.afford_answer(whole);
        let mut rooms = vec![0];
        if length > 0 {
            rooms.push(length - 1);
            rooms.push(self.r.below(length));
        }
        if run.end != End::Left {
            rooms.push(length + 1);
            rooms.push(length + 2 + self.r.below(40));
        }
        rooms.sort_unstable();
        rooms.dedup();
        for room in rooms {
            if room != whole && effort.afford_answer(room.min(length)) {
                self.one_answer(planner, run, room);
            }
        }
        longest
    }

    fn one_answer(&mut self, planner: &Planner, run: &Run, room: usize) -> Vec<u32> {
        self.calls.rooms[Room::of(room, run) as usize] += 1;
        let expected = planner.answer(run, room);
        let (answered, listed) = self.answer(room, expected, &run.list);
        let mut sorted = listed.clone();
        sorted.sort_unstable();
        sorted.dedup();
        self.claim(sorted.len() == listed.len(), || {
            format!("no pattern comes twice in {}", shown(&listed))
        });
        let most = planner.plans().min(planner.patterns()) as usize;
        self.claim(listed.len() <= most, || {
            format!("a list has at most {most} words, {}", shown(&listed))
        });
        self.pair(answered, &listed, run.list.get(room).copied());
        listed
    }

    /// What Answer gave, and Short run over what it listed. `next` is what the rule lists next,
    /// where the room ran out.
    fn pair(&mut self, answered: Found, listed: &[u32], next: Option<u32>) {
        let short = found(figures::short_run(self.input(), listed));
        self.calls.ran_short(&short);
        if answered.number != brute::NO_ROOM {
            // A short run has no length of its own, and all else is the same.
            let length = 0;
            let same = short == Found { length, ..answered };
            self.claim(same, || {
                format!("the pair agrees: answer {answered:?}, short run {short:?}")
            });
            return;
        }
        let rating = rated(figures::rating(self.input(), short.plan));
        self.calls.rated(&rating);
        self.claim(short.number == 0 && fails_at(rating, next), || {
            format!("after 9 the short run's plan fails at {next:?} next: {short:?}, {rating:?}")
        });
    }

    /// Short run over beginnings of the list: all of them, or as many as can be afforded. Over each
    /// shorter one it ends in a plan whose smallest pattern not passed is the next listed one.
    fn beginnings(&mut self, planner: &Planner, run: &Run, listed: &[u32], effort: &mut Effort) {
        let mut order: Vec<usize> = (0..=listed.len()).collect();
        if !effort.can_afford_beginnings(listed.len()) {
            shuffle(&mut self.r, &mut order);
        }
        for j in order {
            if !effort.afford_short_run(j) {
                continue;
            }
            let beginning = &listed[..j];
            let expected = planner.short_run(beginning);
            let short = self.short_run(beginning, expected);
            let next = run.list.get(j).copied();
            if next.is_none() {
                continue;
            }
            let rating = self.rating(short.plan, planner.rating(short.plan));
            self.claim(short.number == 0 && fails_at(rating, next), || {
                format!(
                    "the plan for the first {j} of {} fails at {next:?} next: {short:?}, {rating:?}",
                    shown(listed)
                )
            });
        }
    }

    /// Short run over lists that no Answer made.
    fn other_lists(&mut self, planner: &Planner, run: &Run, effort: &mut Effort) {
        self.choose(Choice::Lists);
        let patterns = planner.patterns();
        let mut lists = Vec::new();
        let mut shuffled = run.list.clone();
        shuffle(&mut self.r, &mut shuffled);
        lists.push(shuffled);
        // Every word of the list at least once, some more often.
        let mut repeated = run.list.clone();
        if !run.list.is_empty() {
            for _ in 0..self.r.below(6) {
                repeated.push(self.r.pick(&run.list));
            }
        }
        shuffle(&mut self.r, &mut repeated);
        lists.push(repeated);
        let any: Vec<u32> = (0..self.r.below(10))
            .map(|_| self.r.word() % patterns)
            .collect();
        lists.push(any.clone());
        // Too large ones among and after others, also where no plan passes those before.
        let too_large = [patterns, patterns + 1, u32::MAX, self.r.word() | 1 << 31];
        let mut bad = if self.r.one_in(2) {
            any
        } else {
            run.list.clone()
        };
        for _ in 0..1 + self.r.below(3) {
            let at = self.r.below(bad.len() + 1);
            bad.insert(at, self.r.pick(&too_large));
        }
        lists.push(bad);
        let mut bad_last = run.list.clone();
        bad_last.push(self.r.pick(&too_large));
        lists.push(bad_last);
        for list in lists {
            if effort.afford_short_run(list.len()) {
                self.short_run(&list, planner.short_run(&list));
            }
        }
    }

    /// Rating of every plan if they are few, of some if not, always of the last one, which breaks all wishes for
    /// switches to be off, and of such as there are not.
    fn ratings(&mut self, planner: &Planner, run: &Run, effort: &mut Effort) {
        self.choose(Choice::Plans);
        let plans = planner.plans();
        let mut rated: Vec<u32> = match plans {
            0..=32 => (0..plans).collect(),
            _ => (0..12).map(|_| self.r.word() % plans).collect(),
        };
        shuffle(&mut self.r, &mut rated);
        if let End::Plan(plan) = run.end {
            rated.insert(0, plan);
        }
        for plan in rated {
            if effort.afford_rating() {
                self.rating(plan, planner.rating(plan));
            }
        }
        let higher = self.r.word() | 1 << self.r.between(planner.sheet.switches as i32, 31);
        for plan in [plans - 1, plans, higher, u32::MAX] {
            self.rating(plan, planner.rating(plan));
        }
    }
}

fn random(seed: u64, index: u64, what: Choice) -> Random {
    // Not the numbers that the bytes were made from.
    Random::new((!seed).wrapping_sub(what as u64), index)
}

/// Where two different slices of one length begin to differ.
fn first_difference<T: PartialEq>(one: &[T], other: &[T]) -> usize {
    let same = one.iter().zip(other).take_while(|(a, b)| a == b);
    same.count()
}

/// Whether a rating says: not sound, and this is the smallest pattern not passed.
fn fails_at(rating: Rated, next: Option<u32>) -> bool {
    rating.number == 0 && rating.sound == 0 && Some(rating.pattern) == next
}

/// A list of patterns, cut short if it is long.
fn shown(patterns: &[u32]) -> String {
    match patterns.len() {
        0..=40 => format!("{patterns:?}"),
        n => format!("{:?} and {} more", &patterns[..40], n - 40),
    }
}
