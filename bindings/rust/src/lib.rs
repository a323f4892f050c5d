//! Safe calls into the proved planner.
//!
//! A planning sheet tells of switches that are set once, faults that may then occur in any
//! combination, rules that must hold whatever the faults are, and wishes about the switches, each
//! with a weight. The planner finds the plan, a setting of all switches, that keeps every rule under
//! every pattern of faults and whose broken wishes weigh least together, which is its cost. The same
//! can be typed as a text. What either says can be read into tables, which a program can edit, and
//! tables can be written as a sheet. The repository's `docs/FORMAT.md` describes sheets, texts, tables
//! and every rule in full.
//!
//! | Job | Function | Gives |
//! |---|---|---|
//! | Answer | [`answer`] | the best plan that passes every pattern, and the patterns that the search needed |
//! | Short run | [`short_run`] | the best plan that passes some given patterns |
//! | Rating | [`rating`] | the cost of a plan, and whether it passes every pattern |
//! | Listing | [`listing`] | the answer in lines of text, as the programs `plan` and `typed` print it |
//! | Reading | [`read`] | what the sheet or text says, as [`Tables`] |
//! | Writing | [`write`](write()) | the sheet of some [`Tables`] |
//!
//! In this sheet one of two switches or two faults must be true, and both switches are wished to be
//! off, with the weights 2 and 3:
//!
//! ```
//! use comzsered::{answer, Answer, Plan, Sheet};
//!
//! let sheet = Sheet(b"\
//! H    2    2    0    0\n\
//! O    1    2    0    0\n\
//! O    3    4    0    0\n\
//! O    5    6    0    0\n\
//! R    7    0    0    0\n\
//! W   -1    0    0    2\n\
//! W   -2    0    0    3\n\
//! Z    7    0    0    0\n");
//!
//! let mut list = [0; 16];
//! match answer(sheet, &mut list) {
//!     Answer::Plan { plan, cost, patterns } => {
//!         // Switch 1 is on and switch 2 is off, which breaks the wish that weighs 2.
//!         assert_eq!(plan, Plan(2));
//!         assert!(plan.is_on(1, 2) && !plan.is_on(2, 2));
//!         assert_eq!(cost, 2);
//!         // Plan 0 would break none, and fails under pattern 0: no fault at all.
//!         assert_eq!(list[..patterns], [0]);
//!     }
//!     other => panic!("{other:?}"),
//! }
//! ```
//!
//! This is the same sheet as a typed text. Every function takes either:
//!
//! ```
//! use comzsered::{answer, Answer, Plan, Text};
//!
//! let text = Text(b"\
//! switches 2\n\
//! faults 2\n\
//! rule (s1|s2)|(f1|f2)\n\
//! wish !s1 weight 2\n\
//! wish !s2 weight 3\n");
//!
//! let plan = Answer::Plan { plan: Plan(2), cost: 2, patterns: 1 };
//! assert_eq!(answer(text, &mut [0; 16]), plan);
//! ```
//!
//! The time that the jobs take grows with the number of plans and patterns, so a sheet with many
//! switches and faults may take very long. Any bytes may be passed as a sheet or text: wrong ones are
//! refused.
//!
//! # How to depend on it
//!
//! ```toml
//! [dependencies]
//! comzsered = { path = "../comzsered/bindings/rust" }
//! ```
//!
//! The path leads into a copy of the repository. There `tools/build` builds the proved library,
//! `target/staticlib/libplanner.a`, and the build script of this crate has it linked. If the archive lies
//! elsewhere, name its folder:
//!
//! ```sh
//! COMZSERED_LIB_DIR=lib cargo build
//! ```
//!
//! A relative folder is taken from where you stand. To name it once for all builds of a package, write
//! this into the package's `.cargo/config.toml`; then it is taken from the package's folder:
//!
//! ```toml
//! [env]
//! COMZSERED_LIB_DIR = { value = "lib", relative = true }
//! ```

pub mod figures;
mod input;
mod refusal;
mod tables;

use figures::{Found, Rated, Words};
pub use input::{Input, Sheet, Text};
pub use refusal::{Cause, Refusal};
pub use tables::{Gate, Literal, Point, Tables, Wish};

/// The gates, rules and wishes of a sheet at most.
pub const GATES_MAX: usize = 400;
pub const RULES_MAX: usize = 64;
pub const WISHES_MAX: usize = 64;
/// The literals of a wish at most.
pub const LITERALS_MAX: usize = 3;
/// The weight of a wish at most; the least is 1.
pub const WEIGHT_MAX: u32 = 999;
/// The bytes of the longest sheet. With so many, no writing ends in [`Cause::ShortBuffer`].
pub const SHEET_MAX: usize = 11_660;
/// The bytes of the longest typed text.
pub const TEXT_MAX: usize = 16_384;
/// The words of the longest list: with so many, an answer never ends in [`Answer::NoRoom`].
pub const LIST_MAX: usize = 65_536;
/// The bytes of the longest listing.
pub const LISTING_MAX: usize = 71_094;
/// The bytes of stack that a call into the library needs at most.
pub const STACK: usize = 65_536;

/// A setting of all switches. The binary digits of its number are the switches, switch 1 being the
/// highest and 1 meaning on.
#[derive(Clone, Copy, Debug, PartialEq, Eq, PartialOrd, Ord, Hash)]
pub struct Plan(pub u32);

impl Plan {
    /// Whether the plan turns this switch on; the sheet has so many switches.
    ///
    /// # Panics
    ///
    /// If there is no such switch, or there are more than 32.
    pub fn is_on(self, switch: u32, switches: u32) -> bool {
        digit(self.0, switch, switches)
    }
}

/// A combination of faults. The binary digits of its number are the faults, fault 1 being the
/// highest and 1 meaning that it occurs.
#[derive(Clone, Copy, Debug, PartialEq, Eq, PartialOrd, Ord, Hash)]
pub struct Pattern(pub u32);

impl Pattern {
    /// Whether this fault occurs; the sheet has so many faults.
    ///
    /// # Panics
    ///
    /// If there is no such fault, or there are more than 32.
    pub fn has(self, fault: u32, faults: u32) -> bool {
        digit(self.0, fault, faults)
    }
}

fn digit(number: u32, k: u32, digits: u32) -> bool {
    assert!(1 <= k && k <= digits && digits <= 32);
    number >> (digits - k) & 1 == 1
}

/// Where the library found this cause.
fn refusal(cause: Cause, place: usize, column: usize) -> Refusal {
    Refusal {
        cause,
        place,
        column,
    }
}

/// What [`answer`] gives. `patterns` is the number of words at the list's beginning that hold the
/// patterns listed; the other words are as they were.
#[derive(Clone, Copy, Debug, PartialEq, Eq)]
pub enum Answer {
    /// The best sound plan and its cost. The list is whole.
    Plan {
        plan: Plan,
        cost: u32,
        patterns: usize,
    },
    /// No plan is sound: none even passes all the patterns listed. The list is whole.
    NoPlan { patterns: usize },
    /// The list would be longer than its room. All words hold the list's beginning, so `patterns`
    /// is their number; whether there is a plan is open.
    NoRoom { patterns: usize },
    /// The input is turned down, and the list is as it was.
    Refused(Refusal),
}

/// What [`short_run`] gives.
#[derive(Clone, Copy, Debug, PartialEq, Eq)]
pub enum ShortRun {
    /// The best plan that passes the given patterns, and its cost. It need not be sound.
    Plan { plan: Plan, cost: u32 },
    /// No plan passes the given patterns.
    NoPlan,
    /// The input is turned down, or a pattern that it does not have ([`Cause::HighPattern`]).
    Refused(Refusal),
}

/// What [`rating`] gives.
#[derive(Clone, Copy, Debug, PartialEq, Eq)]
pub enum Rating {
    /// The plan passes every pattern.
    Sound { cost: u32 },
    /// The plan does not pass every pattern. This is the smallest that it does not pass.
    NotSound { cost: u32, pattern: Pattern },
    /// The input is turned down, or a plan that it does not have ([`Cause::HighPlan`]).
    Refused(Refusal),
}

impl From<Found> for Answer {
    fn from(found: Found) -> Answer {
        let patterns = found.length;
        match Cause::of(found.number) {
            None => Answer::Plan {
                plan: Plan(found.plan),
                cost: found.cost,
                patterns,
            },
            Some(Cause::NoPlan) => Answer::NoPlan { patterns },
            Some(Cause::NoRoom) => Answer::NoRoom { patterns },
            Some(cause) => Answer::Refused(refusal(cause, found.place, found.column)),
        }
    }
}

impl From<Found> for ShortRun {
    fn from(found: Found) -> ShortRun {
        match Cause::of(found.number) {
            None => ShortRun::Plan {
                plan: Plan(found.plan),
                cost: found.cost,
            },
            Some(Cause::NoPlan) => ShortRun::NoPlan,
            Some(cause) => ShortRun::Refused(refusal(cause, found.place, found.column)),
        }
    }
}

impl From<Rated> for Rating {
    fn from(rated: Rated) -> Rating {
        let cost = rated.cost;
        match (Cause::of(rated.number), rated.sound) {
            (None, 0) => Rating::NotSound {
                cost,
                pattern: Pattern(rated.pattern),
            },
            (None, _) => Rating::Sound { cost },
            (Some(cause), _) => Rating::Refused(refusal(cause, rated.place, rated.column)),
        }
    }
}

/// The best sound plan of a sheet or text. The patterns that the search needed, in the order in which it
/// met them, are written to the beginning of `list`, which may have any length and content.
pub fn answer<'a>(input: impl Into<Input<'a>>, list: &mut [u32]) -> Answer {
    figures::answer(input, list).into()
}

/// The best plan that passes these patterns, which may be in any order and repeated.
///
/// Over the patterns that [`answer`] listed, all of them, it gives the same plan and cost, or that
/// there is none:
///
/// ```
/// use comzsered::{answer, short_run, Answer, Plan, Sheet, ShortRun};
///
/// // The one switch must be on, and is wished to be off.
/// let sheet = Sheet(b"\
/// H    1    1    0    0\n\
/// R    1    0    0    0\n\
/// W   -1    0    0    1\n\
/// Z    3    0    0    0\n");
/// let mut list = [0; 2];
/// assert_eq!(answer(sheet, &mut list), Answer::Plan { plan: Plan(1), cost: 1, patterns: 1 });
/// assert_eq!(short_run(sheet, &list[..1]), ShortRun::Plan { plan: Plan(1), cost: 1 });
/// // Over no pattern at all the cheapest plan of all is the best.
/// assert_eq!(short_run(sheet, &[]), ShortRun::Plan { plan: Plan(0), cost: 0 });
/// ```
pub fn short_run<'a>(input: impl Into<Input<'a>>, patterns: &[u32]) -> ShortRun {
    figures::short_run(input, patterns).into()
}

/// What a plan costs, and whether it is sound.
///
/// ```
/// use comzsered::{rating, Cause, Pattern, Plan, Rating, Sheet};
///
/// // The switch or the fault must be true, and the switch is wished to be off.
/// let sheet = Sheet(b"\
/// H    1    1    0    0\n\
/// O    1    2    0    0\n\
/// R    3    0    0    0\n\
/// W   -1    0    0   20\n\
/// Z    4    0    0    0\n");
/// assert_eq!(rating(sheet, Plan(0)), Rating::NotSound { cost: 0, pattern: Pattern(0) });
/// assert_eq!(rating(sheet, Plan(1)), Rating::Sound { cost: 20 });
///
/// let Rating::Refused(refusal) = rating(sheet, Plan(2)) else { panic!() };
/// assert_eq!(refusal.cause, Cause::HighPlan);
/// ```
pub fn rating<'a>(input: impl Into<Input<'a>>, plan: Plan) -> Rating {
    figures::rating(input, plan.0).into()
}

/// What the program `plan` prints for this sheet, or `typed` for this text: the answer with a list of
/// 4,096 words, in lines of 17 bytes. The first line has the number, the place and the cost; after
/// number 2 the column stands there instead of the cost.
///
/// ```
/// let sheet = comzsered::Sheet(b"\
/// H    0    1    0    0\n\
/// R    1    0    0    0\n\
/// Z    2    0    0    0\n");
/// let printed = b"A    8    0    0\nF    1    0    0\nZ    2    0    0\n";
/// assert_eq!(comzsered::listing(sheet), printed);
/// ```
pub fn listing<'a>(input: impl Into<Input<'a>>) -> Vec<u8> {
    let mut out = vec![0; LISTING_MAX];
    let length = figures::listing(input, &mut out);
    out.truncate(length);
    out
}

/// What a sheet or a text says.
///
/// ```
/// use comzsered::{read, Gate, Literal, Point, Text, Wish};
///
/// let text = Text(b"switches 2\nfaults 1\nrule s1 | !f1\nwish !s1 s2 weight 20\n");
/// let tables = read(text).unwrap();
/// assert_eq!((tables.switches, tables.faults), (2, 1));
/// assert_eq!(tables.gates, [Gate::Not(Point(3)), Gate::Or(Point(1), Point(4))]);
/// assert_eq!(tables.rules, [Point(5)]);
/// assert_eq!(tables.wishes, [Wish::from([Literal::off(1), Literal::on(2)]).weighing(20)]);
/// ```
pub fn read<'a>(input: impl Into<Input<'a>>) -> Result<Tables, Refusal> {
    let mut words = Words::EMPTY;
    let read = figures::read(input, &mut words);
    match Cause::of(read.number) {
        None => Ok(Tables::of(&words)),
        Some(cause) => Err(refusal(cause, read.place, read.column)),
    }
}

/// The sheet of these tables.
///
/// The tables are tested as a sheet's lines are, the line of an entry being that on which it would
/// stand. A sheet that was written is accepted, and reading it gives the tables again; what was read
/// from a sheet is written as that sheet.
///
/// ```
/// use comzsered::{answer, read, write, Answer, Cause, Literal, Plan, Point, Sheet, Text, Wish};
///
/// // One of two switches must be on, and both are wished to be off.
/// let text = Text(b"switches 2\nfaults 0\nrule s1|s2\nwish !s1\n");
/// let mut tables = read(text).unwrap();
/// tables.wishes.push(Wish::from([Literal::off(2)]).weighing(20));
/// let sheet = write(&tables).unwrap();
/// assert_eq!(sheet, b"\
/// H    2    0    0    0\n\
/// O    1    2    0    0\n\
/// R    3    0    0    0\n\
/// W   -1    0    0    1\n\
/// W   -2    0    0   20\n\
/// Z    5    0    0    0\n");
/// let plan = Answer::Plan { plan: Plan(2), cost: 1, patterns: 1 };
/// assert_eq!(answer(Sheet(&sheet), &mut [0; 1]), plan);
///
/// // Point 4 is not on the sheet, and the rule would stand on line 3.
/// tables.rules[0] = Point(4);
/// let refusal = write(&tables).unwrap_err();
/// assert_eq!((refusal.cause, refusal.place), (Cause::BadField, 3));
/// ```
pub fn write(tables: &Tables) -> Result<Vec<u8>, Refusal> {
    let mut out = vec![0; SHEET_MAX];
    let written = figures::write(&tables.words(), &mut out);
    out.truncate(written.length);
    match Cause::of(written.number) {
        None => Ok(out),
        Some(cause) => Err(refusal(cause, written.place, written.column)),
    }
}

#[cfg(test)]
mod tests {
    use super::*;

    /// The numbers of a line.
    const FIELDS: usize = 4;

    /// A sheet written short, as "H 1 0; Z 1": numbers left out are 0.
    pub fn sheet(short: &str) -> Vec<u8> {
        let mut bytes = Vec::new();
        for line in short.split(';') {
            let mut words = line.split_whitespace();
            bytes.extend(words.next().expect("a letter").bytes());
            for _ in 0..FIELDS {
                bytes.extend(format!("{:>5}", words.next().unwrap_or("0")).bytes());
            }
            bytes.push(b'\n');
        }
        bytes
    }

    pub const SAMPLE: &str = "H 2 2; O 1 2; O 3 4; O 5 6; R 7; W -1 0 0 1; W -2 0 0 1; Z 7";
    /// The same typed.
    pub const TEXT: Text =
        Text(b"switches 2\nfaults 2\nrule (s1|s2)|(f1|f2)\nwish !s1\nwish !s2\n");
    /// The sample with other weights.
    const WEIGHED: &str = "H 2 2; O 1 2; O 3 4; O 5 6; R 7; W -1 0 0 2; W -2 0 0 3; Z 7";
    const FOLLOWER: &str = "H 1 1; N 1; N 2; A 1 2; A 3 4; O 5 6; R 7; Z 7";

    /// Without a column, which the library tells of a malformed line only.
    pub fn refused(cause: Cause, place: usize) -> Refusal {
        refusal(cause, place, 0)
    }

    /// The second line has a minus without a digit.
    const MALFORMED: Sheet =
        Sheet(b"H    1    0    0    0\nW    1    -    0    1\nZ    2    0    0    0\n");

    #[test]
    fn answers() {
        let mut list = [77; 4];
        let plan = Answer::Plan {
            plan: Plan(1),
            cost: 1,
            patterns: 1,
        };
        assert_eq!(answer(Sheet(&sheet(SAMPLE)), &mut list), plan);
        assert_eq!(list, [0, 77, 77, 77]);

        let mut list = [77; 4];
        let plan = Answer::Plan {
            plan: Plan(2),
            cost: 2,
            patterns: 1,
        };
        assert_eq!(answer(Sheet(&sheet(WEIGHED)), &mut list), plan);
        assert_eq!(list, [0, 77, 77, 77]);

        let mut list = [77; 4];
        let none = Answer::NoPlan { patterns: 2 };
        assert_eq!(answer(Sheet(&sheet(FOLLOWER)), &mut list), none);
        assert_eq!(list, [1, 0, 77, 77]);

        let mut list = [77; 1];
        let no_room = Answer::NoRoom { patterns: 1 };
        assert_eq!(answer(Sheet(&sheet(FOLLOWER)), &mut list), no_room);
        assert_eq!(list, [1]);

        let mut list = [77; 4];
        let wrong = Answer::Refused(refused(Cause::BadLength, 0));
        assert_eq!(answer(Sheet(b""), &mut list), wrong);
        let wrong = Answer::Refused(refused(Cause::BadCount, 2));
        assert_eq!(answer(Sheet(&sheet("H; Z 2")), &mut list), wrong);
        for weight in ["0", "-1", "1000", "99999"] {
            let sheet = sheet(&format!("H 1; W 1 0 0 {weight}; Z 2"));
            let wrong = Answer::Refused(refused(Cause::BadWeight, 2));
            assert_eq!(answer(Sheet(&sheet), &mut list), wrong);
        }
        let wrong = Answer::Refused(refusal(Cause::Malformed, 2, 11));
        assert_eq!(answer(MALFORMED, &mut list), wrong);
        assert_eq!(list, [77; 4]);
    }

    /// A text is answered as the sheet that it stands for, in every job.
    #[test]
    fn texts() {
        let bytes = sheet(SAMPLE);
        let sheet = Sheet(&bytes);
        let (mut of_text, mut of_sheet) = ([77; 4], [77; 4]);
        assert_eq!(answer(TEXT, &mut of_text), answer(sheet, &mut of_sheet));
        assert_eq!(of_text, of_sheet);
        for patterns in [&[][..], &[0, 3], &[3, 4]] {
            assert_eq!(short_run(TEXT, patterns), short_run(sheet, patterns));
        }
        for plan in [0, 3, 4].map(Plan) {
            assert_eq!(rating(TEXT, plan), rating(sheet, plan));
        }
        assert_eq!(listing(TEXT), listing(sheet));
    }

    #[test]
    fn refused_texts() {
        // The last byte is the first that is wrong.
        let zero = Text(b"switches 2\nfaults 2\nrule s1|f0");
        let refusal = refused(Cause::IllegalText, 30);
        let mut list = [77; 4];
        assert_eq!(answer(zero, &mut list), Answer::Refused(refusal));
        assert_eq!(list, [77; 4]);
        assert_eq!(short_run(zero, &[9]), ShortRun::Refused(refusal));
        assert_eq!(rating(zero, Plan(9)), Rating::Refused(refusal));
        assert_eq!(listing(zero), b"A   12   30    0\nZ    1    0    0\n");
        for (text, cause, place) in [
            (&b""[..], Cause::IllegalText, 1),
            (b"switches 21\nfaults 17\n", Cause::OutOfRange, 1),
            (b"switches 20\nfaults 17\n", Cause::OutOfRange, 2),
            (
                b"switches 1\nfaults 1\nrule s1\nrule s2\n",
                Cause::BadField,
                4,
            ),
            (
                b"switches 1\nfaults 1\nwish s1\nwish s1 weight 0\n",
                Cause::BadWeight,
                4,
            ),
            (&[b'\n'; TEXT_MAX + 1], Cause::IllegalText, 0),
        ] {
            let refusal = Answer::Refused(refused(cause, place));
            assert_eq!(answer(Text(text), &mut []), refusal);
        }
        // A sheet is no text, and a text no sheet.
        let sheet = sheet(SAMPLE);
        let refusal = Answer::Refused(refused(Cause::IllegalText, 1));
        assert_eq!(answer(Text(&sheet), &mut []), refusal);
        let refusal = Answer::Refused(refused(Cause::BadLength, 0));
        assert_eq!(answer(Sheet(b"switches 1\nfaults 1\n"), &mut []), refusal);
    }

    #[test]
    fn short_runs() {
        let plan = |plan, cost| ShortRun::Plan {
            plan: Plan(plan),
            cost,
        };
        assert_eq!(short_run(Sheet(&sheet(SAMPLE)), &[]), plan(0, 0));
        assert_eq!(short_run(Sheet(&sheet(SAMPLE)), &[0, 3, 0]), plan(1, 1));
        assert_eq!(
            short_run(Sheet(&sheet(FOLLOWER)), &[0, 1]),
            ShortRun::NoPlan
        );
        assert_eq!(
            short_run(Sheet(&sheet(SAMPLE)), &[3, 4]),
            ShortRun::Refused(refused(Cause::HighPattern, 2))
        );
        assert_eq!(
            short_run(Sheet(&sheet("H")), &[9]),
            ShortRun::Refused(refused(Cause::BadOrder, 1))
        );
        assert_eq!(
            short_run(MALFORMED, &[9]),
            ShortRun::Refused(refusal(Cause::Malformed, 2, 11))
        );
    }

    #[test]
    fn ratings() {
        let sample = sheet(SAMPLE);
        assert_eq!(rating(Sheet(&sample), Plan(3)), Rating::Sound { cost: 2 });
        let pattern = Pattern(0);
        assert_eq!(
            rating(Sheet(&sample), Plan(0)),
            Rating::NotSound { cost: 0, pattern }
        );
        assert_eq!(
            rating(Sheet(&sample), Plan(4)),
            Rating::Refused(refused(Cause::HighPlan, 0))
        );
        assert_eq!(
            rating(Sheet(&sheet("H 21")), Plan(0)),
            Rating::Refused(refused(Cause::BadOrder, 1))
        );
        assert_eq!(
            rating(MALFORMED, Plan(9)),
            Rating::Refused(refusal(Cause::Malformed, 2, 11))
        );
    }

    #[test]
    fn listings() {
        let printed = "\
A    0    0    1
S    1    0    0
S    2    1    0
W    1    1    0
W    2    0    0
F    1    0    0
Z    6    0    0
";
        assert_eq!(listing(Sheet(&sheet(SAMPLE))), printed.as_bytes());
        let printed = b"A    2    2   11\nZ    1    0    0\n";
        assert_eq!(listing(MALFORMED), printed);
        let mut short = vec![77; LISTING_MAX - 1];
        assert_eq!(figures::listing(Sheet(&sheet(SAMPLE)), &mut short), 0);
        assert!(short.iter().all(|&byte| byte == 77));
    }

    /// Each number of Answer and Short run becomes one case and loses no figure of it.
    #[test]
    fn every_number_of_a_search() {
        for number in 0..=14 {
            let found = Found {
                number,
                place: 5,
                column: 9,
                plan: 6,
                cost: 7,
                length: 8,
            };
            let (plan, cost, patterns) = (Plan(6), 7, 8);
            let refusal = |cause| refusal(cause, 5, 9);
            let (answer, short_run) = match Cause::of(number) {
                None => (
                    Answer::Plan {
                        plan,
                        cost,
                        patterns,
                    },
                    ShortRun::Plan { plan, cost },
                ),
                Some(Cause::NoPlan) => (Answer::NoPlan { patterns }, ShortRun::NoPlan),
                Some(cause @ Cause::NoRoom) => (
                    Answer::NoRoom { patterns },
                    ShortRun::Refused(refusal(cause)),
                ),
                Some(cause) => (
                    Answer::Refused(refusal(cause)),
                    ShortRun::Refused(refusal(cause)),
                ),
            };
            assert_eq!(Answer::from(found), answer);
            assert_eq!(ShortRun::from(found), short_run);
        }
    }

    #[test]
    fn every_number_of_a_rating() {
        for number in 0..=14 {
            let rated = |sound| Rated {
                number,
                place: 5,
                column: 9,
                cost: 7,
                sound,
                pattern: 3,
                length: 0,
            };
            let (sound, not_sound) = match Cause::of(number) {
                None => (
                    Rating::Sound { cost: 7 },
                    Rating::NotSound {
                        cost: 7,
                        pattern: Pattern(3),
                    },
                ),
                Some(cause) => {
                    let refusal = Rating::Refused(refusal(cause, 5, 9));
                    (refusal, refusal)
                }
            };
            assert_eq!(Rating::from(rated(1)), sound);
            assert_eq!(Rating::from(rated(0)), not_sound);
        }
    }

    /// The words of [`SAMPLE`].
    fn words() -> Words {
        let mut words = Words {
            switches: 2,
            faults: 2,
            gates: 3,
            rules: 1,
            wishes: 2,
            ..Words::EMPTY
        };
        words.gate[..3].copy_from_slice(&[[79, 1, 2], [79, 3, 4], [79, 5, 6]]);
        words.rule[0] = 7;
        words.wish[..2].copy_from_slice(&[[3, 0, 0, 1], [5, 0, 0, 1]]);
        words
    }

    /// Reading fills every word, and after a refusal none.
    #[test]
    fn words_read() {
        let any = Words {
            switches: 77,
            gate: [[77; 3]; GATES_MAX],
            wish: [[77; LITERALS_MAX + 1]; WISHES_MAX],
            ..Words::EMPTY
        };
        let sheet = sheet(SAMPLE);
        for input in [Input::Sheet(&sheet), TEXT.into()] {
            let mut tables = any.clone();
            figures::read(input, &mut tables);
            assert_eq!(tables, words());
        }
        for input in [MALFORMED.into(), Input::Text(MALFORMED.0)] {
            let mut tables = any.clone();
            let read = figures::read(input, &mut tables);
            assert_ne!(read.number, 0);
            assert_eq!(tables, any);
        }
    }

    /// What stands beyond the counts is not looked at, and nothing is written beyond the sheet, or
    /// without room for it.
    #[test]
    fn words_written() {
        let mut words = words();
        words.gate[3] = [0, 77, 77];
        words.rule[1] = 99;
        words.wish[2] = [0, 1, 1, 0];
        let sheet = sheet(SAMPLE);
        let need = sheet.len();
        for room in [need, need + 4] {
            let mut out = vec![77; room];
            let written = figures::write(&words, &mut out);
            assert_eq!((written.number, written.length), (0, need));
            assert_eq!(out, [&sheet, &vec![77; room - need][..]].concat());
        }
        for room in [0, 1, need - 1] {
            let mut out = vec![77; room];
            let written = figures::write(&words, &mut out);
            assert_eq!((written.number, written.place, written.length), (13, 0, 0));
            assert_eq!(out, vec![77; room]);
        }
    }

    #[test]
    fn digits() {
        assert_eq!([1, 2, 3].map(|k| Plan(6).is_on(k, 3)), [true, true, false]);
        assert_eq!([1, 2].map(|k| Pattern(1).has(k, 2)), [false, true]);
    }
}
