//! Sheets and texts with their outcomes worked out by hand, for the brute force and the library alike.

use planner_tests::brute::{listing_of, Found, Planner, Rated};
use planner_tests::form::Form;
use planner_tests::generate::{sheet, without_fourth_numbers};
use planner_tests::malformed;
use planner_tests::oracle::{Refusal, MAX_GATES};
use planner_tests::typed::places;
use planner_tests::SAMPLE_LISTING;

use crate::check::Check;

/// A job on a sheet or text and what it gives.
#[derive(Clone)]
enum Job {
    /// Answer with so much room: the figures and the list.
    Answer(usize, Found, Vec<u32>),
    ShortRun(Vec<u32>, Found),
    Rating(u32, Rated),
    Listing(String),
}

#[derive(Clone)]
struct Example {
    name: String,
    bytes: Vec<u8>,
    job: Job,
}

const E3: &str = "H 2 2; O 1 2; O 3 4; O 5 6; R 7; W -1; W -2; Z 7";
/// Example 1 of source document 002, with its weights.
const EXAMPLE_1: &str = "H 2 2; O 1 2; O 3 4; O 5 6; R 7; W -1 0 0 2; W -2 0 0 3; Z 7";
const E4: &str = "H 0 1; R 1; Z 2";
const E7: &str = "H 1 1; N 1; N 2; A 1 2; A 3 4; O 5 6; R 7; Z 7";

/// What the program prints for Example 1 with its weights.
const EXAMPLE_1_LISTING: &str = "\
A    0    0    2
S    1    1    0
S    2    0    0
W    1    0    0
W    2    1    0
F    1    0    0
Z    6    0    0
";

fn refused(number: u32, place: usize) -> Found {
    let column = 0;
    Found::from(Refusal {
        number,
        place,
        column,
    })
}

fn plan(plan: u32, cost: u32) -> Found {
    Found {
        plan,
        cost,
        ..Found::default()
    }
}

fn sheets() -> Vec<Example> {
    let example = |name: &str, bytes, job| Example {
        name: name.into(),
        bytes,
        job,
    };
    let answer = |name, short: &str, room, figures: Found, list: &[u32]| {
        let length = list.len();
        let figures = Found { length, ..figures };
        example(
            name,
            sheet(short),
            Job::Answer(room, figures, list.to_vec()),
        )
    };
    let short_run = |name, short: &str, patterns: &[u32], figures| {
        example(
            name,
            sheet(short),
            Job::ShortRun(patterns.to_vec(), figures),
        )
    };
    let rating =
        |name, short: &str, plan, figures| example(name, sheet(short), Job::Rating(plan, figures));
    let not_rated = Rated {
        number: 10,
        ..Rated::default()
    };
    let sound = |cost| Rated {
        cost,
        sound: 1,
        ..Rated::default()
    };
    // A position that does not fit into 16 bits.
    let mut far = vec![0; 70_000];
    far.push(4);
    let far_place = far.len();
    vec![
        example(
            "E1, no sheet",
            vec![],
            Job::Answer(3, refused(1, 0), vec![]),
        ),
        answer("E2, the smallest sheet", "H; Z 1", 3, plan(0, 0), &[]),
        answer("E3, the sample", E3, 3, plan(1, 1), &[0]),
        answer("E3, room for any list", E3, 65_536, plan(1, 1), &[0]),
        example(
            "E3, listing",
            sheet(E3),
            Job::Listing(SAMPLE_LISTING.into()),
        ),
        answer("E4, no plan", E4, 3, refused(8, 0), &[0]),
        answer("E5, no plan and no room", E4, 0, refused(9, 0), &[]),
        answer(
            "E6, a broken wish",
            "H 1 1; R 1; W -1; Z 3",
            3,
            plan(1, 1),
            &[0],
        ),
        answer(
            "E7, a switch that follows a fault",
            E7,
            3,
            refused(8, 0),
            &[1, 0],
        ),
        answer("E7, room for one word", E7, 1, refused(9, 0), &[1]),
        answer(
            "E8, a repeated wish",
            "H 1 0; R 1; W -1; W -1; Z 4",
            3,
            plan(1, 2),
            &[0],
        ),
        answer(
            "E8, a wish repeated in another order",
            "H 2 0; R 1; R 2; W -1 -2; W -2 -1; Z 5",
            3,
            plan(3, 2),
            &[0],
        ),
        answer(
            "E8, a wish repeated with a literal twice",
            "H 2 0; O 1 2; R 3; W -2; W -2 -2; W -1; Z 6",
            3,
            plan(2, 1),
            &[0],
        ),
        answer("E9, an empty wish", "H; W; Z 2", 0, plan(0, 1), &[]),
        answer("Example 1 with weights", EXAMPLE_1, 3, plan(2, 2), &[0]),
        rating("Example 1 with weights, plan 1", EXAMPLE_1, 1, sound(3)),
        rating("Example 1 with weights, plan 3", EXAMPLE_1, 3, sound(5)),
        short_run(
            "Example 1 with weights, over pattern 0",
            EXAMPLE_1,
            &[0],
            plan(2, 2),
        ),
        example(
            "Example 1 with weights, listing",
            sheet(EXAMPLE_1),
            Job::Listing(EXAMPLE_1_LISTING.into()),
        ),
        answer(
            "one wish that weighs more than two",
            "H 1 0; W 1; W 1; W -1 0 0 3; Z 4",
            0,
            plan(0, 2),
            &[],
        ),
        answer(
            "as much for as against: the smaller plan",
            "H 1 0; W 1; W 1; W -1 0 0 2; Z 4",
            0,
            plan(0, 2),
            &[],
        ),
        answer(
            "a repeated wish with other weights",
            "H 2 0; O 1 2; R 3; W -2 0 0 400; W -1 0 0 399; W -1 0 0 2; Z 6",
            3,
            plan(1, 400),
            &[0],
        ),
        answer(
            "an empty wish that weighs 999",
            "H; W 0 0 0 999; Z 2",
            0,
            plan(0, 999),
            &[],
        ),
        short_run("E10, short run over no pattern", E3, &[], plan(0, 0)),
        short_run("E10, short run over pattern 0", E3, &[0], plan(1, 1)),
        answer(
            "E11, the most switches and faults",
            "H 20 16; Z 1",
            0,
            plan(0, 0),
            &[],
        ),
        answer("E11, 21 switches", "H 21 0; Z 1", 0, refused(4, 1), &[]),
        answer("E11, 17 faults", "H 20 17; Z 1", 0, refused(4, 1), &[]),
        answer(
            "E12, a gate names itself",
            "H 1 0; O 1 2; Z 2",
            3,
            refused(6, 2),
            &[],
        ),
        answer(
            "E13, a literal after 0",
            "H 1 0; W 0 1 0; Z 2",
            3,
            refused(6, 2),
            &[],
        ),
        answer("E13, a wrong count", "H; Z 2", 3, refused(7, 2), &[]),
        answer("E13, H alone", "H", 3, refused(3, 1), &[]),
        rating("E14, plan 3", E3, 3, sound(2)),
        rating("E14, plan 4", E3, 4, not_rated),
        short_run("E14, short run over 3, 4", E3, &[3, 4], refused(11, 2)),
        short_run("a far pattern", E3, &far, refused(11, far_place)),
        // The rule asks for switch 2, and the one wish, {-1, 2}, is kept.
        answer("a full sheet", &full(), 9, plan(1, 0), &[0]),
        answer("64 broken wishes", &all_broken(), 9, plan(0xff, 64), &[0]),
        rating("64 broken wishes, rating", &all_broken(), 0xff, sound(64)),
        answer("the greatest cost", &dearest(), 9, plan(1, 63_936), &[0]),
        rating("the greatest cost, rating", &dearest(), 1, sound(63_936)),
        answer("20 switches on", &all_on(), 9, plan(0xf_ffff, 0), &[0]),
        rating("20 switches on, rating", &all_on(), 0xf_ffff, sound(0)),
        rating("20 switches, plan 2^20", &all_on(), 0x10_0000, not_rated),
        answer(
            "16 faults together",
            &all_faults(),
            9,
            plan(1, 1),
            &[0xffff],
        ),
        short_run(
            "16 faults, pattern 2^16",
            &all_faults(),
            &[0x1_0000],
            refused(11, 1),
        ),
        example(
            "no sheet, listing",
            b"\n".to_vec(),
            Job::Listing("A    1    0    0\nZ    1    0    0\n".into()),
        ),
    ]
}

/// Every job on chains of 400 gates, in which each names the one before: these need most stack. With the one
/// switch on the last gate is true, otherwise not.
fn chains() -> Vec<Example> {
    /// The gate that names the one before by this point.
    type Link = fn(usize) -> String;
    let links: [(&str, Link); 5] = [
        ("400 ands, the one before first", |before| {
            format!("A {before} 1; ")
        }),
        ("400 ands, the one before second", |before| {
            format!("A 1 {before}; ")
        }),
        ("400 ors, the one before first", |before| {
            format!("O {before} 1; ")
        }),
        ("400 ors, the one before second", |before| {
            format!("O 2 {before}; ")
        }),
        ("400 nots", |before| format!("N {before}; ")),
    ];
    let links = links.into_iter();
    let examples = links.flat_map(|(name, link)| {
        // Point 2 is the fault, so that an or with it goes on to the one before when it is not there.
        let befores = std::iter::once(1).chain(3..MAX_GATES + 2);
        let gates: String = befores.map(link).collect();
        let short = format!(
            "H 1 1; {gates}R {}; W -1; Z {}",
            MAX_GATES + 2,
            MAX_GATES + 3
        );
        on_exactly_with_the_switch(name, sheet(&short))
    });
    examples.collect()
}

/// The same as a text, whose formulas join from the left.
fn typed_chains() -> Vec<Example> {
    let joined = |sign: &str| {
        let rule = format!("s1{}", format!("{sign}s1").repeat(MAX_GATES));
        format!("switches 1\nfaults 1\nrule {rule}\nwish !s1\n").into_bytes()
    };
    [("400 ands, typed", "&"), ("400 ors, typed", "|")]
        .into_iter()
        .flat_map(|(name, sign)| on_exactly_with_the_switch(name, joined(sign)))
        .collect()
}

/// Every job on a sheet or text with one switch, one fault and one wish, for the switch to be off, which it must
/// not be.
fn on_exactly_with_the_switch(name: &str, bytes: Vec<u8>) -> [Example; 5] {
    let listed = Found {
        length: 1,
        ..plan(1, 1)
    };
    let sound = Rated {
        cost: 1,
        sound: 1,
        ..Rated::default()
    };
    let printed = "\
A    0    0    1
S    1    1    0
W    1    0    0
F    1    0    0
Z    4    0    0
";
    [
        ("answer", Job::Answer(2, listed, vec![0])),
        ("short run", Job::ShortRun(vec![1, 0], plan(1, 1))),
        ("rating, on", Job::Rating(1, sound)),
        ("rating, off", Job::Rating(0, Rated::default())),
        ("listing", Job::Listing(printed.into())),
    ]
    .map(|(job_name, job)| Example {
        name: format!("{name}, {job_name}"),
        bytes: bytes.clone(),
        job,
    })
}

/// Every job on a sheet with each malformed line. The patterns and the plan are too large besides:
/// that would be told after it.
fn malformed() -> Vec<Example> {
    let mut made = Vec::new();
    for (malformed, place) in malformed::placed() {
        let name = format!("{} at line {place}", malformed.why);
        made.extend(every_job(
            &name,
            malformed.sheet(place),
            malformed.refusal(place),
        ));
    }
    made
}

/// Every job on sheets with a wrong weight, and on sheets whose lines have no fourth number.
fn weights() -> Vec<Example> {
    let refused_at = |number, place, column| Refusal {
        number,
        place,
        column,
    };
    let mut made = Vec::new();
    for weight in [0, -1, -9_999, 1_000, 1_001, 10_000, 99_999] {
        let short = format!("H 1 0; W 1; W -1 0 0 {weight}; Z 3");
        let name = format!("a weight of {weight}");
        made.extend(every_job(&name, sheet(&short), refused_at(14, 3, 0)));
    }
    let others = [
        (
            "a weight of 0 and a wrong literal",
            "H 1 0; W 2 0 0 0; Z 2",
            (6, 2),
        ),
        (
            "a weight of 0 and a literal after 0",
            "H 1 0; W 0 1 0 0; Z 2",
            (6, 2),
        ),
        (
            "a weight of 0, then a wrong literal",
            "H 1 0; W 1 0 0 0; W 2; Z 3",
            (14, 2),
        ),
        (
            "a weight of 0 and a wrong count",
            "H 1 0; W 1 0 0 0; Z 9",
            (14, 2),
        ),
        (
            "a weight of 0, then a rule",
            "H 1 0; W 1 0 0 0; R 1; Z 3",
            (14, 2),
        ),
        ("a rule with a weight", "H 1 0; R 1 0 0 1; Z 2", (6, 2)),
        ("sizes with a weight", "H 1 0 0 1; Z 1", (6, 1)),
        ("a gate with a weight", "H 1 0; A 1 1 0 1; Z 2", (6, 2)),
        ("an end with a weight", "H 1 0; Z 1 0 0 1", (6, 2)),
    ];
    for (name, short, (number, place)) in others {
        made.extend(every_job(name, sheet(short), refused_at(number, place, 0)));
    }
    let short_lines = |lines: usize| {
        let wishes = "W -1; ".repeat(lines - 2);
        without_fourth_numbers(&sheet(&format!("H 1 0; {wishes}Z {}", lines - 1)))
    };
    for (lines, refusal) in [
        (2, refused_at(1, 0, 0)),
        (21, refused_at(1, 0, 0)),
        (22, refused_at(2, 1, 17)),
        (44, refused_at(2, 1, 17)),
        (66, refused_at(2, 1, 17)),
    ] {
        let name = format!("{lines} lines without a fourth number");
        made.extend(every_job(&name, short_lines(lines), refusal));
    }
    made
}

/// The four jobs on one refused sheet or text.
fn every_job(name: &str, bytes: Vec<u8>, refusal: Refusal) -> [Example; 4] {
    let Refusal {
        number,
        place,
        column,
    } = refusal;
    let printed = format!("A{number:>5}{place:>5}{column:>5}\nZ    1    0    0\n");
    [
        ("answer", Job::Answer(3, refusal.into(), vec![])),
        ("short run", Job::ShortRun(vec![0, 99], refusal.into())),
        ("rating", Job::Rating(99, refusal.into())),
        ("listing", Job::Listing(printed)),
    ]
    .map(|(job_name, job)| Example {
        name: format!("{name}, {job_name}"),
        bytes: bytes.clone(),
        job,
    })
}

/// Some of the examples as texts, and lane four.
fn texts() -> Vec<Example> {
    const E3: &str = "switches 2\nfaults 2\nrule (s1|s2)|(f1|f2)\nwish !s1\nwish !s2\n";
    const E4: &str = "switches 0\nfaults 1\nrule f1\n";
    const E7: &str = "switches 1\nfaults 1\nrule s1&f1 | !s1&!f1\n";
    const MOST: &str = "switches 20\nfaults 16\n";
    const EXAMPLE_1: &str =
        "switches 2\nfaults 2\nrule (s1|s2)|(f1|f2)\nwish !s1 weight 2\nwish !s2 weight 3\n";
    const REPEATED: &str = "switches 2\nfaults 0\nrule s1|s2\n\
        wish !s2 weight 400\nwish !s1 weight 399\nwish !s1\nwish !s1 !s1 weight 1\n";
    let lane_four = include_str!("../../../examples/lane-four.text");
    let answer = |room, figures: Found, list: &[u32]| {
        let length = list.len();
        Job::Answer(room, Found { length, ..figures }, list.to_vec())
    };
    let too_large = Rated {
        number: 10,
        ..Rated::default()
    };
    let sound = Rated {
        cost: 2,
        sound: 1,
        ..Rated::default()
    };
    let examples: Vec<(&str, &str, Job)> = vec![
        ("E2", "switches 0\nfaults 0\n", answer(3, plan(0, 0), &[])),
        ("E3", E3, answer(3, plan(1, 1), &[0])),
        ("E3, no room", E3, answer(0, refused(9, 0), &[])),
        ("E3, listing", E3, Job::Listing(SAMPLE_LISTING.into())),
        ("E4", E4, answer(3, refused(8, 0), &[0])),
        ("E5", E4, answer(0, refused(9, 0), &[])),
        ("E7", E7, answer(3, refused(8, 0), &[1, 0])),
        ("E7, room for one word", E7, answer(1, refused(9, 0), &[1])),
        ("E10", E3, Job::ShortRun(vec![], plan(0, 0))),
        (
            "E10, over pattern 0",
            E3,
            Job::ShortRun(vec![0], plan(1, 1)),
        ),
        ("E11", MOST, answer(0, plan(0, 0), &[])),
        ("E11, plan 2^20", MOST, Job::Rating(1 << 20, too_large)),
        ("E14, plan 3", E3, Job::Rating(3, sound)),
        ("E14, plan 4", E3, Job::Rating(4, too_large)),
        (
            "E14, patterns",
            E3,
            Job::ShortRun(vec![3, 4], refused(11, 2)),
        ),
        (
            "Example 1 with weights",
            EXAMPLE_1,
            answer(3, plan(2, 2), &[0]),
        ),
        (
            "Example 1 with weights, listing",
            EXAMPLE_1,
            Job::Listing(EXAMPLE_1_LISTING.into()),
        ),
        (
            "a repeated wish with other weights",
            REPEATED,
            answer(3, plan(1, 400), &[0]),
        ),
        ("lane four", lane_four, answer(9, plan(7, 4), &[1, 6])),
    ];
    examples
        .into_iter()
        .map(|(name, text, job)| Example {
            name: format!("{name}, typed"),
            bytes: text.into(),
            job,
        })
        .collect()
}

/// Every job on each text that is refused, and one that is refused after the reading on the others.
fn placed() -> Vec<Example> {
    let too_large = Rated {
        number: 10,
        ..Rated::default()
    };
    let examples = places::placed()
        .into_iter()
        .map(|case| match case.refusal() {
            Some(refusal) => every_job(case.why, case.bytes, refusal).to_vec(),
            None => vec![Example {
                name: format!("{}, rating of no plan", case.why),
                bytes: case.bytes,
                job: Job::Rating(u32::MAX, too_large),
            }],
        });
    examples.flatten().collect()
}

/// As many lines of each kind as there may be.
fn full() -> String {
    let gates = "A 1 3; ".repeat(400);
    let rules = "R 2; ".repeat(64);
    let wishes = "W -1 2; ".repeat(64);
    format!("H 2 1; {gates}{rules}{wishes}Z 529")
}

/// Eight switches have to be on, and 64 different wishes ask for some of them to be off.
fn all_broken() -> String {
    let rules: String = (1..=8).map(|k| format!("R {k}; ")).collect();
    let mut wishes = Vec::new();
    for i in 1..=8 {
        wishes.push(format!("W -{i}; "));
        for j in i + 1..=8 {
            wishes.push(format!("W -{i} -{j}; "));
            wishes.extend((j + 1..=8).map(|k| format!("W -{i} -{j} -{k}; ")));
        }
    }
    wishes.truncate(64);
    format!("H 8 0; {rules}{}Z 73", wishes.concat())
}

/// The switch has to be on, and 64 wishes of the largest weight ask for it to be off.
fn dearest() -> String {
    format!("H 1 0; R 1; {}Z 66", "W -1 0 0 999; ".repeat(64))
}

/// Twenty switches have to be on.
fn all_on() -> String {
    let rules: String = (1..=20).map(|k| format!("R {k}; ")).collect();
    format!("H 20 0; {rules}Z 21")
}

/// The one switch has to be on only because all sixteen faults may occur together.
fn all_faults() -> String {
    let gates: String = (4..=17).map(|p| format!("A {} {p}; ", p + 14)).collect();
    format!("H 1 16; A 2 3; {gates}N 32; O 1 33; R 34; W -1; Z 20")
}

/// What the brute force gives for a job, in words, to be held to the example.
fn brute_force(form: Form, example: &Example) -> String {
    let read = form.read(&example.bytes);
    let planner = read.clone().map(Planner::new);
    match (&example.job, planner) {
        (Job::Answer(..), Err(refusal)) => format!("{:?} []", Found::from(refusal)),
        (Job::Answer(room, ..), Ok(planner)) => {
            let run = planner.run(*room);
            let found = planner.answer(&run, *room);
            format!("{found:?} {:?}", &run.list[..found.length])
        }
        (Job::ShortRun(..), Err(refusal)) => format!("{:?}", Found::from(refusal)),
        (Job::ShortRun(patterns, _), Ok(planner)) => format!("{:?}", planner.short_run(patterns)),
        (Job::Rating(..), Err(refusal)) => format!("{:?}", Rated::from(refusal)),
        (Job::Rating(plan, _), Ok(planner)) => format!("{:?}", planner.rating(*plan)),
        (Job::Listing(_), _) => listing_of(read),
    }
}

fn by_hand(job: &Job) -> String {
    match job {
        Job::Answer(_, found, list) => format!("{found:?} {list:?}"),
        Job::ShortRun(_, found) => format!("{found:?}"),
        Job::Rating(_, rated) => format!("{rated:?}"),
        Job::Listing(printed) => printed.clone(),
    }
}

/// Tries all examples and prints one line for each. Returns how many passed and how many failed.
pub fn try_all(form: Form) -> (u64, u64) {
    let (mut passed, mut failed) = (0, 0);
    let examples = match form {
        Form::Sheet => [sheets(), chains(), malformed(), weights()].concat(),
        Form::Text => [texts(), typed_chains(), placed()].concat(),
    };
    for example in examples {
        let mut check = Check::new(form, &example.bytes, 0, 0);
        let (brute, hand) = (brute_force(form, &example), by_hand(&example.job));
        if brute != hand {
            let trouble = format!("the brute force says {brute}, not {hand}");
            check.troubles.push(trouble);
        }
        match &example.job {
            Job::Answer(room, found, list) => {
                check.answer(*room, *found, list);
            }
            Job::ShortRun(patterns, found) => {
                check.short_run(patterns, *found);
            }
            Job::Rating(plan, rated) => {
                check.rating(*plan, *rated);
            }
            Job::Listing(printed) => check.listing(printed),
        }
        if check.troubles.is_empty() {
            passed += 1;
            println!("{}: ok", example.name);
        } else {
            failed += 1;
            println!("{}: FAIL\n{}", example.name, check.troubles.join("\n"));
        }
    }
    (passed, failed)
}
