//! What is measured: the sheets and jobs of each table.

use crate::sheets::{self, Sheet};
use crate::texts;
use crate::worker::{Case, Job, Side};

pub struct Row {
    pub family: String,
    pub case: Case,
    pub a: u32,
    pub f: u32,
    pub gates: usize,
    pub rules: usize,
    pub wishes: usize,
    /// The sides besides the two that are always there.
    pub masks: bool,
    pub brute: bool,
    /// The ratio that is aimed at, if there is one.
    pub aim: Option<f64>,
}

impl Row {
    fn new(family: &str, sheet: Sheet, job: Job) -> Row {
        Row {
            family: family.to_string(),
            case: Case {
                job,
                typed: false,
                bytes: sheet.bytes,
            },
            a: sheet.a,
            f: sheet.f,
            gates: sheet.gates,
            rules: sheet.rules,
            wishes: sheet.wishes,
            masks: false,
            brute: true,
            aim: None,
        }
    }

    fn answer(family: &str, sheet: Sheet) -> Row {
        Row::new(family, sheet, Job::Answer)
    }

    /// The rating of the plan that the sheet makes sound.
    fn rating(family: &str, sheet: Sheet) -> Row {
        let plan = sheet.plan;
        let rated = comzsered::figures::rating(comzsered::Sheet(&sheet.bytes), plan);
        assert_eq!((rated.number, rated.sound), (0, 1), "the plan is not sound");
        Row::new(family, sheet, Job::Rating(plan))
    }

    /// A typed text, and the rating of a plan that it does not have: refused after the reading, if
    /// the text itself is not.
    fn reading(family: &str, text: Sheet) -> Row {
        Row::new(family, text, Job::Rating(1 << 20))
            .no_brute()
            .typed()
    }

    fn typed(mut self) -> Row {
        self.case.typed = true;
        self
    }

    fn masks(mut self) -> Row {
        self.masks = true;
        self
    }

    fn no_brute(mut self) -> Row {
        self.brute = false;
        self
    }

    fn aim(mut self, at_most: f64) -> Row {
        self.aim = Some(at_most);
        self
    }

    pub fn sides(&self) -> Vec<Side> {
        let mut sides = vec![Side::Ours, Side::Plain];
        if self.masks {
            sides.push(Side::Masks);
        }
        sides
    }
}

/// A table of how time grows.
pub struct Growth {
    pub title: &'static str,
    pub x_name: &'static str,
    pub log_x: bool,
    /// Whether x is the length of the list, which is known only afterwards.
    pub by_length: bool,
    pub rows: Vec<(usize, Row)>,
}

/// Figure (i): a = 20, f = 16, 64 rules; every gate named once; the rated plan is sound.
pub fn figure_rating(quick: bool) -> Vec<Row> {
    let seeds = if quick { 1..=2 } else { 1..=5 };
    seeds
        .map(|seed| Row::rating("rating, 64 rules", sheets::rated(seed, 20, 16, 64, 400)))
        .collect()
}

/// Figure (ii): Answer on sheets whose gates are named once, up to a = 14, f = 12.
pub fn figure_answer(quick: bool) -> Vec<Row> {
    let sizes: &[(u32, u32)] = if quick {
        &[(6, 6), (10, 8), (14, 12)]
    } else {
        &[(4, 4), (6, 6), (8, 8), (10, 10), (12, 10), (14, 12)]
    };
    let seeds = if quick { 1..=1 } else { 1..=3 };
    let mut rows = Vec::new();
    for &(a, f) in sizes {
        for seed in seeds.clone() {
            let sheet = sheets::trees(seed, a, f, 44, 16);
            rows.push(Row::answer("random trees", sheet).masks());
        }
    }
    rows
}

/// `H 20 16` and `Z 1`: 2^20 plans, 2^16 patterns, nothing else.
pub fn figure_empty() -> Row {
    Row::answer("empty sheet", sheets::empty(20, 16))
}

pub fn families(quick: bool) -> Vec<Row> {
    let mut rows = vec![
        Row::answer("smallest", sheets::empty(0, 0)).aim(2.0),
        Row::new("reading alone", sheets::full(1), Job::Rating(1 << 20)).no_brute(),
        Row::new("reading into tables", sheets::empty(0, 0), Job::Read),
        Row::new("reading into tables", sheets::lanes(1), Job::Read),
        Row::new("reading into tables", sheets::full(1), Job::Read).aim(1.3),
        Row::new(
            "reading into tables, typed",
            texts::accepted(16_384),
            Job::Read,
        )
        .typed(),
        Row::new("writing", sheets::empty(0, 0), Job::Write),
        Row::new("writing", sheets::lanes(1), Job::Write),
        Row::new("writing", sheets::full(1), Job::Write).aim(1.3),
        Row::reading("reading a typed text", texts::accepted(16_384)),
        Row::reading("typed text, refused with 5", texts::crowded(16_384)),
        Row::reading("typed text, refused with 12", texts::broken(16_384)),
        Row::answer("lane boxes", sheets::lanes(1)),
        Row::answer("lane boxes", sheets::lanes(2)),
    ];
    let large = |rows: &mut Vec<Row>, row: fn() -> Row| {
        if !quick {
            rows.push(row());
        }
    };
    large(&mut rows, || {
        Row::answer("lane boxes", sheets::lanes(3)).masks()
    });
    rows.push(Row::answer("chain", sheets::chain(1, 6, 6, 100)));
    rows.push(Row::answer("chain", sheets::chain(1, 8, 8, 400)));
    large(&mut rows, || {
        Row::answer("chain", sheets::chain(1, 14, 12, 400))
    });
    rows.push(Row::rating("chain, rating", sheets::chain(1, 20, 12, 400)));
    large(&mut rows, || {
        Row::rating("chain, rating", sheets::chain(1, 20, 16, 400))
    });
    rows.push(Row::rating("400 ands, rating", sheets::ands(20, 12, 400)));
    rows.push(Row::answer("long list", sheets::at_least(6, 0)));
    large(&mut rows, || {
        Row::answer("long list", sheets::at_least(8, 0))
    });
    large(&mut rows, || {
        Row::answer("long list", sheets::at_least(9, 0))
    });
    large(&mut rows, || {
        Row::answer("long list", sheets::at_least(8, 16))
    });
    rows.push(Row::answer("no plan, long list", sheets::differ(6)));
    large(&mut rows, || {
        Row::answer("no plan, long list", sheets::differ(8))
    });
    rows.push(Row::answer("no plan", sheets::no_plan(1, 8, 8, 20, 16)));
    large(&mut rows, || {
        Row::answer("no plan", sheets::no_plan(1, 14, 12, 20, 16))
    });
    large(&mut rows, || {
        Row::answer("no plan", sheets::no_plan(1, 20, 16, 20, 16)).no_brute()
    });
    rows.push(Row::answer("64 wishes", sheets::conflicts(1, 10, 8)).masks());
    large(&mut rows, || {
        Row::answer("64 wishes", sheets::conflicts(1, 14, 12)).masks()
    });
    large(&mut rows, || {
        Row::answer("64 wishes", sheets::conflicts(1, 20, 16))
            .masks()
            .no_brute()
    });
    large(&mut rows, || {
        Row::answer("random trees", sheets::trees(1, 20, 16, 44, 16))
            .masks()
            .no_brute()
    });
    rows
}

/// Patterns for a short run: the first of each kind, spread over all that there are.
fn spread(f: u32, count: u32) -> Vec<u32> {
    let step = (1 << f) / count;
    (0..count).map(|k| k * step).collect()
}

pub fn growth(quick: bool) -> Vec<Growth> {
    let some = |all: Vec<usize>| -> Vec<usize> {
        let every = if quick { 2 } else { 1 };
        let kept = all.len().div_ceil(every);
        all.into_iter().step_by(every).take(kept).collect()
    };
    let plans = some(vec![8, 10, 12, 14, 16, 18, 20]);
    let patterns = some(vec![4, 6, 8, 10, 12, 14, 16]);
    let gates = some(vec![25, 50, 100, 200, 400]);
    let digits = some(vec![2, 3, 4, 5, 6, 7, 8]);
    let lengths = vec![2_048, 4_096, 8_192, 16_384];
    vec![
        Growth {
            title: "Short run over 8 patterns: switches",
            x_name: "a, switches",
            log_x: false,
            by_length: false,
            rows: plans
                .into_iter()
                .map(|a| {
                    let sheet = sheets::trees(1, a as u32, 10, 20, 16);
                    (a, Row::new("trees", sheet, Job::ShortRun(spread(10, 8))))
                })
                .collect(),
        },
        Growth {
            title: "Rating of a sound plan, 400 gates: faults",
            x_name: "f, faults",
            log_x: false,
            by_length: false,
            rows: patterns
                .into_iter()
                .map(|f| {
                    let sheet = sheets::rated(1, 20, f as u32, 64, 400);
                    (f, Row::rating("trees", sheet))
                })
                .collect(),
        },
        Growth {
            title: "Rating of a sound plan, f = 12, one chain: gates",
            x_name: "gates",
            log_x: true,
            by_length: false,
            rows: gates
                .into_iter()
                .map(|n| (n, Row::rating("chain", sheets::chain(2, 12, 12, n))))
                .collect(),
        },
        Growth {
            title: "Answer, a = 8, plan at least pattern: list",
            x_name: "L, patterns listed",
            log_x: true,
            by_length: true,
            rows: digits
                .into_iter()
                .map(|n| {
                    (
                        n,
                        Row::answer("long list", sheets::at_least_of(8, n as u32)),
                    )
                })
                .collect(),
        },
        Growth {
            title: "Reading a typed text, wrong at its last byte: bytes",
            x_name: "bytes",
            log_x: true,
            by_length: false,
            rows: lengths
                .into_iter()
                .map(|n| (n, Row::reading("typed text", texts::broken(n))))
                .collect(),
        },
    ]
}
