//! The whole run: measures every row, shows it, and writes the tables and the picture.

use std::fmt::Write as _;
use std::hint::black_box;
use std::path::{Path, PathBuf};
use std::process::Command;
use std::time::Instant;
use std::{env, fs};

use comzsered::{figures, Input};
use planner_tests::form::Form;

use crate::agree::{agree, agree_on_tables};
use crate::baseline;
use crate::measure::{measure, median, Budget, Measured, FULL, QUICK};
use crate::plot::{svg, Panel};
use crate::rows::{self, Row};
use crate::sheets::{self, Sheet};
use crate::stack;
use crate::texts;
use crate::worker::{Job, Side};

/// The stack that Rating should use at most.
const STACK_KB: f64 = 64.0;

struct Run {
    budget: Budget,
    done: usize,
    all: usize,
    start: Instant,
    text: String,
}

impl Run {
    /// A line of the report, shown and kept.
    fn say(&mut self, line: &str) {
        println!("{line}");
        self.text += line;
        self.text += "\n";
    }

    fn measure(&mut self, row: &Row) -> Result<Measured, String> {
        self.done += 1;
        eprint!(
            "[{:>2}/{}, {:>3.0} s] {}, a = {}, f = {}, {} gates, {} wishes: ",
            self.done,
            self.all,
            self.start.elapsed().as_secs_f64(),
            row.family,
            row.a,
            row.f,
            row.gates,
            row.wishes
        );
        let measured = measure(&row.case, &row.sides(), row.brute, self.budget)?;
        eprintln!(
            "{} against {}, ratio {:.2}",
            time(measured.ours()),
            time(measured.plain()),
            measured.ratio()
        );
        Ok(measured)
    }
}

fn time(seconds: f64) -> String {
    let (value, unit) = match seconds {
        s if s.is_nan() => return "-".to_string(),
        s if s < 1e-6 => (s * 1e9, "ns"),
        s if s < 1e-3 => (s * 1e6, "µs"),
        s if s < 1.0 => (s * 1e3, "ms"),
        s => (s, "s"),
    };
    let places = match value {
        v if v < 10.0 => 2,
        v if v < 100.0 => 1,
        _ => 0,
    };
    format!("{value:.places$} {unit}")
}

// ---- tables

const HEAD: [&str; 15] = [
    "family",
    "job",
    "a",
    "f",
    "gates",
    "rules",
    "wishes",
    "L",
    "ours",
    "baseline",
    "ratio",
    "masks",
    "brute force",
    "memory ours",
    "memory baseline",
];

fn job_name(job: &Job) -> &'static str {
    match job {
        Job::Answer => "Answer",
        Job::ShortRun(_) => "Short run",
        Job::Rating(_) => "Rating",
        Job::Read => "Reading",
        Job::Write => "Writing",
    }
}

fn cells(row: &Row, m: &Measured) -> Vec<String> {
    let length = match &row.case.job {
        Job::Answer => m.length.to_string(),
        Job::ShortRun(patterns) => patterns.len().to_string(),
        Job::Rating(_) | Job::Read | Job::Write => "-".to_string(),
    };
    let other = |side| {
        m.of(side)
            .map_or("-".to_string(), |timed| time(timed.median))
    };
    let peak = |side| {
        m.of(side)
            .map_or("-".to_string(), |timed| format!("{} KB", timed.peak))
    };
    vec![
        row.family.clone(),
        job_name(&row.case.job).to_string(),
        row.a.to_string(),
        row.f.to_string(),
        row.gates.to_string(),
        row.rules.to_string(),
        row.wishes.to_string(),
        length,
        time(m.ours()),
        time(m.plain()),
        format!("{:.2}", m.ratio()),
        other(Side::Masks),
        other(Side::Brute),
        peak(Side::Ours),
        peak(Side::Plain),
    ]
}

/// A table whose columns stand under each other.
fn table(head: &[&str], body: &[Vec<String>]) -> String {
    let width = |k: usize| {
        let cells = body.iter().map(|row| row[k].chars().count());
        cells.chain([head[k].chars().count(), 3]).max().unwrap_or(3)
    };
    let widths: Vec<usize> = (0..head.len()).map(width).collect();
    let left = |k: usize| k == 0 || head[k] == "job";
    let mut out = String::new();
    let mut line = |cell: &dyn Fn(usize) -> String| {
        for (k, &wide) in widths.iter().enumerate() {
            let cell = cell(k);
            let _ = match left(k) {
                true => write!(out, "| {cell:<wide$} "),
                false => write!(out, "| {cell:>wide$} "),
            };
        }
        out += "|\n";
    };
    line(&|k| head[k].to_string());
    line(&|k| match left(k) {
        true => "-".repeat(widths[k]),
        false => "-".repeat(widths[k] - 1) + ":",
    });
    for row in body {
        line(&|k| row[k].clone());
    }
    out.trim_end().to_string()
}

fn rows_table(run: &mut Run, rows: &[Row]) -> Result<(String, Vec<Measured>), String> {
    let mut body = Vec::new();
    let mut all = Vec::new();
    for row in rows {
        let measured = run.measure(row)?;
        body.push(cells(row, &measured));
        all.push(measured);
    }
    Ok((table(&HEAD, &body), all))
}

/// The rows that have an aim, and whether it is met.
fn aims(rows: &[Row], measured: &[Measured]) -> String {
    let mut body = Vec::new();
    for (row, m) in rows.iter().zip(measured) {
        if let Some(aim) = row.aim {
            let (ratio, lines) = (m.ratio(), 2 + row.gates + row.rules + row.wishes);
            body.push(vec![
                format!("{} of a sheet of {lines} lines", job_name(&row.case.job)),
                format!("{ratio:.2}"),
                format!("{aim:.1}"),
                String::from(if ratio <= aim { "yes" } else { "NO" }),
            ]);
        }
    }
    table(&["call", "ratio", "to be at most", "met"], &body)
}

/// The middle, the lowest and the highest.
fn spread(values: &[f64]) -> String {
    let low = values.iter().copied().fold(f64::MAX, f64::min);
    let high = values.iter().copied().fold(f64::MIN, f64::max);
    let middle = median(values.to_vec());
    if values.len() == 1 {
        return format!("{middle:.2}");
    }
    format!("{middle:.2} ({low:.2} to {high:.2})")
}

// ---- stack

fn bytes(n: usize) -> String {
    format!("{n} bytes ({:.1} KB)", n as f64 / 1024.0)
}

fn within(n: usize) -> String {
    let within = n as f64 <= STACK_KB * 1024.0;
    String::from(if within { "yes" } else { "no" })
}

fn stack_row(name: &str, ours: usize, plain: Option<usize>) -> Vec<String> {
    let plain = plain.map_or("-".to_string(), bytes);
    vec![name.to_string(), bytes(ours), plain, within(ours)]
}

// The calls are written out one by one, so that nothing stands between the painted stack and them.

fn rating_stack(name: &str, sheet: &Sheet) -> Vec<String> {
    let (plan, for_ours, for_plain) = (sheet.plan, sheet.bytes.clone(), sheet.bytes.clone());
    let ours = stack::used(move || {
        black_box(figures::rating(Input::Sheet(&for_ours), plan));
    });
    let plain = stack::used(move || {
        black_box(baseline::rating(Input::Sheet(&for_plain), plan));
    });
    stack_row(name, ours, Some(plain))
}

/// The same for a typed text.
fn text_stack(name: &str, text: &Sheet) -> Vec<String> {
    let (plan, for_ours, for_plain) = (text.plan, text.bytes.clone(), text.bytes.clone());
    let ours = stack::used(move || {
        black_box(figures::rating(Input::Text(&for_ours), plan));
    });
    let plain = stack::used(move || {
        black_box(baseline::rating(Input::Text(&for_plain), plan));
    });
    stack_row(name, ours, Some(plain))
}

fn answer_stack(name: &str, sheet: &Sheet) -> Vec<String> {
    let (for_ours, for_plain) = (sheet.bytes.clone(), sheet.bytes.clone());
    let mut ours_list = vec![0; comzsered::LIST_MAX];
    let mut plain_list = ours_list.clone();
    let ours = stack::used(move || {
        black_box(figures::answer(Input::Sheet(&for_ours), &mut ours_list));
    });
    let plain = stack::used(move || {
        black_box(baseline::answer(
            Input::Sheet(&for_plain),
            &mut plain_list,
            false,
        ));
    });
    stack_row(name, ours, Some(plain))
}

fn short_run_stack(name: &str, sheet: &Sheet) -> Vec<String> {
    let (for_ours, for_plain) = (sheet.bytes.clone(), sheet.bytes.clone());
    let ours = stack::used(move || {
        black_box(figures::short_run(Input::Sheet(&for_ours), &[0, 1, 2]));
    });
    let plain = stack::used(move || {
        black_box(baseline::short_run(
            Input::Sheet(&for_plain),
            &[0, 1, 2],
            false,
        ));
    });
    stack_row(name, ours, Some(plain))
}

fn listing_stack(name: &str, sheet: &Sheet) -> Vec<String> {
    let sheet = sheet.bytes.clone();
    let mut out = vec![0; comzsered::LISTING_MAX];
    let ours = stack::used(move || {
        black_box(figures::listing(Input::Sheet(&sheet), &mut out));
    });
    stack_row(name, ours, None)
}

fn stacks() -> String {
    let rated = sheets::rated(1, 20, 16, 64, 400);
    let trees = sheets::trees(1, 8, 8, 44, 16);
    let ands = sheets::ands(4, 4, 400);
    let body = [
        rating_stack(
            "Rating, 64 rules, 400 gates in trees, a = 20, f = 16",
            &rated,
        ),
        rating_stack("Rating, chain of 400 ands", &ands),
        text_stack(
            "Rating, typed text with a chain of 400 ands",
            &texts::ands(),
        ),
        answer_stack("Answer, random trees", &trees),
        answer_stack("Answer, chain of 400 ands", &ands),
        short_run_stack("Short run, chain of 400 ands", &ands),
        listing_stack("Listing, chain of 400 ands", &ands),
    ];
    table(&["call", "ours", "baseline", "ours within 64 KB"], &body)
}

// ---- the machine

fn first_line(program: &str, words: &[&str]) -> Option<String> {
    let out = Command::new(program).args(words).output().ok()?;
    let text = String::from_utf8_lossy(&out.stdout);
    text.lines().next().map(|line| line.trim().to_string())
}

fn machine() -> String {
    let info = fs::read_to_string("/proc/cpuinfo").unwrap_or_default();
    let model = info
        .lines()
        .find(|l| l.starts_with("model name"))
        .and_then(|l| l.split_once(':'))
        .map_or("unknown", |(_, name)| name.trim())
        .to_string();
    let cores = std::thread::available_parallelism().map_or(0, |n| n.get());
    let rustc = first_line("rustc", &["--version"]).unwrap_or("rustc unknown".to_string());
    let rt = first_line("rt", &["version"]).unwrap_or("unknown".to_string());
    format!("CPU: {model}, {cores} cores. Compilers: {rustc}; rt: {rt}.")
}

// ---- the whole

fn folder() -> PathBuf {
    env::var_os("BENCH_OUTPUT").map_or(PathBuf::from("."), PathBuf::from)
}

fn write(path: &Path, text: &str) -> Result<(), String> {
    fs::write(path, text).map_err(|e| format!("{}: {e}", path.display()))?;
    eprintln!("written: {}", path.display());
    Ok(())
}

pub fn whole(quick: bool) -> Result<(), String> {
    let rating = rows::figure_rating(quick);
    let answer = rows::figure_answer(quick);
    let empty = rows::figure_empty();
    let families = rows::families(quick);
    let growth = rows::growth(quick);
    let grown: usize = growth.iter().map(|g| g.rows.len()).sum();
    let mut run = Run {
        budget: if quick { QUICK } else { FULL },
        done: 0,
        all: rating.len() + answer.len() + 1 + families.len() + grown,
        start: Instant::now(),
        text: String::new(),
    };
    run.say(if quick {
        "# Measured, quick run"
    } else {
        "# Measured"
    });
    run.say("");
    run.say(&machine());
    run.say("");
    run.say("Times are medians of the processor time of samples taken by turns; a ratio is ours / baseline. README.md tells more.");
    run.say("");

    let count = if quick { 2_000 } else { 20_000 };
    let sheets = agree(Form::Sheet, count)?;
    let texts = agree(Form::Text, count)?;
    let tables = agree_on_tables(count)?;
    run.say(&format!(
        "Before the timing, both sides gave the same tables and outcomes on {sheets} generated sheets, a quarter of them damaged, and \
         on {texts} generated typed texts, four in ten of which are refused, and wrote {tables} generated tables alike, \
         two in three of which are refused."
    ));
    run.say("");

    let (rating_table, rated) = rows_table(&mut run, &rating)?;
    let (answer_table, answered) = rows_table(&mut run, &answer)?;
    let (empty_table, emptied) = rows_table(&mut run, &[empty])?;
    let ratios = |all: &[Measured]| spread(&all.iter().map(Measured::ratio).collect::<Vec<_>>());
    let masks: Vec<f64> = answered
        .iter()
        .filter_map(|m| Some(m.ours() / m.of(Side::Masks)?.median))
        .collect();
    let sum = |of: fn(&Measured) -> f64| answered.iter().map(of).sum::<f64>();
    let mut lines = vec![(
        "(i) Rating of a sound plan, a = 20, f = 16, 64 rules: ours / baseline".to_string(),
        ratios(&rated),
    )];
    let mut rest: &[Row] = &answer;
    while let Some(Row { a, f, .. }) = rest.first() {
        let from = answer.len() - rest.len();
        let count = rest.iter().take_while(|r| (r.a, r.f) == (*a, *f)).count();
        rest = &rest[count..];
        lines.push((
            format!("(ii) Answer, random trees, a = {a}, f = {f}: ours / baseline"),
            ratios(&answered[from..from + count]),
        ));
    }
    lines.push((
        "(ii) all sizes, times added: ours / baseline".to_string(),
        format!("{:.2}", sum(Measured::ours) / sum(Measured::plain)),
    ));
    lines.push((
        "(ii) all sizes: ours / baseline with wishes as masks".to_string(),
        spread(&masks),
    ));
    lines.push((
        "(ii) Answer of `H 20 16`, `Z 1`".to_string(),
        format!(
            "{} (baseline {}; to be under 1 s: {})",
            time(emptied[0].ours()),
            time(emptied[0].plain()),
            if emptied[0].ours() < 1.0 { "yes" } else { "NO" }
        ),
    ));
    let lines: Vec<Vec<String>> = lines.into_iter().map(|(x, y)| vec![x, y]).collect();
    run.say("## The two figures");
    run.say("");
    run.say("Middle ratio of the sheets of a size, and the lowest and highest:");
    run.say("");
    run.say(&table(&["figure", "value"], &lines));
    run.say("");
    run.say(
        "Stack, from where the call is made to the lowest word that it changes. In the chain each gate names the one \
         before first. 64 KB are meant for Rating; Listing holds a list of 4,096 words of its own.",
    );
    run.say("");
    let stacks = stacks();
    run.say(&stacks);
    run.say("");
    for (title, table) in [
        ("### (i) Rating of a sound plan", rating_table),
        ("### (ii) Answer on random trees", answer_table),
        ("### (ii) The empty sheet", empty_table),
    ] {
        run.say(title);
        run.say("");
        run.say(&table);
        run.say("");
    }

    let (family_table, measured) = rows_table(&mut run, &families)?;
    run.say("## Families");
    run.say("");
    run.say(&family_table);
    run.say("");
    run.say("Aims:");
    run.say("");
    run.say(&aims(&families, &measured));
    run.say("");

    run.say("## How time grows");
    run.say("");
    if !quick {
        run.say(
            "![Time against switches, faults, gates, list length and bytes of a text](growth.svg)",
        );
        run.say("");
    }
    let mut panels = Vec::new();
    for part in &growth {
        let mut body = Vec::new();
        let mut points = Vec::new();
        for (x, row) in &part.rows {
            let m = run.measure(row)?;
            let x = if part.by_length { m.length } else { *x };
            points.push((x as f64, m.ours(), m.plain()));
            let ratio = format!("{:.2}", m.ratio());
            body.push(vec![x.to_string(), time(m.ours()), time(m.plain()), ratio]);
        }
        run.say(&format!("{}:", part.title));
        run.say("");
        run.say(&table(&[part.x_name, "ours", "baseline", "ratio"], &body));
        run.say("");
        panels.push(Panel {
            title: part.title.to_string(),
            x_name: part.x_name.to_string(),
            log_x: part.log_x,
            points,
        });
    }
    let text = run.text.trim_end().to_string() + "\n";
    let folder = folder();
    write(&folder.join("RESULTS.md"), &text)?;
    write(&folder.join("growth.svg"), &svg(&panels))?;
    eprintln!(
        "{} rows in {:.0} s; all sides gave the same outcomes",
        run.done,
        run.start.elapsed().as_secs_f64()
    );
    Ok(())
}
