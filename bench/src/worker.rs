//! One side at work on one sheet, in a process of its own, so that its memory can be told and a side
//! that takes too long can be left. The parent sends the job and then how often to do it.

use std::hint::black_box;
use std::io::{self, BufRead, BufReader, Write};
use std::process::{Child, ChildStdin, Command, Stdio};
use std::sync::mpsc::{channel, Receiver};
use std::thread;
use std::time::Duration;
use std::{env, fs};

use comzsered::figures::{self, Found, Rated, Read, Words, Written};
use comzsered::Input;
use planner_tests::oracle::{Refusal, Sheet};
use planner_tests::tables::Tables;
use planner_tests::writing as second_writer;
use planner_tests::{brute, oracle, typed};

use crate::{baseline, writing};

#[derive(Clone, Copy, Debug, PartialEq, Eq)]
pub enum Side {
    /// The proved library.
    Ours,
    /// Plain Rust with the same method.
    Plain,
    /// The same, with wishes as masks.
    Masks,
    /// The brute force of the tests.
    Brute,
}

const SIDES: [(Side, &str); 4] = [
    (Side::Ours, "ours"),
    (Side::Plain, "plain"),
    (Side::Masks, "masks"),
    (Side::Brute, "brute"),
];

impl Side {
    pub fn name(self) -> &'static str {
        SIDES.iter().find(|(side, _)| *side == self).unwrap().1
    }

    pub fn named(name: &str) -> Option<Side> {
        let named = SIDES.iter().find(|(_, its)| *its == name);
        named.map(|(side, _)| *side)
    }
}

#[derive(Clone)]
pub enum Job {
    Answer,
    ShortRun(Vec<u32>),
    Rating(u32),
    /// Reading into tables: each side into those that it works with.
    Read,
    /// Writing of the sheet's tables, which are made before the time is taken.
    Write,
}

#[derive(Clone)]
pub struct Case {
    pub job: Job,
    /// Whether the bytes are a typed text.
    pub typed: bool,
    pub bytes: Vec<u8>,
}

/// What a job gives, in the figures of the library; what was read as each side has it.
enum Outcome {
    Found(Found),
    Rated(Rated),
    /// The tables are those that were lent.
    Read(Read),
    ReadPlain(Result<baseline::Tables, baseline::Refusal>),
    ReadSecond(Result<Sheet, Refusal>),
    Written(Written),
}

/// What the jobs are lent.
struct Lent {
    list: Vec<u32>,
    tables: Words,
    out: Vec<u8>,
}

impl Lent {
    fn new(case: &Case) -> Lent {
        let tables = match case.job {
            Job::Write => {
                let sheet = oracle::read(&case.bytes).expect("an accepted sheet");
                Words::from(&Tables::of(&sheet))
            }
            _ => Words::EMPTY,
        };
        Lent {
            list: vec![0; comzsered::LIST_MAX],
            tables,
            out: vec![0; comzsered::SHEET_MAX],
        }
    }
}

impl Outcome {
    /// The length of a list or a sheet, and all of the outcome in words.
    fn told(self, lent: &Lent) -> (usize, String) {
        match self {
            Outcome::Found(x) => (x.length, format!("{x:?} {:?}", &lent.list[..x.length])),
            Outcome::Rated(x) => (x.length, format!("{x:?}")),
            Outcome::Read(x) => (0, told_read(ours(x, &lent.tables))),
            Outcome::ReadPlain(x) => (0, told_read(plain(x))),
            Outcome::ReadSecond(x) => (0, told_read(x.map(|sheet| Tables::of(&sheet)))),
            Outcome::Written(x) => (x.length, format!("{x:?} {:?}", &lent.out[..x.length])),
        }
    }
}

/// What was read, in the tests' own types.
pub type Taken = Result<Tables, Refusal>;

pub fn ours(read: Read, tables: &Words) -> Taken {
    match read {
        Read { number: 0, .. } => Ok(Tables::from(tables)),
        Read {
            number,
            place,
            column,
        } => Err(Refusal {
            number,
            place,
            column,
        }),
    }
}

pub fn plain(read: Result<baseline::Tables, baseline::Refusal>) -> Taken {
    let refusal = |(number, place, column)| Refusal {
        number,
        place,
        column,
    };
    read.map(|tables| Tables::of(&tables.said()))
        .map_err(refusal)
}

fn told_read(taken: Taken) -> String {
    format!("{taken:?}")
}

// ---- the child

impl Case {
    fn input(&self) -> Input<'_> {
        if self.typed {
            Input::Text(&self.bytes)
        } else {
            Input::Sheet(&self.bytes)
        }
    }

    fn send(&self, out: &mut impl Write) -> io::Result<()> {
        match &self.job {
            Job::Answer => write!(out, "answer")?,
            Job::Rating(plan) => write!(out, "rating {plan}")?,
            Job::Read => write!(out, "read")?,
            Job::Write => write!(out, "write")?,
            Job::ShortRun(patterns) => {
                write!(out, "short")?;
                for pattern in patterns {
                    write!(out, " {pattern}")?;
                }
            }
        }
        writeln!(out, "\n{} {}", self.typed, self.bytes.len())?;
        out.write_all(&self.bytes)?;
        out.flush()
    }

    fn receive(input: &mut impl BufRead) -> Option<Case> {
        let mut line = String::new();
        input.read_line(&mut line).ok()?;
        let mut words = line.split_whitespace();
        let job = words.next()?.to_string();
        let numbers: Vec<u32> = words.map(|w| w.parse().ok()).collect::<Option<_>>()?;
        let job = match job.as_str() {
            "answer" => Job::Answer,
            "rating" => Job::Rating(*numbers.first()?),
            "read" => Job::Read,
            "write" => Job::Write,
            _ => Job::ShortRun(numbers),
        };
        line.clear();
        input.read_line(&mut line).ok()?;
        let (typed, length) = line.trim().split_once(' ')?;
        let mut bytes = vec![0; length.parse().ok()?];
        input.read_exact(&mut bytes).ok()?;
        Some(Case {
            job,
            typed: typed.parse().ok()?,
            bytes,
        })
    }
}

/// Does the job once.
fn work(side: Side, case: &Case, lent: &mut Lent) -> Outcome {
    let input = black_box(case.input());
    let masks = side == Side::Masks;
    let Lent { list, tables, out } = lent;
    match (&case.job, side) {
        (Job::Answer, Side::Ours) => Outcome::Found(figures::answer(input, list)),
        (Job::ShortRun(p), Side::Ours) => Outcome::Found(figures::short_run(input, p)),
        (Job::Rating(plan), Side::Ours) => Outcome::Rated(figures::rating(input, *plan)),
        (Job::Read, Side::Ours) => Outcome::Read(figures::read(input, tables)),
        (Job::Write, Side::Ours) => Outcome::Written(figures::write(black_box(tables), out)),
        (Job::Read, Side::Brute) => Outcome::ReadSecond(read_second(input)),
        (Job::Write, Side::Brute) => Outcome::Written(write_second(tables, out)),
        (_, Side::Brute) => run_brute(&case.job, input, list),
        (Job::Answer, _) => Outcome::Found(baseline::answer(input, list, masks)),
        (Job::ShortRun(p), _) => Outcome::Found(baseline::short_run(input, p, masks)),
        (Job::Rating(plan), _) => Outcome::Rated(baseline::rating(input, *plan)),
        (Job::Read, _) => Outcome::ReadPlain(baseline::read(input)),
        (Job::Write, _) => Outcome::Written(writing::write(black_box(tables), out)),
    }
}

/// The second readers of the tests.
fn read_second(input: Input) -> Result<Sheet, Refusal> {
    match input {
        Input::Sheet(sheet) => oracle::read(sheet),
        Input::Text(text) => typed::read(text),
    }
}

/// The second writer of the tests.
fn write_second(tables: &Words, out: &mut [u8]) -> Written {
    let x = second_writer::put(&second_writer::sheet(&Tables::from(tables)), out);
    Written {
        number: x.number,
        place: x.place,
        column: x.column,
        length: x.length,
    }
}

fn run_brute(job: &Job, input: Input, list: &mut [u32]) -> Outcome {
    let found = |x: brute::Found| {
        Outcome::Found(Found {
            number: x.number,
            place: x.place,
            column: x.column,
            plan: x.plan,
            cost: x.cost,
            length: x.length,
        })
    };
    let planner = brute::Planner::new(read_second(input).expect("an accepted sheet"));
    match job {
        Job::Answer => {
            let run = planner.run(list.len());
            let x = planner.answer(&run, list.len());
            list[..x.length].copy_from_slice(&run.list[..x.length]);
            found(x)
        }
        Job::ShortRun(patterns) => found(planner.short_run(patterns)),
        Job::Rating(plan) => {
            let x = planner.rating(*plan);
            Outcome::Rated(Rated {
                number: x.number,
                place: x.place,
                column: x.column,
                cost: x.cost,
                sound: x.sound,
                pattern: x.pattern,
                length: x.length,
            })
        }
        Job::Read | Job::Write => unreachable!("no job of the planner"),
    }
}

/// A time of the operating system, as Linux has it on x86-64.
#[repr(C)]
struct Timespec {
    seconds: i64,
    nanos: i64,
}

extern "C" {
    fn clock_gettime(clock: i32, time: *mut Timespec) -> i32;
}

const THREAD_PROCESSOR_TIME: i32 = 3;

/// The processor time that this thread has had. Unlike the time on the wall it does not count the
/// waiting while other programs have the processor.
fn processor_nanos() -> i64 {
    let mut time = Timespec {
        seconds: 0,
        nanos: 0,
    };
    // SAFETY: the call writes the two words of its argument, and nothing else.
    let status = unsafe { clock_gettime(THREAD_PROCESSOR_TIME, &mut time) };
    assert!(status == 0, "no clock for the processor time");
    time.seconds * 1_000_000_000 + time.nanos
}

/// The most memory that this process has had, in KB.
fn peak() -> u64 {
    let status = fs::read_to_string("/proc/self/status").unwrap_or_default();
    let line = status.lines().find_map(|l| l.strip_prefix("VmHWM:"));
    line.and_then(|l| l.split_whitespace().next()?.parse().ok())
        .unwrap_or(0)
}

/// Serves the parent until it closes the pipe.
pub fn serve(side: Side) -> Option<()> {
    let mut input = io::stdin().lock();
    let case = Case::receive(&mut input)?;
    let mut lent = Lent::new(&case);
    for line in input.lines() {
        let times: u64 = line.ok()?.trim().parse().ok()?;
        let start = processor_nanos();
        for _ in 1..times {
            black_box(work(side, &case, &mut lent));
        }
        let outcome = work(side, &case, &mut lent);
        let nanos = processor_nanos() - start;
        let (length, text) = outcome.told(&lent);
        println!("{nanos} {} {length} {text}", peak());
    }
    Some(())
}

// ---- the parent

pub struct Reply {
    /// Seconds for one time.
    pub seconds: f64,
    /// KB.
    pub peak: u64,
    pub length: usize,
    pub text: String,
}

/// A child of this process.
pub struct Worker {
    side: Side,
    child: Child,
    input: ChildStdin,
    replies: Receiver<String>,
}

impl Worker {
    pub fn start(side: Side, case: &Case) -> io::Result<Worker> {
        let mut child = Command::new(env::current_exe()?)
            .args(["--worker", side.name()])
            .stdin(Stdio::piped())
            .stdout(Stdio::piped())
            .spawn()?;
        let mut input = child.stdin.take().expect("a pipe");
        let output = BufReader::new(child.stdout.take().expect("a pipe"));
        let (sender, replies) = channel();
        thread::spawn(move || {
            for line in output.lines().map_while(Result::ok) {
                if sender.send(line).is_err() {
                    return;
                }
            }
        });
        case.send(&mut input)?;
        Ok(Worker {
            side,
            child,
            input,
            replies,
        })
    }

    /// Does the job so many times; nothing if it takes longer than allowed.
    pub fn time(&mut self, times: u64, allowed: Duration) -> Result<Option<Reply>, String> {
        let broken = || format!("the side '{}' ended early", self.side.name());
        writeln!(self.input, "{times}").map_err(|_| broken())?;
        self.input.flush().map_err(|_| broken())?;
        let line = match self.replies.recv_timeout(allowed) {
            Ok(line) => line,
            Err(std::sync::mpsc::RecvTimeoutError::Timeout) => return Ok(None),
            Err(_) => return Err(broken()),
        };
        let mut words = line.splitn(4, ' ');
        let mut word = || words.next().unwrap_or_default();
        let nanos: f64 = word().parse().map_err(|_| broken())?;
        Ok(Some(Reply {
            seconds: nanos / 1e9 / times as f64,
            peak: word().parse().map_err(|_| broken())?,
            length: word().parse().map_err(|_| broken())?,
            text: word().to_string(),
        }))
    }
}

impl Drop for Worker {
    fn drop(&mut self) {
        let _ = self.child.kill();
        let _ = self.child.wait();
    }
}
