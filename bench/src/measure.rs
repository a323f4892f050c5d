//! Both sides on one sheet: medians of samples taken by turns, and the outcomes held to be equal.

use std::time::Duration;

use crate::worker::{Case, Side, Worker};

/// How much time a row may take.
#[derive(Clone, Copy)]
pub struct Budget {
    /// For the samples of one side.
    pub side: f64,
    /// For the brute force, which is left when it takes longer.
    pub brute: f64,
}

pub const FULL: Budget = Budget {
    side: 2.5,
    brute: 2.0,
};
pub const QUICK: Budget = Budget {
    side: 0.3,
    brute: 0.3,
};

/// No side may take longer for one sample.
const ALLOWED: Duration = Duration::from_secs(120);
/// A sample lasts at least so long, by doing the job several times.
const SAMPLE: f64 = 0.01;
const SAMPLES: std::ops::RangeInclusive<usize> = 5..=41;

pub struct Timed {
    pub side: Side,
    /// Seconds for one call.
    pub median: f64,
    /// The peak memory of its process, in KB.
    pub peak: u64,
}

pub struct Measured {
    pub timed: Vec<Timed>,
    /// The length of the list that Answer made.
    pub length: usize,
}

impl Measured {
    pub fn of(&self, side: Side) -> Option<&Timed> {
        self.timed.iter().find(|timed| timed.side == side)
    }

    fn seconds(&self, side: Side) -> f64 {
        self.of(side).map_or(f64::NAN, |timed| timed.median)
    }

    pub fn ours(&self) -> f64 {
        self.seconds(Side::Ours)
    }

    pub fn plain(&self) -> f64 {
        self.seconds(Side::Plain)
    }

    pub fn ratio(&self) -> f64 {
        self.ours() / self.plain()
    }
}

pub fn median(mut values: Vec<f64>) -> f64 {
    values.sort_by(f64::total_cmp);
    let n = values.len();
    (values[(n - 1) / 2] + values[n / 2]) / 2.0
}

pub fn measure(
    case: &Case,
    sides: &[Side],
    brute: bool,
    budget: Budget,
) -> Result<Measured, String> {
    let mut workers = Vec::new();
    let mut first = None;
    let mut slowest: f64 = 0.0;
    for &side in sides {
        let mut worker = Worker::start(side, case).map_err(|e| e.to_string())?;
        let reply = worker.time(1, ALLOWED)?;
        let reply = reply.ok_or_else(|| format!("the side '{}' takes too long", side.name()))?;
        // The second time is a fairer guess, where there is time for one.
        let seconds = if reply.seconds < SAMPLE {
            let again = worker.time(1, ALLOWED)?;
            again.map_or(reply.seconds, |again| again.seconds)
        } else {
            reply.seconds
        };
        slowest = slowest.max(seconds);
        let (text, length) = first.get_or_insert((reply.text.clone(), reply.length));
        same(side, text, &reply.text)?;
        let times = (SAMPLE / seconds).ceil().clamp(1.0, 1e6) as u64;
        workers.push((side, worker, times, reply.peak, *length));
    }
    let (text, length) = first.ok_or("no side")?;
    let samples = (budget.side / slowest.max(SAMPLE)) as usize;
    let samples = samples.clamp(*SAMPLES.start(), *SAMPLES.end());
    let mut taken = vec![Vec::new(); workers.len()];
    for _ in 0..samples {
        for ((side, worker, times, peak, _), taken) in workers.iter_mut().zip(&mut taken) {
            let reply = worker.time(*times, ALLOWED)?;
            let reply = reply.ok_or("a side takes too long")?;
            same(*side, &text, &reply.text)?;
            taken.push(reply.seconds);
            *peak = reply.peak;
        }
    }
    let mut timed: Vec<Timed> = workers
        .iter()
        .zip(taken)
        .map(|((side, _, _, peak, _), taken)| Timed {
            side: *side,
            median: median(taken),
            peak: *peak,
        })
        .collect();
    drop(workers);
    if brute {
        timed.extend(brute_force(case, &text, budget)?);
    }
    Ok(Measured { timed, length })
}

/// The brute force once, if it ends in time.
fn brute_force(case: &Case, text: &str, budget: Budget) -> Result<Option<Timed>, String> {
    let side = Side::Brute;
    let mut worker = Worker::start(side, case).map_err(|e| e.to_string())?;
    let reply = worker.time(1, Duration::from_secs_f64(budget.brute))?;
    let Some(reply) = reply else {
        return Ok(None);
    };
    same(side, text, &reply.text)?;
    Ok(Some(Timed {
        side,
        median: reply.seconds,
        peak: reply.peak,
    }))
}

fn same(side: Side, expected: &str, got: &str) -> Result<(), String> {
    if expected == got {
        return Ok(());
    }
    Err(format!(
        "WRONG RESULT: the side '{}' gives\n  {got}\nwhere '{}' gives\n  {expected}",
        side.name(),
        Side::Ours.name()
    ))
}
