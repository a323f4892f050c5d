//! The cases of a comparison: those of all seeds in turn, tried by several threads.

use std::sync::Mutex;
use std::time::{Duration, Instant};

use crate::options::Options;
use crate::workers::work;

/// The options that say which cases are tried.
pub const OPTIONS: [&str; 5] = ["--count", "--seconds", "--seed", "--index", "--trace"];

/// What they are called in a usage line.
pub const USAGE: &str = "[--count N] [--seconds T] [--seed S] [--index I] [--trace 1]";

/// The failures after which no further case is tried.
const STOP_AFTER: u64 = 20;

pub struct Cases {
    seeds: Vec<u64>,
    count: u64,
    index: Option<u64>,
    end: Option<Instant>,
    trace: bool,
    /// Whether these are the cases that are tried without any option.
    usual: bool,
}

impl Cases {
    /// So many cases, of the fixed seeds and of a fresh one, unless the options say otherwise: --seed has those
    /// of one seed tried, --count fewer or more of them, --seconds as many as there is time for, --index one of
    /// each seed. With --trace each is named before it is tried: so one that the library does not survive can
    /// be found.
    pub fn asked(options: &Options, count: u64) -> Cases {
        let seeds = options.seeds();
        let index = options.number("--index");
        let count = match index {
            Some(_) => seeds.len() as u64,
            None => options.number("--count").unwrap_or(count),
        };
        let seconds = options.number("--seconds");
        let others = ["--count", "--seconds", "--seed", "--index"];
        Cases {
            seeds,
            count,
            index,
            end: seconds.map(|seconds| Instant::now() + Duration::from_secs(seconds)),
            trace: options.number("--trace").is_some(),
            usual: others.iter().all(|name| options.number(name).is_none()),
        }
    }

    /// Whether single ones are looked at.
    pub fn single(&self) -> bool {
        self.index.is_some()
    }

    /// Tries each case, by its seed and its index. What came of it is added, one after the other, which returns
    /// how many have failed so far; too many end the comparison. Returns whether all cases were tried, and those
    /// that are tried without any option: then it can be judged what came of them.
    pub fn each<T>(
        &self,
        try_one: impl Fn(u64, u64) -> T + Sync,
        add: impl FnMut(T) -> u64 + Send,
    ) -> bool {
        let began = Instant::now();
        let state = Mutex::new((add, 0, false));
        work(|job| {
            let in_time = self.end.is_none_or(|end| Instant::now() < end);
            if job >= self.count || !in_time {
                return false;
            }
            let seeds = self.seeds.len() as u64;
            let seed = self.seeds[(job % seeds) as usize];
            let index = self.index.unwrap_or(job / seeds);
            if self.trace {
                println!("seed {seed}, index {index}");
            }
            let came = try_one(seed, index);
            let (add, tried, stopped) = &mut *state.lock().expect("no worker panics");
            *tried += 1;
            *stopped = add(came) >= STOP_AFTER;
            !*stopped
        });
        let (_, tried, stopped) = state.into_inner().expect("no worker panics");
        let seconds = began.elapsed().as_secs_f64();
        println!("tried {tried} in {seconds:.1} seconds");
        if stopped {
            println!("stopped after {STOP_AFTER} failures");
        }
        self.usual && tried == self.count
    }
}
