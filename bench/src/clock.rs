//! The least times of calls that are made again and again, in turn.

use std::hint::black_box;
use std::time::{Duration, Instant};

/// One call on the machine with a number.
pub type Run<'a> = Box<dyn FnMut(usize) -> Duration + 'a>;

/// A call under the clock. What it leaves is dropped when the clock has stopped.
pub fn timed<'a, T>(call: impl FnMut(usize) -> T + 'a) -> Run<'a> {
    timed_on(|machine| machine, call)
}

/// The same, on what is made of the number before the clock starts.
pub fn timed_on<'a, S, T>(
    mut made: impl FnMut(usize) -> S + 'a,
    mut call: impl FnMut(S) -> T + 'a,
) -> Run<'a> {
    Box::new(move |machine| {
        let made = made(machine);
        let begun = Instant::now();
        let left = black_box(call(made));
        let time = begun.elapsed();
        drop(left);
        time
    })
}

/// A call under the clock, straight after the same call without it, which fetches all that it reads and writes.
pub fn repeated<'a, T>(call: impl Fn(usize) -> T + Copy + 'a) -> Run<'a> {
    let first = move |machine| {
        drop(black_box(call(machine)));
        machine
    };
    timed_on(first, call)
}

/// How often each call is made at the least.
const FEWEST: usize = 2;

/// Makes the calls in turn on the first machine, then on the next, round and round until the time is up, so that what else the
/// computer does falls on all of them. For each call the mean, over the machines, of its least time, in microseconds.
pub fn rounds(runs: &mut [Run], machines: usize, time: Duration) -> Vec<f64> {
    let mut least = vec![vec![Duration::MAX; machines]; runs.len()];
    let begun = Instant::now();
    let mut round = 0;
    while round < FEWEST || begun.elapsed() < time {
        for machine in 0..machines {
            for (run, least) in runs.iter_mut().zip(&mut least) {
                least[machine] = least[machine].min(run(machine));
            }
        }
        round += 1;
    }
    least.iter().map(|times| mean(times)).collect()
}

fn mean(times: &[Duration]) -> f64 {
    let sum: Duration = times.iter().sum();
    sum.as_secs_f64() * 1e6 / times.len() as f64
}

/// Least times in microseconds, one for each contender; none for those that are not there, which stand last.
#[derive(Clone)]
pub struct Times(Vec<Option<f64>>);

impl Times {
    pub fn of(mut runs: Vec<Run>, contenders: usize, machines: usize, time: Duration) -> Self {
        let least = rounds(&mut runs, machines, time);
        let mut times: Vec<Option<f64>> = least.into_iter().map(Some).collect();
        times.resize(contenders, None);
        Self(times)
    }

    pub fn lesser(&self, other: &Self) -> Self {
        let pairs = self.0.iter().zip(&other.0);
        Self(
            pairs
                .map(|(a, b)| a.zip(*b).map(|(a, b)| a.min(b)))
                .collect(),
        )
    }

    /// The time of a contender that is there.
    pub fn at(&self, contender: usize) -> f64 {
        self.0[contender].expect("a time")
    }

    /// The times as cells of a table.
    pub fn cells(&self) -> String {
        let cell = |time: &Option<f64>| time.map_or("-".to_string(), |time| format!("{time:.1}"));
        let cells: Vec<String> = self.0.iter().map(cell).collect();
        cells.join(" | ")
    }

    /// How many times as long as the other one contender takes, as a cell.
    pub fn ratio(&self, one: usize, other: usize) -> String {
        let pair = self.0[one].zip(self.0[other]);
        pair.map_or("-".to_string(), |(a, b)| format!("{:.2}", a / b))
    }
}
