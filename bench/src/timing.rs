//! Times of several calls in the same run.

use std::hint::black_box;
use std::time::{Duration, Instant};

/// Rounds: in each, every call is sampled once.
pub const ROUNDS: usize = 101;

/// About how long one sample takes.
pub const SAMPLE: Duration = Duration::from_millis(1);

/// A call to time: makes it as often as it is told.
pub type Timed<'a> = Box<dyn FnMut(u64) + 'a>;

/// The loop is around the call itself, so that the box costs nothing for each.
pub fn timed<'a, T>(mut call: impl FnMut() -> T + 'a) -> Timed<'a> {
    Box::new(move |times| {
        for _ in 0..times {
            black_box(call());
        }
    })
}

fn sample(call: &mut Timed, times: u64) -> Duration {
    let start = Instant::now();
    call(times);
    start.elapsed()
}

/// How many calls make a sample.
fn times_for_a_sample(call: &mut Timed) -> u64 {
    let mut times = 1;
    loop {
        let taken = sample(call, times);
        if taken >= SAMPLE / 4 {
            let each = taken.as_secs_f64() / times as f64;
            return (SAMPLE.as_secs_f64() / each).ceil() as u64;
        }
        times *= 2;
    }
}

fn median(values: impl Iterator<Item = f64>) -> f64 {
    let mut values: Vec<f64> = values.collect();
    values.sort_by(f64::total_cmp);
    values[values.len() / 2]
}

/// The samples of several calls, in nanoseconds for each call made.
pub struct Samples {
    /// For each call its samples, round by round.
    rounds: Vec<Vec<f64>>,
}

impl Samples {
    /// Rounds are interleaved, so that a slow moment of the machine meets all
    /// calls alike, and each round starts with another call.
    pub fn of(mut calls: Vec<Timed>) -> Samples {
        let times: Vec<u64> = calls.iter_mut().map(times_for_a_sample).collect();
        let mut rounds = vec![Vec::new(); calls.len()];
        for round in 0..ROUNDS {
            for i in 0..calls.len() {
                let turn = (i + round) % calls.len();
                let taken = sample(&mut calls[turn], times[turn]);
                rounds[turn].push(taken.as_secs_f64() * 1e9 / times[turn] as f64);
            }
        }
        Samples { rounds }
    }

    /// The median time of a call.
    pub fn nanoseconds(&self, call: usize) -> f64 {
        median(self.rounds[call].iter().copied())
    }

    /// The median over the rounds of one call's time to another's. Within a
    /// round the machine's speed changes little; over all rounds it may.
    pub fn ratio(&self, call: usize, to: usize) -> f64 {
        let pairs = self.rounds[call].iter().zip(&self.rounds[to]);
        median(pairs.map(|(time, other)| time / other))
    }
}
