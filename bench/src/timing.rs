//! Medians of interleaved samples.

use std::time::{Duration, Instant};

use crate::contender::{Contender, Row};
use crate::question::ROOM;

/// A sample is at least this long, so that the clock's own time does not count.
const SAMPLE: Duration = Duration::from_micros(25);
const FEWEST_ROUNDS: usize = 9;
const MOST_ROUNDS: usize = 401;

/// One contender's way through one row.
pub type Run<'a> = (Contender, &'a Row<'a>);

/// Runs that take turns, and the samples that were taken of each.
pub struct Measurement<'a> {
    runs: Vec<Run<'a>>,
    /// How many questions a sample of each run has.
    counts: Vec<usize>,
    samples: Vec<Vec<Duration>>,
}

impl<'a> Measurement<'a> {
    pub fn new(runs: Vec<Run<'a>>) -> Measurement<'a> {
        let mut out = vec![0; ROOM];
        let counts = runs.iter().map(|run| questions_a_sample(*run, &mut out)).collect();
        let samples = vec![Vec::new(); runs.len()];
        Measurement { runs, counts, samples }
    }

    /// More samples, for about so long. The runs take turns, round by round, so that a slow moment
    /// of the machine meets all of them.
    pub fn visit(&mut self, budget: Duration) {
        let mut out = vec![0; ROOM];
        let start = Instant::now();
        let mut round = 0;
        while round < FEWEST_ROUNDS || (round < MOST_ROUNDS && start.elapsed() < budget) {
            for ((run, count), samples) in self.runs.iter().zip(&self.counts).zip(&mut self.samples)
            {
                let turn = samples.len();
                samples.push(sample(*run, turn, *count, &mut out));
            }
            round += 1;
        }
    }

    /// The median time of each run in nanoseconds a question.
    pub fn medians(self) -> Vec<f64> {
        let a_question = |(samples, count)| median(samples).as_nanos() as f64 / count as f64;
        self.samples.into_iter().zip(self.counts).map(a_question).collect()
    }
}

/// The medians of one visit.
pub fn medians(runs: Vec<Run>, budget: Duration) -> Vec<f64> {
    let mut measurement = Measurement::new(runs);
    measurement.visit(budget);
    measurement.medians()
}

fn questions_a_sample(run: Run, out: &mut [u8]) -> usize {
    let mut count = 1;
    while sample(run, 0, count, out) < SAMPLE {
        count *= 2;
    }
    count
}

/// The time of so many questions. One more before them is not timed: whatever ran before, the
/// database is then as near to the processor as it gets.
fn sample((contender, row): Run, first: usize, count: usize, out: &mut [u8]) -> Duration {
    contender.take(row, first, out);
    let start = Instant::now();
    for turn in first..first + count {
        contender.take(row, turn, out);
    }
    start.elapsed()
}

fn median(mut times: Vec<Duration>) -> Duration {
    times.sort();
    times[times.len() / 2]
}
