//! The table of batches: a screenful of questions in one call, beside the same questions put alone.

use std::time::{Duration, Instant};

use termcap_tests::reference::batch::{ANSWER_BYTES, QUESTION_BYTES};
use termcap_tests::reference::{list_bytes, Files, RECORD_BYTES};
use termcap_tests::subject::{Reference, Subject};

use crate::agreement::Checked;
use crate::databases::large::Large;
use crate::databases::small;
use crate::library::Library;
use crate::main_table::time;
use crate::targets::Targets;

/// A screenful.
const QUESTIONS: usize = 50;
/// Calls of a sample, so that the clock's own time does not count.
const CALLS: usize = 8;
const ROUNDS: usize = 201;
/// The longest string that is asked for here is far shorter.
const ROOM: usize = 1_000;

/// Ids that no terminal here has, for the questions that are left.
const ABSENT: [&[u8; 2]; 4] = [b"zz", b"Zz", b"~~", b"!!"];

/// Questions about one terminal.
pub struct Batch<'a> {
    name: String,
    database: Files<'a>,
    terminal: &'a [u8],
    questions: Vec<u8>,
}

pub fn all(large: &Large) -> Vec<Batch<'_>> {
    vec![
        batch("small", small::BYTES, small::NAME),
        batch("large", &large.bytes, large.middle().usual_name()),
    ]
}

/// What the terminal has, and then what it has not.
fn batch<'a>(name: &str, database: &'a [u8], terminal: &'a [u8]) -> Batch<'a> {
    let database = Files::alone(database);
    let records = list_bytes(database, terminal).expect("the terminal is there");
    let present = records.chunks(RECORD_BYTES).map(|record| [record[0], record[1], record[2], 0]);
    let absent = ABSENT.iter().cycle().map(|id| [id[0], id[1], 1, 0]);
    let questions = present.chain(absent).take(QUESTIONS).flatten().collect();
    Batch { name: format!("Batch of {QUESTIONS}, {name}"), database, terminal, questions }
}

/// Ours and the reference write the same bytes.
pub fn check(batches: &[Batch]) -> Checked {
    for batch in batches {
        let mut ours = vec![1; QUESTIONS * ANSWER_BYTES];
        let mut expected = ours.clone();
        let codes =
            [together(batch, &Library, &mut ours), together(batch, &Reference, &mut expected)];
        if codes != [0, 0] || ours != expected {
            return Err(format!("{}: the answers differ", batch.name));
        }
    }
    Ok(())
}

fn together(batch: &Batch, subject: &impl Subject, out: &mut [u8]) -> u32 {
    subject.batch(batch.database, batch.terminal, &batch.questions, out, &mut 0)
}

/// The same questions one by one.
fn alone(batch: &Batch, subject: &impl Subject, out: &mut [u8]) {
    let &Batch { database, terminal, ref questions, .. } = batch;
    for question in questions.chunks(QUESTION_BYTES) {
        let id = &question[..2];
        match question[2] {
            1 => subject.flag(database, terminal, id, &mut 0),
            2 => subject.number(database, terminal, id, &mut 0),
            _ => subject.string(database, terminal, id, out, &mut 0),
        };
    }
}

pub fn print(batches: &[Batch], targets: &mut Targets) {
    println!("\n{QUESTIONS} questions in one batch; times: the same put alone take as long\n");
    println!("  {:24} {:>10} {:>10} {:>6}", "", "batch", "put alone", "times");
    for batch in batches {
        let [ours, others] = medians(batch);
        let times = others / ours;
        let verdict = targets.judge(&batch.name, "put alone", times);
        println!(
            "  {:24} {:>10} {:>10} {times:>6.2}{verdict}",
            batch.name,
            time(ours),
            time(others)
        );
    }
}

/// The median of both in nanoseconds; they take turns.
fn medians(batch: &Batch) -> [f64; 2] {
    let mut out = vec![1; ROOM];
    let mut samples = [Vec::new(), Vec::new()];
    for _ in 0..ROUNDS {
        samples[0].push(sample(|| {
            together(batch, &Library, &mut out);
        }));
        samples[1].push(sample(|| alone(batch, &Library, &mut out)));
    }
    samples.map(|mut times| {
        times.sort();
        times[times.len() / 2].as_nanos() as f64 / CALLS as f64
    })
}

fn sample(mut call: impl FnMut()) -> Duration {
    call();
    let start = Instant::now();
    for _ in 0..CALLS {
        call();
    }
    start.elapsed()
}
