//! An absent name in one file, and in the same bytes as eight files.

use std::time::Duration;

use termcap_tests::reference::Files;

use crate::contender::{Contender, Row};
use crate::main_table::time;
use crate::question::{Question, Reading};
use crate::rows::ABSENT;
use crate::targets::Targets;
use crate::timing;

const BUDGET: Duration = Duration::from_millis(500);
const FILES: usize = 8;
const ROW: &str = "Show, absent name, 8 files";

/// Files of the same length; the last one takes what is left.
fn ends(database: &[u8]) -> Vec<usize> {
    let mut ends: Vec<usize> = (1..=FILES).map(|file| database.len() / FILES * file).collect();
    ends[FILES - 1] = database.len();
    ends
}

fn shows<'a>(name: &str, database: Files<'a>) -> Row<'a> {
    let show = |name: &&'static str| Question::Read {
        reading: Reading::Show,
        database,
        name: name.as_bytes(),
        id: b"",
    };
    let questions = ABSENT.iter().map(show).collect();
    Row { name: name.to_string(), questions, searches: Vec::new() }
}

pub fn print(database: &[u8], targets: &mut Targets) {
    let ends = ends(database);
    let one = shows("one file", Files::alone(database));
    let eight = shows(ROW, Files { bytes: database, ends: Some(&ends) });
    let runs = vec![(Contender::Ours, &one), (Contender::Ours, &eight)];
    let taken = timing::medians(runs, BUDGET);
    let ratio = taken[1] / taken[0];
    let verdict = targets.judge(ROW, "one file", ratio);
    println!("\nSeveral files");
    println!("The same {} bytes as one file and as {FILES}.\n", database.len());
    println!("  {:44} {:>10}", one.name, time(taken[0]));
    println!("  {:44} {:>10} {ratio:>8.3}{verdict}", eight.name, time(taken[1]));
}
