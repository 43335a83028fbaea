//! The table of hostile inputs: the time for each byte that the rules make one read.

use std::time::Duration;

use termcap_tests::reference::Files;
use termcap_tests::subject::{Subject, ACCEPTED};

use crate::contender::{Contender, Row, Wanted};
use crate::databases::hostile::{Hostile, ID};
use crate::library::Library;
use crate::main_table::time;
use crate::question::{Reading, ROOM};
use crate::rows;
use crate::targets::Targets;
use crate::timing;

const BUDGET: Duration = Duration::from_millis(100);

pub fn row(hostile: &Hostile) -> Row<'_> {
    let mut searched: Vec<&[u8]> = vec![&hostile.asked];
    searched.extend(hostile.linked.iter().map(Vec::as_slice));
    rows::reading(hostile.name, hostile.reading, &hostile.database, &hostile.asked, ID, &searched)
}

pub fn print(rows: &[Row], targets: &mut Targets) {
    println!("\nHostile inputs");
    println!(
        "Read are: the database up to the found line's end or its own, once for each search; and"
    );
    println!(
        "the lines of the chain. An answer of 0 is accepted, 255 absent, others are refusals.\n"
    );
    println!(
        "  {:44} {:>9} {:>10} {:>7} {:>10} {:>8}",
        "", "bytes", "read", "answer", "time", "ns/byte"
    );
    let mut worst: f64 = 0.0;
    for row in rows {
        worst = worst.max(print_row(row));
    }
    let verdict = targets.judge("Hostile inputs", "ns per byte", worst);
    println!(
        "  {:44} {:>9} {:>10} {:>7} {:>10} {worst:>8.3}{verdict}",
        "the slowest", "", "", "", ""
    );
}

/// Gives the nanoseconds per byte read.
fn print_row(row: &Row) -> f64 {
    let code = row.questions[0].ask(&Library, &mut vec![0; ROOM]).code;
    let read: usize = row.searches.iter().map(|wanted| bytes_read(*wanted)).sum();
    let read = if is_show(row) { read } else { read + chain_bytes(row) };
    let taken = timing::medians(vec![(Contender::Ours, row)], BUDGET)[0];
    let per_byte = taken / read as f64;
    println!(
        "  {:44} {:>9} {read:>10} {code:>7} {:>10} {per_byte:>8.3}",
        row.name,
        row.searches[0].database.len(),
        time(taken)
    );
    per_byte
}

fn is_show(row: &Row) -> bool {
    use crate::question::Question::Read;
    matches!(row.questions[0], Read { reading: Reading::Show, .. })
}

/// The bytes up to the end of the line that holds the name; all, if there is none.
fn bytes_read(wanted: Wanted) -> usize {
    found(wanted).map_or(wanted.database.len(), |(start, length)| start + length)
}

/// The bytes of the lines that are judged.
fn chain_bytes(row: &Row) -> usize {
    row.searches.iter().filter_map(|wanted| found(*wanted)).map(|(_, length)| length).sum()
}

fn found(wanted: Wanted) -> Option<(usize, usize)> {
    let (mut start, mut length) = (0, 0);
    let code = Library.show(Files::alone(wanted.database), wanted.name, &mut start, &mut length);
    (code == ACCEPTED).then_some((start as usize, length as usize))
}
