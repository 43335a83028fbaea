//! The table of repairs: the time for each byte, and beside that of an ordinary file.

use std::time::Instant;

use termcap_tests::subject::{Reference, Subject};

use crate::agreement::Checked;
use crate::databases::repairs::Repair;
use crate::library::Library;
use crate::main_table::time;
use crate::targets::Targets;

const ROUNDS: usize = 9;

/// What a repair left behind.
#[derive(PartialEq, Eq)]
struct Repaired {
    code: u32,
    numbers: [u64; 2],
    text: Vec<u8>,
    records: Vec<u8>,
}

/// Ours and the reference write the same bytes.
pub fn check(repairs: &[Repair]) -> Checked {
    for Repair { name, database } in repairs {
        if call(&Library, database) != call(&Reference, database) {
            return Err(format!("{name}: the repairs differ"));
        }
    }
    Ok(())
}

fn call(subject: &impl Subject, database: &[u8]) -> Repaired {
    let (mut text, mut records) = buffers(database);
    let [mut count, mut removed] = [0, 0];
    let code = subject.repair(database, &mut text, &mut records, &mut count, &mut removed);
    Repaired { code, numbers: [count, removed], text, records }
}

/// Room that is always enough.
fn buffers(database: &[u8]) -> (Vec<u8>, Vec<u8>) {
    (vec![0; database.len()], vec![0; 8 * (database.len() + 1)])
}

pub fn print(repairs: &[Repair], targets: &mut Targets) {
    println!("\nRepair, in buffers that are always enough; times: beside the ordinary file\n");
    println!(
        "  {:48} {:>9} {:>8} {:>10} {:>8} {:>6}",
        "", "bytes", "removed", "time", "ns/byte", "times"
    );
    let taken = medians(repairs);
    for (Repair { name, database }, nanoseconds) in repairs.iter().zip(&taken) {
        let removed = call(&Library, database).numbers[1];
        let per_byte = nanoseconds / database.len() as f64;
        let times = nanoseconds / taken[0];
        let row = format!("Repair, {name}");
        let verdict = [
            targets.judge(&row, "ns per byte", per_byte),
            targets.judge(&row, "the ordinary file", times),
        ]
        .concat();
        println!(
            "  {name:48} {:>9} {removed:>8} {:>10} {per_byte:>8.2} {times:>6.2}{verdict}",
            database.len(),
            time(*nanoseconds)
        );
    }
}

/// The median of each in nanoseconds; they take turns.
fn medians(repairs: &[Repair]) -> Vec<f64> {
    let mut samples = vec![Vec::new(); repairs.len()];
    for _ in 0..ROUNDS {
        for (Repair { database, .. }, samples) in repairs.iter().zip(&mut samples) {
            let (mut text, mut records) = buffers(database);
            // The buffers' pages are touched before.
            text.fill(1);
            records.fill(1);
            let start = Instant::now();
            Library.repair(database, &mut text, &mut records, &mut 0, &mut 0);
            samples.push(start.elapsed().as_nanos() as f64);
        }
    }
    let median = |mut times: Vec<f64>| {
        times.sort_by(f64::total_cmp);
        times[times.len() / 2]
    };
    samples.into_iter().map(median).collect()
}
