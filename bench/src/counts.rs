//! Instructions of a call, counted by callgrind: unlike times, they hardly differ between runs.

use std::io;
use std::process::{Child, Command, Stdio};

use crate::contender::{Contender, Row};
use crate::question::ROOM;
use crate::targets::Targets;

const CELL: usize = 20;

/// What is counted: so many passes of one contender through all questions of a row.
pub fn passes(row: &Row, contender: Contender, passes: usize) {
    let mut out = vec![0; ROOM];
    for turn in 0..passes * row.questions.len() {
        contender.take(row, turn, &mut out);
    }
}

/// The row's contenders but for the reference: it takes too long to count, and much of it is the
/// allocator's.
fn counted(row: &Row) -> Vec<Contender> {
    row.contenders().into_iter().filter(|one| *one != Contender::Rust).collect()
}

/// Rows with the same contenders.
pub fn print(title: &str, rows: &[Row], targets: &mut Targets) {
    println!("\nInstructions a call, and those of each rival as a multiple of ours: {title}");
    let version = Command::new("valgrind").arg("--version").stdout(Stdio::null()).status();
    if !version.is_ok_and(|status| status.success()) {
        println!("  not counted: valgrind is not there");
        return;
    }
    print!("\n  {:26}", "");
    counted(&rows[0]).iter().for_each(|one| print!(" {:>CELL$}", one.name()));
    println!();
    for row in rows {
        match counted(row).iter().map(|one| count(row, *one)).collect::<Option<Vec<f64>>>() {
            Some(counts) => print_row(row, &counts, targets),
            None => println!("  {:26} not counted: valgrind failed", row.name),
        }
    }
}

fn print_row(row: &Row, counts: &[f64], targets: &mut Targets) {
    print!("  {:26}", row.name);
    for (place, count) in counts.iter().enumerate() {
        let ratio = if place == 0 { String::new() } else { format!("{:.2}", count / counts[0]) };
        print!(" {:>CELL$}", format!("{count:.0} {ratio:>7}"));
    }
    println!("{}", targets.judge(&row.name, "instructions", counts[0]));
}

/// Instructions a question: those of two passes without those of one, so that making the database
/// does not count.
fn count(row: &Row, contender: Contender) -> Option<f64> {
    let once = start(row, contender, "1").ok()?;
    let twice = start(row, contender, "2").ok()?;
    let (once, twice) = (collected(once)?, collected(twice)?);
    Some((twice - once) / row.questions.len() as f64)
}

/// This program under callgrind.
fn start(row: &Row, contender: Contender, passes: &str) -> io::Result<Child> {
    Command::new("valgrind")
        .args(["--tool=callgrind", "--callgrind-out-file=/dev/null"])
        .arg(std::env::current_exe()?)
        .args(["--count", &row.name, contender.name(), passes])
        .stdout(Stdio::null())
        .stderr(Stdio::piped())
        .spawn()
}

/// The number in callgrind's last words, `Collected : 123`.
fn collected(child: Child) -> Option<f64> {
    let output = child.wait_with_output().ok().filter(|output| output.status.success())?;
    let words = String::from_utf8(output.stderr).ok()?;
    let line = words.lines().rev().find(|line| line.contains("Collected :"))?;
    line.rsplit(' ').next()?.parse().ok()
}
