//! Finds a terminal in a stream of any length with less than 20 KB of memory, and prints its line and
//! its width. From this package's folder:
//!
//! ```text
//! cargo run --offline --example find_in_stream oven-panel ../../data/sample.tc
//! ```
//!
//! `/dev/stdin` as the file is standard input.

use std::fs::File;
use std::process::ExitCode;

use termcap_proved::{Database, Finder, FINDER_TEXT_BYTES};

const BLOCK: usize = 2_048;

/// All that is lent: a file has no buffer of its own.
const MEMORY: usize = size_of::<Finder>() + FINDER_TEXT_BYTES + BLOCK;
const _: () = assert!(MEMORY < 20_000);

fn main() -> ExitCode {
    let arguments: Vec<String> = std::env::args().skip(1).collect();
    let [terminal, path] = &arguments[..] else {
        eprintln!("usage: find_in_stream TERMINAL DATABASE");
        return ExitCode::from(2);
    };
    match find(terminal, path) {
        Ok(found) => ExitCode::from(u8::from(!found)),
        Err(error) => {
            eprintln!("{path}: {error}");
            ExitCode::from(2)
        }
    }
}

/// Whether the terminal was found.
fn find(terminal: &str, path: &str) -> std::io::Result<bool> {
    let (mut text, mut block) = ([0; FINDER_TEXT_BYTES], [0; BLOCK]);
    let found = match Finder::new(terminal, &mut text) {
        Ok(mut finder) => {
            finder.feed_from(File::open(path)?, &mut block)?;
            finder.finish()
        }
        Err(refusal) => Err(refusal),
    };
    match found {
        Ok(line) => print(terminal, line),
        Err(refusal) => println!("{terminal}: refused, {}: {refusal}", refusal.number()),
    }
    Ok(found.is_ok())
}

/// The line is a database of its own. A link in it leads out of it: it takes another finder.
fn print(terminal: &str, line: &[u8]) {
    println!("{terminal}: a line of {} bytes", line.len());
    println!("{}", line.escape_ascii());
    match Database::new(line).number(terminal, "co") {
        Ok(Some(columns)) => println!("co: {columns} columns"),
        Ok(None) => println!("co: absent"),
        Err(refusal) => println!("co: refused, {}: {refusal}", refusal.number()),
    }
}
