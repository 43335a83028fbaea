//! Send at on commands of 100,000,000 bytes, in a thread whose stack has 64 KiB: the two steps that
//! call each other must not nest as deep as the command is long.

use std::process::ExitCode;
use std::thread;

use termcap_tests::reference::Position;
use termcap_tests::subject::{Subject, ACCEPTED};

#[path = "../library.rs"]
mod library;

const STACK: usize = 65_536;
const MOST: usize = 100_000_000;

/// A command of one part repeated, and what the part is sent as.
const COMMANDS: [(&[u8], &[u8]); 4] = [
    (b"x", b"x"),
    // A sequence and a plain byte alternate: the steps call each other most often.
    (b"%%a", b"%a"),
    (b"%>zza", b"a"),
    // Sequences that follow each other.
    (b"%>zz", b""),
];

fn main() -> ExitCode {
    for (part, sent) in COMMANDS {
        let name = String::from_utf8_lossy(part);
        let caller = thread::Builder::new().stack_size(STACK);
        let sending = caller.spawn(move || is_sent(part, sent)).expect("a thread can be started");
        if !sending.join().unwrap_or(false) {
            println!("long_commands: {name:?} repeated is not sent as it should be");
            return ExitCode::FAILURE;
        }
    }
    println!(
        "long_commands: {} commands of up to {MOST} bytes on a stack of {STACK}",
        COMMANDS.len()
    );
    ExitCode::SUCCESS
}

fn is_sent(part: &[u8], sent: &[u8]) -> bool {
    let times = MOST / part.len();
    let mut out = vec![0; times * sent.len()];
    let mut count = 0;
    // The row is not above z, so that no number leaves its range.
    let position = Position { row: 1, column: 2, back: b"", up: b"" };
    let command = part.repeat(times);
    let code = library::Library.send_at(&command, position, 1, 9_600, 0, &mut out, &mut count);
    code == ACCEPTED && count == out.len() as u64 && out == sent.repeat(times)
}
