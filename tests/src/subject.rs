//! The functions of the library's outside, as a trait: the static library is one subject, the
//! reference another, and the tests of this crate make up wrong ones.
//!
//! Each gives the result code: 0 accepted or present, 255 absent, otherwise the refusal number.

use crate::reference::finder::State;
use crate::reference::halves::{self, Finished};
use crate::reference::{self, finder_steps, Files, Position, Refusal};

pub const ACCEPTED: u32 = 0;
pub const ABSENT: u32 = 255;

pub trait Subject {
    fn show(&self, database: Files, name: &[u8], start: &mut u64, length: &mut u64) -> u32;
    fn search(&self, database: Files, name: &[u8], found: &mut u64, compared: &mut u64) -> u32;
    fn flag(&self, database: Files, name: &[u8], id: &[u8], value: &mut u64) -> u32;
    fn number(&self, database: Files, name: &[u8], id: &[u8], value: &mut u64) -> u32;
    fn string(
        &self,
        database: Files,
        name: &[u8],
        id: &[u8],
        out: &mut [u8],
        count: &mut u64,
    ) -> u32;
    fn list(&self, database: Files, name: &[u8], out: &mut [u8], records: &mut u64) -> u32;
    fn flat(&self, database: Files, name: &[u8], out: &mut [u8], count: &mut u64) -> u32;
    fn batch(
        &self,
        database: Files,
        name: &[u8],
        questions: &[u8],
        out: &mut [u8],
        answers: &mut u64,
    ) -> u32;
    fn repair(
        &self,
        database: &[u8],
        out: &mut [u8],
        records: &mut [u8],
        count: &mut u64,
        removed: &mut u64,
    ) -> u32;
    fn send(
        &self,
        command: &[u8],
        lines: u64,
        speed: u64,
        pad: u8,
        out: &mut [u8],
        count: &mut u64,
    ) -> u32;
    #[allow(clippy::too_many_arguments)]
    fn send_at(
        &self,
        command: &[u8],
        position: Position,
        lines: u64,
        speed: u64,
        pad: u8,
        out: &mut [u8],
        count: &mut u64,
    ) -> u32;
    fn fill(
        &self,
        command: &[u8],
        position: Position,
        out: &mut [u8],
        delay: &mut u64,
        star: &mut u64,
        count: &mut u64,
    ) -> u32;
    #[allow(clippy::too_many_arguments)]
    fn pad(
        &self,
        delay: u64,
        star: u64,
        bytes: &[u8],
        lines: u64,
        speed: u64,
        pad: u8,
        out: &mut [u8],
        count: &mut u64,
    ) -> u32;
    fn finder_open(&self, name: &[u8], finder: &mut State) -> u32;
    fn finder_feed(&self, finder: &mut State, block: &[u8], text: &mut [u8]) -> u32;
    fn finder_end(&self, finder: &mut State, text: &mut [u8]) -> u32;
    fn finder_answer(&self, finder: &State, text: &[u8], out: &mut [u8], count: &mut u64) -> u32;
}

/// The reference, behind the same outside.
pub struct Reference;

/// The code of an operation that always has a value; the number changes only if accepted.
fn accepted(result: Result<usize, Refusal>, number: &mut u64) -> u32 {
    match result {
        Ok(value) => {
            *number = value as u64;
            ACCEPTED
        }
        Err(refusal) => u32::from(refusal),
    }
}

/// The code of an operation that has no value.
fn code(result: Result<(), Refusal>) -> u32 {
    result.map_or_else(u32::from, |()| ACCEPTED)
}

/// The code of a question; the number changes only if present.
fn present(result: Result<Option<u64>, Refusal>, number: &mut u64) -> u32 {
    match result {
        Ok(Some(value)) => {
            *number = value;
            ACCEPTED
        }
        Ok(None) => ABSENT,
        Err(refusal) => u32::from(refusal),
    }
}

impl Subject for Reference {
    fn show(&self, database: Files, name: &[u8], start: &mut u64, length: &mut u64) -> u32 {
        match reference::show(database, name) {
            Ok(part) => {
                *start = part.start as u64;
                *length = part.length as u64;
                ACCEPTED
            }
            Err(refusal) => u32::from(refusal),
        }
    }

    fn search(&self, database: Files, name: &[u8], found: &mut u64, compared: &mut u64) -> u32 {
        match reference::search::search(database, name) {
            Ok(search) => {
                *found = u64::from(search.found);
                *compared = search.compared as u64;
                ACCEPTED
            }
            Err(refusal) => u32::from(refusal),
        }
    }

    fn flag(&self, database: Files, name: &[u8], id: &[u8], value: &mut u64) -> u32 {
        present(reference::flag(database, name, id), value)
    }

    fn number(&self, database: Files, name: &[u8], id: &[u8], value: &mut u64) -> u32 {
        present(reference::number(database, name, id), value)
    }

    fn string(
        &self,
        database: Files,
        name: &[u8],
        id: &[u8],
        out: &mut [u8],
        count: &mut u64,
    ) -> u32 {
        let result = reference::string(database, name, id, out);
        present(result.map(|found| found.map(|bytes| bytes as u64)), count)
    }

    fn list(&self, database: Files, name: &[u8], out: &mut [u8], records: &mut u64) -> u32 {
        accepted(reference::list(database, name, out), records)
    }

    fn flat(&self, database: Files, name: &[u8], out: &mut [u8], count: &mut u64) -> u32 {
        accepted(reference::flat(database, name, out), count)
    }

    fn batch(
        &self,
        database: Files,
        name: &[u8],
        questions: &[u8],
        out: &mut [u8],
        answers: &mut u64,
    ) -> u32 {
        accepted(reference::batch::batch(database, name, questions, out), answers)
    }

    fn repair(
        &self,
        database: &[u8],
        out: &mut [u8],
        records: &mut [u8],
        count: &mut u64,
        removed: &mut u64,
    ) -> u32 {
        match reference::repair::repair(database, out, records) {
            Ok((bytes, number)) => {
                *count = bytes as u64;
                *removed = number as u64;
                ACCEPTED
            }
            Err(refusal) => u32::from(refusal),
        }
    }

    fn send(
        &self,
        command: &[u8],
        lines: u64,
        speed: u64,
        pad: u8,
        out: &mut [u8],
        count: &mut u64,
    ) -> u32 {
        accepted(reference::send(command, lines, speed, pad, out), count)
    }

    fn send_at(
        &self,
        command: &[u8],
        position: Position,
        lines: u64,
        speed: u64,
        pad: u8,
        out: &mut [u8],
        count: &mut u64,
    ) -> u32 {
        accepted(reference::send_at(command, position, lines, speed, pad, out), count)
    }

    fn fill(
        &self,
        command: &[u8],
        position: Position,
        out: &mut [u8],
        delay: &mut u64,
        star: &mut u64,
        count: &mut u64,
    ) -> u32 {
        match halves::fill(command, position, out) {
            Ok(finished) => {
                *delay = finished.delay;
                *star = u64::from(finished.star);
                *count = finished.bytes.len() as u64;
                ACCEPTED
            }
            Err(refusal) => u32::from(refusal),
        }
    }

    fn pad(
        &self,
        delay: u64,
        star: u64,
        bytes: &[u8],
        lines: u64,
        speed: u64,
        pad: u8,
        out: &mut [u8],
        count: &mut u64,
    ) -> u32 {
        let finished = Finished { delay, star: star != 0, bytes: bytes.to_vec() };
        accepted(halves::pad(&finished, lines, speed, pad, out), count)
    }

    fn finder_open(&self, name: &[u8], finder: &mut State) -> u32 {
        code(finder_steps::open(name, finder))
    }

    fn finder_feed(&self, finder: &mut State, block: &[u8], text: &mut [u8]) -> u32 {
        code(finder_steps::feed(finder, block, text))
    }

    fn finder_end(&self, finder: &mut State, text: &mut [u8]) -> u32 {
        code(finder_steps::end(finder, text))
    }

    fn finder_answer(&self, finder: &State, text: &[u8], out: &mut [u8], count: &mut u64) -> u32 {
        accepted(finder_steps::answer(finder, text, out), count)
    }
}
