//! For tests: the reference, with its answers spoiled on the way out.

use crate::case::Operation;
use crate::reference::finder::State;
use crate::reference::{Files, Position};
use crate::subject::{Reference, Subject};

/// What the reference answered. For Show the number is the length, for the search the count.
pub struct Answer<'a> {
    pub operation: Operation,
    pub code: u32,
    pub number: &'a mut u64,
    pub out: &'a mut [u8],
    /// The state of a finder that was fed or ended; the buffer is then its text, and the number none.
    pub finder: Option<&'a mut State>,
}

/// The function may change number, buffer and state, and gives the code to be returned.
pub struct Twisted<F: Fn(Answer) -> u32>(pub F);

impl<F: Fn(Answer) -> u32> Subject for Twisted<F> {
    fn show(&self, database: Files, name: &[u8], start: &mut u64, length: &mut u64) -> u32 {
        let code = Reference.show(database, name, start, length);
        (self.0)(Answer {
            operation: Operation::Show,
            code,
            number: length,
            out: &mut [],
            finder: None,
        })
    }

    fn search(&self, database: Files, name: &[u8], found: &mut u64, compared: &mut u64) -> u32 {
        let code = Reference.search(database, name, found, compared);
        (self.0)(Answer {
            operation: Operation::Search,
            code,
            number: compared,
            out: &mut [],
            finder: None,
        })
    }

    fn flag(&self, database: Files, name: &[u8], id: &[u8], value: &mut u64) -> u32 {
        let code = Reference.flag(database, name, id, value);
        (self.0)(Answer {
            operation: Operation::Flag,
            code,
            number: value,
            out: &mut [],
            finder: None,
        })
    }

    fn number(&self, database: Files, name: &[u8], id: &[u8], value: &mut u64) -> u32 {
        let code = Reference.number(database, name, id, value);
        (self.0)(Answer {
            operation: Operation::Number,
            code,
            number: value,
            out: &mut [],
            finder: None,
        })
    }

    fn string(
        &self,
        database: Files,
        name: &[u8],
        id: &[u8],
        out: &mut [u8],
        count: &mut u64,
    ) -> u32 {
        let code = Reference.string(database, name, id, out, count);
        (self.0)(Answer { operation: Operation::String, code, number: count, out, finder: None })
    }

    fn list(&self, database: Files, name: &[u8], out: &mut [u8], records: &mut u64) -> u32 {
        let code = Reference.list(database, name, out, records);
        (self.0)(Answer { operation: Operation::List, code, number: records, out, finder: None })
    }

    fn flat(&self, database: Files, name: &[u8], out: &mut [u8], count: &mut u64) -> u32 {
        let code = Reference.flat(database, name, out, count);
        (self.0)(Answer { operation: Operation::Flat, code, number: count, out, finder: None })
    }

    fn batch(
        &self,
        database: Files,
        name: &[u8],
        questions: &[u8],
        out: &mut [u8],
        answers: &mut u64,
    ) -> u32 {
        let code = Reference.batch(database, name, questions, out, answers);
        (self.0)(Answer { operation: Operation::Batch, code, number: answers, out, finder: None })
    }

    fn repair(
        &self,
        database: &[u8],
        out: &mut [u8],
        records: &mut [u8],
        count: &mut u64,
        removed: &mut u64,
    ) -> u32 {
        let code = Reference.repair(database, out, records, count, removed);
        (self.0)(Answer { operation: Operation::Repair, code, number: count, out, finder: None })
    }

    fn send(
        &self,
        command: &[u8],
        lines: u64,
        speed: u64,
        pad: u8,
        out: &mut [u8],
        count: &mut u64,
    ) -> u32 {
        let code = Reference.send(command, lines, speed, pad, out, count);
        (self.0)(Answer { operation: Operation::Send, code, number: count, out, finder: None })
    }

    fn send_at(
        &self,
        command: &[u8],
        position: Position,
        lines: u64,
        speed: u64,
        pad: u8,
        out: &mut [u8],
        count: &mut u64,
    ) -> u32 {
        let code = Reference.send_at(command, position, lines, speed, pad, out, count);
        (self.0)(Answer { operation: Operation::SendAt, code, number: count, out, finder: None })
    }

    fn fill(
        &self,
        command: &[u8],
        position: Position,
        out: &mut [u8],
        delay: &mut u64,
        star: &mut u64,
        count: &mut u64,
    ) -> u32 {
        let code = Reference.fill(command, position, out, delay, star, count);
        (self.0)(Answer { operation: Operation::Fill, code, number: count, out, finder: None })
    }

    fn pad(
        &self,
        delay: u64,
        star: u64,
        bytes: &[u8],
        lines: u64,
        speed: u64,
        pad: u8,
        out: &mut [u8],
        count: &mut u64,
    ) -> u32 {
        let code = Reference.pad(delay, star, bytes, lines, speed, pad, out, count);
        (self.0)(Answer { operation: Operation::Pad, code, number: count, out, finder: None })
    }

    fn finder_open(&self, name: &[u8], finder: &mut State) -> u32 {
        Reference.finder_open(name, finder)
    }

    fn finder_feed(&self, finder: &mut State, block: &[u8], text: &mut [u8]) -> u32 {
        let code = Reference.finder_feed(finder, block, text);
        let (operation, number) = (Operation::Finder, &mut 0);
        (self.0)(Answer { operation, code, number, out: text, finder: Some(finder) })
    }

    fn finder_end(&self, finder: &mut State, text: &mut [u8]) -> u32 {
        let code = Reference.finder_end(finder, text);
        let (operation, number) = (Operation::Finder, &mut 0);
        (self.0)(Answer { operation, code, number, out: text, finder: Some(finder) })
    }

    fn finder_answer(&self, finder: &State, text: &[u8], out: &mut [u8], count: &mut u64) -> u32 {
        let code = Reference.finder_answer(finder, text, out, count);
        (self.0)(Answer { operation: Operation::Finder, code, number: count, out, finder: None })
    }
}
