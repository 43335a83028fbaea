//! One call of one operation with its inputs, asked of any implementation.

use termcap_tests::reference::{Files, Position};
use termcap_tests::subject::Subject;

use crate::plain_c;

#[derive(Clone, Copy, Debug, PartialEq, Eq)]
pub enum Reading {
    Show,
    Flag,
    Number,
    String,
    List,
    Flat,
}

#[derive(Clone, Copy, Debug)]
pub enum Question<'a> {
    /// The id is not looked at by Show, List and Flat.
    Read {
        reading: Reading,
        database: Files<'a>,
        name: &'a [u8],
        id: &'a [u8],
    },
    Send {
        command: &'a [u8],
        speed: u64,
    },
    SendAt {
        command: &'a [u8],
        position: Position<'a>,
    },
}

/// The result code and the numbers; bytes are in the buffer.
#[derive(Clone, Copy, Debug, PartialEq, Eq)]
pub struct Answer {
    pub code: u32,
    pub numbers: [u64; 2],
}

/// Bytes of a buffer that every output fits.
pub const ROOM: usize = 65_520;

const LINES: u64 = 1;
const SPEED: u64 = 9_600;
const PAD: u8 = 0;

impl Question<'_> {
    pub fn ask<S: Subject>(&self, subject: &S, out: &mut [u8]) -> Answer {
        let mut numbers = [0, 0];
        let [first, second] = &mut numbers;
        let code = match *self {
            Question::Read { reading, database, name, id } => match reading {
                Reading::Show => subject.show(database, name, first, second),
                Reading::Flag => subject.flag(database, name, id, first),
                Reading::Number => subject.number(database, name, id, first),
                Reading::String => subject.string(database, name, id, out, first),
                Reading::List => subject.list(database, name, out, first),
                Reading::Flat => subject.flat(database, name, out, first),
            },
            Question::Send { command, speed } => {
                subject.send(command, LINES, speed, PAD, out, first)
            }
            Question::SendAt { command, position } => {
                subject.send_at(command, position, LINES, SPEED, PAD, out, first)
            }
        };
        Answer { code, numbers }
    }
    /// The same by the loop in C, which only sends: the number of bytes that it wrote, if it can.
    pub fn send_plainly(&self, out: &mut [u8]) -> Option<usize> {
        match *self {
            Question::Read { .. } => None,
            Question::Send { command, speed } => {
                Some(plain_c::send(command, LINES, speed, PAD, out))
            }
            Question::SendAt { command, position } => {
                Some(plain_c::send_at(command, position, LINES, SPEED, PAD, out))
            }
        }
    }
}
