//! The rows of the main table.

use termcap_tests::reference::{Files, Position};

use crate::contender::{Row, Wanted};
use crate::databases::large::{Large, CHAIN, CHAIN_FLAG};
use crate::databases::small;
use crate::question::{Question, Reading};

pub struct Group<'a> {
    pub title: &'static str,
    pub rows: Vec<Row<'a>>,
}

/// Names of 5 to 16 bytes that no database here has.
pub const ABSENT: [&str; 12] = [
    "wy999", "vt5500", "ibm9999", "oven-999", "xterm-zzz", "tvi9999-am", "linux-nope9",
    "ansi-unknown", "press-nowhere", "concept-absent", "hp26999-missing", "dg-no-such-model",
];

/// Names with spaces, as the long ones have, that no database here has either.
const ABSENT_LONG: [&str; 4] =
    ["dec model 9 terminal", "no such terminal", "press console, 24 lines", "oven line 12 of 9"];

pub fn groups(large: &Large) -> Vec<Group<'_>> {
    vec![
        Group { title: "Searching a large database", rows: searching(large) },
        Group { title: "Reading from a small database, through a link", rows: reading_small() },
        Group { title: "Reading from the middle of a large database", rows: reading_large(large) },
        Group { title: "Sending", rows: sending() },
    ]
}

pub fn searching(large: &Large) -> Vec<Row<'_>> {
    let database = large.bytes.as_slice();
    vec![
        absent("Show, absent name", database),
        shows("Show, absent long name", database, &ABSENT_LONG),
        show("Show, last name", database, large.last().usual_name()),
        show("Show, middle name", database, large.middle().usual_name()),
        chain_of_six(database),
    ]
}

pub fn absent<'a>(row: &str, database: &'a [u8]) -> Row<'a> {
    shows(row, database, &ABSENT)
}

fn shows<'a>(row: &str, database: &'a [u8], names: &'static [&str]) -> Row<'a> {
    let names = names.iter().map(|name| name.as_bytes());
    Row {
        name: row.to_string(),
        questions: names.clone().map(|name| read(Reading::Show, database, name, b"")).collect(),
        searches: names.map(|name| Wanted { database, name }).collect(),
    }
}

fn show<'a>(row: &str, database: &'a [u8], name: &'a [u8]) -> Row<'a> {
    reading(row, Reading::Show, database, name, b"", &[name])
}

fn chain_of_six(database: &[u8]) -> Row<'_> {
    let row = "Flag through a chain of 6";
    let names = CHAIN.map(str::as_bytes);
    reading(row, Reading::Flag, database, names[0], CHAIN_FLAG.as_bytes(), &names)
}

const READINGS: [Reading; 5] =
    [Reading::Flag, Reading::Number, Reading::String, Reading::List, Reading::Flat];

fn reading_small() -> Vec<Row<'static>> {
    let row = |what| {
        let id = match what {
            Reading::Flag => small::FLAG,
            Reading::Number => small::NUMBER,
            _ => small::STRING,
        };
        reading(&format!("{what:?}, small"), what, small::BYTES, small::NAME, id, &[])
    };
    READINGS.map(row).into()
}

fn reading_large(large: &Large) -> Vec<Row<'_>> {
    let name = large.middle().usual_name();
    let row = |what| {
        let id = match what {
            Reading::Flag => b"am",
            Reading::Number => b"co",
            _ => b"cm",
        };
        reading(&format!("{what:?}, large"), what, &large.bytes, name, id, &[name])
    };
    READINGS.map(row).into()
}

/// A row of one reading. `searched` are the names that it looks for, one after the other; without
/// them the row is not compared with the searches in C.
pub fn reading<'a>(
    row: &str,
    what: Reading,
    database: &'a [u8],
    name: &'a [u8],
    id: &'a [u8],
    searched: &[&'a [u8]],
) -> Row<'a> {
    Row {
        name: row.to_string(),
        questions: vec![read(what, database, name, id)],
        searches: searched.iter().map(|name| Wanted { database, name }).collect(),
    }
}

fn read<'a>(reading: Reading, database: &'a [u8], name: &'a [u8], id: &'a [u8]) -> Question<'a> {
    Question::Read { reading, database: Files::alone(database), name, id }
}

/// A command with no sequence in it.
const PLAIN: [u8; 100] = [b'x'; 100];

fn sending() -> Vec<Row<'static>> {
    let send = |command| Question::Send { command, speed: 9_600 };
    let send_at = |command, row, column| Question::SendAt {
        command,
        position: Position { row, column, back: b"\x08", up: b"\x1b[A" },
    };
    let row = |name: &str, question| Row {
        name: name.to_string(),
        questions: vec![question],
        searches: vec![],
    };
    vec![
        row("Send, 0 pads", send(b"\x1b[H\x1b[2J")),
        row("Send, 5 pads", send(b"5\x1b[H\x1b[2J")),
        row("Send, 48 pads", send(b"50\x1b[H\x1b[2J")),
        row("Send at, decimals", send_at(b"\x1b[%i%d;%dH", 20, 58)),
        row("Send at, bytes", send_at(b"%+ %+ ", 0, 79)),
        row("Send at, raised bytes", send_at(b"%.%.", 9, 10)),
        row("Send at, 100 plain bytes", send_at(&PLAIN, 20, 58)),
    ]
}
