//! Safe Rust over the proved termcap library.
//!
//! A [`Database`] is a view of the bytes of a termcap file. Its methods answer what a terminal can
//! do; [`send`] and [`send_at`] turn a decoded string into the bytes for the line, padding included;
//! [`fill`] and [`Finished::send_to`] are the two halves of [`send_at`], for one position that goes to
//! several lines.
//!
//! ```
//! use termcap_proved::{send_at, Database, Line, Position};
//!
//! # fn main() -> Result<(), termcap_proved::Refusal> {
//! let file = br"vt100|dec vt100:am:co#80:le=^H:cm=5\E[%i%d;%dH:";
//! let database = Database::new(file);
//!
//! assert!(database.flag("vt100", "am")?);
//! assert_eq!(database.number("vt100", "co")?, Some(80));
//!
//! let move_cursor = database.string("vt100", "cm")?.expect("vt100 has it");
//! let position = Position { row: 20, column: 58, ..Position::default() };
//! let line = Line { speed: 1200, ..Line::default() };
//! assert_eq!(send_at(move_cursor, &position, &line)?, b"\x1B[21;59H\0");
//! # Ok(())
//! # }
//! ```
//!
//! A private file goes before the common one: [`Files`] joins them, and [`Database::with_ends`] takes
//! them as they stand in one buffer.
//!
//! A [`Finder`] is for a file that arrives in blocks and is never held: it is fed the blocks and finds
//! the line of a terminal.
//!
//! A function that returns a `Vec` never refuses with [`Refusal::NoRoom`]. Its twin in `_into`
//! writes to a buffer of the caller, allocates nothing, and leaves every byte of that buffer past
//! those it reports as it was; on a refusal, and where a string is absent, it leaves the whole
//! buffer as it was.
//!
//! # Panics
//!
//! No function panics with a library that keeps its contract.
//!
//! # Threads and stack
//!
//! The library has no state of its own and allocates nothing: its functions may be called from any
//! thread, and from several at once. The stack that a call takes in it was measured, whatever its input:
//!
//! | Functions | Bytes at most |
//! |---|---|
//! | [`Database::show`], [`Database::search`] | 5,120 |
//! | [`Database::flag`], [`Database::number`], [`Database::string`] | 9,216 |
//! | [`Database::list`], [`Database::flat`] | 12,288 |
//! | [`Database::batch`] | 71,680 |
//! | [`Database::repair`] | 155,648 |
//! | [`Finder::new`], [`Finder::feed`], [`Finder::finish`] | 1,024 |
//! | [`send`], [`send_at`], [`fill`], [`Finished::send_to`] | 4,096 |
//!
//! # Features
//!
//! `std`, on by default, adds what reads and writes as `std::io` does: `Finder::feed_from`, and
//! [`Finder`] as a writer. Without it the crate needs `core` and `alloc` alone.

#![no_std]
#![deny(missing_docs)]
#![deny(unsafe_code)]

extern crate alloc;
#[cfg(feature = "std")]
extern crate std;

use alloc::vec;
use alloc::vec::Vec;

mod files;
mod finder;
mod finished;
mod question;
mod record;
mod refusal;
mod removal;
#[allow(unsafe_code)]
mod sys;

pub use files::Files;
pub use finder::Finder;
pub use finished::{fill, fill_into, Finished};
pub use question::{Answered, Question};
pub use record::{Kind, Record};
pub use refusal::{NotARefusal, Refusal};
pub use removal::{Reason, Removal, Repair};

/// The most bytes a decoded string has: it is no longer than its field, and a chain's size is at
/// most 16,384. This, the records, Flat, the pads and the sizes of what is sent are proved
/// (`crates/demands/specs/Room.antt`).
pub const STRING_BYTES: usize = 16_384;
/// The most records a terminal has: flags, three bytes each with the colon, in a chain of 16,384.
pub const RECORDS: usize = 5_460;
/// The most bytes Flat has: a chain's size and a newline.
pub const FLAT_BYTES: usize = 16_385;
/// Bytes of a [`Finder`]'s text that are always enough: the longest line that is not refused. This is
/// proved (`crates/demands/specs/Finder.antt`).
pub const FINDER_TEXT_BYTES: usize = 16_384;
/// The most files in one database.
pub const FILES: usize = 8;
/// The most pads a command asks for: `9999.9*`, 1,000 lines, 115,200 bits a second.
pub const PADS: usize = 115_198_848;

const OK: u32 = 0;
const ABSENT: u32 = 255;

/// The answer to a question: `None` is absent.
fn present<T>(result: u32, value: T) -> Result<Option<T>, Refusal> {
    match result {
        ABSENT => Ok(None),
        _ => accepted(result, value).map(Some),
    }
}

fn accepted<T>(result: u32, value: T) -> Result<T, Refusal> {
    match result {
        OK => Ok(value),
        _ => Err(Refusal::try_from(result).expect("the library gives no other result")),
    }
}

/// A place or a count within a slice, which a `usize` holds.
fn size(count: u64) -> usize {
    usize::try_from(count).expect("the library reports no more bytes than it was lent")
}

/// A termcap database: the bytes of a file, or of several, lent by the caller.
///
/// Nothing is read ahead; every question is answered from the bytes themselves. The methods take
/// names and ids as anything that gives bytes, such as `"vt100"`, `b"vt100"` or a `Vec<u8>`.
#[derive(Clone, Copy, Debug)]
pub struct Database<'a> {
    bytes: &'a [u8],
    /// `None` for a single file that fills the bytes.
    ends: Option<&'a [usize]>,
}

impl<'a> Database<'a> {
    /// A view of these bytes, a single file. Nothing is refused here; a database that is too large,
    /// or damaged where a question leads, is refused with that question.
    pub fn new(bytes: &'a [u8]) -> Database<'a> {
        Database { bytes, ends: None }
    }

    /// A view of up to [`FILES`] files that stand one after the other in these bytes, by the place
    /// where each of them ends. Bytes after the last end are not read. A name is searched from the
    /// first file on, and the name of a link from its own file on. Ends that fall or pass the bytes,
    /// or too many of them, are refused with each question. [`Files`] joins files that are apart.
    ///
    /// ```
    /// # use termcap_proved::{Database, Refusal};
    /// let bytes = b"oven:li#4:tc=hall:\nhall:co#20:\n";
    /// assert_eq!(Database::with_ends(bytes, &[19, 31]).number("oven", "co"), Ok(Some(20)));
    /// assert_eq!(Database::with_ends(bytes, &[19]).number("oven", "co"), Err(Refusal::LostLink));
    /// assert_eq!(Database::with_ends(bytes, &[19, 9]).show("oven"), Err(Refusal::BadEnds));
    /// ```
    pub fn with_ends(bytes: &'a [u8], ends: &'a [usize]) -> Database<'a> {
        Database { bytes, ends: Some(ends) }
    }

    /// Calls with the ends: those given, or the one of a single file.
    fn ask<T>(&self, call: impl FnOnce(&[u8], &[usize]) -> T) -> T {
        match self.ends {
            Some(ends) => call(self.bytes, ends),
            None => call(self.bytes, &[self.bytes.len()]),
        }
    }

    /// The lent bytes.
    pub fn as_bytes(&self) -> &'a [u8] {
        self.bytes
    }

    /// The part of the database that holds the first description with that name, as it stands
    /// there, without its closing newline. Only names are looked at, not fields or links.
    ///
    /// ```
    /// # use termcap_proved::Database;
    /// let database = Database::new(b"# presses\npress-1|press-2:am:\\\n\t:tc=hall:\n");
    /// assert_eq!(database.show("press-2"), Ok(&b"press-1|press-2:am:\\\n\t:tc=hall:"[..]));
    /// ```
    pub fn show(&self, name: impl AsRef<[u8]>) -> Result<&'a [u8], Refusal> {
        let (mut start, mut length) = (0, 0);
        let result =
            self.ask(|db, ends| sys::show(db, ends, name.as_ref(), &mut start, &mut length));
        accepted(result, ())?;
        let start = size(start);
        Ok(&self.bytes[start..start + size(length)])
    }

    /// Whether a description has this name, and how many names a search that goes from name to name
    /// compares: those of its length in lines that are not ignored, up to and with the first equal
    /// one, or all if none is. It is for measurements, and slower than [`Database::show`], which
    /// finds the same names. A name that is not found is no refusal here.
    ///
    /// ```
    /// # use termcap_proved::{Database, Search};
    /// let database = Database::new(b"# hall\noven|old oven:am:\nkiln|saw:co#20:\n");
    /// assert_eq!(database.search("kiln"), Ok(Search { found: true, compared: 2 }));
    /// assert_eq!(database.search("hall"), Ok(Search { found: false, compared: 2 }));
    /// assert_eq!(database.search("press"), Ok(Search { found: false, compared: 0 }));
    /// ```
    pub fn search(&self, name: impl AsRef<[u8]>) -> Result<Search, Refusal> {
        let (mut found, mut compared) = (0, 0);
        let result =
            self.ask(|db, ends| sys::search(db, ends, name.as_ref(), &mut found, &mut compared));
        accepted(result, Search { found: found == 1, compared: size(compared) })
    }

    /// Whether the terminal has this flag.
    ///
    /// ```
    /// # use termcap_proved::{Database, Refusal};
    /// let database = Database::new(b"oven:am:\nkiln:am@:tc=oven:\n");
    /// assert_eq!(database.flag("oven", "am"), Ok(true));
    /// assert_eq!(database.flag("kiln", "am"), Ok(false));
    /// assert_eq!(database.flag("press", "am"), Err(Refusal::UnknownName));
    /// ```
    pub fn flag(&self, name: impl AsRef<[u8]>, id: impl AsRef<[u8]>) -> Result<bool, Refusal> {
        let mut value = 0;
        let result =
            self.ask(|db, ends| sys::flag(db, ends, name.as_ref(), id.as_ref(), &mut value));
        Ok(present(result, value)?.is_some())
    }

    /// The terminal's number, at most 65,535, or `None` if it is absent. One that is written with two
    /// or more digits, the first of them 0, is octal.
    ///
    /// ```
    /// # use termcap_proved::Database;
    /// let database = Database::new(b"oven:co#20:li#030:\n");
    /// assert_eq!(database.number("oven", "co"), Ok(Some(20)));
    /// assert_eq!(database.number("oven", "li"), Ok(Some(24)));
    /// assert_eq!(database.number("oven", "it"), Ok(None));
    /// ```
    pub fn number(
        &self,
        name: impl AsRef<[u8]>,
        id: impl AsRef<[u8]>,
    ) -> Result<Option<u32>, Refusal> {
        let mut value = 0;
        let result =
            self.ask(|db, ends| sys::number(db, ends, name.as_ref(), id.as_ref(), &mut value));
        let number = present(result, value)?;
        Ok(number.map(|value| u32::try_from(value).expect("a number is at most 65,535")))
    }

    /// The terminal's string, decoded, or `None` if it is absent. A padding prefix is still in
    /// front of it: the bytes are a command for [`send`] or [`send_at`].
    ///
    /// ```
    /// # use termcap_proved::Database;
    /// let database = Database::new(br"oven:cl=50\E[H\E[J:");
    /// assert_eq!(database.string("oven", "cl"), Ok(Some(b"50\x1B[H\x1B[J".to_vec())));
    /// assert_eq!(database.string("oven", "ho"), Ok(None));
    /// ```
    pub fn string(
        &self,
        name: impl AsRef<[u8]>,
        id: impl AsRef<[u8]>,
    ) -> Result<Option<Vec<u8>>, Refusal> {
        let mut out = vec![0; STRING_BYTES];
        let count = self.string_into(name, id, &mut out)?;
        Ok(count.map(|count| {
            out.truncate(count);
            out.shrink_to_fit();
            out
        }))
    }

    /// Writes the decoded string to the start of `out` and gives the number of its bytes, or `None`
    /// if it is absent. [`STRING_BYTES`] are always enough.
    ///
    /// ```
    /// # use termcap_proved::{Database, Refusal};
    /// let database = Database::new(br"oven:ho=\E[H:");
    /// let mut out = *b"....";
    /// assert_eq!(database.string_into("oven", "ho", &mut out[..2]), Err(Refusal::NoRoom));
    /// assert_eq!(&out, b"....");
    /// assert_eq!(database.string_into("oven", "ho", &mut out), Ok(Some(3)));
    /// assert_eq!(&out, b"\x1B[H.");
    /// ```
    pub fn string_into(
        &self,
        name: impl AsRef<[u8]>,
        id: impl AsRef<[u8]>,
        out: &mut [u8],
    ) -> Result<Option<usize>, Refusal> {
        let mut count = 0;
        let result =
            self.ask(|db, ends| sys::string(db, ends, name.as_ref(), id.as_ref(), out, &mut count));
        Ok(present(result, count)?.map(size))
    }

    /// One record for each capability the terminal has, in the order of the winning fields.
    ///
    /// ```
    /// # use termcap_proved::{Database, Kind, Record};
    /// let database = Database::new(b"kiln:am:tc=oven:\noven:co#20:\n");
    /// let am = Record { name: *b"am", kind: Kind::Flag, place: 0, value: 1, file: 0 };
    /// let co = Record { name: *b"co", kind: Kind::Number, place: 1, value: 20, file: 0 };
    /// assert_eq!(database.list("kiln"), Ok(vec![am, co]));
    /// ```
    pub fn list(&self, name: impl AsRef<[u8]>) -> Result<Vec<Record>, Refusal> {
        let mut out = vec![0; RECORDS * Record::BYTES];
        let records = self.list_into(name, &mut out)?;
        let read = |bytes: &[u8]| {
            let bytes = bytes.try_into().expect("a chunk is one record");
            Record::from_bytes(bytes).expect("the library writes kinds 1, 2 and 3")
        };
        Ok(out.chunks_exact(Record::BYTES).take(records).map(read).collect())
    }

    /// Writes the records to the start of `out`, [`Record::BYTES`] each, and gives their number.
    /// [`Record::from_bytes`] reads them; room for [`RECORDS`] of them is always enough.
    ///
    /// ```
    /// # use termcap_proved::Database;
    /// let database = Database::new(b"oven:co#300:\n");
    /// let mut out = [255; 12];
    /// assert_eq!(database.list_into("oven", &mut out), Ok(1));
    /// assert_eq!(out, [b'c', b'o', 2, 0, 0, 0, 1, 44, 0, 0, 0, 0]);
    /// ```
    pub fn list_into(&self, name: impl AsRef<[u8]>, out: &mut [u8]) -> Result<usize, Refusal> {
        let mut records = 0;
        let result = self.ask(|db, ends| sys::list(db, ends, name.as_ref(), out, &mut records));
        accepted(result, ())?;
        Ok(size(records))
    }

    /// The resolved terminal as one line: the names, then each winning field as written. As a
    /// database of its own it answers every question about the terminal as this one does.
    ///
    /// ```
    /// # use termcap_proved::Database;
    /// let database = Database::new(b"kiln:am@:li#4:tc=oven:\noven:am:co#20:li#2:\n");
    /// assert_eq!(database.flat("kiln"), Ok(b"kiln:li#4:co#20:\n".to_vec()));
    /// ```
    pub fn flat(&self, name: impl AsRef<[u8]>) -> Result<Vec<u8>, Refusal> {
        let mut out = vec![0; FLAT_BYTES];
        let count = self.flat_into(name, &mut out)?;
        out.truncate(count);
        out.shrink_to_fit();
        Ok(out)
    }

    /// Writes that line to the start of `out` and gives the number of its bytes, the newline
    /// included. [`FLAT_BYTES`] are always enough.
    pub fn flat_into(&self, name: impl AsRef<[u8]>, out: &mut [u8]) -> Result<usize, Refusal> {
        let mut count = 0;
        let result = self.ask(|db, ends| sys::flat(db, ends, name.as_ref(), out, &mut count));
        accepted(result, ())?;
        Ok(size(count))
    }
}

/// A screenful of questions at once.
impl Database<'_> {
    /// The answers to any number of questions about one terminal, in the order of the questions.
    /// The database is searched once for all of them. Each answer is the one that
    /// [`flag`](Database::flag), [`number`](Database::number) or [`string`](Database::string) gives
    /// to the same question, with a string's length for its bytes; this is proved
    /// (`crates/demands/specs/Batch.antt`). So an unknown name, or a damaged description, is refused
    /// in each answer; the whole call is refused with [`Refusal::BadName`],
    /// [`Refusal::DatabaseTooLarge`] and, for a database with ends, [`Refusal::BadEnds`] alone.
    ///
    /// ```
    /// # use termcap_proved::{Answered, Database, Question, Refusal};
    /// let database = Database::new(br"kiln:am@:co#20:tc=oven:
    /// oven:am:cl=\E[H\E[J:");
    /// let screen =
    ///     [Question::flag(*b"am"), Question::number(*b"co"), Question::string(*b"cl")];
    /// assert_eq!(
    ///     database.batch("kiln", &screen),
    ///     Ok(vec![Answered::Absent, Answered::Present(20), Answered::Present(6)])
    /// );
    /// let unknown = Answered::Refused(Refusal::UnknownName);
    /// assert_eq!(database.batch("press", &screen[..1]), Ok(vec![unknown]));
    /// ```
    pub fn batch(
        &self,
        name: impl AsRef<[u8]>,
        questions: &[Question],
    ) -> Result<Vec<Answered>, Refusal> {
        let asked: Vec<u8> = questions.iter().flat_map(|question| question.to_bytes()).collect();
        let mut out = vec![0; questions.len() * Answered::BYTES];
        let answers = self.batch_into(name, &asked, &mut out)?;
        let read = |bytes: &[u8]| {
            let bytes = bytes.try_into().expect("a chunk is one answer");
            Answered::from_bytes(bytes).expect("the library writes statuses 0, 1 and 2")
        };
        Ok(out.chunks_exact(Answered::BYTES).take(answers).map(read).collect())
    }

    /// Takes the questions as bytes, [`Question::BYTES`] each, writes the answers to the start of
    /// `out`, [`Answered::BYTES`] each, and gives their number. [`Question::to_bytes`] makes the
    /// ones and [`Answered::from_bytes`] reads the others. A question whose id, kind or fourth byte
    /// is bad is refused with [`Refusal::BadId`] in its own answer.
    ///
    /// ```
    /// # use termcap_proved::{Database, Refusal};
    /// let database = Database::new(b"oven:co#300:\n");
    /// let mut out = [9; 17];
    /// assert_eq!(database.batch_into("oven", b"co\x02\0co\x04\0", &mut out), Ok(2));
    /// assert_eq!(out, [0, 0, 0, 0, 0, 0, 1, 44, 2, 2, 0, 0, 0, 0, 0, 0, 9]);
    /// assert_eq!(database.batch_into("oven", b"co\x02", &mut out), Err(Refusal::PartialQuestion));
    /// ```
    pub fn batch_into(
        &self,
        name: impl AsRef<[u8]>,
        questions: &[u8],
        out: &mut [u8],
    ) -> Result<usize, Refusal> {
        let mut answers = 0;
        let result =
            self.ask(|db, ends| sys::batch(db, ends, name.as_ref(), questions, out, &mut answers));
        accepted(result, ())?;
        Ok(size(answers))
    }
}

/// What [`Database::search`] gives.
#[derive(Clone, Copy, Debug, PartialEq, Eq)]
pub struct Search {
    /// Whether a description has the name.
    pub found: bool,
    /// How many names were compared with it, byte by byte.
    pub compared: usize,
}

/// Repair: a file as sites have edited it, mended. The bytes are taken as a single file, whatever
/// ends were given with them; of several files each is mended by itself.
impl Database<'_> {
    /// The mended database, in which no name is refused with [`Refusal::LostLink`],
    /// [`Refusal::Malformed`] or [`Refusal::Cycle`], and what was removed for that: lines without a
    /// colon, malformed fields, fields after a link, links to unknown names, and one link of each
    /// ring. Lines that need no change keep every byte, and a sound database comes back as it is.
    /// This is proved (`crates/demands/specs/RepairPromises.antt`).
    ///
    /// ```
    /// # use termcap_proved::{Database, Reason, Removal, Refusal};
    /// # fn main() -> Result<(), Refusal> {
    /// let database = Database::new(b"oven:am:co#8O:tc=hall:\nhall:li#24:\n");
    /// assert_eq!(database.flag("oven", "am"), Err(Refusal::Malformed));
    ///
    /// let repair = database.repair()?;
    /// assert_eq!(repair.database, b"oven:am:tc=hall:\nhall:li#24:\n");
    /// let removal = Removal { line: 0, place: 8, reason: Reason::MalformedField, length: 6 };
    /// assert_eq!(repair.removals, [removal]);
    /// assert_eq!(removal.to_string(), "logical line 1, byte 9: malformed field removed (6 bytes)");
    /// assert_eq!(Database::new(&repair.database).flag("oven", "am"), Ok(true));
    /// # Ok(())
    /// # }
    /// ```
    pub fn repair(&self) -> Result<Repair, Refusal> {
        let mut database = vec![0; self.bytes.len()];
        let mut records = vec![0; Removal::most_bytes(self.bytes.len())];
        let (count, removed) = self.repair_into(&mut database, &mut records)?;
        database.truncate(count);
        let read = |bytes: &[u8]| {
            let bytes = bytes.try_into().expect("a chunk is one record");
            Removal::from_bytes(bytes).expect("the library writes reasons 1 to 5")
        };
        let removals = records.chunks_exact(Removal::BYTES).take(removed).map(read).collect();
        Ok(Repair { database, removals })
    }

    /// Writes the mended database to the start of `out` and the records, [`Removal::BYTES`] each,
    /// to the start of `records`, and gives the number of bytes and of records.
    /// [`Removal::from_bytes`] reads them. An `out` as long as the database is always enough, and
    /// [`Removal::most_bytes`] for the records; a refusal leaves both as they were.
    ///
    /// ```
    /// # use termcap_proved::{Database, Refusal};
    /// let database = Database::new(b"kiln\noven:am:\n");
    /// let (mut out, mut records) = ([b'.'; 9], [0; 16]);
    /// assert_eq!(database.repair_into(&mut out, &mut records[..15]), Err(Refusal::NoRoom));
    /// assert_eq!(&out, b".........");
    /// assert_eq!(database.repair_into(&mut out, &mut records), Ok((9, 1)));
    /// assert_eq!(&out, b"oven:am:\n");
    /// ```
    pub fn repair_into(
        &self,
        out: &mut [u8],
        records: &mut [u8],
    ) -> Result<(usize, usize), Refusal> {
        let (mut count, mut removed) = (0, 0);
        let result = sys::repair(self.bytes, out, records, &mut count, &mut removed);
        accepted(result, ())?;
        Ok((size(count), size(removed)))
    }
}

/// The line a command is sent on, for its padding.
#[derive(Clone, Copy, Debug, PartialEq, Eq)]
pub struct Line {
    /// The lines of the screen the command affects, 1 to 1,000; they count if the padding is
    /// starred.
    pub lines: u64,
    /// Bits a second, 0 to 115,200; ten bits are a byte.
    pub speed: u64,
    /// The byte to pad with.
    pub pad: u8,
}

impl Default for Line {
    /// One line affected, 9,600 bits a second, padded with byte 0.
    fn default() -> Line {
        Line { lines: 1, speed: 9_600, pad: 0 }
    }
}

/// A position on the screen, and how the cursor is brought back to it from a step beyond.
///
/// A position byte of 0, 4, 9 or 10 may not survive the way to the terminal. It is raised until it
/// is none of these, and the cursor is then moved back, once for each step: by `back` for a column,
/// by `up` for a row.
///
/// Both are sent as they stand. A terminal's string may begin with padding, whose digits would show
/// on the screen; [`send`] at speed 0 gives the string without it:
///
/// ```
/// # use termcap_proved::{send, send_at, Database, Line, Position, Refusal};
/// # fn main() -> Result<(), Refusal> {
/// let database = Database::new(br"act4:le=^H:up=2\E[A:cm=^T%.%.:");
/// let motion = |id| -> Result<Vec<u8>, Refusal> {
///     let string = database.string("act4", id)?.unwrap_or_default();
///     send(string, &Line { speed: 0, ..Line::default() })
/// };
/// let (back, up) = (motion("le")?, motion("up")?);
/// assert_eq!(up, b"\x1B[A");
///
/// let position = Position { row: 10, column: 3, back: &back, up: &up };
/// let move_cursor = database.string("act4", "cm")?.expect("act4 has it");
/// assert_eq!(send_at(move_cursor, &position, &Line::default())?, b"\x14\x0B\x03\x1B[A");
/// # Ok(())
/// # }
/// ```
#[derive(Clone, Copy, Debug, Default, PartialEq, Eq)]
pub struct Position<'a> {
    /// From 0 to 9,999.
    pub row: u64,
    /// From 0 to 9,999.
    pub column: u64,
    /// Moves the cursor one column back, without padding; if only this is empty, byte 8 stands for
    /// it.
    pub back: &'a [u8],
    /// Moves the cursor one row up, without padding; if this is empty, rows are sent as they are,
    /// and if both are empty, so are columns.
    pub up: &'a [u8],
}

/// The body of a decoded command and its padding. Percent signs are copied unchanged.
///
/// The buffer starts small and is doubled while the library has no room, up to the most bytes the
/// command can give, which are its own and [`PADS`].
///
/// ```
/// # use termcap_proved::{send, Line};
/// let line = Line { lines: 3, speed: 1200, pad: b'.' };
/// assert_eq!(send("20*\x1B[J", &line), Ok(b"\x1B[J........".to_vec()));
/// ```
pub fn send(command: impl AsRef<[u8]>, line: &Line) -> Result<Vec<u8>, Refusal> {
    let command = command.as_ref();
    grown(command.len(), |out| send_into(command, line, out))
}

/// Writes what [`send`] gives to the start of `out` and gives the number of its bytes.
pub fn send_into(command: impl AsRef<[u8]>, line: &Line, out: &mut [u8]) -> Result<usize, Refusal> {
    let mut count = 0;
    let Line { lines, speed, pad } = *line;
    let result = sys::send(command.as_ref(), lines, speed, pad, out, &mut count);
    accepted(result, ())?;
    Ok(size(count))
}

/// As [`send`], with the position filled into the body.
///
/// The buffer grows as with [`send`], up to the bytes of the command, twice those of both strings,
/// 8 more and [`PADS`].
///
/// ```
/// # use termcap_proved::{send_at, Line, Position};
/// let position = Position { row: 3, column: 9, back: b"\x08", up: b"\x1B[A" };
/// let sent = send_at("\x14%.%.", &position, &Line::default());
/// assert_eq!(sent, Ok(b"\x14\x03\x0B\x08\x08".to_vec()));
/// ```
pub fn send_at(
    command: impl AsRef<[u8]>,
    position: &Position<'_>,
    line: &Line,
) -> Result<Vec<u8>, Refusal> {
    let command = command.as_ref();
    grown(filled_bytes(command, position), |out| send_at_into(command, position, line, out))
}

/// The most bytes that a filled body has, as `crates/demands/specs/Room.antt` proves. Each of the two
/// parameters is written once, from a sequence of at least two bytes: as a decimal of at most five
/// digits, or as a byte with at most two compensations, each the string or one byte 8.
fn filled_bytes(command: &[u8], position: &Position<'_>) -> usize {
    command.len() + 2 * 3 + 2 * (position.back.len() + position.up.len() + 1)
}

/// Writes what [`send_at`] gives to the start of `out` and gives the number of its bytes.
pub fn send_at_into(
    command: impl AsRef<[u8]>,
    position: &Position<'_>,
    line: &Line,
    out: &mut [u8],
) -> Result<usize, Refusal> {
    let mut count = 0;
    let Position { row, column, back, up } = *position;
    let Line { lines, speed, pad } = *line;
    let result =
        sys::send_at(command.as_ref(), row, column, back, up, lines, speed, pad, out, &mut count);
    accepted(result, ())?;
    Ok(size(count))
}

/// Calls `write` with ever larger buffers until it has room. `most` bytes are enough without pads.
fn grown(
    most: usize,
    write: impl Fn(&mut [u8]) -> Result<usize, Refusal>,
) -> Result<Vec<u8>, Refusal> {
    // Most commands ask for few pads.
    let mut room = most + 256;
    loop {
        let mut out = vec![0; room];
        match write(&mut out) {
            Err(Refusal::NoRoom) if room < most + PADS => room = (2 * room).min(most + PADS),
            Err(refusal) => return Err(refusal),
            Ok(count) => {
                out.truncate(count);
                out.shrink_to_fit();
                return Ok(out);
            }
        }
    }
}
