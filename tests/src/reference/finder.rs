//! Document 02, Ask 8: "a finder that is fed blocks of whatever length, none included, keeps its place
//! between calls and is changed where it stands".
//!
//! Here a finder is its history: the asked name and all bytes that it was fed. Whatever it has is
//! worked out from these, by the search of a whole file, so the cuts cannot matter. `State` is what
//! the header makes of it.

use std::fmt;

use super::{
    check_name, find_line, is_blank, logical_lines, names_of, require, write, Refusal,
    CHAIN_TOO_LARGE, MAX_CHAIN_SIZE, NO_ROOM, UNKNOWN_NAME,
};

pub const INVALID_STATE: Refusal = 17;

/// "A matching line longer than 16,384 joined bytes is 8": one more byte is collected, and no others.
pub const MOST_COLLECTED: usize = MAX_CHAIN_SIZE + 1;

/// Only blanks so far.
pub const BLANK: u8 = 0;
/// The names are being read; so it is with any number that has no other meaning.
pub const NAMES: u8 = 1;
/// The line has the name.
pub const HAS_NAME: u8 = 2;
/// The line cannot have it.
pub const PASSED: u8 = 3;
/// The line that has it is complete.
pub const COMPLETE: u8 = 4;

/// "One differs."
pub const DIFFERS: u8 = 65;

/// `struct termcap_finder` of the C header.
#[repr(C)]
#[derive(Clone, Copy, PartialEq, Eq)]
pub struct State {
    pub stage: u8,
    pub matched: u8,
    pub count: u16,
    pub held: u8,
    pub ended: u8,
    pub size: u16,
    pub name: [u8; 64],
}

pub const STATE_BYTES: usize = 72;
const _: () = assert!(std::mem::size_of::<State>() == STATE_BYTES, "there is no padding in it");

impl State {
    /// A state of any bytes, as they stand in memory; those that are missing are 0.
    pub fn from_bytes(bytes: &[u8]) -> State {
        let mut all = [0; STATE_BYTES];
        let given = bytes.len().min(STATE_BYTES);
        all[..given].copy_from_slice(&bytes[..given]);
        let [stage, matched, c0, c1, held, ended, s0, s1, name @ ..] = all;
        let (count, size) = (u16::from_ne_bytes([c0, c1]), u16::from_ne_bytes([s0, s1]));
        State { stage, matched, count, held, ended, size, name }
    }
}

/// The name as text, without the zeros at its end.
impl fmt::Debug for State {
    fn fmt(&self, formatter: &mut fmt::Formatter) -> fmt::Result {
        let State { stage, matched, count, held, ended, size, name } = self;
        let used = name.iter().rposition(|&byte| byte != 0).map_or(0, |last| last + 1);
        write!(formatter, "stage {stage}, matched {matched}, count {count}, held {held}, ")?;
        write!(formatter, "ended {ended}, size {size}, name \"{}\"", name[..used].escape_ascii())
    }
}

/// A finder by its history.
pub struct Finder {
    name: Vec<u8>,
    fed: Vec<u8>,
    ended: bool,
}

impl Finder {
    /// "A bad name is 1 at opening."
    pub fn open(name: &[u8]) -> Result<Finder, Refusal> {
        check_name(name)?;
        Ok(Finder { name: name.to_vec(), fed: Vec::new(), ended: false })
    }

    /// What a refused opening leaves: it "has ended, and holds no name".
    pub fn refused() -> Finder {
        Finder { name: Vec::new(), fed: Vec::new(), ended: true }
    }

    /// "Blocks or a second end after the end was declared [...] are the new refusal 17 and alter
    /// nothing."
    pub fn feed(&mut self, block: &[u8]) -> Result<(), Refusal> {
        require(!self.ended, INVALID_STATE)?;
        self.fed.extend_from_slice(block);
        Ok(())
    }

    pub fn end(&mut self) -> Result<(), Refusal> {
        require(!self.ended, INVALID_STATE)?;
        self.ended = true;
        Ok(())
    }

    /// "It collects the joined line of the first description with the asked name." "The answer's order
    /// is 17, 4, 8, 9." The line must fit the text, too, since it is collected there.
    pub fn answer(&self, text_room: usize, out: &mut [u8]) -> Result<usize, Refusal> {
        require(self.ended, INVALID_STATE)?;
        let line = self.found_line().ok_or(UNKNOWN_NAME)?;
        require(line.len() <= MAX_CHAIN_SIZE, CHAIN_TOO_LARGE)?;
        require(line.len() <= text_room, NO_ROOM)?;
        write(&line, out)
    }

    /// The joined line of the first description with the name, of those that have ended.
    pub fn found_line(&self) -> Option<Vec<u8>> {
        let (mut lines, _) = self.lines();
        let place = find_line(&lines, &self.name)?;
        Some(lines.swap_remove(place).joined)
    }

    /// The lines that have ended, and the joined bytes of the one that has not. A backslash at the end
    /// may vanish with a newline yet, so it is held back.
    fn lines(&self) -> (Vec<super::Line>, Vec<u8>) {
        let mut lines = logical_lines(&self.fed);
        if self.ended {
            return (lines, Vec::new());
        }
        let mut present = lines.pop().expect("there is always a last line").joined;
        if self.holds() {
            present.pop();
        }
        (lines, present)
    }

    fn holds(&self) -> bool {
        !self.ended && self.fed.ends_with(b"\\")
    }

    /// The names of the present line that have ended, and the one that has not: none if there is a
    /// colon.
    fn present_names<'a>(&self, present: &'a [u8]) -> (Vec<&'a [u8]>, Option<&'a [u8]>) {
        let names = names_of(present);
        let mut all: Vec<&[u8]> = names.split(|&byte| byte == b'|').collect();
        let last = if names.len() == present.len() { all.pop() } else { None };
        (all, last)
    }

    /// Whether the present line is known to have the name.
    fn has_name(&self, present: &[u8]) -> bool {
        let (ended, _) = self.present_names(present);
        !present.starts_with(b"#") && ended.contains(&&self.name[..])
    }

    /// The bytes of a line that are collected, or of the present one so far: all of it if it has the
    /// name, nothing of a comment, the names of any other.
    fn kept<'a>(&self, line: &'a [u8], has_name: bool) -> &'a [u8] {
        let kept = match line {
            _ if has_name => line,
            [b'#', ..] => b"",
            _ => names_of(line),
        };
        &kept[..kept.len().min(MOST_COLLECTED)]
    }

    /// Writes to the text what was collected since the finder was opened: each line from the text's
    /// start, over those before it. Bytes past its end are not stored.
    pub fn collect(&self, text: &mut [u8]) {
        let (lines, present) = self.lines();
        let found = find_line(&lines, &self.name);
        let mut put = |kept: &[u8]| text.iter_mut().zip(kept).for_each(|(to, from)| *to = *from);
        for (place, line) in lines.iter().enumerate() {
            put(self.kept(&line.joined, found == Some(place)));
            if found == Some(place) {
                return;
            }
        }
        put(self.kept(&present, self.has_name(&present)));
    }

    /// The state as the header describes it.
    pub fn state(&self) -> State {
        let (_, present) = self.lines();
        let (stage, matched, collected) = match self.found_line() {
            Some(line) => (COMPLETE, 0, self.kept(&line, true).len()),
            None => self.standing(&present),
        };
        let mut name = [0; 64];
        name[..self.name.len()].copy_from_slice(&self.name);
        State {
            stage,
            matched,
            count: collected as u16,
            held: u8::from(self.holds()),
            ended: u8::from(self.ended),
            size: self.name.len() as u16,
            name,
        }
    }

    /// Stage, matched bytes and collected bytes within a line.
    fn standing(&self, present: &[u8]) -> (u8, u8, usize) {
        let has_name = self.has_name(present);
        let collected = self.kept(present, has_name).len();
        match self.present_names(present) {
            _ if has_name => (HAS_NAME, 0, collected),
            (_, Some(last)) if !present.starts_with(b"#") => {
                let blank = present.iter().all(is_blank);
                (if blank { BLANK } else { NAMES }, self.matched(last), collected)
            }
            _ => (PASSED, 0, collected),
        }
    }

    fn matched(&self, name: &[u8]) -> u8 {
        if self.name.starts_with(name) {
            name.len() as u8
        } else {
            DIFFERS
        }
    }
}
