use alloc::vec::Vec;
use core::fmt;

/// Why the repair removed something. The discriminants are the numbers in a record.
#[derive(Clone, Copy, Debug, PartialEq, Eq, Hash)]
#[repr(u8)]
pub enum Reason {
    /// A line without a colon, which was dropped.
    NoColon = 1,
    /// A malformed field.
    MalformedField = 2,
    /// A field after the line's first link.
    AfterLink = 3,
    /// A link to a name that no line has.
    LostLink = 4,
    /// A link from which the links come back to its own line.
    Cycle = 5,
}

impl Reason {
    /// The reason with this number in a record.
    pub fn from_number(number: u32) -> Option<Reason> {
        match number {
            1 => Some(Reason::NoColon),
            2 => Some(Reason::MalformedField),
            3 => Some(Reason::AfterLink),
            4 => Some(Reason::LostLink),
            5 => Some(Reason::Cycle),
            _ => None,
        }
    }
}

impl fmt::Display for Reason {
    fn fmt(&self, f: &mut fmt::Formatter<'_>) -> fmt::Result {
        f.write_str(match self {
            Reason::NoColon => "line without a colon dropped",
            Reason::MalformedField => "malformed field removed",
            Reason::AfterLink => "field after a link removed",
            Reason::LostLink => "link to an unknown name removed",
            Reason::Cycle => "link that comes back to its own line removed",
        })
    }
}

/// One thing that the repair removed.
#[derive(Clone, Copy, Debug, PartialEq, Eq, Hash)]
pub struct Removal {
    /// The logical line of the database as it was, from 0, ignored lines counted.
    pub line: u32,
    /// The byte of that line, joined, where it stood, from 0.
    pub place: u32,
    /// Why it was removed.
    pub reason: Reason,
    /// The joined bytes that went: a field's colon counts, a line's newline does not.
    pub length: u32,
}

impl Removal {
    /// The number of bytes of a record in a lent buffer.
    pub const BYTES: usize = 16;

    /// The bytes that are always enough for the records of a database of so many bytes; this is proved
    /// (`crates/demands/specs/RepairRoom.antt`).
    pub fn most_bytes(database: usize) -> usize {
        8 * (database + 1)
    }

    /// Reads a removal from the bytes that
    /// [`Database::repair_into`](crate::Database::repair_into) writes. `None` if they have no known
    /// reason.
    pub fn from_bytes(bytes: [u8; Removal::BYTES]) -> Option<Removal> {
        let number = |at: usize| {
            u32::from_be_bytes([bytes[at], bytes[at + 1], bytes[at + 2], bytes[at + 3]])
        };
        let reason = Reason::from_number(number(8))?;
        Some(Removal { line: number(0), place: number(4), reason, length: number(12) })
    }
}

/// Line and place as people count them, from 1.
impl fmt::Display for Removal {
    fn fmt(&self, f: &mut fmt::Formatter<'_>) -> fmt::Result {
        let Removal { line, place, reason, length } = self;
        let bytes = if *length == 1 { "byte" } else { "bytes" };
        let (line, place) = (u64::from(*line) + 1, u64::from(*place) + 1);
        write!(f, "logical line {line}, byte {place}: {reason} ({length} {bytes})")
    }
}

/// What a repair gives.
#[derive(Clone, Debug, PartialEq, Eq)]
pub struct Repair {
    /// The mended database.
    pub database: Vec<u8>,
    /// What was removed, ordered by line, then place; nothing if the database was sound.
    pub removals: Vec<Removal>,
}
