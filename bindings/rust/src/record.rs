/// The kind of a capability. The discriminants are the numbers in a record.
#[derive(Clone, Copy, Debug, PartialEq, Eq, Hash)]
#[repr(u8)]
pub enum Kind {
    /// A name alone, as `am`.
    Flag = 1,
    /// A name, `#` and a number, as `co#80`.
    Number = 2,
    /// A name, `=` and a text, as `cl=\E[H`.
    String = 3,
}

impl Kind {
    /// The kind with this number in a record.
    pub fn from_number(number: u8) -> Option<Kind> {
        match number {
            1 => Some(Kind::Flag),
            2 => Some(Kind::Number),
            3 => Some(Kind::String),
            _ => None,
        }
    }
}

/// One live pair of name and kind, as List gives it.
#[derive(Clone, Copy, Debug, PartialEq, Eq, Hash)]
pub struct Record {
    /// The two bytes of the capability's name.
    pub name: [u8; 2],
    /// Whether the value is a flag's, a number's or a string's.
    pub kind: Kind,
    /// The place in the chain, from 0, of the description that has the winning field.
    pub place: u8,
    /// 1 for a flag, the number, or the length of the decoded string.
    pub value: u32,
    /// The number of that description's file, from 0.
    pub file: u8,
}

impl Record {
    /// The number of bytes of a record in a lent buffer.
    pub const BYTES: usize = 12;

    /// Reads a record from the bytes that [`Database::list_into`](crate::Database::list_into)
    /// writes. `None` if the third byte is no kind.
    pub fn from_bytes(bytes: [u8; Record::BYTES]) -> Option<Record> {
        let [first, second, kind, place, v0, v1, v2, v3, file, _, _, _] = bytes;
        Some(Record {
            name: [first, second],
            kind: Kind::from_number(kind)?,
            place,
            value: u32::from_be_bytes([v0, v1, v2, v3]),
            file,
        })
    }
}
