use crate::{Kind, Refusal};

/// One question of a [batch](crate::Database::batch).
#[derive(Clone, Copy, Debug, PartialEq, Eq, Hash)]
pub struct Question {
    /// The two bytes of the capability's name.
    pub id: [u8; 2],
    /// What is asked for: a flag, a number or a string.
    pub kind: Kind,
}

impl Question {
    /// The number of bytes of a question in a lent buffer.
    pub const BYTES: usize = 4;

    /// Asks for a flag.
    pub fn flag(id: [u8; 2]) -> Question {
        Question { id, kind: Kind::Flag }
    }

    /// Asks for a number.
    pub fn number(id: [u8; 2]) -> Question {
        Question { id, kind: Kind::Number }
    }

    /// Asks for the length of a string.
    pub fn string(id: [u8; 2]) -> Question {
        Question { id, kind: Kind::String }
    }

    /// The question as [`Database::batch_into`](crate::Database::batch_into) reads it.
    pub fn to_bytes(self) -> [u8; Question::BYTES] {
        let [first, second] = self.id;
        [first, second, self.kind as u8, 0]
    }
}

/// The answer to one question of a [batch](crate::Database::batch).
#[derive(Clone, Copy, Debug, PartialEq, Eq, Hash)]
pub enum Answered {
    /// Present, with 1 for a flag, the number, or the length of the decoded string.
    Present(u32),
    /// The terminal does not have it.
    Absent,
    /// The question, or the terminal, is refused.
    Refused(Refusal),
}

impl Answered {
    /// The number of bytes of an answer in a lent buffer.
    pub const BYTES: usize = 8;

    /// Reads an answer from the bytes that
    /// [`Database::batch_into`](crate::Database::batch_into) writes. `None` if it writes no such
    /// bytes.
    pub fn from_bytes(bytes: [u8; Answered::BYTES]) -> Option<Answered> {
        let [status, number, 0, 0, value @ ..] = bytes else {
            return None;
        };
        match (status, number, u32::from_be_bytes(value)) {
            (0, 0, value) => Some(Answered::Present(value)),
            (1, 0, 0) => Some(Answered::Absent),
            (2, number, 0) => Refusal::try_from(u32::from(number)).ok().map(Answered::Refused),
            _ => None,
        }
    }

    /// The value, or `None` if it is absent, or the refusal.
    pub fn value(self) -> Result<Option<u32>, Refusal> {
        match self {
            Answered::Present(value) => Ok(Some(value)),
            Answered::Absent => Ok(None),
            Answered::Refused(refusal) => Err(refusal),
        }
    }
}
