use core::error::Error;
use core::fmt;

/// Why the library refuses to answer. The discriminants are the refusal numbers.
// More operations may bring more refusals, so a match outside this crate keeps a wildcard.
#[non_exhaustive]
#[derive(Clone, Copy, Debug, PartialEq, Eq, Hash)]
#[repr(u8)]
pub enum Refusal {
    /// The asked name is not 1 to 64 bytes, or has a byte outside 32..=126 or one of `|` `:` `\`.
    BadName = 1,
    /// The id is not two bytes 33..=126, has `:` or `\`, starts with `.`, or is `tc`.
    BadId = 2,
    /// The database is over 1,048,576 bytes.
    DatabaseTooLarge = 3,
    /// No description has the asked name.
    UnknownName = 4,
    /// A link's name is found nowhere.
    LostLink = 5,
    /// A description in the chain is malformed.
    Malformed = 6,
    /// A link leads to a line already in the chain.
    Cycle = 7,
    /// A 33rd description is reached, or the chain's size passes 16,384; or the line that a
    /// [`Finder`](crate::Finder) found has over 16,384 bytes.
    ChainTooLarge = 8,
    /// The output doesn't fit the lent buffer.
    NoRoom = 9,
    /// Unknown, or cut off, percent sequence.
    UnknownSequence = 10,
    /// Too few unused parameters.
    TooFewParameters = 11,
    /// A number out of its range.
    OutOfRange = 12,
    /// Padding with over 4 digits before the point, or over one after it.
    BadPadding = 13,
    /// Over 4,096 lines that aren't ignored are not repaired.
    TooManyLines = 14,
    /// A batch's questions are not a multiple of four bytes.
    PartialQuestion = 15,
    /// Ends that fall or pass the buffer, or over eight of them.
    BadEnds = 16,
    /// A finder is fed, or ended, after its end, or asked for its answer before it. The types of
    /// [`Finder`](crate::Finder) keep this from happening.
    InvalidState = 17,
}

impl Refusal {
    const ALL: [Refusal; 17] = [
        Refusal::BadName,
        Refusal::BadId,
        Refusal::DatabaseTooLarge,
        Refusal::UnknownName,
        Refusal::LostLink,
        Refusal::Malformed,
        Refusal::Cycle,
        Refusal::ChainTooLarge,
        Refusal::NoRoom,
        Refusal::UnknownSequence,
        Refusal::TooFewParameters,
        Refusal::OutOfRange,
        Refusal::BadPadding,
        Refusal::TooManyLines,
        Refusal::PartialQuestion,
        Refusal::BadEnds,
        Refusal::InvalidState,
    ];

    /// The refusal number, 1 to 17.
    pub fn number(self) -> u32 {
        self as u32
    }
}

impl fmt::Display for Refusal {
    fn fmt(&self, f: &mut fmt::Formatter<'_>) -> fmt::Result {
        f.write_str(match self {
            Refusal::BadName => {
                "the terminal's name is not 1 to 64 printable bytes without `|`, `:` and `\\`"
            }
            Refusal::BadId => {
                "the capability's id is not two printable bytes without `:` and `\\`, begins with a point, or is `tc`"
            }
            Refusal::DatabaseTooLarge => "the database has more than 1,048,576 bytes",
            Refusal::UnknownName => "no terminal in the database has this name",
            Refusal::LostLink => "a description links to a terminal that is not in the database",
            Refusal::Malformed => "a description of the terminal is malformed",
            Refusal::Cycle => "a description links back to one that was read before",
            Refusal::ChainTooLarge => {
                "the terminal has more than 32 descriptions, or over 16,384 bytes of them"
            }
            Refusal::NoRoom => "the output does not fit the buffer",
            Refusal::UnknownSequence => "the command has an unknown or unfinished percent sequence",
            Refusal::TooFewParameters => "the command uses more parameters than there are",
            Refusal::OutOfRange => "a number is out of its range",
            Refusal::BadPadding => "the command's padding has too many digits",
            Refusal::TooManyLines => "the database has more than 4,096 descriptions to repair",
            Refusal::PartialQuestion => "the last question of the batch is cut off",
            Refusal::BadEnds => "the files' ends fall or pass the buffer, or there are more than eight",
            Refusal::InvalidState => {
                "the finder has already ended, or is asked for its answer before its end"
            }
        })
    }
}

impl Error for Refusal {}

/// A number that is no refusal number.
#[derive(Clone, Copy, Debug, PartialEq, Eq)]
pub struct NotARefusal(pub u32);

impl fmt::Display for NotARefusal {
    fn fmt(&self, f: &mut fmt::Formatter<'_>) -> fmt::Result {
        write!(f, "{} is no refusal number", self.0)
    }
}

impl Error for NotARefusal {}

impl TryFrom<u32> for Refusal {
    type Error = NotARefusal;

    fn try_from(number: u32) -> Result<Refusal, NotARefusal> {
        Refusal::ALL
            .into_iter()
            .find(|refusal| refusal.number() == number)
            .ok_or(NotARefusal(number))
    }
}
