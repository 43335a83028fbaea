//! Send at in two halves.

use alloc::borrow::Cow;
use alloc::vec;
use alloc::vec::Vec;

use crate::{accepted, filled_bytes, grown, size, sys, Line, Position, Refusal};

/// A command with its position filled in, to be padded for one line after the other: its delay, the
/// delay's star and the finished bytes apart, so that a leading digit isn't read as padding again.
///
/// It holds its bytes ([`fill`]) or borrows a buffer ([`fill_into`]).
#[derive(Clone, Debug, PartialEq, Eq)]
pub struct Finished<'a> {
    delay: u64,
    star: bool,
    bytes: Cow<'a, [u8]>,
}

impl<'a> Finished<'a> {
    /// What was kept of a finished command: the delay in tenths of a millisecond, before its star,
    /// the star, and the bytes. [`Finished::send_to`] refuses a delay over 99,999, which no command
    /// can ask for, with [`Refusal::OutOfRange`].
    pub fn from_parts(delay: u64, star: bool, bytes: &'a [u8]) -> Finished<'a> {
        Finished { delay, star, bytes: Cow::Borrowed(bytes) }
    }

    /// The delay in tenths of a millisecond; a star multiplies it by the lines that are affected.
    pub fn delay(&self) -> u64 {
        self.delay
    }

    /// Whether the delay is starred.
    pub fn star(&self) -> bool {
        self.star
    }

    /// The body with its compensations, without pads.
    pub fn as_bytes(&self) -> &[u8] {
        &self.bytes
    }

    /// The finished bytes and the pads for this line. The buffer grows as with [`send`](crate::send).
    ///
    /// ```
    /// # use termcap_proved::{Finished, Line, Refusal};
    /// let finished = Finished::from_parts(20, true, b"5A");
    /// let line = Line { lines: 2, speed: 9600, pad: b'.' };
    /// assert_eq!(finished.send_to(&line), Ok(b"5A....".to_vec()));
    /// assert_eq!(Finished::from_parts(100_000, false, b"").send_to(&line), Err(Refusal::OutOfRange));
    /// ```
    pub fn send_to(&self, line: &Line) -> Result<Vec<u8>, Refusal> {
        grown(self.bytes.len(), |out| self.send_to_into(line, out))
    }

    /// Writes what [`Finished::send_to`] gives to the start of `out` and gives the number of its
    /// bytes.
    pub fn send_to_into(&self, line: &Line, out: &mut [u8]) -> Result<usize, Refusal> {
        let mut count = 0;
        let Line { lines, speed, pad } = *line;
        let star = u64::from(self.star);
        let result = sys::pad(self.delay, star, &self.bytes, lines, speed, pad, out, &mut count);
        accepted(result, ())?;
        Ok(size(count))
    }
}

/// Fills a position into a command once, for lines of different speeds: the first half of
/// [`send_at`](crate::send_at), of which [`Finished::send_to`] is the second. The two in a row give
/// what `send_at` gives; this is proved (`crates/demands/specs/Halves.antt`).
///
/// One position for three lines:
///
/// ```
/// # use termcap_proved::{fill, send_at, Line, Position, Refusal};
/// # fn main() -> Result<(), Refusal> {
/// let move_cursor = "5\x1B[%i%d;%dH";
/// let position = Position { row: 20, column: 58, ..Position::default() };
/// let finished = fill(move_cursor, &position)?;
/// assert_eq!(finished.as_bytes(), b"\x1B[21;59H");
///
/// // Five milliseconds are 4.8 bytes at 9,600 bits a second, 0.6 at 1,200 and 0.15 at 300.
/// for (speed, pads) in [(9600, 5), (1200, 1), (300, 1)] {
///     let line = Line { speed, ..Line::default() };
///     let sent = finished.send_to(&line)?;
///     assert_eq!(sent, [&b"\x1B[21;59H"[..], &vec![0; pads]].concat());
///     assert_eq!(sent, send_at(move_cursor, &position, &line)?);
/// }
/// # Ok(())
/// # }
/// ```
pub fn fill(
    command: impl AsRef<[u8]>,
    position: &Position<'_>,
) -> Result<Finished<'static>, Refusal> {
    let command = command.as_ref();
    let mut out = vec![0; filled_bytes(command, position)];
    let Finished { delay, star, bytes } = fill_into(command, position, &mut out)?;
    Ok(Finished { delay, star, bytes: Cow::Owned(bytes.into_owned()) })
}

/// Writes the finished bytes to the start of `out`, which is borrowed while they are used.
///
/// ```
/// # use termcap_proved::{fill_into, Line, Position, Refusal};
/// # fn main() -> Result<(), Refusal> {
/// let position = Position { row: 5, ..Position::default() };
/// let mut out = [b'.'; 3];
/// assert_eq!(fill_into("%dA", &position, &mut out[..1]), Err(Refusal::NoRoom));
///
/// let finished = fill_into("%dA", &position, &mut out)?;
/// assert_eq!(finished.send_to(&Line::default())?, b"5A");
/// assert_eq!(&out, b"5A.");
/// # Ok(())
/// # }
/// ```
pub fn fill_into<'a>(
    command: impl AsRef<[u8]>,
    position: &Position<'_>,
    out: &'a mut [u8],
) -> Result<Finished<'a>, Refusal> {
    let (mut delay, mut star, mut count) = (0, 0, 0);
    let Position { row, column, back, up } = *position;
    let command = command.as_ref();
    let result = sys::fill(command, row, column, back, up, out, &mut delay, &mut star, &mut count);
    accepted(result, ())?;
    Ok(Finished { delay, star: star != 0, bytes: Cow::Borrowed(&out[..size(count)]) })
}
