//! Databases that arrive in blocks.

use core::fmt;
#[cfg(feature = "std")]
use std::io;

use crate::{accepted, sys, Refusal};

/// The stage of a finder whose line is complete.
const COMPLETE: u8 = 4;

/// A search for one terminal in a database that arrives in blocks and is never held as a whole. It is
/// fed the blocks, of whatever length, and collects the joined line of the first description with the
/// asked name: names and fields, without the newline that ends it. Fields are not judged, and links not
/// followed.
///
/// However the file is cut, the line is the one that [`Database::show`](crate::Database::show) finds in
/// the whole file, joined; this is proved (`crates/demands/specs/Finder.antt`). The file may have any
/// size.
///
/// ```
/// # use termcap_proved::{Database, Finder, Refusal, FINDER_TEXT_BYTES};
/// # fn main() -> Result<(), Refusal> {
/// let mut text = [0; FINDER_TEXT_BYTES];
/// let mut finder = Finder::new("fan", &mut text)?;
/// for block in ["# hall\nve", "nt|fan:am:\\", "\n\t:co#40:\nkiln"] {
///     finder.feed(block);
/// }
/// let line = finder.finish()?;
/// assert_eq!(line, b"vent|fan:am:\t:co#40:");
/// // The line is a database of its own.
/// assert_eq!(Database::new(line).number("fan", "co")?, Some(40));
/// # Ok(())
/// # }
/// ```
///
/// A finder that was finished can be fed no more, and gives no answer before that: neither compiles, so
/// [`Refusal::InvalidState`] is never met.
///
/// ```compile_fail,E0382
/// # use termcap_proved::Finder;
/// # let mut text = [0; 100];
/// let mut finder = Finder::new("fan", &mut text).unwrap();
/// let line = finder.finish();
/// finder.feed("vent|fan:am:");
/// ```
pub struct Finder<'a> {
    state: sys::FinderState,
    text: &'a mut [u8],
}

impl<'a> Finder<'a> {
    /// A finder for this name, refused with [`Refusal::BadName`]. It keeps the line in `text`, whose
    /// bytes before do not matter; [`FINDER_TEXT_BYTES`](crate::FINDER_TEXT_BYTES) are always enough,
    /// and fewer for a file whose lines are known to be shorter.
    pub fn new(name: impl AsRef<[u8]>, text: &'a mut [u8]) -> Result<Finder<'a>, Refusal> {
        let (state, result) = sys::finder_open(name.as_ref());
        accepted(result, Finder { state, text })
    }

    /// Feeds the next block, which may be empty.
    pub fn feed(&mut self, block: impl AsRef<[u8]>) {
        let result = sys::finder_feed(&mut self.state, block.as_ref(), self.text);
        accepted(result, ()).expect("it has not ended");
    }

    /// Whether the line was found and is complete. No later byte counts then, and the rest of the file
    /// need not be fed.
    ///
    /// ```
    /// # use termcap_proved::Finder;
    /// let mut text = [0; 100];
    /// let mut finder = Finder::new("fan", &mut text).unwrap();
    /// finder.feed("vent|fan:am:");
    /// assert!(!finder.is_complete());
    /// finder.feed("\nkiln:");
    /// assert!(finder.is_complete());
    /// ```
    pub fn is_complete(&self) -> bool {
        self.state.stage == COMPLETE
    }

    /// Ends the file, and with it its last line, and gives the line that was found: the bytes at the
    /// start of the text.
    ///
    /// Refused with [`Refusal::UnknownName`]; with [`Refusal::ChainTooLarge`] where the line has over
    /// 16,384 bytes; and with [`Refusal::NoRoom`] where it is longer than the text.
    ///
    /// ```
    /// # use termcap_proved::{Finder, Refusal};
    /// let found = |name, room: &mut [u8]| {
    ///     let mut finder = Finder::new(name, room)?;
    ///     finder.feed("vent|fan:am:");
    ///     finder.finish().map(|line| line.len())
    /// };
    /// assert_eq!(found("fan", &mut [0; 12]), Ok(12));
    /// assert_eq!(found("fan", &mut [0; 11]), Err(Refusal::NoRoom));
    /// assert_eq!(found("kiln", &mut [0; 0]), Err(Refusal::UnknownName));
    /// assert_eq!(found("vent|fan", &mut [0; 0]), Err(Refusal::BadName));
    /// ```
    pub fn finish(mut self) -> Result<&'a [u8], Refusal> {
        let result = sys::finder_end(&mut self.state, self.text);
        accepted(result, ()).expect("it has not ended");
        let (text, none): (&'a [u8], &[u8]) = (self.text, &[]);
        // The line is not copied, so no room is lent: where it was found, there is none for it.
        let result = sys::finder_answer(&self.state, text, &mut [], &mut 0);
        match (accepted(result, none), text.get(..usize::from(self.state.count))) {
            (Err(Refusal::NoRoom), Some(line)) => Ok(line),
            (refused, _) => refused,
        }
    }
}

/// What reads and writes as `std::io` does.
#[cfg(feature = "std")]
impl Finder<'_> {
    /// Feeds what `reader` has, up to its end or until the line is complete. Blocks are read into
    /// `block`, which must not be empty; nothing else is buffered. Other readers, or blocks, may follow
    /// as further parts of the file.
    ///
    /// ```
    /// # use std::io;
    /// # use termcap_proved::Finder;
    /// # fn main() -> io::Result<()> {
    /// # let stream = io::repeat(b'\n').take(1_000_000).chain(&b"vent|fan:am:\n"[..]);
    /// # use io::Read;
    /// // A `File` or a `TcpStream`, for example.
    /// let (mut text, mut block) = ([0; 2_048], [0; 512]);
    /// let mut finder = Finder::new("fan", &mut text).unwrap();
    /// finder.feed_from(stream, &mut block)?;
    /// assert_eq!(finder.finish(), Ok(&b"vent|fan:am:"[..]));
    /// # Ok(())
    /// # }
    /// ```
    pub fn feed_from(&mut self, mut reader: impl io::Read, block: &mut [u8]) -> io::Result<()> {
        if block.is_empty() {
            return Err(io::Error::new(
                io::ErrorKind::InvalidInput,
                "the block to read into is empty",
            ));
        }
        while !self.is_complete() {
            match reader.read(block) {
                Ok(0) => break,
                Ok(count) => self.feed(&block[..count]),
                Err(error) if error.kind() == io::ErrorKind::Interrupted => {}
                Err(error) => return Err(error),
            }
        }
        Ok(())
    }
}

/// What is written is fed, as a block.
///
/// ```
/// # use termcap_proved::Finder;
/// # fn main() -> std::io::Result<()> {
/// let mut text = [0; 100];
/// let mut finder = Finder::new("fan", &mut text).unwrap();
/// std::io::copy(&mut &b"kiln:\nvent|fan:am:\n"[..], &mut finder)?;
/// assert_eq!(finder.finish(), Ok(&b"vent|fan:am:"[..]));
/// # Ok(())
/// # }
/// ```
#[cfg(feature = "std")]
impl io::Write for Finder<'_> {
    fn write(&mut self, block: &[u8]) -> io::Result<usize> {
        self.feed(block);
        Ok(block.len())
    }

    fn flush(&mut self) -> io::Result<()> {
        Ok(())
    }
}

/// The name, and whether it was found; not the text.
impl fmt::Debug for Finder<'_> {
    fn fmt(&self, f: &mut fmt::Formatter<'_>) -> fmt::Result {
        let name = &self.state.name[..usize::from(self.state.size)];
        f.debug_struct("Finder")
            .field("name", &core::str::from_utf8(name).expect("a name is of printable bytes"))
            .field("is_complete", &self.is_complete())
            .finish_non_exhaustive()
    }
}
