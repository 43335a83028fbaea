use alloc::vec::Vec;

use crate::Database;

/// Several files, joined into one buffer with their ends: a user's own file before the common one,
/// for example. The files are searched in the order in which they were put in; the name of a link is
/// searched from the file of its own line on, so a private description may build on a common one,
/// and never the other way round.
///
/// ```
/// # use termcap_proved::{Files, Refusal};
/// # fn main() -> Result<(), Refusal> {
/// let private = b"kiln|my kiln:li#6:tc=oven:\n";
/// let common = b"kiln:li#2:\noven:co#20:li#4:tc=hall:\nhall:am:\n";
/// let files = Files::from_iter([&private[..], common]);
/// let database = files.database();
///
/// assert_eq!(database.number("kiln", "li")?, Some(6));
/// assert_eq!(database.number("kiln", "co")?, Some(20));
/// assert_eq!(database.list("kiln")?.iter().map(|record| record.file).collect::<Vec<_>>(), [0, 1, 1]);
/// # Ok(())
/// # }
/// ```
#[derive(Clone, Debug, Default, PartialEq, Eq)]
pub struct Files {
    bytes: Vec<u8>,
    ends: Vec<usize>,
}

impl Files {
    /// No files.
    pub fn new() -> Files {
        Files::default()
    }

    /// Puts a file after the others. More than [`FILES`](crate::FILES) are refused with each question.
    pub fn push(&mut self, file: impl AsRef<[u8]>) {
        self.bytes.extend_from_slice(file.as_ref());
        self.ends.push(self.bytes.len());
    }

    /// The files as a database.
    pub fn database(&self) -> Database<'_> {
        Database::with_ends(&self.bytes, &self.ends)
    }
}

impl<F: AsRef<[u8]>> Extend<F> for Files {
    fn extend<I: IntoIterator<Item = F>>(&mut self, files: I) {
        files.into_iter().for_each(|file| self.push(file));
    }
}

impl<F: AsRef<[u8]>> FromIterator<F> for Files {
    fn from_iter<I: IntoIterator<Item = F>>(files: I) -> Files {
        let mut joined = Files::new();
        joined.extend(files);
        joined
    }
}
