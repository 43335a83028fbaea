//! Ask 5 of document 02: "several databases, in order".

use super::{find_line, logical_lines, require, Line, Refusal};

pub const BAD_ENDS: Refusal = 16;
pub const MAX_FILES: usize = 8;

/// "Up to eight databases in one lent buffer [...] with their ends given"; without ends it is "one
/// file that fills the buffer".
#[derive(Clone, Copy, Debug)]
pub struct Files<'a> {
    pub bytes: &'a [u8],
    pub ends: Option<&'a [usize]>,
}

impl<'a> Files<'a> {
    pub fn alone(bytes: &'a [u8]) -> Files<'a> {
        Files { bytes, ends: None }
    }

    fn given_ends(&self) -> Vec<usize> {
        match self.ends {
            Some(ends) => ends.to_vec(),
            None => vec![self.bytes.len()],
        }
    }

    /// "Ends that fall, or pass the buffer, or more than eight, are the new refusal 16": equal ends do
    /// not fall (our reading).
    pub fn check_ends(&self) -> Result<(), Refusal> {
        let ends = self.given_ends();
        let fall = ends.windows(2).any(|pair| pair[0] > pair[1]);
        let pass = ends.iter().any(|&end| end > self.bytes.len());
        require(!fall && !pass && ends.len() <= MAX_FILES, BAD_ENDS)
    }

    /// "Each file is joined by itself; bytes after the last end aren't read": where each file starts,
    /// and its lines. The ends are good.
    pub(super) fn lines(&self) -> Vec<FileLines> {
        let mut files = Vec::new();
        let mut start = 0;
        for end in self.given_ends() {
            files.push(FileLines { start, lines: logical_lines(&self.bytes[start..end]) });
            start = end;
        }
        files
    }
}

pub(super) struct FileLines {
    /// Where the file starts in the buffer.
    pub start: usize,
    pub lines: Vec<Line>,
}

/// "A line is now known by file and place."
#[derive(Clone, Copy, PartialEq, Eq)]
pub(super) struct Location {
    pub file: usize,
    pub place: usize,
}

/// "The asked name is searched from the first; a link from the start of its own file, then onwards."
pub(super) fn find_from(files: &[FileLines], first: usize, name: &[u8]) -> Option<Location> {
    (first..files.len())
        .find_map(|file| find_line(&files[file].lines, name).map(|place| Location { file, place }))
}
