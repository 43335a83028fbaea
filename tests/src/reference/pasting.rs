//! Ask 13 of document 02, "pasting a parent in place": the edit, and when it may be made.

use super::files::{find_from, FileLines, Location};
use super::{chain_for_name, Description, Files, Meaning, Refusal};

/// A description of a chain that has a link.
#[derive(Clone)]
pub struct Linked {
    pub file: usize,
    /// The line's own bytes in the buffer, with its closing newline if it has one.
    pub start: usize,
    pub end: usize,
    /// The joined line up to the link's field, and from behind its colon on.
    pub before_link: Vec<u8>,
    pub behind_link: Vec<u8>,
    /// The link's name.
    pub name: Vec<u8>,
    /// "The link's name finds the same line when asked directly."
    pub found_directly: bool,
}

/// The descriptions with a link of an accepted chain.
pub fn links(database: Files, name: &[u8]) -> Result<Vec<Linked>, Refusal> {
    let chain = chain_for_name(database, name)?;
    let files = database.lines();
    Ok(chain.iter().filter_map(|description| linked(&files, description)).collect())
}

fn linked(files: &[FileLines], description: &Description) -> Option<Linked> {
    let name = description.link()?;
    let Location { file, place } = description.location;
    let FileLines { start: file_start, lines } = &files[file];
    let line = &lines[place];
    let is_last = place + 1 == lines.len();
    let (link_start, link_end) = link_field(description);
    Some(Linked {
        file,
        start: file_start + line.start,
        end: file_start + line.end + usize::from(!is_last),
        before_link: line.joined[..link_start].to_vec(),
        behind_link: line.joined[line.joined.len().min(link_end + 1)..].to_vec(),
        found_directly: find_from(files, 0, &name) == find_from(files, file, &name),
        name,
    })
}

/// Where the link's field stands in the joined line: "the fields are read from the byte after the
/// first colon on; each ends at a colon".
fn link_field(description: &Description) -> (usize, usize) {
    let mut start = description.names.len() + 1;
    for field in &description.fields {
        if matches!(field.meaning, Meaning::Link(_)) {
            return (start, start + field.written.len());
        }
        start += field.written.len() + 1;
    }
    unreachable!("the description has a link")
}

/// A buffer and its ends, if it is not one file alone.
pub struct Edited {
    pub bytes: Vec<u8>,
    pub ends: Option<Vec<usize>>,
}

/// "Put the fields of the linked line's Flat in place of the link."
pub fn paste(database: Files, linked: &Linked, flat: &[u8]) -> Edited {
    // "The edited line, joined and ended by a colon and a newline, replaces the old one where it
    // stood": a colon is added only where there is none (our reading).
    let mut line = [&linked.before_link[..], flat_fields(flat), &linked.behind_link].concat();
    if line.last() != Some(&b':') {
        line.push(b':');
    }
    line.push(b'\n');
    let bytes =
        [&database.bytes[..linked.start], &line[..], &database.bytes[linked.end..]].concat();
    // "The ends from its file on move by the change in length."
    let moved = |end: usize| end + line.len() - (linked.end - linked.start);
    let ends = database.ends.map(|ends| {
        let (before, from_its_file) = ends.split_at(linked.file);
        before.iter().copied().chain(from_its_file.iter().map(|&end| moved(end))).collect()
    });
    Edited { bytes, ends }
}

/// The fields of a Flat, each with its colon: what stands behind its names, up to its newline.
fn flat_fields(flat: &[u8]) -> &[u8] {
    let names = flat.iter().take_while(|&&byte| byte != b':').count();
    let fields = &flat[flat.len().min(names + 1)..];
    fields.strip_suffix(b"\n").unwrap_or(fields)
}

/// The ids of the chain's fields, cancels included, each once.
pub fn ids_met(database: Files, name: &[u8]) -> Vec<[u8; 2]> {
    let chain = chain_for_name(database, name).unwrap_or_default();
    let fields = chain.iter().flat_map(|description| &description.fields);
    let mut ids: Vec<[u8; 2]> = fields
        .filter_map(|field| match &field.meaning {
            Meaning::Capability(capability) => Some(capability.name),
            _ => None,
        })
        .collect();
    ids.sort_unstable();
    ids.dedup();
    ids
}

#[cfg(test)]
mod tests {
    use super::super::flat_bytes;
    use super::*;

    /// Edits the description with this number among those with a link.
    fn edited(
        bytes: &[u8],
        ends: Option<&[usize]>,
        number: usize,
    ) -> (Vec<u8>, Option<Vec<usize>>) {
        let database = Files { bytes, ends };
        let linked = &links(database, b"n").expect("the chain is accepted")[number];
        assert!(linked.found_directly);
        let flat = flat_bytes(database, &linked.name).expect("its chain is accepted too");
        let Edited { bytes, ends } = paste(database, linked, &flat);
        (bytes, ends)
    }

    #[test]
    fn ignored_fields_stay_and_a_colon_is_added() {
        let (bytes, ends) = edited(b"n:am:tc=m: :.x\nm:co:am:le=a", None, 0);
        assert_eq!((&bytes[..], ends), (&b"n:am:co:am:le=a: :.x:\nm:co:am:le=a"[..], None));
    }

    #[test]
    fn a_parent_without_fields_leaves_the_names() {
        assert_eq!(edited(b"n:tc=m:\nm:", None, 0).0, b"n:\nm:");
        assert_eq!(edited(b"n:tc=m\nm:", None, 0).0, b"n:\nm:");
    }

    #[test]
    fn a_continued_line_is_joined() {
        assert_eq!(edited(b"n:a\\\nm:\\\ntc=m:\nm:co:", None, 0).0, b"n:am:co:\nm:co:");
    }

    #[test]
    fn the_ends_from_its_file_on_move() {
        let bytes = b"x:\nn:tc=m:m:co@:li#2:tc=p:\np:co:li#3:bl:\n";
        let ends = [10, 10, 41];
        let first = b"x:\nn:li#2:bl:\nm:co@:li#2:tc=p:\np:co:li#3:bl:\n".to_vec();
        assert_eq!(edited(bytes, Some(&ends), 0), (first, Some(vec![14, 14, 45])));
        let second = b"x:\nn:tc=m:m:co@:li#2:co:li#3:bl:\np:co:li#3:bl:\n".to_vec();
        assert_eq!(edited(bytes, Some(&ends), 1), (second, Some(vec![10, 10, 47])));
    }

    #[test]
    fn a_name_that_an_earlier_file_has_too_finds_another_line() {
        let database = Files { bytes: b"p:am:\nn:tc=p:\np:co:\n", ends: Some(&[6, 20]) };
        let links = links(database, b"n").expect("the chain is accepted");
        assert!(links.iter().all(|linked| !linked.found_directly) && links.len() == 1);
    }
}
