//! Document 02, Ask 2: "write a mended database, and a 16-byte record for each thing removed".

use std::collections::HashMap;

use super::{
    check_database, is_ignored_line, logical_lines, names_of, read_field, require, write, Line,
    Meaning, Refusal, NO_ROOM,
};

pub const TOO_MANY_LINES: Refusal = 14;

pub const MAX_LINES: usize = 4_096;
pub const REMOVAL_BYTES: usize = 16;

/// "Reasons are 1 to 5 for the five removals below, in their order."
#[derive(Clone, Copy, Debug, PartialEq, Eq)]
enum Reason {
    NoColon = 1,
    Malformed = 2,
    AfterLink = 3,
    LostLink = 4,
    Cycle = 5,
}

/// What a repair gives: the mended database, and its records one after the other.
#[derive(Clone, Debug, PartialEq, Eq)]
pub struct Repair {
    pub text: Vec<u8>,
    pub records: Vec<u8>,
}

/// A logical line on its way through the passes.
struct Mending {
    line: Line,
    /// The line's own bytes, with its closing newline if it has one.
    own: Vec<u8>,
    state: State,
}

enum State {
    Ignored,
    Dropped,
    Standing(Vec<Piece>),
}

/// A field as written, with its colon if it has one, and where it stands in the joined line.
struct Piece {
    place: usize,
    written: Vec<u8>,
    /// The name of a link.
    link: Option<Vec<u8>>,
    removed: Option<Reason>,
}

/// "The order is 3, 14, 9": everything but 9.
pub fn repair_parts(database: &[u8]) -> Result<Repair, Refusal> {
    check_database(database)?;
    let mut lines = read_lines(database);
    // "At most 4,096 lines that aren't ignored, else the new refusal 14."
    let counted = lines.iter().filter(|line| !matches!(line.state, State::Ignored)).count();
    require(counted <= MAX_LINES, TOO_MANY_LINES)?;
    remove_links(&mut lines);
    Ok(written(&lines))
}

/// "No room in either buffer is 9." Gives the bytes of the mended database and the number of
/// records.
pub fn repair(
    database: &[u8],
    out: &mut [u8],
    records: &mut [u8],
) -> Result<(usize, usize), Refusal> {
    let mended = repair_parts(database)?;
    require(mended.text.len() <= out.len() && mended.records.len() <= records.len(), NO_ROOM)?;
    let bytes = write(&mended.text, out)?;
    let record_bytes = write(&mended.records, records)?;
    Ok((bytes, record_bytes / REMOVAL_BYTES))
}

fn read_lines(database: &[u8]) -> Vec<Mending> {
    let mut lines = Vec::new();
    for line in logical_lines(database) {
        let own = database[line.start..database.len().min(line.end + 1)].to_vec();
        let state = if is_ignored_line(&line.joined) {
            State::Ignored
        } else if names_of(&line.joined).len() == line.joined.len() {
            // "First drop every line without a colon that isn't ignored."
            State::Dropped
        } else {
            State::Standing(read_pieces(&line.joined))
        };
        lines.push(Mending { line, own, state });
    }
    lines
}

/// "Then remove malformed fields, and after a first link every other field that isn't ignored." A
/// malformed field is no link, and is removed as malformed wherever it stands (our reading).
fn read_pieces(joined: &[u8]) -> Vec<Piece> {
    let mut place = names_of(joined).len() + 1;
    let mut linked = false;
    let mut pieces = Vec::new();
    for written in joined[place..].split_inclusive(|&byte| byte == b':') {
        let text = written.strip_suffix(b":").unwrap_or(written);
        let meaning = read_field(text);
        let removed = match &meaning {
            Err(_) => Some(Reason::Malformed),
            Ok(Meaning::Ignored) => None,
            Ok(_) => linked.then_some(Reason::AfterLink),
        };
        let link = match meaning {
            Ok(Meaning::Link(name)) if removed.is_none() => Some(name),
            _ => None,
        };
        linked = linked || link.is_some();
        pieces.push(Piece { place, written: written.to_vec(), link, removed });
        place += written.len();
    }
    pieces
}

/// "Then, line by line in file order: remove a link that is found nowhere; follow the links as they
/// stand now, and if they come back to this line, remove this line's link." Names never change, so
/// a table of where each is found first serves all links.
fn remove_links(lines: &mut [Mending]) {
    let targets = find_targets(lines);
    let mut links: Vec<Option<Option<usize>>> =
        lines.iter().map(|line| link_of(line).map(|name| targets.get(name).copied())).collect();
    for place in 0..lines.len() {
        let reason = match links[place] {
            None => None,
            Some(None) => Some(Reason::LostLink),
            Some(Some(_)) => comes_back(&links, place).then_some(Reason::Cycle),
        };
        if reason.is_some() {
            links[place] = None;
            remove_link(&mut lines[place], reason);
        }
    }
}

/// The first line of each name, of those that are neither ignored nor dropped.
fn find_targets(lines: &[Mending]) -> HashMap<Vec<u8>, usize> {
    let mut targets = HashMap::new();
    for (place, line) in lines.iter().enumerate() {
        if matches!(line.state, State::Standing(_)) {
            for name in names_of(&line.line.joined).split(|&byte| byte == b'|') {
                targets.entry(name.to_vec()).or_insert(place);
            }
        }
    }
    targets
}

fn link_of(line: &Mending) -> Option<&Vec<u8>> {
    match &line.state {
        State::Standing(pieces) => pieces.iter().find_map(|piece| piece.link.as_ref()),
        _ => None,
    }
}

fn comes_back(links: &[Option<Option<usize>>], home: usize) -> bool {
    let mut at = home;
    for _ in 0..links.len() {
        match links[at] {
            Some(Some(next)) if next == home => return true,
            Some(Some(next)) => at = next,
            _ => return false,
        }
    }
    false
}

fn remove_link(line: &mut Mending, reason: Option<Reason>) {
    if let State::Standing(pieces) = &mut line.state {
        for piece in pieces.iter_mut().filter(|piece| piece.link.is_some()) {
            piece.removed = reason;
        }
    }
}

fn written(lines: &[Mending]) -> Repair {
    let mut repair = Repair { text: Vec::new(), records: Vec::new() };
    for (number, line) in lines.iter().enumerate() {
        match &line.state {
            State::Ignored => repair.text.extend_from_slice(&line.own),
            State::Dropped => {
                record(&mut repair.records, number, 0, Reason::NoColon, line.line.joined.len())
            }
            State::Standing(pieces) => write_standing(&mut repair, number, line, pieces),
        }
    }
    repair
}

/// "A changed line is written joined, with a newline, and a colon before that newline if it would
/// end in a backslash; an unchanged one keeps every byte."
fn write_standing(repair: &mut Repair, number: usize, line: &Mending, pieces: &[Piece]) {
    if pieces.iter().all(|piece| piece.removed.is_none()) {
        repair.text.extend_from_slice(&line.own);
        return;
    }
    let names = names_of(&line.line.joined).len();
    let mut joined = line.line.joined[..=names].to_vec();
    for piece in pieces {
        match piece.removed {
            None => joined.extend_from_slice(&piece.written),
            Some(reason) => {
                record(&mut repair.records, number, piece.place, reason, piece.written.len());
            }
        }
    }
    if joined.ends_with(b"\\") {
        joined.push(b':');
    }
    joined.push(b'\n');
    repair.text.extend_from_slice(&joined);
}

/// "Logical line from 0 (ignored ones counted), byte place from 0 in the original joined line,
/// reason, joined bytes removed (a field's colon counted, no newline), each 32 bits, high byte
/// first".
fn record(records: &mut Vec<u8>, line: usize, place: usize, reason: Reason, count: usize) {
    for number in [line, place, reason as usize, count] {
        records.extend_from_slice(&(number as u32).to_be_bytes());
    }
}

/// "A database without malformed lines, lost links or cycles": every line that is not ignored
/// counts, also one that no name finds.
pub fn is_sound(database: &[u8]) -> bool {
    let lines = logical_lines(database);
    let described: Vec<&Line> =
        lines.iter().filter(|line| !is_ignored_line(&line.joined)).collect();
    let mut first = HashMap::new();
    for (place, line) in described.iter().enumerate() {
        for name in names_of(&line.joined).split(|&byte| byte == b'|') {
            first.entry(name.to_vec()).or_insert(place);
        }
    }
    let mut links = Vec::new();
    for line in &described {
        match super::read_description(&line.joined) {
            Err(_) => return false,
            Ok(description) => match description.link() {
                None => links.push(None),
                Some(name) => match first.get(&name) {
                    None => return false,
                    found => links.push(Some(found.copied())),
                },
            },
        }
    }
    (0..links.len()).all(|home| !comes_back(&links, home))
}
