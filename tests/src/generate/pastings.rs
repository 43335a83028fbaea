//! Databases for pasting: a chain over one file or several, among other lines. Mostly it is accepted,
//! and the names of its links find the same lines when asked directly.

use super::databases::{field, lay_out, shuffle, theme, Line, IDS};
use crate::case::Case;
use crate::random::Random;
use crate::reference::MAX_CHAIN_SIZE;

pub fn fill_in(random: &mut Random, case: &mut Case) {
    let length = chain_length(random);
    let files = files(random, length);
    let ends = lay_out_files(random, &files, &mut case.database);
    if files.len() > 1 || random.chance(50) {
        case.ends = Some(ends);
        if random.chance(10) {
            // Behind the last end nothing is read.
            case.database.extend_from_slice(b"k1:zz:\n");
        }
    }
    let asked = if random.chance(97) { 0 } else { random.below(length) };
    case.name = chain_name(asked);
    case.id = (0..random.between(1, 3)).flat_map(|_| random.pick(&IDS).to_vec()).collect();
}

/// The lines of each file: those of a chain of this length, and others among them.
fn files(random: &mut Random, length: usize) -> Vec<Vec<Line>> {
    let count = random.pick_value(&[1, 1, 1, 1, 2, 2, 2, 3, 3, 4, 8]);
    let ids = theme(random);
    let mut files: Vec<Vec<Line>> = (0..count).map(|_| Vec::new()).collect();
    add_chain(random, &mut files, &ids, length);
    for lines in &mut files {
        // A file without a line of the chain is empty or has others.
        let apart = lines.is_empty();
        while random.chance(if apart { 40 } else { 30 }) {
            let line = other_line(random, &ids, length, apart);
            lines.push(line);
        }
        shuffle(random, lines);
    }
    files
}

/// Puts the files into the buffer, and gives their ends.
fn lay_out_files(random: &mut Random, files: &[Vec<Line>], buffer: &mut Vec<u8>) -> Vec<usize> {
    let mut ends = Vec::new();
    for lines in files {
        buffer.extend_from_slice(&file_text(random, lines));
        ends.push(buffer.len());
    }
    ends
}

/// Descriptions of the chain.
fn chain_length(random: &mut Random) -> usize {
    match random.weighted(&[2, 30, 33, 28, 5, 2]) {
        0 => 1,
        1 => 2,
        2 => 3,
        3 => random.between(4, 6) as usize,
        4 => random.between(7, 12) as usize,
        _ => random.between(31, 32) as usize,
    }
}

fn chain_name(place: usize) -> Vec<u8> {
    format!("k{place}").into_bytes()
}

/// Each description in the file of the one before, or in a later one.
fn add_chain(random: &mut Random, files: &mut [Vec<Line>], ids: &[&[u8]], length: usize) {
    let mut places: Vec<usize> = (0..length).map(|_| random.below(files.len())).collect();
    places.sort_unstable();
    let mut lines: Vec<Line> = (0..length).map(|place| chain_line(random, ids, place)).collect();
    for (place, line) in lines.iter_mut().enumerate() {
        if place + 1 < length {
            line.link(random, &chain_name(place + 1));
        } else if random.chance(2) {
            line.link(random, b"nowhere");
        }
    }
    if random.chance(2) {
        fill_up(random, &mut lines);
    }
    for (line, file) in lines.into_iter().zip(places) {
        files[file].push(line);
    }
}

fn chain_line(random: &mut Random, ids: &[&[u8]], place: usize) -> Line {
    let mut names = vec![chain_name(place)];
    while random.chance(25) {
        let other: &[u8] =
            random.pick(&[b"a" as &[u8], b"x y", b"a\\b", b"", b"\xff", b"tc", b".n"]);
        let at = random.below(names.len() + 1);
        names.insert(at, other.to_vec());
    }
    let mut line = Line::new(random, names);
    for _ in 0..random.below(7) {
        line.fields.push(field(random, ids));
    }
    line
}

/// Makes the chain as large as it may be, or a little smaller.
fn fill_up(random: &mut Random, lines: &mut [Line]) {
    let size: usize = lines.iter().map(Line::size).sum();
    let target = MAX_CHAIN_SIZE - random.below(3);
    let start: &[u8] = random.pick(&[b"zz=" as &[u8], b"."]);
    if let Some(more) = target.checked_sub(size + start.len() + 1) {
        let place = random.below(lines.len());
        lines[place].fields.insert(0, [start, &vec![b'x'; more]].concat());
    }
}

/// A line outside the chain, with a name of its own or with one of the chain's. In a file apart from
/// the chain such a line may be what is found when the name is asked for directly.
fn other_line(random: &mut Random, ids: &[&[u8]], length: usize, apart: bool) -> Line {
    let name = if random.chance(if apart { 40 } else { 5 }) {
        chain_name(random.between(1, length as u64) as usize)
    } else {
        b"other".to_vec()
    };
    let mut line = Line::new(random, vec![name]);
    for _ in 0..random.below(3) {
        line.fields.push(field(random, ids));
    }
    if random.chance(30) {
        let name = chain_name(random.below(length));
        line.link(random, &name);
    }
    if random.chance(10) {
        line.fields.push(b"malformed".to_vec());
    }
    line
}

/// The lines of a file: pairs anywhere, and a last line that may end in a backslash.
fn file_text(random: &mut Random, lines: &[Line]) -> Vec<u8> {
    if lines.is_empty() {
        return Vec::new();
    }
    let mut text = lay_out(random, lines);
    if random.chance(20) {
        for _ in 0..random.between(1, 4) {
            let place = random.below(text.len() + 1);
            text.splice(place..place, *b"\\\n");
        }
    }
    if !text.ends_with(b"\n") && random.chance(20) {
        text.extend_from_slice(b":.\\");
    }
    text
}
