//! Databases for a finder, cut into blocks; how much text is lent; and states of any bytes.

use super::databases;
use crate::case::{Case, Operation};
use crate::random::Random;
use crate::reference::finder::{State, MOST_COLLECTED, STATE_BYTES};
use crate::reference::finder_steps;

/// What a finder looks at, and little else.
const LETTERS: &[u8] = b"aab||::\\\\\n\n# \t";
const NAMES: [&[u8]; 8] = [b"a", b"b", b"ab", b"aa", b" ", b"  ", b"#a", b"a#"];

pub fn fill_in(random: &mut Random, case: &mut Case) {
    match random.weighted(&[55, 20, 15, 6, 4]) {
        0 => databases::fill_in(random, case),
        1 => letters(random, case),
        2 => short_lines(random, case),
        3 => long_line(random, case),
        _ => long_others(random, case),
    }
    case.cuts = cuts(random, &case.database);
    if case.operation == Operation::FinderState {
        case.state = state(random, &case.name);
        case.name = Vec::new();
    }
    case.text_room = text_room(random, needed(case));
}

/// The bytes of the line that is found, if any.
pub fn needed(case: &Case) -> Option<u64> {
    let mut state = State::from_bytes(&case.state);
    if case.operation == Operation::Finder {
        finder_steps::open(&case.name, &mut state).ok()?;
    }
    let mut text = vec![0; MOST_COLLECTED];
    finder_steps::feed(&mut state, &case.database, &mut text).ok()?;
    finder_steps::end(&mut state, &mut text).ok()?;
    let mut out = vec![0; MOST_COLLECTED];
    finder_steps::answer(&state, &text, &mut out).ok().map(|count| count as u64)
}

/// Mostly as much as the header asks for; also a byte more or less, and what the line just fits.
fn text_room(random: &mut Random, needed: Option<u64>) -> u64 {
    let line = needed.unwrap_or(20);
    match random.weighted(&[50, 6, 14, 12, 8, 4, 6]) {
        0 => 16_384,
        1 => 16_383,
        2 => random.between(16_385, 16_500),
        3 => line,
        4 => line.saturating_sub(1),
        5 => 0,
        _ => random.between(0, 200),
    }
}

// ---------------------------------------------------------------------------------------------
// Databases
// ---------------------------------------------------------------------------------------------

/// Bytes without a plan, which all mean something.
fn letters(random: &mut Random, case: &mut Case) {
    let length = random.below(40);
    case.database = (0..length).map(|_| random.pick_value(LETTERS)).collect();
    case.name = random.pick(&NAMES).to_vec();
}

/// Lines of few names, with and without fields, among blank lines and comments, with pairs anywhere.
fn short_lines(random: &mut Random, case: &mut Case) {
    const BETWEEN: [&[u8]; 7] =
        [b"\n", b" \n", b" \t\n", b"#a|b:\n", b"# a\\\n", b"\\\n", b"\\\\\n"];
    const ENDS: [&[u8]; 6] = [b"", b":", b":am:", b":a|b:co#80:", b"|", b"\\"];
    let mut text = Vec::new();
    for _ in 0..random.between(1, 6) {
        while random.chance(25) {
            text.extend_from_slice(random.pick(&BETWEEN));
        }
        let names: Vec<&[u8]> = (0..random.between(1, 4)).map(|_| random.pick(&NAMES)).collect();
        text.extend_from_slice(&names.join(&b'|'));
        text.extend_from_slice(random.pick(&ENDS));
        text.push(b'\n');
    }
    if random.chance(50) {
        text.pop();
    }
    for _ in 0..random.below(4) {
        let place = random.below(text.len() + 1);
        text.splice(place..place, *b"\\\n");
    }
    case.database = text;
    case.name = random.pick(&NAMES).to_vec();
}

/// A line with the name `n`, of 16,382 to 16,387 joined bytes, its bulk before or behind the name.
fn long_line(random: &mut Random, case: &mut Case) {
    let size = random.between(16_382, 16_387) as usize;
    let fill = random.pick_value(b"xx f");
    let mut line = match random.below(4) {
        0 => [&vec![fill; size - 2][..], b"|n"].concat(),
        1 => [&vec![fill; size - 5][..], b"|n:am"].concat(),
        2 => [b"n|", &vec![fill; size - 2][..]].concat(),
        _ => [b"m|n:", &vec![fill; size - 4][..]].concat(),
    };
    for _ in 0..random.below(3) {
        let place = random.below(line.len() + 1);
        line.splice(place..place, *b"\\\n");
    }
    let before: &[u8] = random.pick(&[b"" as &[u8], b"# n\n", b"m:am:\n", b"m|o\n", b" \n"]);
    let behind: &[u8] = random.pick(&[b"" as &[u8], b"\n", b"\nn:am:\n", b"\\"]);
    case.database = [before, &line, behind].concat();
    case.name = b"n".to_vec();
}

/// A line that is longer than what is collected and does not have the name, before one that may.
fn long_others(random: &mut Random, case: &mut Case) {
    let size = random.pick_value(&[16_383, 16_384, 16_385, 16_386, 20_000, 40_000]);
    let unit: &[u8] =
        random.pick(&[b"x" as &[u8], b" ", b"y|", b"nn|", b"z\\\n", b"m:", b"#", b"\\E"]);
    let start: &[u8] = random.pick(&[b"" as &[u8], b"#", b"m:", b" "]);
    let long = unit.repeat(size / unit.len());
    let behind: &[u8] = random.pick(&[b"\nn:am:\n" as &[u8], b"\n", b"", b"|n:am:", b"\n\\\nn"]);
    case.database = [start, &long, behind].concat();
    case.name = b"n".to_vec();
}

// ---------------------------------------------------------------------------------------------
// Cuts
// ---------------------------------------------------------------------------------------------

/// More blocks than this take too long.
const MOST_BLOCKS: usize = 700;

fn cuts(random: &mut Random, database: &[u8]) -> Vec<usize> {
    let size = database.len();
    match random.weighted(&[12, 22, 22, 16, 18, 10]) {
        0 => Vec::new(),
        1 if size <= MOST_BLOCKS => (1..size).collect(),
        3 => blocks_of(random, size),
        4 => delicate(random, database),
        5 => with_empty(random, size),
        _ => some(random, size),
    }
}

/// A few places.
fn some(random: &mut Random, size: usize) -> Vec<usize> {
    let count = random.between(1, 6);
    let mut cuts: Vec<usize> = (0..count).map(|_| random.below(size + 1)).collect();
    cuts.sort_unstable();
    cuts
}

/// Blocks of one length.
fn blocks_of(random: &mut Random, size: usize) -> Vec<usize> {
    let length = random.pick_value(&[2, 3, 5, 7, 15, 16, 17, 31, 32, 33, 64, 512, 4_096]);
    let length = length.max(size / MOST_BLOCKS);
    (1..=size / length).map(|block| block * length).collect()
}

/// Some of the places behind a byte that means something, and those behind most backslashes.
fn delicate(random: &mut Random, database: &[u8]) -> Vec<usize> {
    let mut cuts = Vec::new();
    for (place, byte) in database.iter().enumerate() {
        let percent = match byte {
            b'\\' => 80,
            b'\n' | b'|' | b':' | b'#' => 30,
            _ => 2,
        };
        if cuts.len() < MOST_BLOCKS && random.chance(percent) {
            cuts.push(place + 1);
        }
    }
    cuts
}

/// Some of the blocks are empty, the first and the last one, too.
fn with_empty(random: &mut Random, size: usize) -> Vec<usize> {
    let mut cuts = vec![0, 0, size, size];
    for place in some(random, size) {
        cuts.extend(vec![place; random.between(1, 3) as usize]);
    }
    cuts.sort_unstable();
    cuts
}

// ---------------------------------------------------------------------------------------------
// States
// ---------------------------------------------------------------------------------------------

/// Numbers at the edges of what the header gives a meaning, or any bytes.
fn state(random: &mut Random, name: &[u8]) -> Vec<u8> {
    let mut bytes = vec![0; STATE_BYTES];
    random.fill(&mut bytes);
    if random.chance(8) {
        return bytes;
    }
    let own = name.len() as u16;
    let count = random.pick_value(&[0, 0, 0, 1, 2, 90, 16_383, 16_384, 16_385, 16_386, 65_535]);
    let size = random.pick_value(&[own, own, own, own, 0, 1, 63, 64, 65, 255, 256, 65_535]);
    bytes[0] = random.pick_value(&[0, 0, 1, 1, 2, 2, 3, 4, 4, 5, 255]);
    bytes[1] = random.pick_value(&[0, 0, 0, 1, 2, own as u8, 63, 64, 65, 66, 255]);
    bytes[2..4].copy_from_slice(&u16::to_ne_bytes(count));
    bytes[4] = random.pick_value(&[0, 0, 1, 1, 2, 255]);
    bytes[5] = random.pick_value(&[0, 0, 0, 0, 0, 0, 0, 1, 255]);
    bytes[6..8].copy_from_slice(&u16::to_ne_bytes(size));
    if random.chance(85) {
        let length = name.len().min(64);
        bytes[8..8 + length].copy_from_slice(&name[..length]);
    }
    bytes
}
