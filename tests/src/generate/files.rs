//! Ends for a database that is made: none, or places that cut it into files.

use crate::case::Case;
use crate::random::Random;

/// Half of the cases call the one-file function; of the others most have good ends.
pub fn fill_in(random: &mut Random, case: &mut Case) {
    let size = case.database.len();
    case.ends = match random.weighted(&[50, 8, 26, 8, 3, 5]) {
        0 => None,
        1 => Some(vec![size]),
        2 => Some(rising(random, case, 90)),
        3 => Some(rising(random, case, 20)),
        4 => Some(Vec::new()),
        _ => Some(bad(random, case)),
    };
}

/// Up to eight places that do not fall, mostly just behind a newline; so many of a hundred times the
/// last one is the database's end.
fn rising(random: &mut Random, case: &Case, whole_percent: u64) -> Vec<usize> {
    let size = case.database.len();
    let newlines: Vec<usize> =
        (0..size).filter(|&place| case.database[place] == b'\n').map(|place| place + 1).collect();
    let count = random.pick_value(&[1, 2, 2, 2, 3, 3, 4, 8]);
    let mut ends: Vec<usize> = (0..count)
        .map(|_| match random.weighted(&[75, 20, 5]) {
            0 if !newlines.is_empty() => random.pick_value(&newlines),
            2 => 0,
            _ => random.between(0, size as u64) as usize,
        })
        .collect();
    ends.sort_unstable();
    if random.chance(whole_percent) {
        ends[count - 1] = size;
    }
    ends
}

/// Ends that fall or pass the buffer, or too many of them.
fn bad(random: &mut Random, case: &Case) -> Vec<usize> {
    let size = case.database.len();
    let mut ends = rising(random, case, 50);
    match random.below(4) {
        0 => ends.push(size + random.pick_value(&[1, 2, usize::MAX / 2])),
        1 => ends.insert(0, usize::MAX),
        2 => ends = vec![size; 9],
        _ => {
            ends.push(size);
            ends.push(size.saturating_sub(1));
        }
    }
    ends
}
