//! A seeded generator of cases: valid databases and commands, damaged ones, ones at the limits, and
//! noise. Alphabets are small, so that names and ids meet often and every path is reached often.
//!
//! It reads databases only roughly and never decides what is right. The reference is asked for two
//! things: ids that are live, and how large a buffer just fits.

use crate::case::{Case, Operation};
use crate::random::Random;
use crate::reference::batch::{ANSWER_BYTES, QUESTION_BYTES};
use crate::reference::{self, halves, Position};

mod commands;
mod databases;
mod files;
mod finders;
mod pastings;
mod repairs;

pub use databases::many_flags;

/// Case number `index` of the run with this seed.
pub fn case(seed: u64, index: u64) -> Case {
    let mut random = Random::for_case(seed, index);
    let weights = [7, 7, 9, 9, 14, 11, 11, 9, 9, 9, 14, 5, 4, 6, 6, 4, 12, 6, 4];
    let operation = Operation::ALL[random.weighted(&weights)];
    fill_in(&mut random, operation)
}

/// Case number `index` of the run with this seed that has this operation alone.
pub fn case_of(operation: Operation, seed: u64, index: u64) -> Case {
    fill_in(&mut Random::for_case(seed, index), operation)
}

fn fill_in(random: &mut Random, operation: Operation) -> Case {
    let mut case = Case { operation, fill: random.number(), ..Case::default() };
    if operation.sends() {
        commands::fill_in(random, &mut case);
    } else if operation.repairs() {
        repairs::fill_in(random, &mut case);
    } else if operation.finds() {
        finders::fill_in(random, &mut case);
    } else if operation == Operation::Pasting {
        pastings::fill_in(random, &mut case);
    } else {
        databases::fill_in(random, &mut case);
        files::fill_in(random, &mut case);
    }
    if operation == Operation::Repair {
        rooms_of_repair(random, &mut case);
    } else if operation.takes_room() {
        case.room = room(random, needed(&case));
    }
    case
}

/// Larger buffers are not lent: filling and comparing them would take most of the time.
const LARGEST_ROOM: u64 = 100_000;

/// Exactly fitting, one short, none, a little more, much more, anything less.
fn room(random: &mut Random, needed: Option<u64>) -> u64 {
    let needed = match needed {
        Some(bytes) if bytes <= LARGEST_ROOM => bytes,
        _ => random.pick_value(&[10, 60, 1_500, 50_000]),
    };
    match random.weighted(&[32, 14, 8, 24, 14, 8]) {
        0 => needed,
        1 => needed.saturating_sub(1),
        2 => 0,
        3 => needed + random.between(1, 20),
        4 => needed + random.between(21, 2_000),
        _ => random.between(0, needed),
    }
}

/// Of the two buffers of a repair one mostly fits.
fn rooms_of_repair(random: &mut Random, case: &mut Case) {
    let mended = reference::repair::repair_parts(&case.database).ok();
    let of_text = mended.as_ref().map(|mended| mended.text.len() as u64);
    let of_records = mended.as_ref().map(|mended| mended.records.len() as u64);
    case.room = room(random, of_text);
    case.records_room = room(random, of_records);
    match (random.below(4), of_text, of_records) {
        (0 | 1, Some(text), Some(_)) => case.room = text + random.between(0, 9),
        (2, Some(_), Some(records)) => case.records_room = records + random.between(0, 20),
        (3, Some(text), Some(records)) => (case.room, case.records_room) = (text, records),
        _ => {}
    }
}

/// The bytes that a successful call would write.
fn needed(case: &Case) -> Option<u64> {
    let (database, name, id) = (case.files(), &case.name[..], &case.id[..]);
    let position = Position { row: case.row, column: case.column, back: &case.back, up: &case.up };
    let with_pads = |(body, pads): (Vec<u8>, u64)| body.len() as u64 + pads;
    match case.operation {
        Operation::String => {
            reference::string_bytes(database, name, id).ok()?.map(|bytes| bytes.len() as u64)
        }
        Operation::List => Some(reference::list_bytes(database, name).ok()?.len() as u64),
        Operation::Flat => Some(reference::flat_bytes(database, name).ok()?.len() as u64),
        // What is enough for List and for Flat is enough for every string.
        Operation::Pasting => {
            let list = reference::list_bytes(database, name).ok()?;
            Some(list.len().max(reference::flat_bytes(database, name).ok()?.len()) as u64)
        }
        Operation::Batch => Some((case.questions.len() / QUESTION_BYTES * ANSWER_BYTES) as u64),
        Operation::Send => {
            reference::send_parts(&case.command, case.lines, case.speed).ok().map(with_pads)
        }
        Operation::SendAt | Operation::Halves => {
            reference::send_at_parts(&case.command, position, case.lines, case.speed)
                .ok()
                .map(with_pads)
        }
        Operation::Fill => Some(halves::finish(&case.command, position).ok()?.bytes.len() as u64),
        Operation::Pad => {
            let pads = halves::pads(case.delay, case.star != 0, case.lines, case.speed).ok()?;
            Some(case.command.len() as u64 + pads)
        }
        Operation::Finder | Operation::FinderState => finders::needed(case),
        _ => None,
    }
}

#[cfg(test)]
mod tests {
    use super::*;

    #[test]
    fn a_case_depends_on_its_seed_and_number_alone() {
        for index in 0..500 {
            assert_eq!(case(9, index), case(9, index));
        }
        let differing = (0..500).filter(|&index| case(9, index) != case(10, index)).count();
        assert!(differing > 490);
    }
}
