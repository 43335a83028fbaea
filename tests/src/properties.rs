//! Demand 3 on real calls: the listing against the questions, and Flat standing alone.
//!
//! Nothing here asks the reference what the answer is; the subject's answers must fit together.

use std::collections::HashMap;

use crate::case::{observe, Case, Observed, Operation};
use crate::reference;
use crate::subject::{Subject, ABSENT, ACCEPTED};

/// Room for every listing and every Flat that the limits of a chain allow.
const LIST_ROOM: u64 = 66_000;
pub const FLAT_ROOM: u64 = 17_000;
const RECORD: usize = reference::RECORD_BYTES;

/// Ids asked about in one case; a listing may have thousands.
const MOST_IDS: usize = 100;

const QUESTIONS: [(u8, Operation); 3] =
    [(1, Operation::Flag), (2, Operation::Number), (3, Operation::String)];

/// A database lent for several calls.
pub struct Lent<'a, S> {
    case: Case,
    subject: &'a S,
}

impl<'a, S: Subject> Lent<'a, S> {
    pub fn new(
        case: &Case,
        database: Vec<u8>,
        ends: Option<Vec<usize>>,
        subject: &'a S,
    ) -> Lent<'a, S> {
        let (name, fill) = (case.name.clone(), case.fill);
        let case = Case { database, ends, name, fill, ..Case::default() };
        Lent { case, subject }
    }

    pub fn call(&mut self, operation: Operation, id: &[u8], room: u64) -> Observed {
        self.case.operation = operation;
        self.case.id = id.to_vec();
        self.case.room = room;
        observe(&self.case, self.subject)
    }

    fn batch(&mut self, questions: &[u8], room: u64) -> Observed {
        self.case.questions = questions.to_vec();
        self.call(Operation::Batch, b"", room)
    }
}

/// Which property the subject breaks, in words; nothing if it keeps them all.
pub fn broken(case: &Case, subject: &impl Subject) -> Option<String> {
    check(case, subject).err()
}

fn check(case: &Case, subject: &impl Subject) -> Result<(), String> {
    let mut whole = Lent::new(case, case.database.clone(), case.ends.clone(), subject);
    let listing = whole.call(Operation::List, b"", LIST_ROOM);
    let flat = whole.call(Operation::Flat, b"", FLAT_ROOM);
    demand(listing.code == flat.code, || {
        format!("List gives {} and Flat gives {}", listing.code, flat.code)
    })?;
    if listing.code != ACCEPTED {
        return check_refused(case, &mut whole, listing.code);
    }
    let records = read_records(&listing)?;
    let live = check_records(&records)?;
    let ids = ids_to_ask(case, &records);
    check_questions(case, &mut whole, &ids, &live)?;

    demand(flat.numbers[0] <= FLAT_ROOM, || format!("Flat reports {} bytes", flat.numbers[0]))?;
    let line = flat.reported(flat.numbers[0]).to_vec();
    let mut alone = Lent::new(case, line.clone(), None, subject);
    check_alone(&mut alone, &records, &line)?;
    check_equal(case, &mut whole, &mut alone, &ids).map_err(|what| format!("{what} on Flat"))
}

pub fn demand(holds: bool, complaint: impl FnOnce() -> String) -> Result<(), String> {
    if holds {
        Ok(())
    } else {
        Err(complaint())
    }
}

/// Those given with the case.
pub fn good_ids(case: &Case) -> impl Iterator<Item = [u8; 2]> + '_ {
    case.id.chunks_exact(2).filter(|id| reference::is_id(id)).map(|id| [id[0], id[1]])
}

/// A chain that isn't accepted gives its refusal to every question with a good id.
fn check_refused(case: &Case, whole: &mut Lent<impl Subject>, code: u32) -> Result<(), String> {
    for id in good_ids(case) {
        for (_, question) in QUESTIONS {
            let seen = whole.call(question, &id, case.room);
            demand(seen.code == code, || {
                format!("List gives {code}, {question:?} of {} gives {}", text(&id), seen.code)
            })?;
        }
    }
    Ok(())
}

type Record = [u8; RECORD];

fn read_records(listing: &Observed) -> Result<Vec<Record>, String> {
    let count = listing.numbers[0];
    let bytes = count.saturating_mul(RECORD as u64);
    demand(bytes <= LIST_ROOM, || format!("List reports {count} records"))?;
    let records = listing.reported(bytes).chunks_exact(RECORD);
    Ok(records.map(|record| record.try_into().expect("a chunk of one record")).collect())
}

/// Name and kind, with the value.
type Live = HashMap<([u8; 2], u8), u32>;

/// Each pair once, with a known kind, in the order of the chain.
fn check_records(records: &[Record]) -> Result<Live, String> {
    let mut live = Live::new();
    let (mut last_place, mut last_file) = (0, 0);
    for record in records {
        let [first, second, kind, place, v0, v1, v2, v3, file, zeros @ ..] = *record;
        let value = u32::from_be_bytes([v0, v1, v2, v3]);
        demand((1..=3).contains(&kind), || format!("record {record:?} has no known kind"))?;
        demand(kind != 1 || value == 1, || format!("record {record:?} is a flag not of value 1"))?;
        demand(last_place <= place && place < 32, || format!("record {record:?} is misplaced"))?;
        demand(last_file <= file && file < 8, || format!("record {record:?} is of a wrong file"))?;
        demand(zeros == [0; 3], || format!("record {record:?} doesn't end in three zeros"))?;
        (last_place, last_file) = (place, file);
        let twice = live.insert(([first, second], kind), value).is_some();
        demand(!twice, || format!("record {record:?} names a pair listed before"))?;
    }
    Ok(live)
}

/// Some of the ids listed, and those given with the case.
fn ids_to_ask(case: &Case, records: &[Record]) -> Vec<[u8; 2]> {
    let step = records.len().div_ceil(MOST_IDS).max(1);
    let mut ids: Vec<[u8; 2]> =
        records.iter().step_by(step).map(|record| [record[0], record[1]]).collect();
    ids.extend(good_ids(case));
    ids.sort_unstable();
    ids.dedup();
    ids
}

/// A question is answered as present exactly if its pair is listed, and with the listed value.
fn check_questions(
    case: &Case,
    whole: &mut Lent<impl Subject>,
    ids: &[[u8; 2]],
    live: &Live,
) -> Result<(), String> {
    for id in ids {
        for (kind, question) in QUESTIONS {
            let seen = whole.call(question, id, case.room);
            let listed = live.get(&(*id, kind)).map(|&value| u64::from(value));
            let no_room = u32::from(reference::NO_ROOM);
            let expected = match listed {
                None => ABSENT,
                Some(length) if kind == 3 && length > case.room => no_room,
                Some(_) => ACCEPTED,
            };
            let same_value = seen.code != ACCEPTED || listed == Some(seen.numbers[0]);
            demand(seen.code == expected && same_value, || {
                format!(
                    "{question:?} of {} gives {} with {}, the listing has {listed:?}",
                    text(id),
                    seen.code,
                    seen.numbers[0]
                )
            })?;
        }
    }
    Ok(())
}

/// "Listing Flat gives the same records with place 0", and "gives file 0"; "Flat of Flat gives the same bytes."
fn check_alone(
    alone: &mut Lent<impl Subject>,
    records: &[Record],
    line: &[u8],
) -> Result<(), String> {
    let listing = alone.call(Operation::List, b"", LIST_ROOM);
    demand(listing.code == ACCEPTED, || format!("listing Flat gives {}", listing.code))?;
    let expected: Vec<Record> = records.iter().map(without_place).collect();
    demand(read_records(&listing)? == expected, || "listing Flat gives other records".into())?;
    let again = alone.call(Operation::Flat, b"", FLAT_ROOM);
    let same = again.code == ACCEPTED
        && again.numbers[0] == line.len() as u64
        && again.reported(again.numbers[0]) == line;
    demand(same, || "Flat of Flat gives other bytes".into())?;
    let shown = alone.call(Operation::Show, b"", 0);
    let whole_line = [0, line.len().saturating_sub(1) as u64];
    demand(shown.code == ACCEPTED && shown.numbers[..2] == whole_line, || {
        "showing Flat doesn't give its one line".into()
    })
}

/// Each question gives the same answer, number and buffer of both databases, room or no room; so do
/// a batch of them all, Flat, and List but for the places.
pub fn check_equal<S: Subject>(
    case: &Case,
    one: &mut Lent<S>,
    other: &mut Lent<S>,
    ids: &[[u8; 2]],
) -> Result<(), String> {
    for id in ids {
        for (_, question) in QUESTIONS {
            let same = one.call(question, id, case.room) == other.call(question, id, case.room);
            demand(same, || format!("{question:?} of {} differs", text(id)))?;
        }
    }
    let questions = questions_about(ids);
    for room in [case.room, 2 * questions.len() as u64] {
        let same = one.batch(&questions, room) == other.batch(&questions, room);
        demand(same, || format!("a batch of all questions with room for {room} differs"))?;
    }
    let flats =
        [one.call(Operation::Flat, b"", case.room), other.call(Operation::Flat, b"", case.room)];
    demand(flats[0] == flats[1], || "Flat with this room differs".into())?;
    let lists =
        [one.call(Operation::List, b"", case.room), other.call(Operation::List, b"", case.room)];
    let same = lists[0].code == lists[1].code
        && lists[0].numbers == lists[1].numbers
        && listing_without_places(&lists[0]) == listing_without_places(&lists[1]);
    demand(same, || "List with this room differs by more than places".into())
}

/// The questions of a batch: each id with each kind.
fn questions_about(ids: &[[u8; 2]]) -> Vec<u8> {
    let about = |&[first, second]: &[u8; 2]| QUESTIONS.map(|(kind, _)| [first, second, kind, 0]);
    ids.iter().flat_map(about).flatten().collect()
}

/// The whole block, guards too, with the places and files of the reported records set to 0.
fn listing_without_places(seen: &Observed) -> Vec<u8> {
    let mut block = seen.block.clone();
    if seen.code == ACCEPTED {
        let bytes = seen.reported(seen.numbers[0].saturating_mul(RECORD as u64)).len();
        let out = &mut block[crate::case::GUARD..];
        out[..bytes].chunks_exact_mut(RECORD).for_each(|record| {
            record[3] = 0;
            record[8] = 0;
        });
    }
    block
}

fn without_place(record: &Record) -> Record {
    let mut record = *record;
    record[3] = 0;
    record[8] = 0;
    record
}

fn text(id: &[u8; 2]) -> String {
    format!("b\"{}\"", id.escape_ascii())
}

#[cfg(test)]
mod tests {
    use super::*;
    use crate::generate;
    use crate::subject::Reference;
    use crate::twisted::{Answer, Twisted};

    fn cases() -> impl Iterator<Item = Case> {
        let all = (0..40_000).map(|index| generate::case(4, index));
        all.filter(|case| case.operation == Operation::Properties)
    }

    #[test]
    fn the_reference_keeps_them() {
        for case in cases() {
            assert_eq!(broken(&case, &Reference), None, "{case}");
        }
    }

    #[test]
    fn an_invented_record_value_breaks_them() {
        let subject = Twisted(|answer: Answer| {
            if answer.operation == Operation::List && answer.code == 0 && *answer.number > 0 {
                answer.out[7] ^= 1;
            }
            answer.code
        });
        assert!(cases().any(|case| broken(&case, &subject).is_some()));
    }

    #[test]
    fn finding_all_absent_breaks_them() {
        let subject = Twisted(|answer: Answer| match answer.operation {
            Operation::Flag | Operation::Number | Operation::String if answer.code == 0 => ABSENT,
            _ => answer.code,
        });
        assert!(cases().any(|case| broken(&case, &subject).is_some()));
    }
}
