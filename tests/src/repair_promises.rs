//! The promises of the repair (document 02, Ask 2) on real calls: what the subject wrote is a database
//! that it answers for, and that it finds nothing to repair in.

use crate::case::{observe, Case, Observed, Operation};
use crate::reference::repair::{is_sound, REMOVAL_BYTES};
use crate::reference::Files;
use crate::subject::{Subject, ACCEPTED};

/// Names asked about in one case.
const MOST_NAMES: usize = 60;

/// "Afterwards no name is refused with 5, 6 or 7."
const NEVER_AFTERWARDS: [u32; 3] = [5, 6, 7];

/// Which promise the subject breaks, in words; nothing if it keeps them all.
pub fn broken(case: &Case, subject: &impl Subject) -> Option<String> {
    check(case, subject).err()
}

fn check(case: &Case, subject: &impl Subject) -> Result<(), String> {
    let seen = repair(case, &case.database, subject);
    if seen.code != ACCEPTED {
        // With this room it is refused with 3 or 14 alone.
        let allowed = if case.database.len() > 1_048_576 { 3 } else { 14 };
        return demand(seen.code == allowed, || format!("Repair gives {}", seen.code));
    }
    let [count, removed, _] = seen.numbers;
    demand(count <= case.database.len() as u64, || "the mended database is longer".into())?;
    let mended = seen.reported(count).to_vec();
    check_records(&seen)?;
    if is_sound(&case.database) {
        demand(mended == case.database && removed == 0, || "a sound database is changed".into())?;
    }
    demand(is_sound(&mended), || "the mended database is not sound".into())?;
    check_names(&mended, subject)?;
    let again = repair(case, &mended, subject);
    let unchanged = again.code == ACCEPTED
        && again.numbers[..2] == [count, 0]
        && again.reported(count) == mended;
    demand(unchanged, || "mending twice changes something".into())
}

fn demand(holds: bool, complaint: impl FnOnce() -> String) -> Result<(), String> {
    if holds {
        Ok(())
    } else {
        Err(complaint())
    }
}

/// With buffers of the sizes that the header names.
fn repair(case: &Case, database: &[u8], subject: &impl Subject) -> Observed {
    let call = Case {
        operation: Operation::Repair,
        database: database.to_vec(),
        room: database.len() as u64,
        records_room: 8 * (database.len() as u64 + 1),
        fill: case.fill,
        ..Case::default()
    };
    observe(&call, subject)
}

/// Known reasons, "ordered by line, then place", and something removed by each.
fn check_records(seen: &Observed) -> Result<(), String> {
    let bytes = seen.numbers[1].saturating_mul(REMOVAL_BYTES as u64);
    demand(bytes <= seen.records().len() as u64, || "too many records".into())?;
    let mut last = None;
    for record in seen.records()[..bytes as usize].chunks_exact(REMOVAL_BYTES) {
        let number = |place: usize| {
            u32::from_be_bytes(record[place..place + 4].try_into().expect("four bytes"))
        };
        let at = (number(0), number(4));
        let good = (1..=5).contains(&number(8)) && number(12) > 0 && last < Some(at);
        demand(good, || format!("record {record:?} is wrong or misplaced"))?;
        last = Some(at);
    }
    Ok(())
}

/// Every name of the mended database, asked for one by one.
fn check_names(mended: &[u8], subject: &impl Subject) -> Result<(), String> {
    let separators = |byte: &u8| matches!(byte, b'\n' | b':' | b'|' | b'=');
    for name in mended.split(separators).filter(|name| !name.is_empty()).take(MOST_NAMES) {
        let code = subject.flag(Files::alone(mended), name, b"am", &mut 0);
        demand(!NEVER_AFTERWARDS.contains(&code), || {
            format!("asked for \"{}\" the mended database gives {code}", name.escape_ascii())
        })?;
    }
    Ok(())
}

#[cfg(test)]
mod tests {
    use super::*;
    use crate::generate;
    use crate::subject::Reference;
    use crate::twisted::{Answer, Twisted};

    fn cases() -> impl Iterator<Item = Case> {
        let all = (0..20_000).map(|index| generate::case(6, index));
        all.filter(|case| case.operation == Operation::RepairPromises)
    }

    #[test]
    fn the_reference_keeps_them() {
        for case in cases() {
            assert_eq!(broken(&case, &Reference), None, "{case}");
        }
    }

    #[test]
    fn some_databases_are_sound_and_most_are_not() {
        let sound = cases().filter(|case| is_sound(&case.database)).count();
        let all = cases().count();
        assert!(sound * 20 > all && sound * 2 < all, "{sound} of {all}");
    }

    #[test]
    fn writing_an_empty_database_breaks_them() {
        let subject = Twisted(|answer: Answer| {
            if answer.operation == Operation::Repair && answer.code == ACCEPTED {
                *answer.number = 0;
            }
            answer.code
        });
        assert!(cases().any(|case| broken(&case, &subject).is_some()));
    }
}
