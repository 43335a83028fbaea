//! Document 02, Ask 13, on real calls: where a link is replaced by the fields of its parent's Flat,
//! "every question about the asked name has the same answer", and so have a batch, Flat and, places
//! and file numbers aside, the listing.

use crate::case::{Case, Operation};
use crate::properties::{check_equal, demand, good_ids, Lent, FLAT_ROOM};
use crate::reference::pasting::{ids_met, links, paste, Edited, Linked};
use crate::reference::{Files, MAX_DATABASE};
use crate::subject::{Subject, ACCEPTED};

/// Links replaced, one at a time, in one case; a chain may have 31.
const MOST_LINKS: usize = 4;

/// Which answer changes, in words; nothing if none does.
pub fn broken(case: &Case, subject: &impl Subject) -> Option<String> {
    check(case, subject, paste).err()
}

/// The links of the asked chain that may be replaced, but for limit 3.
pub fn replaceable(case: &Case) -> Vec<Linked> {
    let mut links = links(case.files(), &case.name).unwrap_or_default();
    links.retain(|linked| linked.found_directly);
    links
}

type Edit = fn(Files, &Linked, &[u8]) -> Edited;

fn check(case: &Case, subject: &impl Subject, edit: Edit) -> Result<(), String> {
    let links = replaceable(case);
    let ids = ids_to_ask(case);
    let step = links.len().div_ceil(MOST_LINKS).max(1);
    for linked in links.iter().step_by(step) {
        let flat = parent_flat(case, linked, subject)?;
        let Edited { bytes, ends } = edit(case.files(), linked, &flat);
        if bytes.len() > MAX_DATABASE {
            continue;
        }
        let mut before = Lent::new(case, case.database.clone(), case.ends.clone(), subject);
        let mut after = Lent::new(case, bytes, ends, subject);
        check_equal(case, &mut before, &mut after, &ids)
            .map_err(|what| format!("{what} if {} is pasted", text(&linked.name)))?;
    }
    Ok(())
}

/// The link's chain is the rest of an accepted one, so it is accepted.
fn parent_flat(case: &Case, linked: &Linked, subject: &impl Subject) -> Result<Vec<u8>, String> {
    let parent = Case { name: linked.name.clone(), ..case.clone() };
    let mut lent = Lent::new(&parent, case.database.clone(), case.ends.clone(), subject);
    let flat = lent.call(Operation::Flat, b"", FLAT_ROOM);
    demand(flat.code == ACCEPTED, || {
        format!("Flat of {} gives {}", text(&linked.name), flat.code)
    })?;
    Ok(flat.reported(flat.numbers[0]).to_vec())
}

/// Those of the chain, also cancelled ones, and those given with the case.
fn ids_to_ask(case: &Case) -> Vec<[u8; 2]> {
    let mut ids = ids_met(case.files(), &case.name);
    ids.extend(good_ids(case));
    ids.sort_unstable();
    ids.dedup();
    ids
}

fn text(name: &[u8]) -> String {
    format!("\"{}\"", name.escape_ascii())
}

#[cfg(test)]
mod tests {
    use super::*;
    use crate::generate;
    use crate::subject::Reference;
    use crate::twisted::{Answer, Twisted};
    use std::cell::Cell;

    fn cases() -> impl Iterator<Item = Case> {
        (0..2_000).map(|index| generate::case_of(Operation::Pasting, 4, index))
    }

    #[test]
    fn the_reference_keeps_it() {
        for case in cases() {
            assert_eq!(broken(&case, &Reference), None, "{case}");
        }
    }

    /// In so many of a hundred cases.
    fn percent(holds: impl Fn(&Case) -> bool) -> usize {
        cases().filter(holds).count() * 100 / cases().count()
    }

    #[test]
    fn most_cases_paste() {
        assert!(percent(|case| !replaceable(case).is_empty()) >= 75);
    }

    #[test]
    fn some_links_would_find_another_line() {
        let misled = percent(|case| {
            let all = links(case.files(), &case.name).unwrap_or_default();
            all.len() > replaceable(case).len()
        });
        assert!((2..30).contains(&misled), "{misled} %");
    }

    #[test]
    fn many_cases_have_several_files_and_some_an_empty_one() {
        let ends = |case: &Case| case.ends.clone().unwrap_or_default();
        assert!(percent(|case| ends(case).len() > 1) >= 40);
        assert!(percent(|case| ends(case).windows(2).any(|pair| pair[0] == pair[1])) >= 10);
    }

    fn is_found(edit: Edit) -> bool {
        cases().any(|case| check(&case, &Reference, edit).is_err())
    }

    #[test]
    fn ends_of_the_wrong_files_are_found() {
        assert!(is_found(|files, linked, flat| {
            let behind = Linked { file: linked.file + 1, ..linked.clone() };
            paste(files, &behind, flat)
        }));
    }

    #[test]
    fn fields_lost_before_the_link_are_found() {
        assert!(is_found(|files, linked, flat| {
            let names = linked.before_link.split_inclusive(|&byte| byte == b':').next();
            let before_link = names.expect("a colon stands before the link").to_vec();
            paste(files, &Linked { before_link, ..linked.clone() }, flat)
        }));
    }

    #[test]
    fn an_answer_that_is_another_each_time_is_found() {
        for twisted in [Operation::Number, Operation::Batch] {
            let calls = Cell::new(0);
            let subject = Twisted(|answer: Answer| {
                calls.set(calls.get() + 1);
                if answer.operation == twisted && answer.code == ACCEPTED {
                    *answer.number += calls.get();
                }
                answer.code
            });
            assert!(cases().any(|case| broken(&case, &subject).is_some()), "{twisted:?}");
        }
    }
}
