//! Document 02, Ask 7, on real calls: "Send at stays and equals the two in a row, given room between
//! them".

use crate::case::{before, observe, Case, Operation};
use crate::subject::{Subject, ACCEPTED};

/// What the subject does otherwise, in words; nothing if the two in a row are Send at.
pub fn broken(case: &Case, subject: &impl Subject) -> Option<String> {
    check(case, subject).err()
}

fn check(case: &Case, subject: &impl Subject) -> Result<(), String> {
    let whole = observe(&Case { operation: Operation::SendAt, ..case.clone() }, subject);
    let first = Case { operation: Operation::Fill, room: between(case), ..case.clone() };
    let filled = observe(&first, subject);
    if filled.code != ACCEPTED {
        let same = whole.code == filled.code && whole.block == before(case).block;
        return demand(same, || {
            format!("the first half gives {}, Send at {}", filled.code, whole.code)
        });
    }
    let [delay, star, count] = filled.numbers;
    demand(delay <= 99_999, || format!("the first half gives a delay of {delay}"))?;
    let second = Case {
        operation: Operation::Pad,
        command: filled.reported(count).to_vec(),
        delay,
        star,
        ..case.clone()
    };
    let padded = observe(&second, subject);
    demand(padded == whole, || {
        format!(
            "the two in a row give {} and {}, Send at {} and {}, or bytes differ",
            padded.code, padded.numbers[0], whole.code, whole.numbers[0]
        )
    })
}

fn demand(holds: bool, complaint: impl FnOnce() -> String) -> Result<(), String> {
    if holds {
        Ok(())
    } else {
        Err(complaint())
    }
}

/// Room that is always enough: each parameter is written once, from a sequence of two bytes or more,
/// as at most five digits or as a byte with at most two compensations.
fn between(case: &Case) -> u64 {
    (case.command.len() + 2 * 3 + 2 * (case.back.len() + case.up.len() + 1)) as u64
}

#[cfg(test)]
mod tests {
    use super::*;
    use crate::generate;
    use crate::subject::Reference;
    use crate::twisted::{Answer, Twisted};

    fn cases() -> impl Iterator<Item = Case> {
        (0..4_000).map(|index| generate::case_of(Operation::Halves, 4, index))
    }

    #[test]
    fn the_reference_keeps_it() {
        for case in cases() {
            assert_eq!(broken(&case, &Reference), None, "{case}");
        }
    }

    #[test]
    fn a_byte_too_few_between_breaks_it() {
        let subject = Twisted(|answer: Answer| {
            if answer.operation == Operation::Fill && answer.code == ACCEPTED {
                *answer.number = answer.number.saturating_sub(1);
            }
            answer.code
        });
        assert!(cases().any(|case| broken(&case, &subject).is_some()));
    }

    #[test]
    fn another_refusal_breaks_it() {
        let subject = Twisted(|answer: Answer| match answer.operation {
            Operation::SendAt if answer.code == 13 => 12,
            _ => answer.code,
        });
        assert!(cases().any(|case| broken(&case, &subject).is_some()));
    }
}
