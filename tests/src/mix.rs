//! What the generated cases are made of: how often each operation gives each result.

use std::collections::BTreeMap;
use std::fmt;

use crate::case::{observe, Operation};
use crate::generate;
use crate::subject::{Reference, ABSENT, ACCEPTED};

/// The results a reader wants to see, in this order: accepted, absent, the refusals.
const CODES: [u32; 19] =
    [ACCEPTED, ABSENT, 1, 2, 3, 4, 5, 6, 7, 8, 9, 10, 11, 12, 13, 14, 15, 16, 17];

pub struct Mix {
    counts: BTreeMap<(usize, u32), u64>,
}

/// Counts the reference's results over the cases of a seed. For the properties and for pasting it is
/// the result of Flat that counts.
pub fn measure(seed: u64, cases: u64) -> Mix {
    let mut counts = BTreeMap::new();
    for index in 0..cases {
        let mut case = generate::case(seed, index);
        let row = row_of(case.operation);
        if matches!(case.operation, Operation::Properties | Operation::Pasting) {
            case.room = 17_000;
        }
        let code = observe(&case, &Reference).code;
        *counts.entry((row, code)).or_insert(0) += 1;
    }
    Mix { counts }
}

fn row_of(operation: Operation) -> usize {
    Operation::ALL.iter().position(|&one| one == operation).expect("it is one of them all")
}

impl Mix {
    pub fn total(&self, operation: Operation) -> u64 {
        let row = row_of(operation);
        self.counts.iter().filter(|((one, _), _)| *one == row).map(|(_, count)| count).sum()
    }

    pub fn count(&self, operation: Operation, code: u32) -> u64 {
        self.counts.get(&(row_of(operation), code)).copied().unwrap_or(0)
    }

    /// In percent of the operation's cases.
    pub fn share(&self, operation: Operation, code: u32) -> f64 {
        100.0 * self.count(operation, code) as f64 / self.total(operation).max(1) as f64
    }
}

impl fmt::Display for Mix {
    fn fmt(&self, formatter: &mut fmt::Formatter) -> fmt::Result {
        write!(formatter, "{:<10} {:>7}", "percent of", "cases")?;
        for code in CODES {
            let head = match code {
                ACCEPTED => "ok".to_string(),
                ABSENT => "absent".to_string(),
                refusal => refusal.to_string(),
            };
            write!(formatter, " {head:>6}")?;
        }
        for operation in Operation::ALL {
            let name = format!("{operation:?}");
            write!(formatter, "\n{name:<10} {:>7}", self.total(operation))?;
            for code in CODES {
                match self.count(operation, code) {
                    0 => write!(formatter, " {:>6}", "-")?,
                    _ => write!(formatter, " {:>6.2}", self.share(operation, code))?,
                }
            }
        }
        Ok(())
    }
}

#[cfg(test)]
mod tests {
    use super::*;

    /// Every result an operation can give.
    fn possible(operation: Operation) -> &'static [u32] {
        match operation {
            Operation::Show => &[ACCEPTED, 1, 3, 4, 16],
            Operation::Search => &[ACCEPTED, 1, 3, 16],
            Operation::Flag | Operation::Number => &[ACCEPTED, ABSENT, 1, 2, 3, 4, 5, 6, 7, 8, 16],
            Operation::String => &[ACCEPTED, ABSENT, 1, 2, 3, 4, 5, 6, 7, 8, 9, 16],
            Operation::List | Operation::Flat => &[ACCEPTED, 1, 3, 4, 5, 6, 7, 8, 9, 16],
            Operation::Batch => &[ACCEPTED, 1, 3, 9, 15, 16],
            Operation::Repair => &[ACCEPTED, 3, 9, 14],
            Operation::Send => &[ACCEPTED, 9, 12, 13],
            Operation::SendAt => &[ACCEPTED, 9, 10, 11, 12, 13],
            Operation::Properties => &[ACCEPTED, 1, 4, 5, 6, 7, 8, 16],
            Operation::RepairPromises => &[ACCEPTED, 14],
            Operation::Fill | Operation::Halves => &[ACCEPTED, 9, 10, 11, 12, 13],
            Operation::Pad => &[ACCEPTED, 9, 12],
            Operation::Finder => &[ACCEPTED, 1, 4, 8, 9],
            Operation::FinderState => &[ACCEPTED, 4, 8, 9, 17],
            Operation::Pasting => &[ACCEPTED, 5],
        }
    }

    #[test]
    fn every_result_occurs_regularly() {
        let mix = measure(1, 60_000);
        for operation in Operation::ALL {
            let mut counted = 0;
            for &code in possible(operation) {
                let share = mix.share(operation, code);
                let least = if matches!(code, 3 | 14) { 0.0001 } else { 0.3 };
                assert!(share >= least, "{operation:?} gives {code} in {share:.3} % of its cases");
                counted += mix.count(operation, code);
            }
            let of_real_calls =
                [Operation::Properties, Operation::RepairPromises, Operation::Pasting];
            if !of_real_calls.contains(&operation) {
                assert_eq!(counted, mix.total(operation), "{operation:?} gives something else");
            }
        }
    }
}
