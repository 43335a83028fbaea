//! A case: one operation with its inputs; what a subject was seen to do with it; the comparison.

use std::fmt;

use crate::finder::{self, Watched};
use crate::halves;
use crate::pasting;
use crate::properties;
use crate::random::Random;
use crate::reference::batch::ANSWER_BYTES;
use crate::reference::repair::REMOVAL_BYTES;
use crate::reference::{Files, Position, RECORD_BYTES};
use crate::repair_promises;
use crate::subject::{Reference, Subject, ABSENT, ACCEPTED};

#[derive(Clone, Copy, Debug, Default, PartialEq, Eq)]
pub enum Operation {
    #[default]
    Show,
    Search,
    Flag,
    Number,
    String,
    List,
    Flat,
    Batch,
    Repair,
    Send,
    SendAt,
    /// Demand 3 on real calls: `id` holds ids to ask besides those listed, two bytes each.
    Properties,
    /// The promises of the repair on real calls.
    RepairPromises,
    Fill,
    Pad,
    /// On real calls: Send at equals its two halves in a row.
    Halves,
    /// A finder opened for `name` and fed `database` in blocks.
    Finder,
    /// A finder that starts as `state`, which may be any bytes.
    FinderState,
    /// On real calls: a link replaced by its parent's fields changes no answer. `id` is as for the
    /// properties.
    Pasting,
}

impl Operation {
    pub const ALL: [Operation; 19] = [
        Operation::Show,
        Operation::Search,
        Operation::Flag,
        Operation::Number,
        Operation::String,
        Operation::List,
        Operation::Flat,
        Operation::Batch,
        Operation::Repair,
        Operation::Send,
        Operation::SendAt,
        Operation::Properties,
        Operation::RepairPromises,
        Operation::Fill,
        Operation::Pad,
        Operation::Halves,
        Operation::Finder,
        Operation::FinderState,
        Operation::Pasting,
    ];

    pub fn sends(self) -> bool {
        self == Operation::Fill || self.takes_speed()
    }

    pub fn takes_position(self) -> bool {
        matches!(self, Operation::SendAt | Operation::Fill | Operation::Halves)
    }

    pub fn takes_speed(self) -> bool {
        matches!(self, Operation::Send | Operation::SendAt | Operation::Pad | Operation::Halves)
    }

    pub fn repairs(self) -> bool {
        matches!(self, Operation::Repair | Operation::RepairPromises)
    }

    pub fn finds(self) -> bool {
        matches!(self, Operation::Finder | Operation::FinderState)
    }

    pub fn takes_name(self) -> bool {
        !self.sends() && !self.repairs() && self != Operation::FinderState
    }

    pub fn takes_id(self) -> bool {
        use Operation::*;
        matches!(self, Flag | Number | String | Properties | Pasting)
    }

    pub fn takes_room(self) -> bool {
        use Operation::*;
        !matches!(self, Show | Search | Flag | Number)
    }

    /// Which of the numbers counts the bytes, or the records, that it writes.
    fn counted(self) -> usize {
        match self {
            Operation::Fill => 2,
            _ => 0,
        }
    }

    /// The names of the numbers it reports.
    fn number_names(self) -> &'static [&'static str] {
        use Operation::*;
        match self {
            Show => &["start", "length"],
            Search => &["found", "compared"],
            Flag | Number => &["value"],
            List => &["records"],
            Batch => &["answers"],
            Repair => &["count", "removed"],
            Fill => &["delay", "star", "count"],
            _ => &["count"],
        }
    }
}

/// Inputs that an operation doesn't take are left as in the default.
#[derive(Clone, Debug, Default, PartialEq, Eq)]
pub struct Case {
    pub operation: Operation,
    pub database: Vec<u8>,
    /// Ends of several files; without them the one-file function is called.
    pub ends: Option<Vec<usize>>,
    /// Of a finder: where the database is cut into blocks. Equal places make an empty block, and an
    /// empty database without cuts makes no block at all.
    pub cuts: Vec<usize>,
    pub name: Vec<u8>,
    pub id: Vec<u8>,
    /// The questions of a batch, four bytes each.
    pub questions: Vec<u8>,
    /// For Pad: the finished bytes.
    pub command: Vec<u8>,
    pub row: u64,
    pub column: u64,
    pub back: Vec<u8>,
    pub up: Vec<u8>,
    pub lines: u64,
    pub speed: u64,
    pub pad: u8,
    /// Bytes of the lent output buffer.
    pub room: u64,
    /// Bytes of the second buffer of a repair, for its records.
    pub records_room: u64,
    /// Bytes of the text that is lent to a finder at each call.
    pub text_room: u64,
    /// The bytes of a finder that was not opened; those that are missing are 0.
    pub state: Vec<u8>,
    /// Of Pad: the delay in tenths, and the star, which any number but 0 is.
    pub delay: u64,
    pub star: u64,
    /// Seed of what stands in the buffers, the guards and the numbers before the call.
    pub fill: u64,
}

impl Case {
    pub fn files(&self) -> Files<'_> {
        Files { bytes: &self.database, ends: self.ends.as_deref() }
    }

    /// The blocks that a finder is fed.
    pub fn blocks(&self) -> Vec<&[u8]> {
        if self.database.is_empty() && self.cuts.is_empty() {
            return Vec::new();
        }
        let size = self.database.len();
        let mut start = 0;
        let mut blocks = Vec::new();
        for &cut in self.cuts.iter().chain([&size]) {
            let end = cut.clamp(start, size);
            blocks.push(&self.database[start..end]);
            start = end;
        }
        blocks
    }
}

/// What a call left behind: the result, the numbers and every byte of the buffers and their guards.
#[derive(Clone, Debug, PartialEq, Eq)]
pub struct Observed {
    pub code: u32,
    pub numbers: [u64; 3],
    pub block: Vec<u8>,
    pub records_block: Vec<u8>,
    /// Of a finder: its other calls, its state and its text.
    pub finder: Option<Watched>,
}

/// Guard bytes before and behind the lent buffer.
pub const GUARD: usize = 64;

impl Observed {
    pub fn out(&self) -> &[u8] {
        &self.block[GUARD..self.block.len() - GUARD]
    }

    /// The second buffer of a repair.
    pub fn records(&self) -> &[u8] {
        &self.records_block[GUARD..self.records_block.len() - GUARD]
    }

    /// The bytes said to be written, as far as the buffer has them: the number may be a lie.
    pub fn reported(&self, bytes: u64) -> &[u8] {
        let out = self.out();
        &out[..bytes.min(out.len() as u64) as usize]
    }
}

/// The block and the numbers as they stand before the call.
pub fn before(case: &Case) -> Observed {
    let mut random = Random::new(case.fill);
    let mut block = vec![0; GUARD + case.room as usize + GUARD];
    random.fill(&mut block);
    let mut records_block = vec![0; GUARD + case.records_room as usize + GUARD];
    random.fill(&mut records_block);
    let numbers = [random.number(), random.number(), random.number()];
    Observed { code: u32::MAX, numbers, block, records_block, finder: None }
}

/// One call of the subject; for the properties and for pasting, the call of Flat that they start from;
/// for a finder, all its calls.
pub fn observe(case: &Case, subject: &impl Subject) -> Observed {
    let mut seen = before(case);
    let end = seen.block.len() - GUARD;
    let out = &mut seen.block[GUARD..end];
    let records_end = seen.records_block.len() - GUARD;
    let records = &mut seen.records_block[GUARD..records_end];
    let [first, second, third] = &mut seen.numbers;
    let (database, name, id) = (case.files(), &case.name[..], &case.id[..]);
    let position = Position { row: case.row, column: case.column, back: &case.back, up: &case.up };
    seen.code = match case.operation {
        Operation::Show => subject.show(database, name, first, second),
        Operation::Search => subject.search(database, name, first, second),
        Operation::Flag => subject.flag(database, name, id, first),
        Operation::Number => subject.number(database, name, id, first),
        Operation::String => subject.string(database, name, id, out, first),
        Operation::List => subject.list(database, name, out, first),
        Operation::Flat | Operation::Properties | Operation::Pasting => {
            subject.flat(database, name, out, first)
        }
        Operation::Batch => subject.batch(database, name, &case.questions, out, first),
        Operation::Repair | Operation::RepairPromises => {
            subject.repair(&case.database, out, records, first, second)
        }
        Operation::Send => {
            subject.send(&case.command, case.lines, case.speed, case.pad, out, first)
        }
        Operation::SendAt | Operation::Halves => {
            subject.send_at(&case.command, position, case.lines, case.speed, case.pad, out, first)
        }
        Operation::Fill => subject.fill(&case.command, position, out, first, second, third),
        Operation::Pad => {
            let (delay, star, bytes) = (case.delay, case.star, &case.command);
            subject.pad(delay, star, bytes, case.lines, case.speed, case.pad, out, first)
        }
        Operation::Finder | Operation::FinderState => {
            let (code, watched) = finder::watch(case, subject, out, first);
            seen.finder = Some(watched);
            code
        }
    };
    seen
}

/// What is wrong with the subject's answer to the case; nothing if it is right.
pub fn disagreement(case: &Case, subject: &impl Subject) -> Option<String> {
    let kept = case.clone();
    let complaint = if case.operation == Operation::Properties {
        properties::broken(case, subject)
    } else if case.operation == Operation::RepairPromises {
        repair_promises::broken(case, subject)
    } else if case.operation == Operation::Halves {
        halves::broken(case, subject)
    } else if case.operation.finds() {
        finder::broken(case, subject)
    } else if case.operation == Operation::Pasting {
        pasting::broken(case, subject)
    } else {
        let expected = observe(&kept, &Reference);
        let seen = observe(case, subject);
        (seen != expected).then(|| explain(&kept, &expected, &seen))
    };
    if *case != kept {
        return Some("the library changed what it was lent to read\n".to_string());
    }
    complaint
}

pub fn explain(case: &Case, expected: &Observed, seen: &Observed) -> String {
    let mut text = String::new();
    text += &format!("reference: {}\n", describe(case, expected));
    text += &format!("library:   {}\n", describe(case, seen));
    for line in byte_differences(case, expected, seen) {
        text += &format!("{line}\n");
    }
    text
}

/// Bytes of an answer that are shown.
const MOST_SHOWN: usize = 400;

/// One answer in words.
pub fn describe(case: &Case, observed: &Observed) -> String {
    let result = match observed.code {
        ACCEPTED => "0 (accepted)".to_string(),
        ABSENT => "255 (absent)".to_string(),
        other => format!("{other} (refused)"),
    };
    let mut text = format!("result {result}");
    let old = before(case).numbers;
    for (place, name) in case.operation.number_names().iter().enumerate() {
        if observed.numbers[place] == old[place] {
            text += &format!(", {name} unchanged");
        } else {
            text += &format!(", {name} {}", observed.numbers[place]);
        }
    }
    if observed.code == ACCEPTED && case.operation.takes_room() {
        let each = match case.operation {
            Operation::List => RECORD_BYTES as u64,
            Operation::Batch => ANSWER_BYTES as u64,
            _ => 1,
        };
        let count = observed.numbers[case.operation.counted()];
        let bytes = observed.reported(count.saturating_mul(each));
        text += &format!(", bytes {}", Bytes(&bytes[..bytes.len().min(MOST_SHOWN)]));
        if bytes.len() > MOST_SHOWN {
            text += &format!(" and {} more", bytes.len() - MOST_SHOWN);
        }
        if case.operation == Operation::Repair {
            let bytes = observed.numbers[1].saturating_mul(REMOVAL_BYTES as u64);
            let records = observed.records();
            let shown = bytes.min(records.len() as u64).min(MOST_SHOWN as u64);
            text += &format!(", records {}", Bytes(&records[..shown as usize]));
        }
    }
    text
}

/// The first few bytes of buffer and guards that differ.
fn byte_differences(case: &Case, expected: &Observed, seen: &Observed) -> Vec<String> {
    const SHOWN: usize = 8;
    let old = before(case).block;
    let places: Vec<usize> =
        (0..old.len()).filter(|&place| expected.block[place] != seen.block[place]).collect();
    let mut lines = Vec::new();
    for &place in places.iter().take(SHOWN) {
        let offset = place as i64 - GUARD as i64;
        let guard = if offset < 0 || offset >= case.room as i64 { " (guard)" } else { "" };
        lines.push(format!(
            "out[{offset}]{guard}: before {}, reference {}, library {}",
            old[place], expected.block[place], seen.block[place]
        ));
    }
    if places.len() > SHOWN {
        lines.push(format!("... {} bytes differ in all", places.len()));
    }
    if expected.records_block != seen.records_block {
        lines.push("the buffer for the records differs".to_string());
    }
    if let (Some(expected), Some(seen)) = (&expected.finder, &seen.finder) {
        lines.extend(expected.differences(seen));
    }
    lines
}

/// Bytes as a Rust expression: a byte string, or parts of one where a byte is repeated often.
pub struct Bytes<'a>(pub &'a [u8]);

const LONG_RUN: usize = 48;

impl fmt::Display for Bytes<'_> {
    fn fmt(&self, formatter: &mut fmt::Formatter) -> fmt::Result {
        let parts: Vec<String> = parts_of(self.0).iter().map(|part| part_text(part)).collect();
        match &parts[..] {
            [] => write!(formatter, "b\"\".to_vec()"),
            [one] => write!(formatter, "{one}"),
            many => write!(formatter, "[{}].concat()", many.join(", ")),
        }
    }
}

fn part_text(part: &[u8]) -> String {
    if part.len() >= LONG_RUN && part.iter().all(|byte| *byte == part[0]) {
        format!("vec![{}; {}]", part[0], part.len())
    } else {
        format!("b\"{}\".to_vec()", part.escape_ascii())
    }
}

/// Splits off runs of one byte that are long.
fn parts_of(bytes: &[u8]) -> Vec<&[u8]> {
    let mut parts = Vec::new();
    let mut start = 0;
    let mut place = 0;
    while place < bytes.len() {
        let run = bytes[place..].iter().take_while(|byte| **byte == bytes[place]).count();
        if run >= LONG_RUN {
            if start < place {
                parts.push(&bytes[start..place]);
            }
            parts.push(&bytes[place..place + run]);
            start = place + run;
        }
        place += run;
    }
    if start < bytes.len() {
        parts.push(&bytes[start..]);
    }
    parts
}

/// A case as a Rust expression.
impl fmt::Display for Case {
    fn fmt(&self, formatter: &mut fmt::Formatter) -> fmt::Result {
        writeln!(formatter, "Case {{")?;
        writeln!(formatter, "    operation: Operation::{:?},", self.operation)?;
        if self.operation.sends() {
            writeln!(formatter, "    command: {},", Bytes(&self.command))?;
            if self.operation.takes_position() {
                writeln!(formatter, "    row: {},", self.row)?;
                writeln!(formatter, "    column: {},", self.column)?;
                writeln!(formatter, "    back: {},", Bytes(&self.back))?;
                writeln!(formatter, "    up: {},", Bytes(&self.up))?;
            }
            if self.operation == Operation::Pad {
                writeln!(formatter, "    delay: {},", self.delay)?;
                writeln!(formatter, "    star: {},", self.star)?;
            }
            if self.operation.takes_speed() {
                writeln!(formatter, "    lines: {},", self.lines)?;
                writeln!(formatter, "    speed: {},", self.speed)?;
                writeln!(formatter, "    pad: {},", self.pad)?;
            }
        } else {
            writeln!(formatter, "    database: {},", Bytes(&self.database))?;
            if let Some(ends) = &self.ends {
                writeln!(formatter, "    ends: Some(vec!{ends:?}),")?;
            }
            if self.operation.finds() {
                writeln!(formatter, "    cuts: vec!{:?},", self.cuts)?;
            }
            if self.operation.takes_name() {
                writeln!(formatter, "    name: {},", Bytes(&self.name))?;
            }
            if self.operation == Operation::FinderState {
                writeln!(formatter, "    state: {},", Bytes(&self.state))?;
            }
            if self.operation.takes_id() {
                writeln!(formatter, "    id: {},", Bytes(&self.id))?;
            }
            if self.operation == Operation::Batch {
                writeln!(formatter, "    questions: {},", Bytes(&self.questions))?;
            }
        }
        if self.operation.takes_room() {
            writeln!(formatter, "    room: {},", self.room)?;
        }
        if self.operation.repairs() {
            writeln!(formatter, "    records_room: {},", self.records_room)?;
        }
        if self.operation.finds() {
            writeln!(formatter, "    text_room: {},", self.text_room)?;
        }
        writeln!(formatter, "    fill: {},", self.fill)?;
        writeln!(formatter, "    ..Case::default()")?;
        write!(formatter, "}}")
    }
}

#[cfg(test)]
mod tests {
    use super::*;
    use crate::generate;
    use crate::shrink::shrink;
    use crate::twisted::{Answer, Twisted};
    use std::cell::RefCell;
    use std::time::Duration;

    fn found_within(cases: u64, subject: &impl Subject) -> Option<Case> {
        (0..cases)
            .map(|index| generate::case(1, index))
            .find(|case| disagreement(case, subject).is_some())
    }

    #[test]
    fn the_reference_agrees_with_itself() {
        assert_eq!(found_within(5_000, &Reference), None);
    }

    #[test]
    fn a_byte_past_the_count_is_seen() {
        let subject = Twisted(|answer: Answer| {
            let place = *answer.number as usize;
            if answer.code == ACCEPTED && place < answer.out.len() {
                answer.out[place] ^= 1;
            }
            answer.code
        });
        assert!(found_within(200, &subject).is_some());
    }

    #[test]
    fn a_number_changed_by_a_refusal_is_seen() {
        let subject = Twisted(|answer: Answer| {
            if answer.code != ACCEPTED {
                *answer.number = 0;
            }
            answer.code
        });
        assert!(found_within(200, &subject).is_some());
    }

    #[test]
    fn no_answer_is_too_wild() {
        let random = RefCell::new(Random::new(5));
        let subject = Twisted(|answer: Answer| {
            let mut random = random.borrow_mut();
            if random.chance(50) {
                *answer.number = random.pick_value(&[0, 1, u64::MAX, 1 << 61, 44_001]);
            }
            if random.chance(50) {
                random.fill(answer.out);
            }
            random.pick_value(&[answer.code, 0, 0, 255, 9, 77, u32::MAX])
        });
        for index in 0..2_000 {
            let case = generate::case(2, index);
            let complaint = disagreement(&case, &subject);
            if complaint.is_some() && index % 50 == 0 {
                let time = Duration::from_millis(5);
                shrink(&case, time, |case| disagreement(case, &subject).is_some());
            }
        }
    }

    #[test]
    fn a_failing_case_is_made_small() {
        let subject = Twisted(|answer: Answer| {
            if answer.operation == Operation::Flag && answer.code == ACCEPTED {
                *answer.number = 2;
            }
            answer.code
        });
        let case = (0..)
            .map(|index| generate::case_of(Operation::Flag, 1, index))
            .filter(|case| case.database.len() > 60)
            .find(|case| disagreement(case, &subject).is_some())
            .expect("flags are often present");
        let fails = |case: &Case| disagreement(case, &subject).is_some();
        let small = shrink(&case, Duration::from_secs(20), fails);
        // The name, a colon and the flag are left.
        let line = [&small.name, &b":"[..], &small.id].concat();
        assert_eq!((&small.database, small.id.len()), (&line, 2), "{small}");
    }

    #[test]
    fn a_case_is_printed_as_it_would_be_written() {
        let case = Case {
            operation: Operation::String,
            database: [b"n\"\\\n\x00\xff:".to_vec(), vec![120; 100]].concat(),
            name: b"n".to_vec(),
            id: b"cl".to_vec(),
            room: 3,
            fill: 0,
            ..Case::default()
        };
        let text = r#"Case {
    operation: Operation::String,
    database: [b"n\"\\\n\x00\xff:".to_vec(), vec![120; 100]].concat(),
    name: b"n".to_vec(),
    id: b"cl".to_vec(),
    room: 3,
    fill: 0,
    ..Case::default()
}"#;
        assert_eq!(case.to_string(), text);
    }
}
