//! All implementations give the same answers: to what is timed, and to more.

use termcap_tests::random::Random;
use termcap_tests::reference::{Files, Position};
use termcap_tests::subject::{Reference, Subject, ACCEPTED};

use crate::contender::{Row, Wanted, RIVALS};
use crate::databases::large::Large;
use crate::library::Library;
use crate::plain_c::NOWHERE;
use crate::question::{Question, ROOM};
use crate::rows::ABSENT;

/// A disagreement, with its input.
pub type Checked = Result<(), String>;

/// What the buffers have before a call: no answer is all of this byte.
const FILL: u8 = 0xA5;

const TWISTED: u64 = 20_000;

/// Rows and columns below this are tried with every command that is sent at a position. All bytes
/// that are raised are among them.
const SENT: u64 = 132;

/// Every command that is timed fits this, and so does what a rival writes that tests no room.
const SENDING_ROOM: usize = 512;

/// The questions and the searches of a row.
pub fn check_row(row: &Row) -> Checked {
    for question in &row.questions {
        check_question(question).map_err(|fault| format!("{}: {fault}", row.name))?;
        check_sending(question).map_err(|fault| format!("{}: {fault}", row.name))?;
    }
    for wanted in &row.searches {
        check_search(*wanted, true).map_err(|fault| format!("{}: {fault}", row.name))?;
    }
    Ok(())
}

/// Answers, and every byte of the buffers.
fn check_question(question: &Question) -> Checked {
    let (mut our_bytes, mut its_bytes) = (vec![FILL; ROOM], vec![FILL; ROOM]);
    let ours = question.ask(&Library, &mut our_bytes);
    let its = question.ask(&Reference, &mut its_bytes);
    if ours == its && our_bytes == its_bytes {
        return Ok(());
    }
    Err(format!("ours answers {ours:?}, the reference {its:?}, or other bytes"))
}

/// The bytes that ours and the loop in C send for the command, for it and for other positions.
fn check_sending(question: &Question) -> Checked {
    check_sent(question)?;
    if let Question::SendAt { command, position } = *question {
        for place in 0..SENT * SENT {
            let (row, column) = (place / SENT, place % SENT);
            check_sent(&Question::SendAt {
                command,
                position: Position { row, column, ..position },
            })?;
        }
    }
    Ok(())
}

fn check_sent(question: &Question) -> Checked {
    let (mut our_bytes, mut its_bytes) = (vec![FILL; SENDING_ROOM], vec![FILL; SENDING_ROOM]);
    let Some(count) = question.send_plainly(&mut its_bytes) else {
        return Ok(());
    };
    let ours = question.ask(&Library, &mut our_bytes);
    if (ours.code, ours.numbers[0]) == (ACCEPTED, count as u64) && our_bytes == its_bytes {
        return Ok(());
    }
    Err(format!("{question:?}: ours answers {ours:?}, the loop in C {count}, or other bytes"))
}

/// The start of the line that ours and the three searches in C give, and the reference if asked
/// too: it is slow.
fn check_search(wanted: Wanted, with_reference: bool) -> Checked {
    let ours = shown(&Library, wanted);
    let mut others: Vec<(&str, usize)> = Vec::new();
    for rival in RIVALS {
        if let Some(search) = rival.search() {
            others.push((rival.name(), search(wanted.database, wanted.name)));
        }
    }
    if with_reference {
        others.push(("the reference", shown(&Reference, wanted)));
    }
    for (rival, start) in others {
        if start != ours {
            let name = String::from_utf8_lossy(wanted.name);
            let (ours, start) = (place(ours), place(start));
            return Err(format!("name {name:?}: ours finds it {ours}, {rival} {start}"));
        }
    }
    Ok(())
}

fn place(start: usize) -> String {
    match start {
        NOWHERE => "nowhere".to_string(),
        _ => format!("at {start}"),
    }
}

fn shown<S: Subject>(subject: &S, wanted: Wanted) -> usize {
    let (mut start, mut length) = (0, 0);
    match subject.show(Files::alone(wanted.database), wanted.name, &mut start, &mut length) {
        ACCEPTED => start as usize,
        _ => NOWHERE,
    }
}

/// What is not timed: all names of a large and of a less large database, and twisted small ones.
pub fn check_more(large: &Large, less_large: &Large) -> Checked {
    check_starts(large)?;
    let names = check_names(large, 40)? + check_names(less_large, 1)?;
    check_twisted(TWISTED)?;
    println!("All agree on every input that is timed, {names} names, {TWISTED} twisted databases.");
    Ok(())
}

/// Every name of the database, and the absent ones. One of so many is also asked of the reference,
/// without its last byte, and with one more.
fn check_names(large: &Large, every: usize) -> Result<usize, String> {
    let names = large.entries.iter().flat_map(|entry| &entry.names).map(|name| name.as_bytes());
    let absent = ABSENT.iter().map(|name| name.as_bytes());
    let mut count = 0;
    for (place, name) in names.chain(absent).enumerate() {
        let wanted = Wanted { database: &large.bytes, name };
        check_search(wanted, place % every == 0)?;
        count += 1;
        if place % every == 0 {
            check_search(Wanted { name: &name[..name.len() - 1], ..wanted }, true)?;
            check_search(Wanted { name: &[name, b"x"].concat(), ..wanted }, true)?;
            count += 2;
        }
    }
    Ok(count)
}

/// Every description starts where the generator put it: the first name leads there.
fn check_starts(large: &Large) -> Checked {
    for entry in &large.entries {
        let wanted = Wanted { database: &large.bytes, name: entry.names[0].as_bytes() };
        let start = shown(&Library, wanted);
        if start != entry.start {
            return Err(format!("{:?} is at {}, found at {start}", entry.names[0], entry.start));
        }
    }
    Ok(())
}

/// Small databases of the bytes that matter, in all sorts of order.
fn check_twisted(count: u64) -> Checked {
    for index in 0..count {
        let mut random = Random::for_case(1, index);
        let database = twisted(&mut random);
        for name in [b"a".as_slice(), b"ab", b" ", b"aa", b"#a", b"aaaaaa"] {
            check_search(Wanted { database: &database, name }, true)
                .map_err(|fault| format!("{:?}: {fault}", String::from_utf8_lossy(&database)))?;
        }
    }
    Ok(())
}

fn twisted(random: &mut Random) -> Vec<u8> {
    const PARTS: [&str; 16] = [
        "a", "a", "ab", "b", "|", "|", ":", "\\\n", "\\\n", "\n", "\n", "#", " ", "\t", "\\", "aaa",
    ];
    let most = if random.chance(50) { 12 } else { 250 };
    let mut bytes = Vec::new();
    // Without colons and bars there are long lines of one name.
    let parts = if random.chance(70) { &PARTS[..] } else { &PARTS[7..] };
    for _ in 0..random.below(most) {
        bytes.extend_from_slice(random.pick(parts).as_bytes());
    }
    bytes
}
