//! Document 02, Ask 3: "take a buffer of 4-byte questions (id, kind 1 to 3, a zero) and fill 8-byte
//! answers".

use super::{
    check_database, check_name, flag, number, require, string_bytes, write, Files, Refusal, BAD_ID,
};

pub const PARTIAL_QUESTION: Refusal = 15;

pub const QUESTION_BYTES: usize = 4;
pub const ANSWER_BYTES: usize = 8;

/// "Status (0 present, 1 absent, 2 refused)."
const PRESENT: u8 = 0;
const ABSENT: u8 = 1;
const REFUSED: u8 = 2;

/// "The whole call is refused with 1, 3, 15 and 9, in that order", and with 16 before all others. The number of answers is what
/// the call reports (our reading).
pub fn batch(
    database: Files,
    name: &[u8],
    questions: &[u8],
    out: &mut [u8],
) -> Result<usize, Refusal> {
    database.check_ends()?;
    check_name(name)?;
    check_database(database.bytes)?;
    // "A question buffer that isn't a multiple of four."
    require(questions.len() % QUESTION_BYTES == 0, PARTIAL_QUESTION)?;
    let questions = questions.chunks(QUESTION_BYTES);
    let answers: Vec<u8> =
        questions.flat_map(|question| answer(alone(database, name, question))).collect();
    Ok(write(&answers, out)? / ANSWER_BYTES)
}

/// "Each answer must equal the same question put alone, given room; a bad id, kind or fourth byte is
/// refused 2 in its own answer, before what the walk refuses there."
fn alone(database: Files, name: &[u8], question: &[u8]) -> Result<Option<u64>, Refusal> {
    let (id, kind, fourth) = (&question[..2], question[2], question[3]);
    require(fourth == 0, BAD_ID)?;
    match kind {
        1 => flag(database, name, id),
        2 => number(database, name, id),
        // "The value as in a listing record": of a string the decoded length.
        3 => Ok(string_bytes(database, name, id)?.map(|bytes| bytes.len() as u64)),
        _ => Err(BAD_ID),
    }
}

/// "Status, refusal number (0 unless refused), two zeros, and the value as in a listing record, zero
/// unless present."
fn answer(said: Result<Option<u64>, Refusal>) -> [u8; ANSWER_BYTES] {
    let (status, refusal, value) = match said {
        Ok(Some(value)) => (PRESENT, 0, value as u32),
        Ok(None) => (ABSENT, 0, 0),
        Err(refusal) => (REFUSED, refusal, 0),
    };
    let [first, second, third, fourth] = value.to_be_bytes();
    [status, refusal, 0, 0, first, second, third, fourth]
}
