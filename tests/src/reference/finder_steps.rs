//! The finder of Ask 8 byte by byte, from any state: the header says that any bytes in the struct are
//! safe, and a state that no history leads to has none to be worked out from.
//!
//! Where there is a history, `finder` and not this says what is right; a unit test holds the two
//! together.

use super::finder::{
    State, BLANK, COMPLETE, DIFFERS, HAS_NAME, INVALID_STATE, MOST_COLLECTED, NAMES, PASSED,
};
use super::{
    is_blank, is_name, require, write, Refusal, BAD_NAME, CHAIN_TOO_LARGE, MAX_CHAIN_SIZE, NO_ROOM,
    UNKNOWN_NAME,
};

pub fn open(name: &[u8], state: &mut State) -> Result<(), Refusal> {
    *state = State::from_bytes(b"");
    if !is_name(name) {
        state.ended = 1;
        return Err(BAD_NAME);
    }
    state.size = name.len() as u16;
    state.name[..name.len()].copy_from_slice(name);
    Ok(())
}

pub fn feed(state: &mut State, block: &[u8], text: &mut [u8]) -> Result<(), Refusal> {
    require(state.ended == 0, INVALID_STATE)?;
    block.iter().for_each(|&byte| one_byte(state, byte, text));
    Ok(())
}

pub fn end(state: &mut State, text: &mut [u8]) -> Result<(), Refusal> {
    require(state.ended == 0, INVALID_STATE)?;
    if state.held != 0 {
        joined_byte(state, b'\\', text);
    }
    end_line(state);
    state.held = 0;
    state.ended = 1;
    Ok(())
}

pub fn answer(state: &State, text: &[u8], out: &mut [u8]) -> Result<usize, Refusal> {
    let count = usize::from(state.count);
    require(state.ended != 0, INVALID_STATE)?;
    require(state.stage == COMPLETE, UNKNOWN_NAME)?;
    require(count <= MAX_CHAIN_SIZE, CHAIN_TOO_LARGE)?;
    require(count <= text.len(), NO_ROOM)?;
    write(&text[..count], out)
}

/// A size over 64 is 64.
fn asked(state: &State) -> &[u8] {
    &state.name[..usize::from(state.size).min(state.name.len())]
}

fn one_byte(state: &mut State, byte: u8, text: &mut [u8]) {
    let held = state.held != 0;
    state.held = u8::from(byte == b'\\');
    if held && byte == b'\n' {
        return;
    }
    if held {
        joined_byte(state, b'\\', text);
    }
    if byte != b'\\' {
        joined_byte(state, byte, text);
    }
}

fn joined_byte(state: &mut State, byte: u8, text: &mut [u8]) {
    match state.stage {
        _ if byte == b'\n' => end_line(state),
        HAS_NAME => collect(state, byte, text),
        PASSED | COMPLETE => {}
        _ => names_byte(state, byte, text),
    }
}

fn end_line(state: &mut State) {
    let complete = match state.stage {
        COMPLETE => return,
        HAS_NAME => true,
        BLANK | PASSED => false,
        _ => is_asked(state),
    };
    state.matched = 0;
    if complete {
        state.stage = COMPLETE;
    } else {
        (state.stage, state.count) = (BLANK, 0);
    }
}

/// Whether the present name, if it ends here, is the asked one.
fn is_asked(state: &State) -> bool {
    usize::from(state.matched) == asked(state).len()
}

fn names_byte(state: &mut State, byte: u8, text: &mut [u8]) {
    let ends_asked = is_asked(state);
    match byte {
        b'#' if state.count == 0 => (state.stage, state.matched) = (PASSED, 0),
        b':' if !ends_asked => (state.stage, state.matched) = (PASSED, 0),
        b':' | b'|' => {
            (state.stage, state.matched) = (if ends_asked { HAS_NAME } else { NAMES }, 0);
            collect(state, byte, text);
        }
        _ => {
            let next = asked(state).get(usize::from(state.matched));
            state.matched = if next == Some(&byte) { state.matched + 1 } else { DIFFERS };
            state.stage = if is_blank(&byte) { state.stage } else { NAMES };
            collect(state, byte, text);
        }
    }
}

fn collect(state: &mut State, byte: u8, text: &mut [u8]) {
    let place = usize::from(state.count);
    if place < MOST_COLLECTED {
        if let Some(to) = text.get_mut(place) {
            *to = byte;
        }
        state.count += 1;
    }
}
