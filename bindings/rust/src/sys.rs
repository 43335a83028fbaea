//! The C functions of the static library, each behind a safe function that gives its result number.
//!
//! This is the only module with unsafe code. The numbers passed by `&mut` change only with result 0.

/// `struct termcap_finder`. The library reads and writes all of it.
#[repr(C)]
#[allow(dead_code)]
pub struct FinderState {
    pub stage: u8,
    matched: u8,
    pub count: u16,
    held: u8,
    ended: u8,
    pub size: u16,
    pub name: [u8; 64],
}

// The size of `struct termcap_finder` in the header.
const _: () = assert!(core::mem::size_of::<FinderState>() == 72);

mod c {
    use super::FinderState;

    extern "C" {
        pub fn termcap_show_files(
            db: *const u8,
            db_len: usize,
            ends: *const usize,
            ends_len: usize,
            name: *const u8,
            name_len: usize,
            start: *mut u64,
            length: *mut u64,
        ) -> u32;
        pub fn termcap_search_files(
            db: *const u8,
            db_len: usize,
            ends: *const usize,
            ends_len: usize,
            name: *const u8,
            name_len: usize,
            found: *mut u64,
            compared: *mut u64,
        ) -> u32;
        pub fn termcap_flag_files(
            db: *const u8,
            db_len: usize,
            ends: *const usize,
            ends_len: usize,
            name: *const u8,
            name_len: usize,
            id: *const u8,
            id_len: usize,
            value: *mut u64,
        ) -> u32;
        pub fn termcap_number_files(
            db: *const u8,
            db_len: usize,
            ends: *const usize,
            ends_len: usize,
            name: *const u8,
            name_len: usize,
            id: *const u8,
            id_len: usize,
            value: *mut u64,
        ) -> u32;
        pub fn termcap_string_files(
            db: *const u8,
            db_len: usize,
            ends: *const usize,
            ends_len: usize,
            name: *const u8,
            name_len: usize,
            id: *const u8,
            id_len: usize,
            out: *mut u8,
            out_len: usize,
            count: *mut u64,
        ) -> u32;
        pub fn termcap_list_files(
            db: *const u8,
            db_len: usize,
            ends: *const usize,
            ends_len: usize,
            name: *const u8,
            name_len: usize,
            out: *mut u8,
            out_len: usize,
            records: *mut u64,
        ) -> u32;
        pub fn termcap_flat_files(
            db: *const u8,
            db_len: usize,
            ends: *const usize,
            ends_len: usize,
            name: *const u8,
            name_len: usize,
            out: *mut u8,
            out_len: usize,
            count: *mut u64,
        ) -> u32;
        pub fn termcap_batch_files(
            db: *const u8,
            db_len: usize,
            ends: *const usize,
            ends_len: usize,
            name: *const u8,
            name_len: usize,
            questions: *const u8,
            questions_len: usize,
            out: *mut u8,
            out_len: usize,
            answers: *mut u64,
        ) -> u32;
        pub fn termcap_repair(
            db: *const u8,
            db_len: usize,
            out: *mut u8,
            out_len: usize,
            records: *mut u8,
            records_len: usize,
            count: *mut u64,
            removed: *mut u64,
        ) -> u32;
        pub fn termcap_send(
            command: *const u8,
            command_len: usize,
            lines: u64,
            speed: u64,
            pad: u8,
            out: *mut u8,
            out_len: usize,
            count: *mut u64,
        ) -> u32;
        pub fn termcap_send_at(
            command: *const u8,
            command_len: usize,
            row: u64,
            column: u64,
            back: *const u8,
            back_len: usize,
            up: *const u8,
            up_len: usize,
            lines: u64,
            speed: u64,
            pad: u8,
            out: *mut u8,
            out_len: usize,
            count: *mut u64,
        ) -> u32;
        pub fn termcap_fill(
            command: *const u8,
            command_len: usize,
            row: u64,
            column: u64,
            back: *const u8,
            back_len: usize,
            up: *const u8,
            up_len: usize,
            out: *mut u8,
            out_len: usize,
            delay: *mut u64,
            star: *mut u64,
            count: *mut u64,
        ) -> u32;
        pub fn termcap_pad(
            delay: u64,
            star: u64,
            bytes: *const u8,
            bytes_len: usize,
            lines: u64,
            speed: u64,
            pad: u8,
            out: *mut u8,
            out_len: usize,
            count: *mut u64,
        ) -> u32;
        pub fn termcap_finder_open(
            name: *const u8,
            name_len: usize,
            finder: *mut FinderState,
        ) -> u32;
        pub fn termcap_finder_feed(
            finder: *mut FinderState,
            block: *const u8,
            block_len: usize,
            text: *mut u8,
            text_len: usize,
        ) -> u32;
        pub fn termcap_finder_end(finder: *mut FinderState, text: *mut u8, text_len: usize) -> u32;
        pub fn termcap_finder_answer(
            finder: *const FinderState,
            text: *const u8,
            text_len: usize,
            out: *mut u8,
            out_len: usize,
            count: *mut u64,
        ) -> u32;
    }
}

// SAFETY, for every call below: each pointer and length come from one Rust slice, so the pointer is
// not null, also for an empty slice, and is valid for that length during the call. Output buffers
// and numbers are borrowed mutably, so they overlap nothing else. The library keeps no pointer,
// reads only within the input slices, and writes only within the output buffers and the numbers.

pub fn show(db: &[u8], ends: &[usize], name: &[u8], start: &mut u64, length: &mut u64) -> u32 {
    // SAFETY: see above.
    unsafe {
        c::termcap_show_files(
            db.as_ptr(),
            db.len(),
            ends.as_ptr(),
            ends.len(),
            name.as_ptr(),
            name.len(),
            start,
            length,
        )
    }
}

pub fn search(db: &[u8], ends: &[usize], name: &[u8], found: &mut u64, compared: &mut u64) -> u32 {
    // SAFETY: see above.
    unsafe {
        c::termcap_search_files(
            db.as_ptr(),
            db.len(),
            ends.as_ptr(),
            ends.len(),
            name.as_ptr(),
            name.len(),
            found,
            compared,
        )
    }
}

pub fn flag(db: &[u8], ends: &[usize], name: &[u8], id: &[u8], value: &mut u64) -> u32 {
    // SAFETY: see above.
    unsafe {
        c::termcap_flag_files(
            db.as_ptr(),
            db.len(),
            ends.as_ptr(),
            ends.len(),
            name.as_ptr(),
            name.len(),
            id.as_ptr(),
            id.len(),
            value,
        )
    }
}

pub fn number(db: &[u8], ends: &[usize], name: &[u8], id: &[u8], value: &mut u64) -> u32 {
    // SAFETY: see above.
    unsafe {
        c::termcap_number_files(
            db.as_ptr(),
            db.len(),
            ends.as_ptr(),
            ends.len(),
            name.as_ptr(),
            name.len(),
            id.as_ptr(),
            id.len(),
            value,
        )
    }
}

pub fn string(
    db: &[u8],
    ends: &[usize],
    name: &[u8],
    id: &[u8],
    out: &mut [u8],
    count: &mut u64,
) -> u32 {
    // SAFETY: see above.
    unsafe {
        c::termcap_string_files(
            db.as_ptr(),
            db.len(),
            ends.as_ptr(),
            ends.len(),
            name.as_ptr(),
            name.len(),
            id.as_ptr(),
            id.len(),
            out.as_mut_ptr(),
            out.len(),
            count,
        )
    }
}

pub fn list(db: &[u8], ends: &[usize], name: &[u8], out: &mut [u8], records: &mut u64) -> u32 {
    // SAFETY: see above.
    unsafe {
        c::termcap_list_files(
            db.as_ptr(),
            db.len(),
            ends.as_ptr(),
            ends.len(),
            name.as_ptr(),
            name.len(),
            out.as_mut_ptr(),
            out.len(),
            records,
        )
    }
}

pub fn flat(db: &[u8], ends: &[usize], name: &[u8], out: &mut [u8], count: &mut u64) -> u32 {
    // SAFETY: see above.
    unsafe {
        c::termcap_flat_files(
            db.as_ptr(),
            db.len(),
            ends.as_ptr(),
            ends.len(),
            name.as_ptr(),
            name.len(),
            out.as_mut_ptr(),
            out.len(),
            count,
        )
    }
}

pub fn batch(
    db: &[u8],
    ends: &[usize],
    name: &[u8],
    questions: &[u8],
    out: &mut [u8],
    answers: &mut u64,
) -> u32 {
    // SAFETY: see above.
    unsafe {
        c::termcap_batch_files(
            db.as_ptr(),
            db.len(),
            ends.as_ptr(),
            ends.len(),
            name.as_ptr(),
            name.len(),
            questions.as_ptr(),
            questions.len(),
            out.as_mut_ptr(),
            out.len(),
            answers,
        )
    }
}

pub fn repair(
    db: &[u8],
    out: &mut [u8],
    records: &mut [u8],
    count: &mut u64,
    removed: &mut u64,
) -> u32 {
    // SAFETY: see above.
    unsafe {
        c::termcap_repair(
            db.as_ptr(),
            db.len(),
            out.as_mut_ptr(),
            out.len(),
            records.as_mut_ptr(),
            records.len(),
            count,
            removed,
        )
    }
}

pub fn send(
    command: &[u8],
    lines: u64,
    speed: u64,
    pad: u8,
    out: &mut [u8],
    count: &mut u64,
) -> u32 {
    // SAFETY: see above.
    unsafe {
        c::termcap_send(
            command.as_ptr(),
            command.len(),
            lines,
            speed,
            pad,
            out.as_mut_ptr(),
            out.len(),
            count,
        )
    }
}

#[allow(clippy::too_many_arguments)] // the C function's own parameters
pub fn send_at(
    command: &[u8],
    row: u64,
    column: u64,
    back: &[u8],
    up: &[u8],
    lines: u64,
    speed: u64,
    pad: u8,
    out: &mut [u8],
    count: &mut u64,
) -> u32 {
    // SAFETY: see above.
    unsafe {
        c::termcap_send_at(
            command.as_ptr(),
            command.len(),
            row,
            column,
            back.as_ptr(),
            back.len(),
            up.as_ptr(),
            up.len(),
            lines,
            speed,
            pad,
            out.as_mut_ptr(),
            out.len(),
            count,
        )
    }
}

#[allow(clippy::too_many_arguments)] // the C function's own parameters
pub fn fill(
    command: &[u8],
    row: u64,
    column: u64,
    back: &[u8],
    up: &[u8],
    out: &mut [u8],
    delay: &mut u64,
    star: &mut u64,
    count: &mut u64,
) -> u32 {
    // SAFETY: see above.
    unsafe {
        c::termcap_fill(
            command.as_ptr(),
            command.len(),
            row,
            column,
            back.as_ptr(),
            back.len(),
            up.as_ptr(),
            up.len(),
            out.as_mut_ptr(),
            out.len(),
            delay,
            star,
            count,
        )
    }
}

#[allow(clippy::too_many_arguments)] // the C function's own parameters
pub fn pad(
    delay: u64,
    star: u64,
    bytes: &[u8],
    lines: u64,
    speed: u64,
    pad: u8,
    out: &mut [u8],
    count: &mut u64,
) -> u32 {
    // SAFETY: see above.
    unsafe {
        c::termcap_pad(
            delay,
            star,
            bytes.as_ptr(),
            bytes.len(),
            lines,
            speed,
            pad,
            out.as_mut_ptr(),
            out.len(),
            count,
        )
    }
}

/// Gives the state, and the result: a refused finder has ended.
pub fn finder_open(name: &[u8]) -> (FinderState, u32) {
    let mut finder =
        FinderState { stage: 0, matched: 0, count: 0, held: 0, ended: 0, size: 0, name: [0; 64] };
    // SAFETY: see above; the state is a mutable reference, and any bytes of it are good.
    let result = unsafe { c::termcap_finder_open(name.as_ptr(), name.len(), &mut finder) };
    (finder, result)
}

pub fn finder_feed(finder: &mut FinderState, block: &[u8], text: &mut [u8]) -> u32 {
    // SAFETY: see above.
    unsafe {
        c::termcap_finder_feed(finder, block.as_ptr(), block.len(), text.as_mut_ptr(), text.len())
    }
}

pub fn finder_end(finder: &mut FinderState, text: &mut [u8]) -> u32 {
    // SAFETY: see above.
    unsafe { c::termcap_finder_end(finder, text.as_mut_ptr(), text.len()) }
}

pub fn finder_answer(finder: &FinderState, text: &[u8], out: &mut [u8], count: &mut u64) -> u32 {
    // SAFETY: see above.
    unsafe {
        c::termcap_finder_answer(
            finder,
            text.as_ptr(),
            text.len(),
            out.as_mut_ptr(),
            out.len(),
            count,
        )
    }
}
