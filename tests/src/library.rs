//! The static library, as its outside is fixed: a slice passes as pointer and length.
//!
//! This file belongs to the program that is linked with the library, not to the crate.

use termcap_tests::reference::finder::State;
use termcap_tests::reference::{Files, Position};
use termcap_tests::subject::Subject;

extern "C" {
    fn termcap_show(
        db: *const u8,
        db_len: usize,
        name: *const u8,
        name_len: usize,
        start: *mut u64,
        length: *mut u64,
    ) -> u32;
    fn termcap_search(
        db: *const u8,
        db_len: usize,
        name: *const u8,
        name_len: usize,
        found: *mut u64,
        compared: *mut u64,
    ) -> u32;
    fn termcap_flag(
        db: *const u8,
        db_len: usize,
        name: *const u8,
        name_len: usize,
        id: *const u8,
        id_len: usize,
        value: *mut u64,
    ) -> u32;
    fn termcap_number(
        db: *const u8,
        db_len: usize,
        name: *const u8,
        name_len: usize,
        id: *const u8,
        id_len: usize,
        value: *mut u64,
    ) -> u32;
    fn termcap_string(
        db: *const u8,
        db_len: usize,
        name: *const u8,
        name_len: usize,
        id: *const u8,
        id_len: usize,
        out: *mut u8,
        out_len: usize,
        count: *mut u64,
    ) -> u32;
    fn termcap_list(
        db: *const u8,
        db_len: usize,
        name: *const u8,
        name_len: usize,
        out: *mut u8,
        out_len: usize,
        records: *mut u64,
    ) -> u32;
    fn termcap_flat(
        db: *const u8,
        db_len: usize,
        name: *const u8,
        name_len: usize,
        out: *mut u8,
        out_len: usize,
        count: *mut u64,
    ) -> u32;
    fn termcap_batch(
        db: *const u8,
        db_len: usize,
        name: *const u8,
        name_len: usize,
        questions: *const u8,
        questions_len: usize,
        out: *mut u8,
        out_len: usize,
        answers: *mut u64,
    ) -> u32;
    fn termcap_batch_files(
        db: *const u8,
        db_len: usize,
        ends: *const usize,
        ends_len: usize,
        name: *const u8,
        name_len: usize,
        questions: *const u8,
        questions_len: usize,
        out: *mut u8,
        out_len: usize,
        answers: *mut u64,
    ) -> u32;
    fn termcap_show_files(
        db: *const u8,
        db_len: usize,
        ends: *const usize,
        ends_len: usize,
        name: *const u8,
        name_len: usize,
        start: *mut u64,
        length: *mut u64,
    ) -> u32;
    fn termcap_search_files(
        db: *const u8,
        db_len: usize,
        ends: *const usize,
        ends_len: usize,
        name: *const u8,
        name_len: usize,
        found: *mut u64,
        compared: *mut u64,
    ) -> u32;
    fn termcap_flag_files(
        db: *const u8,
        db_len: usize,
        ends: *const usize,
        ends_len: usize,
        name: *const u8,
        name_len: usize,
        id: *const u8,
        id_len: usize,
        value: *mut u64,
    ) -> u32;
    fn termcap_number_files(
        db: *const u8,
        db_len: usize,
        ends: *const usize,
        ends_len: usize,
        name: *const u8,
        name_len: usize,
        id: *const u8,
        id_len: usize,
        value: *mut u64,
    ) -> u32;
    fn termcap_string_files(
        db: *const u8,
        db_len: usize,
        ends: *const usize,
        ends_len: usize,
        name: *const u8,
        name_len: usize,
        id: *const u8,
        id_len: usize,
        out: *mut u8,
        out_len: usize,
        count: *mut u64,
    ) -> u32;
    fn termcap_list_files(
        db: *const u8,
        db_len: usize,
        ends: *const usize,
        ends_len: usize,
        name: *const u8,
        name_len: usize,
        out: *mut u8,
        out_len: usize,
        records: *mut u64,
    ) -> u32;
    fn termcap_flat_files(
        db: *const u8,
        db_len: usize,
        ends: *const usize,
        ends_len: usize,
        name: *const u8,
        name_len: usize,
        out: *mut u8,
        out_len: usize,
        count: *mut u64,
    ) -> u32;
    fn termcap_repair(
        db: *const u8,
        db_len: usize,
        out: *mut u8,
        out_len: usize,
        records: *mut u8,
        records_len: usize,
        count: *mut u64,
        removed: *mut u64,
    ) -> u32;
    fn termcap_send(
        command: *const u8,
        command_len: usize,
        lines: u64,
        speed: u64,
        pad: u8,
        out: *mut u8,
        out_len: usize,
        count: *mut u64,
    ) -> u32;
    fn termcap_send_at(
        command: *const u8,
        command_len: usize,
        row: u64,
        column: u64,
        back: *const u8,
        back_len: usize,
        up: *const u8,
        up_len: usize,
        lines: u64,
        speed: u64,
        pad: u8,
        out: *mut u8,
        out_len: usize,
        count: *mut u64,
    ) -> u32;
    fn termcap_fill(
        command: *const u8,
        command_len: usize,
        row: u64,
        column: u64,
        back: *const u8,
        back_len: usize,
        up: *const u8,
        up_len: usize,
        out: *mut u8,
        out_len: usize,
        delay: *mut u64,
        star: *mut u64,
        count: *mut u64,
    ) -> u32;
    fn termcap_pad(
        delay: u64,
        star: u64,
        bytes: *const u8,
        bytes_len: usize,
        lines: u64,
        speed: u64,
        pad: u8,
        out: *mut u8,
        out_len: usize,
        count: *mut u64,
    ) -> u32;
    fn termcap_finder_open(name: *const u8, name_len: usize, finder: *mut State) -> u32;
    fn termcap_finder_feed(
        finder: *mut State,
        block: *const u8,
        block_len: usize,
        text: *mut u8,
        text_len: usize,
    ) -> u32;
    fn termcap_finder_end(finder: *mut State, text: *mut u8, text_len: usize) -> u32;
    fn termcap_finder_answer(
        finder: *const State,
        text: *const u8,
        text_len: usize,
        out: *mut u8,
        out_len: usize,
        count: *mut u64,
    ) -> u32;
}

/// The pointer to pass for a slice; for an empty one it dangles, but is never null.
fn pointer<T>(slice: &[T]) -> *const T {
    if slice.is_empty() {
        std::ptr::NonNull::dangling().as_ptr()
    } else {
        slice.as_ptr()
    }
}

/// The static library behind safe functions. Every pointer passed is good for its length during
/// the call, and an output buffer is lent to nobody else.
pub struct Library;

impl Subject for Library {
    fn show(&self, database: Files, name: &[u8], start: &mut u64, length: &mut u64) -> u32 {
        let db = database.bytes;
        unsafe {
            match database.ends {
                None => {
                    termcap_show(pointer(db), db.len(), pointer(name), name.len(), start, length)
                }
                Some(ends) => termcap_show_files(
                    pointer(db),
                    db.len(),
                    pointer(ends),
                    ends.len(),
                    pointer(name),
                    name.len(),
                    start,
                    length,
                ),
            }
        }
    }

    fn search(&self, database: Files, name: &[u8], found: &mut u64, compared: &mut u64) -> u32 {
        let db = database.bytes;
        unsafe {
            match database.ends {
                None => termcap_search(
                    pointer(db),
                    db.len(),
                    pointer(name),
                    name.len(),
                    found,
                    compared,
                ),
                Some(ends) => termcap_search_files(
                    pointer(db),
                    db.len(),
                    pointer(ends),
                    ends.len(),
                    pointer(name),
                    name.len(),
                    found,
                    compared,
                ),
            }
        }
    }

    fn flag(&self, database: Files, name: &[u8], id: &[u8], value: &mut u64) -> u32 {
        let db = database.bytes;
        unsafe {
            match database.ends {
                None => termcap_flag(
                    pointer(db),
                    db.len(),
                    pointer(name),
                    name.len(),
                    pointer(id),
                    id.len(),
                    value,
                ),
                Some(ends) => termcap_flag_files(
                    pointer(db),
                    db.len(),
                    pointer(ends),
                    ends.len(),
                    pointer(name),
                    name.len(),
                    pointer(id),
                    id.len(),
                    value,
                ),
            }
        }
    }

    fn number(&self, database: Files, name: &[u8], id: &[u8], value: &mut u64) -> u32 {
        let db = database.bytes;
        unsafe {
            match database.ends {
                None => termcap_number(
                    pointer(db),
                    db.len(),
                    pointer(name),
                    name.len(),
                    pointer(id),
                    id.len(),
                    value,
                ),
                Some(ends) => termcap_number_files(
                    pointer(db),
                    db.len(),
                    pointer(ends),
                    ends.len(),
                    pointer(name),
                    name.len(),
                    pointer(id),
                    id.len(),
                    value,
                ),
            }
        }
    }

    fn string(
        &self,
        database: Files,
        name: &[u8],
        id: &[u8],
        out: &mut [u8],
        count: &mut u64,
    ) -> u32 {
        let db = database.bytes;
        unsafe {
            match database.ends {
                None => termcap_string(
                    pointer(db),
                    db.len(),
                    pointer(name),
                    name.len(),
                    pointer(id),
                    id.len(),
                    out.as_mut_ptr(),
                    out.len(),
                    count,
                ),
                Some(ends) => termcap_string_files(
                    pointer(db),
                    db.len(),
                    pointer(ends),
                    ends.len(),
                    pointer(name),
                    name.len(),
                    pointer(id),
                    id.len(),
                    out.as_mut_ptr(),
                    out.len(),
                    count,
                ),
            }
        }
    }

    fn list(&self, database: Files, name: &[u8], out: &mut [u8], records: &mut u64) -> u32 {
        let db = database.bytes;
        unsafe {
            match database.ends {
                None => termcap_list(
                    pointer(db),
                    db.len(),
                    pointer(name),
                    name.len(),
                    out.as_mut_ptr(),
                    out.len(),
                    records,
                ),
                Some(ends) => termcap_list_files(
                    pointer(db),
                    db.len(),
                    pointer(ends),
                    ends.len(),
                    pointer(name),
                    name.len(),
                    out.as_mut_ptr(),
                    out.len(),
                    records,
                ),
            }
        }
    }

    fn flat(&self, database: Files, name: &[u8], out: &mut [u8], count: &mut u64) -> u32 {
        let db = database.bytes;
        unsafe {
            match database.ends {
                None => termcap_flat(
                    pointer(db),
                    db.len(),
                    pointer(name),
                    name.len(),
                    out.as_mut_ptr(),
                    out.len(),
                    count,
                ),
                Some(ends) => termcap_flat_files(
                    pointer(db),
                    db.len(),
                    pointer(ends),
                    ends.len(),
                    pointer(name),
                    name.len(),
                    out.as_mut_ptr(),
                    out.len(),
                    count,
                ),
            }
        }
    }

    fn batch(
        &self,
        database: Files,
        name: &[u8],
        questions: &[u8],
        out: &mut [u8],
        answers: &mut u64,
    ) -> u32 {
        let db = database.bytes;
        unsafe {
            match database.ends {
                None => termcap_batch(
                    pointer(db),
                    db.len(),
                    pointer(name),
                    name.len(),
                    pointer(questions),
                    questions.len(),
                    out.as_mut_ptr(),
                    out.len(),
                    answers,
                ),
                Some(ends) => termcap_batch_files(
                    pointer(db),
                    db.len(),
                    pointer(ends),
                    ends.len(),
                    pointer(name),
                    name.len(),
                    pointer(questions),
                    questions.len(),
                    out.as_mut_ptr(),
                    out.len(),
                    answers,
                ),
            }
        }
    }

    fn repair(
        &self,
        database: &[u8],
        out: &mut [u8],
        records: &mut [u8],
        count: &mut u64,
        removed: &mut u64,
    ) -> u32 {
        unsafe {
            termcap_repair(
                pointer(database),
                database.len(),
                out.as_mut_ptr(),
                out.len(),
                records.as_mut_ptr(),
                records.len(),
                count,
                removed,
            )
        }
    }

    fn send(
        &self,
        command: &[u8],
        lines: u64,
        speed: u64,
        pad: u8,
        out: &mut [u8],
        count: &mut u64,
    ) -> u32 {
        unsafe {
            termcap_send(
                pointer(command),
                command.len(),
                lines,
                speed,
                pad,
                out.as_mut_ptr(),
                out.len(),
                count,
            )
        }
    }

    fn send_at(
        &self,
        command: &[u8],
        position: Position,
        lines: u64,
        speed: u64,
        pad: u8,
        out: &mut [u8],
        count: &mut u64,
    ) -> u32 {
        unsafe {
            termcap_send_at(
                pointer(command),
                command.len(),
                position.row,
                position.column,
                pointer(position.back),
                position.back.len(),
                pointer(position.up),
                position.up.len(),
                lines,
                speed,
                pad,
                out.as_mut_ptr(),
                out.len(),
                count,
            )
        }
    }

    fn fill(
        &self,
        command: &[u8],
        position: Position,
        out: &mut [u8],
        delay: &mut u64,
        star: &mut u64,
        count: &mut u64,
    ) -> u32 {
        unsafe {
            termcap_fill(
                pointer(command),
                command.len(),
                position.row,
                position.column,
                pointer(position.back),
                position.back.len(),
                pointer(position.up),
                position.up.len(),
                out.as_mut_ptr(),
                out.len(),
                delay,
                star,
                count,
            )
        }
    }

    fn pad(
        &self,
        delay: u64,
        star: u64,
        bytes: &[u8],
        lines: u64,
        speed: u64,
        pad: u8,
        out: &mut [u8],
        count: &mut u64,
    ) -> u32 {
        unsafe {
            termcap_pad(
                delay,
                star,
                pointer(bytes),
                bytes.len(),
                lines,
                speed,
                pad,
                out.as_mut_ptr(),
                out.len(),
                count,
            )
        }
    }

    fn finder_open(&self, name: &[u8], finder: &mut State) -> u32 {
        unsafe { termcap_finder_open(pointer(name), name.len(), finder) }
    }

    fn finder_feed(&self, finder: &mut State, block: &[u8], text: &mut [u8]) -> u32 {
        let (block_len, text_len) = (block.len(), text.len());
        unsafe {
            termcap_finder_feed(finder, pointer(block), block_len, text.as_mut_ptr(), text_len)
        }
    }

    fn finder_end(&self, finder: &mut State, text: &mut [u8]) -> u32 {
        unsafe { termcap_finder_end(finder, text.as_mut_ptr(), text.len()) }
    }

    fn finder_answer(&self, finder: &State, text: &[u8], out: &mut [u8], count: &mut u64) -> u32 {
        unsafe {
            termcap_finder_answer(
                finder,
                pointer(text),
                text.len(),
                out.as_mut_ptr(),
                out.len(),
                count,
            )
        }
    }
}
