//! The three searches of `search.c`, the sending of `sending.c` and the finder of `finder.c`.

use std::marker::PhantomData;
use std::mem::MaybeUninit;

use termcap_tests::reference::Position;

extern "C" {
    fn search_bytes(db: *const u8, db_len: usize, name: *const u8, name_len: usize) -> usize;
    fn search_memchr(db: *const u8, db_len: usize, name: *const u8, name_len: usize) -> usize;
    fn search_simd(db: *const u8, db_len: usize, name: *const u8, name_len: usize) -> usize;
    fn search_simd_is_vector() -> i32;
    fn plain_send(
        command: *const u8,
        command_len: usize,
        line_count: u32,
        speed: u32,
        pad: u8,
        out: *mut u8,
    ) -> usize;
    fn plain_send_at(
        command: *const u8,
        command_len: usize,
        row: i32,
        column: i32,
        back: *const u8,
        back_len: usize,
        up: *const u8,
        up_len: usize,
        line_count: u32,
        speed: u32,
        pad: u8,
        out: *mut u8,
    ) -> usize;
    fn plain_finder_open(name: *const u8, name_len: usize, finder: *mut State);
    fn plain_finder_feed(finder: *mut State, block: *const u8, block_len: usize, text: *mut u8);
    fn plain_finder_end(finder: *mut State, text: *mut u8) -> usize;
}

/// The start of the first line that holds the name, or `NOWHERE`.
pub type Search = fn(database: &[u8], name: &[u8]) -> usize;

pub const NOWHERE: usize = usize::MAX;

pub fn bytes(database: &[u8], name: &[u8]) -> usize {
    unsafe { search_bytes(database.as_ptr(), database.len(), name.as_ptr(), name.len()) }
}

pub fn memchr(database: &[u8], name: &[u8]) -> usize {
    unsafe { search_memchr(database.as_ptr(), database.len(), name.as_ptr(), name.len()) }
}

pub fn simd(database: &[u8], name: &[u8]) -> usize {
    unsafe { search_simd(database.as_ptr(), database.len(), name.as_ptr(), name.len()) }
}

/// Whether `simd` has vector instructions on this machine; otherwise it is `memchr`.
pub fn simd_is_vector() -> bool {
    unsafe { search_simd_is_vector() == 1 }
}

/// Neither of the two tests whether what it writes fits `out`: its caller lends enough.
pub fn send(command: &[u8], lines: u64, speed: u64, pad: u8, out: &mut [u8]) -> usize {
    let (lines, speed) = (lines as u32, speed as u32);
    unsafe { plain_send(command.as_ptr(), command.len(), lines, speed, pad, out.as_mut_ptr()) }
}

pub fn send_at(
    command: &[u8],
    position: Position,
    lines: u64,
    speed: u64,
    pad: u8,
    out: &mut [u8],
) -> usize {
    unsafe {
        plain_send_at(
            command.as_ptr(),
            command.len(),
            position.row as i32,
            position.column as i32,
            position.back.as_ptr(),
            position.back.len(),
            position.up.as_ptr(),
            position.up.len(),
            lines as u32,
            speed as u32,
            pad,
            out.as_mut_ptr(),
        )
    }
}

/// `struct plain_finder`.
#[repr(C)]
struct State {
    name: *const u8,
    name_len: usize,
    same: usize,
    count: usize,
    visible: usize,
    stage: i32,
    held: i32,
}

/// The finder in C, which keeps a pointer to its name.
pub struct PlainFinder<'a> {
    state: State,
    name: PhantomData<&'a [u8]>,
}

impl<'a> PlainFinder<'a> {
    pub fn open(name: &'a [u8]) -> PlainFinder<'a> {
        let mut state = MaybeUninit::uninit();
        let state = unsafe {
            plain_finder_open(name.as_ptr(), name.len(), state.as_mut_ptr());
            state.assume_init()
        };
        PlainFinder { state, name: PhantomData }
    }

    /// The text has 16,384 bytes, here and below.
    pub fn feed(&mut self, block: &[u8], text: &mut [u8]) {
        assert_eq!(text.len(), 16_384);
        let text = text.as_mut_ptr();
        unsafe { plain_finder_feed(&mut self.state, block.as_ptr(), block.len(), text) }
    }

    /// The bytes of the line that was found.
    pub fn end(&mut self, text: &mut [u8]) -> Option<usize> {
        assert_eq!(text.len(), 16_384);
        let count = unsafe { plain_finder_end(&mut self.state, text.as_mut_ptr()) };
        (count != usize::MAX).then_some(count)
    }
}
