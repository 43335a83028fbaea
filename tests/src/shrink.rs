//! Makes a failing case smaller while it still fails.

use std::time::{Duration, Instant};

use crate::case::Case;

const BYTES: [fn(&mut Case) -> &mut Vec<u8>; 8] = [
    |case| &mut case.database,
    |case| &mut case.command,
    |case| &mut case.name,
    |case| &mut case.id,
    |case| &mut case.questions,
    |case| &mut case.back,
    |case| &mut case.up,
    |case| &mut case.state,
];

const NUMBERS: [fn(&mut Case) -> &mut u64; 10] = [
    |case| &mut case.room,
    |case| &mut case.records_room,
    |case| &mut case.text_room,
    |case| &mut case.row,
    |case| &mut case.column,
    |case| &mut case.lines,
    |case| &mut case.speed,
    |case| &mut case.fill,
    |case| &mut case.delay,
    |case| &mut case.star,
];

/// A text is cut into at most so many pieces, so that a long one doesn't use up the time.
const MOST_PIECES: usize = 500;

struct Shrinking<F> {
    case: Case,
    fails: F,
    end: Instant,
}

/// The smallest failing case found within the time given; `case` itself is known to fail.
pub fn shrink(case: &Case, time: Duration, fails: impl Fn(&Case) -> bool) -> Case {
    let mut shrinking = Shrinking { case: case.clone(), fails, end: Instant::now() + time };
    loop {
        let before = shrinking.case.clone();
        for bytes in BYTES {
            shrinking.drop_lines(bytes);
            shrinking.drop_chunks(bytes);
        }
        for number in NUMBERS {
            shrinking.lower(number);
        }
        shrinking.drop_ends();
        shrinking.drop_cuts();
        for bytes in BYTES {
            shrinking.make_plain(bytes);
        }
        if shrinking.case == before || shrinking.out_of_time() {
            return shrinking.case;
        }
    }
}

impl<F: Fn(&Case) -> bool> Shrinking<F> {
    fn out_of_time(&self) -> bool {
        Instant::now() >= self.end
    }

    /// Keeps the changed case if it still fails.
    fn attempt(&mut self, change: impl FnOnce(&mut Case)) -> bool {
        let mut changed = self.case.clone();
        change(&mut changed);
        let keep = !self.out_of_time() && changed != self.case && (self.fails)(&changed);
        if keep {
            self.case = changed;
        }
        keep
    }

    /// One file instead of several, or fewer and lower ends.
    fn drop_ends(&mut self) {
        if self.attempt(|case| case.ends = None) {
            return;
        }
        let count = self.case.ends.as_ref().map_or(0, Vec::len);
        for place in (0..count).rev() {
            let removed = self.attempt(|case| {
                case.ends.as_mut().map(|ends| ends.remove(place));
            });
            if !removed {
                self.attempt(|case| case.ends.as_mut().expect("they are given")[place] /= 2);
            }
        }
    }

    /// One block, fewer cuts, and lower ones.
    fn drop_cuts(&mut self) {
        if self.attempt(|case| case.cuts.clear()) {
            return;
        }
        let mut size = self.case.cuts.len();
        while size > 0 && !self.out_of_time() {
            let mut place = 0;
            while place < self.case.cuts.len() {
                let end = (place + size).min(self.case.cuts.len());
                if !self.attempt(|case| drop(case.cuts.drain(place..end))) {
                    place += size;
                }
            }
            size /= 2;
        }
        for place in 0..self.case.cuts.len() {
            while self.attempt(|case| case.cuts[place] = case.cuts[place].saturating_sub(1)) {}
        }
    }

    fn drop_lines(&mut self, bytes: fn(&mut Case) -> &mut Vec<u8>) {
        let mut place = 0;
        while !self.out_of_time() {
            let text = bytes(&mut self.case).clone();
            let mut lines: Vec<&[u8]> = text.split(|&byte| byte == b'\n').collect();
            if place >= lines.len() || lines.len() == 1 || lines.len() > MOST_PIECES {
                return;
            }
            lines.remove(place);
            let shorter = lines.join(&b'\n');
            if !self.attempt(|case| *bytes(case) = shorter) {
                place += 1;
            }
        }
    }

    /// Cuts out halves, quarters and so on, of a short text down to single bytes.
    fn drop_chunks(&mut self, bytes: fn(&mut Case) -> &mut Vec<u8>) {
        let mut size = bytes(&mut self.case).len();
        while size > bytes(&mut self.case).len() / MOST_PIECES && !self.out_of_time() {
            let mut place = 0;
            while place < bytes(&mut self.case).len() && !self.out_of_time() {
                let end = (place + size).min(bytes(&mut self.case).len());
                if !self.attempt(|case| drop(bytes(case).drain(place..end))) {
                    place += size;
                }
            }
            size /= 2;
        }
    }

    /// Makes stretches of bytes the letter `a`, from all of them down to single bytes.
    fn make_plain(&mut self, bytes: fn(&mut Case) -> &mut Vec<u8>) {
        let length = bytes(&mut self.case).len();
        let mut size = length;
        while size > length / MOST_PIECES && !self.out_of_time() {
            for place in (0..length).step_by(size) {
                let end = (place + size).min(length);
                self.attempt(|case| bytes(case)[place..end].fill(b'a'));
            }
            size /= 2;
        }
    }

    /// Tries 0, 1, and steps down that halve each time one doesn't fail.
    fn lower(&mut self, number: fn(&mut Case) -> &mut u64) {
        for small in [0, 1] {
            if *number(&mut self.case) > small && self.attempt(|case| *number(case) = small) {
                return;
            }
        }
        let mut step = *number(&mut self.case) / 2;
        while step > 0 && !self.out_of_time() {
            let value = *number(&mut self.case);
            if value < step || !self.attempt(|case| *number(case) = value - step) {
                step /= 2;
            }
        }
    }
}
