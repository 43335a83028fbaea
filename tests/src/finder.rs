//! Document 02, Ask 8, on real calls: a finder is opened, fed in blocks, ended and asked, with calls in
//! between that come too early or too late; every byte of its state and its text is looked at.
//!
//! Where a finder was opened, what is right is worked out from the whole file. From a state of any
//! bytes it is the machine of `reference::finder_steps`. In both, the blocks and the whole file in one
//! block must leave the subject itself with the same state, text and answer.

use crate::case::{before, explain, observe, Case, Observed, Operation, GUARD};
use crate::random::Random;
use crate::reference::finder::{Finder, State, STATE_BYTES};
use crate::reference::Refusal;
use crate::subject::{Reference, Subject, ACCEPTED};

/// What was seen of a finder besides its answer.
#[derive(Clone, Debug, PartialEq, Eq)]
pub struct Watched {
    /// The results of opening (unless it starts as any bytes), of each block, of an answer before the
    /// end, of the end, of a block after it, of a second end.
    pub results: Vec<u32>,
    /// Whether the answer before the end changed the output or the number.
    pub answered_early: bool,
    /// What the finder has after the blocks and that answer.
    pub fed: Lent,
    /// What it has after all calls.
    pub ended: Lent,
}

/// What a finder has between its calls: its state, between two others that are guards, and its text
/// between guard bytes.
#[derive(Clone, Debug, PartialEq, Eq)]
pub struct Lent {
    pub states: [State; 3],
    pub text_block: Vec<u8>,
}

/// A block that comes after the end: it would make a line with any name of one letter.
const LATE: &[u8] = b"\na|b|c|n:late:\\";

impl Lent {
    /// As it stands before the first call; the state then has any bytes, or those of the case.
    pub fn before(case: &Case) -> Lent {
        let mut random = Random::new(!case.fill);
        let mut text_block = vec![0; GUARD + case.text_room as usize + GUARD];
        random.fill(&mut text_block);
        let mut states = [(); 3].map(|()| {
            let mut bytes = [0; STATE_BYTES];
            random.fill(&mut bytes);
            State::from_bytes(&bytes)
        });
        if case.operation == Operation::FinderState {
            states[1] = State::from_bytes(&case.state);
        }
        Lent { states, text_block }
    }

    pub fn state(&self) -> &State {
        &self.states[1]
    }

    /// The text without its guards.
    pub fn text(&self) -> &[u8] {
        &self.text_block[GUARD..self.text_block.len() - GUARD]
    }

    fn lend<T>(&mut self, call: impl FnOnce(&mut State, &mut [u8]) -> T) -> T {
        let end = self.text_block.len() - GUARD;
        call(&mut self.states[1], &mut self.text_block[GUARD..end])
    }
}

/// All calls of a finder. The code is that of the first that is refused, of opening, the blocks, the end
/// and the answer.
pub fn watch(
    case: &Case,
    subject: &impl Subject,
    out: &mut [u8],
    count: &mut u64,
) -> (u32, Watched) {
    let mut lent = Lent::before(case);
    let mut results = Vec::new();
    if case.operation == Operation::Finder {
        results.push(lent.lend(|state, _| subject.finder_open(&case.name, state)));
    }
    for block in case.blocks() {
        results.push(lent.lend(|state, text| subject.finder_feed(state, block, text)));
    }
    let refused = results.iter().copied().find(|&result| result != ACCEPTED);
    let old = (out.to_vec(), *count);
    results.push(lent.lend(|state, text| subject.finder_answer(state, text, out, count)));
    let answered_early = (&old.0[..], old.1) != (&*out, *count);
    let fed = lent.clone();
    let end = lent.lend(|state, text| subject.finder_end(state, text));
    results.push(end);
    results.push(lent.lend(|state, text| subject.finder_feed(state, LATE, text)));
    results.push(lent.lend(|state, text| subject.finder_end(state, text)));
    let answer = lent.lend(|state, text| subject.finder_answer(state, text, out, count));
    let code = refused.unwrap_or(if end == ACCEPTED { answer } else { end });
    (code, Watched { results, answered_early, fed, ended: lent })
}

/// What must be seen of a finder that is opened: by the search of the whole file, however it is cut.
pub fn expected(case: &Case) -> Observed {
    let mut right = before(case);
    let mut lent = Lent::before(case);
    let room = case.text_room as usize;
    let opened = Finder::open(&case.name);
    let mut results = vec![opened.as_ref().map_or_else(number, |_| ACCEPTED)];
    let mut finder = opened.unwrap_or_else(|_| Finder::refused());
    results.extend(case.blocks().iter().map(|block| code(finder.feed(block))));
    let refused = results.iter().copied().find(|&result| result != ACCEPTED);
    results
        .push(finder.answer(room, &mut []).map_or_else(|refusal| number(&refusal), |_| ACCEPTED));
    write(&finder, &mut lent);
    let fed = lent.clone();
    results.push(code(finder.end()));
    results.push(code(finder.feed(LATE)));
    results.push(code(finder.end()));
    write(&finder, &mut lent);
    let end = right.block.len() - GUARD;
    let answer = match finder.answer(room, &mut right.block[GUARD..end]) {
        Ok(count) => {
            right.numbers[0] = count as u64;
            ACCEPTED
        }
        Err(refusal) => number(&refusal),
    };
    right.code = refused.unwrap_or(answer);
    right.finder = Some(Watched { results, answered_early: false, fed, ended: lent });
    right
}

fn number(refusal: &Refusal) -> u32 {
    u32::from(*refusal)
}

fn code(result: Result<(), Refusal>) -> u32 {
    result.map_or_else(u32::from, |()| ACCEPTED)
}

/// What the finder has now.
fn write(finder: &Finder, lent: &mut Lent) {
    lent.lend(|state, text| {
        *state = finder.state();
        finder.collect(text);
    });
}

/// What the subject does otherwise, in words; nothing if all is right.
pub fn broken(case: &Case, subject: &impl Subject) -> Option<String> {
    let seen = observe(case, subject);
    let expected = match case.operation {
        Operation::Finder => expected(case),
        _ => observe(case, &Reference),
    };
    if seen != expected {
        return Some(explain(case, &expected, &seen));
    }
    // "However the file is cut, the end state and text are those of the whole file in one block."
    let whole = observe(&Case { cuts: Vec::new(), ..case.clone() }, subject);
    (without_results(seen) != without_results(whole))
        .then(|| "the file in one block leaves another state, text or answer\n".to_string())
}

/// There are more results with more blocks.
fn without_results(mut seen: Observed) -> Observed {
    seen.finder.as_mut().expect("a finder was watched").results.clear();
    seen
}

impl Watched {
    /// Where another one differs, in words.
    pub fn differences(&self, seen: &Watched) -> Vec<String> {
        let mut lines = Vec::new();
        if self.results != seen.results {
            let (right, wrong) = (runs(&self.results), runs(&seen.results));
            lines.push(format!("results of the calls: reference {right}, library {wrong}"));
        }
        if self.answered_early != seen.answered_early {
            lines.push("the answer before the end differs in what it writes".to_string());
        }
        lines.extend(self.fed.differences(&seen.fed, "after the blocks"));
        lines.extend(self.ended.differences(&seen.ended, "at the end"));
        lines
    }
}

/// Results, and how often each is repeated.
fn runs(results: &[u32]) -> String {
    let runs = results.chunk_by(|one, other| one == other);
    let text: Vec<String> = runs.map(|run| format!("{} x {}", run.len(), run[0])).collect();
    text.join(", ")
}

impl Lent {
    fn differences(&self, seen: &Lent, when: &str) -> Vec<String> {
        const SHOWN: usize = 4;
        let mut lines = Vec::new();
        for (place, what) in
            ["guard before the state", "state", "guard behind the state"].into_iter().enumerate()
        {
            let (right, wrong) = (self.states[place], seen.states[place]);
            if right != wrong {
                lines.push(format!("{what} {when}: reference {right:?}\n  library {wrong:?}"));
            }
        }
        let differing = self.text_block.iter().zip(&seen.text_block).enumerate();
        for (place, (right, wrong)) in
            differing.filter(|(_, (one, other))| one != other).take(SHOWN)
        {
            let offset = place as i64 - GUARD as i64;
            lines.push(format!("text[{offset}] {when}: reference {right}, library {wrong}"));
        }
        lines
    }
}

#[cfg(test)]
mod tests {
    use super::*;
    use crate::reference::finder_steps;

    use crate::twisted::{Answer, Twisted};
    use crate::{examples, generate};

    const BOTH: [Operation; 2] = [Operation::Finder, Operation::FinderState];

    fn cases(operation: Operation) -> impl Iterator<Item = Case> {
        (0..3_000).map(move |index| generate::case_of(operation, 4, index))
    }

    #[test]
    fn the_machine_does_what_the_whole_file_says() {
        let by_hand = examples::all().into_iter().map(|example| example.case);
        let by_hand = by_hand.filter(|case| case.operation.finds());
        for case in BOTH.into_iter().flat_map(cases).chain(by_hand) {
            assert_eq!(broken(&case, &Reference), None, "{case}");
        }
    }

    /// Every text of five bytes out of seven, which mean something, at each place in it.
    #[test]
    fn the_machine_does_what_the_whole_file_says_on_all_short_files() {
        const LETTERS: &[u8; 7] = b"a|:\\# \n";
        for number in 0..7_usize.pow(5) {
            let file = [0, 1, 2, 3, 4].map(|place| LETTERS[number / 7_usize.pow(place) % 7]);
            for name in ["a", "aa", " ", "#", "a#"] {
                compare(&file, name.as_bytes());
            }
        }
    }

    fn compare(file: &[u8; 5], name: &[u8]) {
        let mut whole = Finder::open(name).expect("the name is good");
        let mut state = State::from_bytes(b"");
        let [mut text, mut expected] = [[b'.'; 5]; 2];
        finder_steps::open(name, &mut state).expect("the name is good");
        for byte in file {
            let results =
                [finder_steps::feed(&mut state, &[*byte], &mut text), whole.feed(&[*byte])];
            whole.collect(&mut expected);
            assert_eq!(results, [Ok(()); 2], "{file:?}, {name:?}");
            assert_eq!((state, text), (whole.state(), expected), "{file:?}, {name:?}");
        }
        let results = [finder_steps::end(&mut state, &mut text), whole.end()];
        whole.collect(&mut expected);
        assert_eq!(results, [Ok(()); 2], "{file:?}, {name:?}");
        assert_eq!((state, text), (whole.state(), expected), "{file:?}, {name:?}");
        let [mut line, mut right] = [[0; 5]; 2];
        let answer = finder_steps::answer(&state, &text, &mut line);
        assert_eq!(answer, whole.answer(5, &mut right), "{file:?}, {name:?}");
        assert_eq!(line, right, "{file:?}, {name:?}");
    }

    fn is_found(spoil: impl Fn(Answer) -> u32) -> bool {
        let subject = Twisted(spoil);
        BOTH.into_iter().all(|one| cases(one).any(|case| broken(&case, &subject).is_some()))
    }

    #[test]
    fn a_backslash_forgotten_between_blocks_is_seen() {
        assert!(is_found(|answer| {
            if let Some(state) = answer.finder {
                state.held = 0;
            }
            answer.code
        }));
    }

    #[test]
    fn a_byte_of_the_text_too_many_is_seen() {
        assert!(is_found(|answer| {
            if let (Some(state), Some(byte)) = (answer.finder, answer.out.get_mut(16_385)) {
                *byte ^= u8::from(state.ended != 0);
            }
            answer.code
        }));
    }

    #[test]
    fn a_refused_call_that_alters_the_state_is_seen() {
        assert!(is_found(|answer| {
            if let (Some(state), 17) = (answer.finder, answer.code) {
                state.matched ^= 1;
            }
            answer.code
        }));
    }

    #[test]
    fn never_finding_is_seen() {
        assert!(is_found(|answer| if answer.code == ACCEPTED && answer.finder.is_none() {
            4
        } else {
            answer.code
        }));
    }
}
