//! The table of finders: the large database in blocks, beside a loop over the bytes in C and beside the
//! search of the whole file.

use std::hint::black_box;
use std::time::Instant;

use termcap_tests::random::Random;
use termcap_tests::reference::finder::{Finder, State};
use termcap_tests::reference::Files;
use termcap_tests::subject::{Subject, ACCEPTED};

use crate::agreement::Checked;
use crate::databases::large::Large;
use crate::library::Library;
use crate::main_table::time;
use crate::plain_c::PlainFinder;
use crate::rows::ABSENT;
use crate::targets::Targets;

const TEXT: usize = 16_384;
const ROUNDS: usize = 61;
/// Blocks of this many bytes; the last is the whole file.
const BLOCKS: [usize; 5] = [4_096, 512, 64, 1, usize::MAX];
/// Short files that all must agree on.
const SHORT: u64 = 20_000;

/// The line that was found, if any.
type Found = Option<Vec<u8>>;

/// Feeds the file in blocks of this length and asks; with the text that it is collected in.
type Run = fn(file: &[u8], length: usize, name: &[u8], text: &mut [u8]) -> Found;

fn ours(file: &[u8], length: usize, name: &[u8], text: &mut [u8]) -> Found {
    let mut state = State::from_bytes(b"");
    Library.finder_open(name, &mut state);
    for block in file.chunks(length) {
        Library.finder_feed(&mut state, block, text);
    }
    Library.finder_end(&mut state, text);
    let (mut out, mut count) = ([0; TEXT], 0);
    let code = Library.finder_answer(&state, text, &mut out, &mut count);
    (code == ACCEPTED).then(|| out[..count as usize].to_vec())
}

fn plain(file: &[u8], length: usize, name: &[u8], text: &mut [u8]) -> Found {
    let mut finder = PlainFinder::open(name);
    for block in file.chunks(length) {
        finder.feed(block, text);
    }
    finder.end(text).map(|count| text[..count].to_vec())
}

fn reference(file: &[u8], name: &[u8]) -> Found {
    let mut finder = Finder::open(name).expect("the names here are good");
    finder.feed(file).expect("it has not ended");
    finder.end().expect("it has not ended");
    let mut out = vec![0; TEXT];
    let count = finder.answer(TEXT, &mut out).ok()?;
    out.truncate(count);
    Some(out)
}

fn names(large: &Large) -> [(&'static str, &[u8]); 2] {
    [("absent name", ABSENT[0].as_bytes()), ("last name", large.last().usual_name())]
}

/// Ours, the loop in C and the reference find the same line in the large database and in short files.
pub fn check(large: &Large) -> Checked {
    for (_, name) in names(large) {
        check_file(&large.bytes, name, &BLOCKS)?;
    }
    for index in 0..SHORT {
        let mut random = Random::for_case(8, index);
        let file: Vec<u8> =
            (0..random.below(60)).map(|_| random.pick_value(b"aab||:\\\\\n\n# ")).collect();
        for name in [b"a".as_slice(), b"ab", b" ", b"aa", b"#a"] {
            check_file(&file, name, &[1, 3, usize::MAX])?;
        }
    }
    Ok(())
}

fn check_file(file: &[u8], name: &[u8], lengths: &[usize]) -> Checked {
    let right = reference(file, name);
    for &length in lengths {
        for (who, run) in [("ours", ours as Run), ("the loop in C", plain)] {
            if run(file, length, name, &mut [0; TEXT]) != right {
                let (file, name) =
                    (file[..file.len().min(200)].escape_ascii(), name.escape_ascii());
                return Err(format!("{name} in blocks of {length}: {who} differs on {file}"));
            }
        }
    }
    Ok(())
}

pub fn print(large: &Large, targets: &mut Targets) {
    println!("\nA finder that is fed {} bytes; GB/s: a byte a nanosecond", large.bytes.len());
    println!(
        "C loop, Show: the loop over the bytes, and the search of the whole file, as a multiple\n"
    );
    println!("  {:36} {:>10} {:>8} {:>7} {:>7}", "", "ours", "GB/s", "C loop", "Show");
    for (what, name) in names(large) {
        for length in BLOCKS {
            print_row(large, what, name, length, targets);
        }
    }
}

fn print_row(large: &Large, what: &str, name: &[u8], length: usize, targets: &mut Targets) {
    let blocks = match length {
        usize::MAX => "one block".to_string(),
        _ => format!("blocks of {length}"),
    };
    let row = format!("Finder, {what}, {blocks}");
    let [ours, plain, show] = medians(&large.bytes, name, length);
    let speed = large.bytes.len() as f64 / ours;
    let verdict =
        [targets.judge(&row, "GB per second", speed), targets.judge(&row, "C loop", plain / ours)]
            .concat();
    println!(
        "  {row:36} {:>10} {speed:>8.3} {:>7.2} {:>7.3}{verdict}",
        time(ours),
        plain / ours,
        show / ours
    );
}

/// The medians of ours, of the loop in C and of Show, in nanoseconds; they take turns.
fn medians(file: &[u8], name: &[u8], length: usize) -> [f64; 3] {
    let mut text = [0; TEXT];
    let mut samples = [Vec::new(), Vec::new(), Vec::new()];
    for _ in 0..ROUNDS {
        for (run, samples) in [ours as Run, plain].into_iter().zip(&mut samples) {
            samples.push(sample(|| {
                black_box(run(black_box(file), length, name, &mut text));
            }));
        }
        samples[2].push(sample(|| {
            black_box(Library.show(Files::alone(black_box(file)), name, &mut 0, &mut 0));
        }));
    }
    samples.map(|mut times| {
        times.sort_by(f64::total_cmp);
        times[ROUNDS / 2]
    })
}

fn sample(mut call: impl FnMut()) -> f64 {
    let start = Instant::now();
    call();
    start.elapsed().as_nanos() as f64
}
