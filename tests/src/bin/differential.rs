//! Compares the static library with the reference on generated cases.
//!
//! On the first case that disagrees it prints a smaller one, as a Rust expression that can be
//! pasted into a test, and both answers.

use std::process::ExitCode;
use std::sync::atomic::{AtomicU64, Ordering};
use std::thread;
use std::time::{Duration, Instant};

use termcap_tests::case::{disagreement, Case, Operation};
use termcap_tests::shrink::shrink;
use termcap_tests::{examples, generate, mix, pasting};

#[path = "../library.rs"]
mod library;
use library::Library;

const USAGE: &str =
    "[--seed S] [--cases N] [--from I] [--only OPERATION] [--no-examples] [--trace] [--mix]";
const SHRINKING_TIME: Duration = Duration::from_secs(30);
const STUCK_AFTER: Duration = Duration::from_secs(60);
/// With fewer databases to paste in than these, it is not judged in how many it was done.
const FEW_PASTINGS: u64 = 100;

#[derive(Clone, Copy)]
struct Options {
    seed: u64,
    cases: u64,
    /// The first case: case I of a seed is the same in every run.
    from: u64,
    /// Only cases of this operation.
    only: Option<Operation>,
    /// Asks the answers written by hand first.
    examples: bool,
    /// Names each case before it runs, to find one that doesn't come back.
    trace: bool,
    /// Only counts what the generated cases are made of.
    mix: bool,
}

fn main() -> ExitCode {
    let options = match read_options() {
        Ok(options) => options,
        Err(complaint) => {
            eprintln!("differential: {complaint}");
            eprintln!("usage: differential {USAGE}");
            return ExitCode::from(2);
        }
    };
    if options.mix {
        println!("{}", mix::measure(options.seed, options.cases));
        return ExitCode::SUCCESS;
    }
    if (!options.examples || run_examples()) && run_cases(&options) {
        println!("differential: {} cases agree (seed {})", options.cases, options.seed);
        ExitCode::SUCCESS
    } else {
        ExitCode::FAILURE
    }
}

fn read_options() -> Result<Options, String> {
    let mut options = Options {
        seed: 1,
        cases: 200_000,
        from: 0,
        only: None,
        examples: true,
        trace: false,
        mix: false,
    };
    let mut arguments = std::env::args().skip(1);
    while let Some(argument) = arguments.next() {
        if argument == "--only" {
            options.only = Some(read_operation(arguments.next())?);
            continue;
        }
        let mut number = || {
            let text = arguments.next().ok_or(format!("{argument} needs a number"))?;
            text.parse().map_err(|_| format!("{text} is no number for {argument}"))
        };
        match argument.as_str() {
            "--seed" => options.seed = number()?,
            "--cases" => options.cases = number()?,
            "--from" => options.from = number()?,
            "--no-examples" => options.examples = false,
            "--trace" => options.trace = true,
            "--mix" => options.mix = true,
            _ => return Err(format!("unknown option {argument}")),
        }
    }
    Ok(options)
}

/// An operation by its name, as the case that is printed has it.
fn read_operation(name: Option<String>) -> Result<Operation, String> {
    let name = name.ok_or("--only needs an operation")?;
    let found = Operation::ALL.into_iter().find(|one| format!("{one:?}") == name);
    found.ok_or(format!("there is no operation {name}"))
}

/// The answers written by hand; all of them are tried, so that a first run says more.
fn run_examples() -> bool {
    let mut right = true;
    for example in examples::all() {
        if let Some(complaint) = examples::wrong(&example, &Library) {
            right = false;
            println!("example \"{}\" is answered wrongly\n{complaint}", example.title);
        }
    }
    right
}

/// The case that runs now, for the watch that reports one that never ends.
static RUNNING: AtomicU64 = AtomicU64::new(u64::MAX);

fn run_cases(options: &Options) -> bool {
    let seed = options.seed;
    let watched = *options;
    thread::spawn(move || watch(&watched));
    let start = Instant::now();
    let every = (options.cases / 10).max(1);
    let mut pastings = Pastings::default();
    for done in 0..options.cases {
        let index = options.from + done;
        let case = generated(options, index);
        RUNNING.store(index, Ordering::Relaxed);
        if options.trace {
            eprintln!("case {index}");
        }
        if let Some(complaint) = disagreement(&case, &Library) {
            RUNNING.store(u64::MAX, Ordering::Relaxed);
            report(seed, index, done + 1, &case, &complaint);
            return false;
        }
        pastings.count(&case);
        if (done + 1) % every == 0 {
            let seconds = start.elapsed().as_secs_f64();
            eprintln!("differential: {} of {} cases, {seconds:.1} s", done + 1, options.cases);
        }
    }
    RUNNING.store(u64::MAX, Ordering::Relaxed);
    pastings.are_enough()
}

/// In how many databases a parent could be pasted: a run in which hardly one was shows nothing.
#[derive(Default)]
struct Pastings {
    tried: u64,
    made: u64,
}

impl Pastings {
    fn count(&mut self, case: &Case) {
        if case.operation == Operation::Pasting {
            self.tried += 1;
            self.made += u64::from(!pasting::replaceable(case).is_empty());
        }
    }

    fn are_enough(&self) -> bool {
        let Pastings { tried, made } = self;
        if *tried > 0 {
            println!("differential: a parent was pasted in {made} of {tried} databases");
        }
        let enough = *tried < FEW_PASTINGS || 2 * made > *tried;
        if !enough {
            println!("differential: that is too few");
        }
        enough
    }
}

fn generated(options: &Options, index: u64) -> Case {
    match options.only {
        None => generate::case(options.seed, index),
        Some(operation) => generate::case_of(operation, options.seed, index),
    }
}

/// Ends the run if one case takes far too long.
fn watch(options: &Options) {
    let mut last = u64::MAX;
    let mut since = Instant::now();
    loop {
        thread::sleep(Duration::from_secs(1));
        let running = RUNNING.load(Ordering::Relaxed);
        if running != last || running == u64::MAX {
            last = running;
            since = Instant::now();
        } else if since.elapsed() > STUCK_AFTER {
            println!("case {running} of seed {} doesn't end", options.seed);
            println!("{}", generated(options, running));
            std::process::exit(1);
        }
    }
}

/// What is known is printed before shrinking, in case that is not survived.
fn report(seed: u64, index: u64, tried: u64, case: &Case, complaint: &str) {
    println!("case {index} of seed {seed} disagrees (found after {tried} cases)");
    println!("{}", complaint.trim_end());
    let small = shrink(case, SHRINKING_TIME, |case| disagreement(case, &Library).is_some());
    println!("\nas small as it could be made:\n\n{small}\n");
    match disagreement(&small, &Library) {
        Some(complaint) => println!("{}", complaint.trim_end()),
        None => println!("(the library doesn't answer it the same way each time)"),
    }
}
