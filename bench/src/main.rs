//! Times the static library beside plain C and the reference in Rust.

mod agreement;
mod batches;
mod compared;
mod contender;
mod counts;
mod databases;
mod finders;
mod growth;
mod hostile;
#[path = "../../tests/src/library.rs"]
mod library;
mod main_table;
mod plain_c;
mod question;
mod repairs;
mod rows;
mod several_files;
mod targets;
mod timing;

use std::io::Write;
use std::process::ExitCode;

use contender::{Contender, Row};
use databases::large::Large;
use targets::Targets;

const LARGE: usize = 1_000_000;

fn main() -> ExitCode {
    let arguments: Vec<String> = std::env::args().skip(1).collect();
    match &arguments[..] {
        [word] if word == "--large" => print_large(),
        [word, row, contender, passes] if word == "--count" => count(row, contender, passes),
        [path] => run(path),
        _ => usage(),
    }
}

/// The large database, for a reader who wants to see it.
fn print_large() -> ExitCode {
    let written = std::io::stdout().write_all(&Large::new(LARGE).bytes);
    ExitCode::from(u8::from(written.is_err()))
}

/// Passes of one row by one contender and nothing else, to count instructions of.
fn count(row: &str, contender: &str, passes: &str) -> ExitCode {
    let large = Large::new(LARGE);
    let groups = rows::groups(&large);
    let row = groups.iter().flat_map(|group| &group.rows).find(|one| one.name == row);
    match (row, Contender::by_name(contender), passes.parse()) {
        (Some(row), Some(contender), Ok(passes)) => counts::passes(row, contender, passes),
        _ => return usage(),
    }
    ExitCode::SUCCESS
}

fn usage() -> ExitCode {
    eprintln!("usage: termcap-bench TARGETS | --large");
    ExitCode::from(2)
}

fn run(path: &str) -> ExitCode {
    let mut targets = match Targets::read(path) {
        Ok(targets) => targets,
        Err(fault) => {
            eprintln!("{fault}");
            return ExitCode::from(2);
        }
    };
    // Times of wrong answers are worth nothing.
    match measure(&mut targets) {
        Ok(()) => targets.print_unmeasured(),
        Err(fault) => println!("DISAGREEMENT: {fault}"),
    }
    println!("bench: {} of {} targets met", targets.met(), targets.count());
    ExitCode::from(u8::from(targets.met() < targets.count()))
}

fn measure(targets: &mut Targets) -> agreement::Checked {
    let large = Large::new(LARGE);
    let groups = rows::groups(&large);
    let growing = growth::Databases::new();
    let series = growth::series(&growing);
    let hostile = databases::hostile::all();
    let hostile: Vec<Row> = hostile.iter().map(hostile::row).collect();

    let main_rows = groups.iter().flat_map(|group| &group.rows);
    let growth_rows = series.iter().flat_map(|series| series.rows());
    main_rows.chain(growth_rows).chain(&hostile).try_for_each(agreement::check_row)?;
    agreement::check_more(&large, &growing.large[0])?;
    let to_batch = batches::all(&large);
    batches::check(&to_batch)?;
    let to_repair = databases::repairs::all();
    repairs::check(&to_repair)?;
    compared::check(&large)?;
    finders::check(&large)?;

    main_table::print(&groups, targets);
    growth::print(&series);
    hostile::print(&hostile, targets);
    batches::print(&to_batch, targets);
    repairs::print(&to_repair, targets);
    several_files::print(&large.bytes, targets);
    compared::print(&large);
    finders::print(&large, targets);
    let [searching, _, _, sending] = &groups[..] else {
        return Err("the groups of rows are not those that are counted".to_string());
    };
    // The chain would take as long to count as the others together.
    counts::print("searching", &searching.rows[..3], targets);
    counts::print("sending", &sending.rows, targets);
    Ok(())
}
