//! How many names are compared, by the search that goes from name to name and counts, and its time
//! beside that of Show.

use std::time::Instant;

use termcap_tests::reference::Files;
use termcap_tests::subject::{Reference, Subject};

use crate::agreement::Checked;
use crate::databases::large::Large;
use crate::library::Library;
use crate::main_table::time;
use crate::rows::ABSENT;

const ROUNDS: usize = 25;

fn asked(large: &Large) -> Vec<&[u8]> {
    let held =
        [large.entries[0].usual_name(), large.middle().usual_name(), large.last().usual_name()];
    held.into_iter().chain(ABSENT.iter().take(3).map(|name| name.as_bytes())).collect()
}

fn search(subject: &impl Subject, large: &Large, name: &[u8]) -> (u32, [u64; 2]) {
    let [mut found, mut compared] = [0, 0];
    let code = subject.search(Files::alone(&large.bytes), name, &mut found, &mut compared);
    (code, [found, compared])
}

/// Ours and the reference count the same.
pub fn check(large: &Large) -> Checked {
    for name in asked(large) {
        if search(&Library, large, name) != search(&Reference, large, name) {
            return Err(format!("{}: the counts differ", name.escape_ascii()));
        }
    }
    Ok(())
}

pub fn print(large: &Large) {
    let names: usize = large.entries.iter().map(|entry| entry.names.len()).sum();
    println!("\nNames compared, of {names} in {} bytes\n", large.bytes.len());
    println!("  {:28} {:>6} {:>9} {:>12} {:>12}", "", "found", "compared", "its time", "Show");
    for name in asked(large) {
        let (_, [found, compared]) = search(&Library, large, name);
        let counting = median(|| {
            search(&Library, large, name);
        });
        let showing = median(|| {
            Library.show(Files::alone(&large.bytes), name, &mut 0, &mut 0);
        });
        let name = name.escape_ascii().to_string();
        let found = if found == 1 { "yes" } else { "no" };
        println!(
            "  {name:28} {found:>6} {compared:>9} {:>12} {:>12}",
            time(counting),
            time(showing)
        );
    }
}

/// The median of some calls, in nanoseconds.
fn median(call: impl Fn()) -> f64 {
    let mut times: Vec<f64> = (0..ROUNDS)
        .map(|_| {
            let start = Instant::now();
            call();
            start.elapsed().as_nanos() as f64
        })
        .collect();
    times.sort_by(f64::total_cmp);
    times[ROUNDS / 2]
}
