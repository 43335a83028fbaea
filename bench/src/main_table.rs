//! The main table: ours, and how many times as fast as each rival it is.

use std::time::Duration;

use crate::contender::{Contender, Row, RIVALS};
use crate::plain_c;
use crate::rows::Group;
use crate::targets::Targets;
use crate::timing::Measurement;

/// Each row is visited so often, after all the others, for so long: a slow second of the machine
/// is then only a part of a row's samples.
const VISITS: usize = 12;
const BUDGET: Duration = Duration::from_millis(150);
const CELL: usize = 21;

pub fn print(groups: &[Group], targets: &mut Targets) {
    println!(
        "\nTimes of ours, and the time of each rival as a multiple of it: above 1 ours is faster."
    );
    println!(
        "Behind a ratio stands its target, if it has one. The rivals in C only search: where ours"
    );
    println!("reads fields too, it does more than they do.");
    if !plain_c::simd_is_vector() {
        println!("Without SSE2 here, C SIMD is C memchr.");
    }
    let mut times = times(groups).into_iter();
    for group in groups {
        println!("\n{}", group.title);
        print!("  {:26} {:>10}", "", "ours");
        let names: String = RIVALS.iter().map(|one| format!("  {:<CELL$}", one.name())).collect();
        println!("{}", names.trim_end());
        for (row, times) in group.rows.iter().zip(&mut times) {
            print_row(row, &times, targets);
        }
    }
}

/// The median times of every row's contenders.
fn times(groups: &[Group]) -> Vec<Vec<f64>> {
    let rows = groups.iter().flat_map(|group| &group.rows);
    let mut measurements: Vec<Measurement> = rows.map(measurement).collect();
    for _ in 0..VISITS {
        measurements.iter_mut().for_each(|one| one.visit(BUDGET));
    }
    measurements.into_iter().map(Measurement::medians).collect()
}

fn measurement<'a>(row: &'a Row<'a>) -> Measurement<'a> {
    Measurement::new(row.contenders().into_iter().map(|contender| (contender, row)).collect())
}

fn print_row(row: &Row, times: &[f64], targets: &mut Targets) {
    let contenders = row.contenders();
    let mut line = format!("  {:26} {:>10}", row.name, time(times[0]));
    for rival in RIVALS {
        let cell = match contenders.iter().position(|one| *one == rival) {
            Some(place) => cell(row, rival, times[place] / times[0], targets),
            None => "-".to_string(),
        };
        line += &format!("  {cell:<CELL$}");
    }
    println!("{}", line.trim_end());
}

fn cell(row: &Row, rival: Contender, ratio: f64, targets: &mut Targets) -> String {
    format!("{ratio:.2}{}", targets.judge(&row.name, rival.name(), ratio))
}

/// A time in the unit that suits it.
pub fn time(nanoseconds: f64) -> String {
    if nanoseconds < 1_000.0 {
        format!("{nanoseconds:.1} ns")
    } else if nanoseconds < 1_000_000.0 {
        format!("{:.2} us", nanoseconds / 1e3)
    } else {
        format!("{:.2} ms", nanoseconds / 1e6)
    }
}
