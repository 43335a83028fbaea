//! How cost grows with the size of a database and with the fields of a description.

use std::time::Duration;

use crate::contender::{Contender, Row};
use crate::databases::large::Large;
use crate::databases::wide;
use crate::main_table::time;
use crate::question::Reading;
use crate::rows;
use crate::timing::{self, Run};

const BUDGET: Duration = Duration::from_millis(500);

pub const SIZES: [usize; 3] = [65_536, 262_144, 1_048_576];
const FIELDS: [usize; 4] = [10, 100, 1_000, 5_000];

/// One operation at several sizes.
pub struct Series<'a> {
    name: &'static str,
    unit: &'static str,
    points: Vec<(usize, Row<'a>)>,
}

/// The databases of the table, which the rows borrow.
pub struct Databases {
    pub large: Vec<Large>,
    wide: Vec<Wide>,
}

struct Wide {
    fields: usize,
    bytes: Vec<u8>,
    last_id: [u8; 2],
}

impl Databases {
    pub fn new() -> Databases {
        let wide =
            |fields| Wide { fields, bytes: wide::database(fields), last_id: wide::last_id(fields) };
        Databases { large: SIZES.map(Large::new).into(), wide: FIELDS.map(wide).into() }
    }
}

pub fn series(databases: &Databases) -> Vec<Series<'_>> {
    let large = |name, row: fn(&Large) -> Row<'_>| Series {
        name,
        unit: "byte",
        points: databases.large.iter().map(|one| (one.bytes.len(), row(one))).collect(),
    };
    let wide = |name, reading| Series {
        name,
        unit: "field",
        points: databases.wide.iter().map(|one| (one.fields, wide_row(one, reading))).collect(),
    };
    vec![
        large("Show, absent name", |one| rows::absent("Show, absent name", &one.bytes)),
        large("Flag of the last description", last_flag),
        wide("Flag, the last field", Reading::Flag),
        wide("List", Reading::List),
        wide("Flat", Reading::Flat),
    ]
}

fn last_flag(large: &Large) -> Row<'_> {
    let name = large.last_unlinked().usual_name();
    rows::reading("Flag, last description", Reading::Flag, &large.bytes, name, b"am", &[name])
}

fn wide_row(wide: &Wide, reading: Reading) -> Row<'_> {
    let row = format!("{reading:?}, {} fields", wide.fields);
    rows::reading(&row, reading, &wide.bytes, wide::NAME, &wide.last_id, &[wide::NAME])
}

impl Series<'_> {
    pub fn rows(&self) -> impl Iterator<Item = &Row<'_>> {
        self.points.iter().map(|(_, row)| row)
    }

    fn print(&self) {
        let runs: Vec<Run> = self.rows().map(|row| (Contender::Ours, row)).collect();
        let sizes = self.points.iter().map(|(size, _)| *size as f64);
        let measured: Vec<(f64, f64)> = sizes.zip(timing::medians(runs, BUDGET)).collect();
        println!("\n  {}: grows with the power {:.2}", self.name, exponent(&measured));
        for (size, taken) in measured {
            let units = format!("{}s", self.unit);
            let each = taken / size;
            println!("  {size:>12} {units:6} {:>10} {each:>9.3} ns/{}", time(taken), self.unit);
        }
    }
}

pub fn print(all: &[Series]) {
    println!("\nHow cost grows (1.00 is linear; least squares on the logarithms)");
    all.iter().for_each(Series::print);
}

/// The slope of the line through the logarithms, by least squares.
fn exponent(points: &[(f64, f64)]) -> f64 {
    let logs = points.iter().map(|(size, taken)| (size.ln(), taken.ln()));
    let count = points.len() as f64;
    let mean_size = logs.clone().map(|(size, _)| size).sum::<f64>() / count;
    let mean_taken = logs.clone().map(|(_, taken)| taken).sum::<f64>() / count;
    let both: f64 =
        logs.clone().map(|(size, taken)| (size - mean_size) * (taken - mean_taken)).sum();
    let squares: f64 = logs.map(|(size, _)| (size - mean_size).powi(2)).sum();
    both / squares
}
