//! The targets of `targets.txt`, and which of them are met.

use std::fs;

#[derive(Clone, Copy, PartialEq, Eq)]
enum Bound {
    AtLeast,
    AtMost,
}

struct Target {
    row: String,
    rival: String,
    bound: Bound,
    number: f64,
    met: Option<bool>,
}

pub struct Targets {
    list: Vec<Target>,
}

impl Targets {
    pub fn read(path: &str) -> Result<Targets, String> {
        let text = fs::read_to_string(path).map_err(|error| format!("{path}: {error}"))?;
        let lines = text.lines().filter(|line| !line.is_empty() && !line.starts_with('#'));
        let list: Option<Vec<Target>> = lines.map(read_line).collect();
        Ok(Targets { list: list.ok_or(format!("{path}: a line is no target"))? })
    }

    /// Compares what was measured with its target, if it has one, and gives the words for a table.
    pub fn judge(&mut self, row: &str, rival: &str, measured: f64) -> String {
        let mut all = self.list.iter_mut();
        let Some(target) = all.find(|target| target.row == row && target.rival == rival) else {
            return String::new();
        };
        let (sign, met) = match target.bound {
            Bound::AtLeast => (">=", measured >= target.number),
            Bound::AtMost => ("<=", measured <= target.number),
        };
        target.met = Some(met);
        format!(" {sign} {} {}", target.number, if met { "met" } else { "MISSED" })
    }

    /// Names the targets that nothing was measured for: they count as not met.
    pub fn print_unmeasured(&self) {
        for target in self.list.iter().filter(|target| target.met.is_none()) {
            println!("not measured: {} | {}", target.row, target.rival);
        }
    }

    pub fn met(&self) -> usize {
        self.list.iter().filter(|target| target.met == Some(true)).count()
    }

    pub fn count(&self) -> usize {
        self.list.len()
    }
}

/// `row | rival | >= number` or `row | rival | <= number`.
fn read_line(line: &str) -> Option<Target> {
    let mut parts = line.split(" | ").map(str::trim);
    let (row, rival, bound) = (parts.next()?, parts.next()?, parts.next()?);
    let (sign, number) = bound.split_once(' ')?;
    let bound = match sign {
        ">=" => Bound::AtLeast,
        "<=" => Bound::AtMost,
        _ => return None,
    };
    let number = number.trim().parse().ok()?;
    Some(Target { row: row.into(), rival: rival.into(), bound, number, met: None })
}
