//! Databases to repair: rings of links, lines without a colon, fields behind links, cut-off ends, and
//! numbers of lines at the limit.

use super::databases::{self, damage, edge_field, field, lay_out, theme, Line};
use crate::case::Case;
use crate::random::Random;
use crate::reference::repair::MAX_LINES;

const FEW: [&[u8]; 7] = [b"a", b"b", b"c", b"d", b"ab", b"n0", b"x y"];

pub fn fill_in(random: &mut Random, case: &mut Case) {
    let mut text = match random.weighted(&[55, 40, 2]) {
        0 => ringed(random),
        1 => databases::any(random),
        _ => many_lines(random),
    };
    if random.chance(10) {
        text.truncate(random.below(text.len() + 1));
    }
    case.database = text;
}

/// Up to twelve lines that mostly link to each other, most databases with something to repair.
fn ringed(random: &mut Random) -> Vec<u8> {
    let ids = theme(random);
    let names = &FEW[..random.between(2, FEW.len() as u64) as usize];
    let mut lines = Vec::new();
    for place in 0..random.between(1, 12) as usize {
        let mut line = Line::new(random, vec![names[place % names.len()].to_vec()]);
        while random.chance(20) {
            line.names.push(random.pick(names).to_vec());
        }
        for _ in 0..random.below(3) {
            line.fields.push(field(random, &ids));
        }
        if random.chance(75) {
            let name = if random.chance(8) { b"nowhere" } else { random.pick(names) };
            line.link(random, name);
        }
        while random.chance(12) {
            let spoilt = if random.chance(60) { edge_field(random) } else { field(random, &ids) };
            let place = random.below(line.fields.len() + 1);
            line.fields.insert(place, spoilt);
        }
        lines.push(line);
    }
    let mut text = lay_out(random, &lines);
    while random.chance(35) {
        drop_colons(random, &mut text);
    }
    while random.chance(25) {
        damage(random, &mut text);
    }
    text
}

/// A physical line loses its colons.
fn drop_colons(random: &mut Random, text: &mut Vec<u8>) {
    let mut lines: Vec<Vec<u8>> = text.split(|&byte| byte == b'\n').map(<[u8]>::to_vec).collect();
    let place = random.below(lines.len());
    lines[place].retain(|&byte| byte != b':');
    *text = lines.join(&b'\n');
}

/// 4,095 to 4,097 lines that are not ignored, among some that are.
fn many_lines(random: &mut Random) -> Vec<u8> {
    let count = random.between(MAX_LINES as u64 - 1, MAX_LINES as u64 + 1);
    let ring = random.chance(50);
    let mut text = Vec::new();
    for place in 0..count {
        if random.chance(2) {
            text.extend_from_slice(random.pick(&[b"#\n" as &[u8], b"\n", b" \t\n", b"\\\n"]));
        }
        let next = if ring { (place + 1) % count } else { random.between(0, count) };
        match random.weighted(&[80, 10, 5, 5]) {
            0 => text.extend_from_slice(format!("k{place}:tc=k{next}:\n").as_bytes()),
            1 => text.extend_from_slice(format!("k{place}:am:\n").as_bytes()),
            2 => text.extend_from_slice(format!("k{place}\n").as_bytes()),
            _ => text.extend_from_slice(format!("k{place}:x:tc=k{next}:am:\n").as_bytes()),
        }
    }
    if random.chance(50) {
        text.pop();
    }
    text
}
