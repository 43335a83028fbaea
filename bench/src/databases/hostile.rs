//! Databases made to be slow, each within the limit, and the question asked of each.

use super::large::Large;
use super::wide;
use crate::question::Reading;

pub struct Hostile {
    pub name: &'static str,
    pub database: Vec<u8>,
    pub reading: Reading,
    pub asked: Vec<u8>,
    /// The names that the links lead to, one after the other.
    pub linked: Vec<Vec<u8>>,
}

const LIMIT: usize = 1_048_576;
const PAIR: &str = "\\\n";
const OVEN: &str = "oven-1";

/// An id that none of the databases has.
pub const ID: &[u8] = b"zq";

pub fn all() -> Vec<Hostile> {
    let mut all = chains_of_32();
    all.extend(many_fields());
    all.extend(escapes());
    all.extend(many_lines());
    all.extend(many_names());
    all.extend(many_pairs());
    all.extend(names_elsewhere());
    all
}

fn show(name: &'static str, database: Vec<u8>, asked: &str) -> Hostile {
    read(name, database, Reading::Show, asked.as_bytes())
}

fn read(name: &'static str, database: Vec<u8>, reading: Reading, asked: &[u8]) -> Hostile {
    assert!(database.len() <= LIMIT, "{name}");
    Hostile { name, database, reading, asked: asked.to_vec(), linked: Vec::new() }
}

/// `start`, then `part` as often as it fits, then `end`; before them a short line, since a search reads the first line by itself.
fn filled(start: &str, part: &str, end: &str) -> Vec<u8> {
    let start = String::from("y:\n") + start;
    let times = (LIMIT - start.len() - end.len()) / part.len();
    [&start, &part.repeat(times), end].concat().into_bytes()
}

/// Every link searches the whole database again.
fn chains_of_32() -> Vec<Hostile> {
    let link = |place: usize| format!("link-{place:02}");
    let mut chain = String::from("\n");
    for place in 0..31 {
        chain += &format!("{}:am:tc={}:\n", link(place), link(place + 1));
    }
    chain += &format!("{}:am:", link(31));
    let before = LIMIT - chain.len();
    // In each line the first search stops at every name, and finds the asked one among the fields.
    let names: String = (0..32).map(|place| format!("|{}", link(place))).collect();
    let decoys = format!("x:{names}:\n").repeat(before / (names.len() + 4)).into_bytes();
    let behind = |name, mut database: Vec<u8>| {
        // A comment fills what is left.
        database.resize(before, b'#');
        database.extend_from_slice(chain.as_bytes());
        let linked = (1..32).map(|place| link(place).into_bytes()).collect();
        Hostile { linked, ..read(name, database, Reading::Flag, b"link-00") }
    };
    vec![
        behind("a chain of 32 at the very end", Large::new(before).bytes),
        behind("a chain of 32 behind fields with its names", decoys),
    ]
}

fn many_fields() -> Vec<Hostile> {
    let ask = |name, reading| read(name, wide::database(5_460), reading, wide::NAME);
    vec![
        ask("5,460 fields, Flag", Reading::Flag),
        ask("5,460 fields, List", Reading::List),
        ask("5,460 fields, Flat", Reading::Flat),
    ]
}

/// The line is too long for a chain, but that is said only after it is found to be well formed.
fn escapes() -> Vec<Hostile> {
    let ask = |name, database| read(name, database, Reading::Flag, b"e");
    vec![
        ask("a megabyte of escapes", filled("e:aa=", "\\E", ":\n")),
        ask("a megabyte of octal escapes, the last broken", filled("e:aa=", "\\033", "\\03:\n")),
        ask("a megabyte of escapes cut by pairs", filled("e:aa=", "\\\\\n0\\\n33", ":\n")),
        ask("a megabyte of empty fields", filled("e:", ":", "\n")),
    ]
}

fn many_lines() -> Vec<Hostile> {
    vec![
        show("a million empty lines", filled("", "\n", ""), "b"),
        show("a\\na\\n.., asked for b", filled("", "a\n", ""), "b"),
        show("a\\na\\n.., asked for ab", filled("", "a\n", ""), "ab"),
        show("one line of a megabyte of blanks", filled("", " ", "\n"), " "),
        show("lines of 63 blanks", filled("", &(" ".repeat(63) + "\n"), ""), " "),
    ]
}

fn many_names() -> Vec<Hostile> {
    let long = "a".repeat(63);
    vec![
        show("500,000 names on one line, the last asked", filled("", "b|c|", "zz:\n"), "zz"),
        show("a|a|a|.., asked for b", filled("", "a|", ""), "b"),
        show("a|a|a|.., asked for ab", filled("", "a|", ""), "ab"),
        show("bars only", filled("", "|", "\n"), "b"),
        show("aba|aba|.., asked for aca", filled("", "aba|", ""), "aca"),
        show("aba:\\naba:\\n.., asked for aca", filled("", "aba:\n", ""), "aca"),
        show(
            "names that differ in the 64th byte",
            filled("", &(long.clone() + "b|"), ""),
            &(long.clone() + "a"),
        ),
        show(
            "names that differ in the 63rd byte",
            filled("", &(long[1..].to_owned() + "ba|"), ""),
            &(long + "a"),
        ),
    ]
}

fn many_pairs() -> Vec<Hostile> {
    let cut = |name: &str| name.chars().map(|letter| format!("{letter}{PAIR}")).collect::<String>();
    let line = format!("{}|{}:am:\n", cut("oven-2"), cut("oven-3"));
    vec![
        show("half a million pairs", filled("", PAIR, ""), OVEN),
        show("names cut by pairs, in lines", filled("", &line, ""), OVEN),
        show("names cut by pairs, on one line", filled("", &(cut("oven-2") + "|"), ""), OVEN),
        show(
            "a name cut at every byte, 64 bytes asked",
            filled("", &cut("o"), ""),
            &"o".repeat(64),
        ),
        show(
            "the same, with more pairs",
            filled("", &cut("o").replace(PAIR, &PAIR.repeat(9)), ""),
            &"o".repeat(64),
        ),
        show(
            "fields cut at every byte, 64 bytes asked",
            filled("x:", &cut("o"), ""),
            &"o".repeat(64),
        ),
        show("lines continued behind a colon, 2 asked", filled("x", ":\\\noo", ""), "oo"),
        show("a comment with a pair at every third byte", filled("#", "x\\\n", "\n"), OVEN),
        show("fields with a pair at every third byte", filled("x:", "a\\\n", "\n"), OVEN),
        show("empty names cut by pairs", filled("", "|\\\n", "\n"), "b"),
        show("backslashes only", filled("", "\\", ""), OVEN),
    ]
}

/// The asked name stands where it does not count.
fn names_elsewhere() -> Vec<Hostile> {
    vec![
        show("comments with the name behind a bar", filled("", "#|oven-1\n", ""), OVEN),
        show("one comment with the name behind bars", filled("#", "|oven-1", "\n"), OVEN),
        show("fields with the name behind bars, in lines", filled("", "x:|oven-1|\n", ""), OVEN),
        show("fields with the name behind bars, one line", filled("x:", "|oven-1", "\n"), OVEN),
        show("the name behind pairs in fields", filled("x:", "\\\noven-1", "\n"), OVEN),
        show("names that start with the name", filled("", "oven-12|oven-1a:am:\n", ""), OVEN),
    ]
}
