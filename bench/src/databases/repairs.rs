//! Databases to repair: an ordinary one, and those made to be slow, all within the limits.

use super::large::Large;

const LIMIT: usize = 1_048_576;
const LINES: usize = 4_096;

pub struct Repair {
    pub name: &'static str,
    pub database: Vec<u8>,
}

/// The ordinary one is the first.
pub fn all() -> Vec<Repair> {
    vec![
        repair("an ordinary file", Large::new(LIMIT).bytes),
        repair("all links in one ring", lines(|place| (place + 1) % LINES)),
        repair("the same ring, backwards", lines(|place| (place + LINES - 1) % LINES)),
        repair(
            "each line links to the next, a ring at the end",
            lines(|place| if place + 1 == LINES { LINES - 2 } else { place + 1 }),
        ),
        repair("all links lost", lines(|place| LINES + place)),
        repair("2,000 dropped lines of one name", dropped()),
        repair("464,000 names on eight lines, all links lost", many_names()),
        repair("every field malformed", filled("n:", "x:", "\n")),
    ]
}

fn repair(name: &'static str, database: Vec<u8>) -> Repair {
    assert!(database.len() <= LIMIT, "{name}");
    Repair { name, database }
}

/// 4,096 lines of one size, each with a link to the line that `next` says.
fn lines(next: impl Fn(usize) -> usize) -> Vec<u8> {
    let line = |place| {
        let fields = "am:co#80:li#24:cl=5\\E[H\\E[J:cm=\\E[%i%d;%dH:ho=\\E[H:".repeat(4);
        format!("k{place}|terminal {place}:{fields}tc=k{}:\n", next(place))
    };
    (0..LINES).map(line).collect::<String>().into_bytes()
}

fn dropped() -> Vec<u8> {
    let mut text = "oven-1\n".repeat(2_000);
    for place in 0..2_000 {
        text += &format!("k{place}:{}tc=oven-1:\n", "am:co#80:cl=\\E[H\\E[J:".repeat(20));
    }
    text.into_bytes()
}

/// As many names as fit, none of which is linked to.
fn many_names() -> Vec<u8> {
    let mut text = String::new();
    for place in 0..4_088 {
        text += &format!("k{place}:tc=z{place}:\n");
    }
    let each = (LIMIT - text.len()) / 8 - 3;
    for _ in 0..8 {
        text += &"q|".repeat(each / 2);
        text += ":\n";
    }
    text.into_bytes()
}

fn filled(start: &str, part: &str, end: &str) -> Vec<u8> {
    let times = (LIMIT - start.len() - end.len()) / part.len();
    [start, &part.repeat(times), end].concat().into_bytes()
}
