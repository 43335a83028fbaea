//! Databases like the termcap files of old: comments, then a description on several physical lines.

use termcap_tests::random::Random;

use super::words::{COMMENT_WORDS, FLAGS, MAKERS, NAME_ENDS, NAME_STARTS, NUMBERS, STRINGS, TEXTS};

pub struct Large {
    pub bytes: Vec<u8>,
    pub entries: Vec<Entry>,
}

/// One description: where its line starts, and its names.
pub struct Entry {
    pub start: usize,
    pub names: Vec<String>,
    pub linked: bool,
}

/// The chain of six: the name of each description, in the order of the links. Only the last has
/// the flag, which is no flag of any other description.
pub const CHAIN: [&str; 6] = [
    "press-line-a", "press-line-b", "press-line-c", "press-line-d", "press-line-e", "press-line-f",
];
pub const CHAIN_FLAG: &str = "zf";

/// Where the chain's descriptions stand, in percent of the file: the links go back and forth.
const CHAIN_PLACES: [(usize, usize); 6] = [(15, 1), (30, 3), (50, 0), (65, 5), (80, 2), (95, 4)];

const SEED: u64 = 7;
const LINE_BYTES: usize = 54;

impl Large {
    /// A database of at most `limit` bytes, and not much less.
    pub fn new(limit: usize) -> Large {
        let mut random = Random::new(SEED);
        let mut large = Large { bytes: Vec::new(), entries: Vec::new() };
        let mut chain = CHAIN_PLACES.iter().peekable();
        loop {
            let before = comments(&mut random);
            let due = chain.next_if(|(percent, _)| large.bytes.len() > limit / 100 * percent);
            let (names, link, fields) = match due {
                Some(&(_, place)) => chain_entry(place),
                None => large.entry(&mut random),
            };
            let text = describe(&names, link.as_deref(), &fields);
            if large.bytes.len() + before.len() + text.len() > limit {
                return large;
            }
            large.bytes.extend_from_slice(before.as_bytes());
            let start = large.bytes.len();
            large.bytes.extend_from_slice(text.as_bytes());
            large.entries.push(Entry { start, names, linked: link.is_some() });
        }
    }

    /// The description without a link that is nearest behind the middle.
    pub fn middle(&self) -> &Entry {
        let half = self.bytes.len() / 2;
        self.entries.iter().find(|entry| entry.start > half && !entry.linked).expect("there is one")
    }

    pub fn last(&self) -> &Entry {
        self.entries.last().expect("there is one")
    }

    /// The last description without a link.
    pub fn last_unlinked(&self) -> &Entry {
        self.entries.iter().rfind(|entry| !entry.linked).expect("there is one")
    }

    /// Names, the name of a link if any, and fields of the next description.
    fn entry(&self, random: &mut Random) -> (Vec<String>, Option<String>, Vec<String>) {
        let number = self.entries.len();
        let link = if number > 20 && random.chance(12) { self.earlier(random) } else { None };
        (names(random, number), link, fields(random))
    }

    /// A name of an earlier description that has no link itself.
    fn earlier(&self, random: &mut Random) -> Option<String> {
        let entry = &self.entries[random.below(self.entries.len())];
        (!entry.linked).then(|| entry.names[0].clone())
    }
}

impl Entry {
    /// A name that is neither a code of two letters nor a long one with spaces.
    pub fn usual_name(&self) -> &[u8] {
        let usual = self.names.iter().find(|name| name.len() > 2 && !name.contains(' '));
        usual.expect("every description has one").as_bytes()
    }
}

fn chain_entry(place: usize) -> (Vec<String>, Option<String>, Vec<String>) {
    let names = vec![CHAIN[place].to_string(), format!("press line, part {place}")];
    let link = CHAIN.get(place + 1).map(|name| name.to_string());
    let own = if link.is_some() { "pt" } else { CHAIN_FLAG };
    let fields = ["am", "co#80", "li#24", "cl=50\\E[;H\\E[2J", "cm=5\\E[%i%d;%dH", own];
    (names, link, fields.map(String::from).to_vec())
}

/// Two to five names. Numbers keep all of them apart.
fn names(random: &mut Random, number: usize) -> Vec<String> {
    let mut names = Vec::new();
    if random.chance(60) {
        names.push(code(number));
    }
    for part in 0..random.between(1, 3) {
        let (start, end) = (random.pick(&NAME_STARTS), random.pick(&NAME_ENDS));
        names.push(format!("{start}{}{end}", 3 * number as u64 + part));
    }
    if names.len() == 1 || random.chance(70) {
        names.push(format!("{} model {number} terminal", random.pick(&MAKERS)));
    }
    names
}

/// A code of two letters or digits, another one for every number below 3,600.
fn code(number: usize) -> String {
    const LETTERS: &[u8; 60] = b"abcdefghijklmnopqrstuvwxyzABCDEFGHIJKLMNOPQRSTUVWXYZ01234567";
    let mixed = number * 1_009 % 3_600;
    [LETTERS[mixed / 60], LETTERS[mixed % 60]].iter().map(|&byte| char::from(byte)).collect()
}

/// Flags, numbers and strings in their usual order; always with `am`, `co` and `cm`.
fn fields(random: &mut Random) -> Vec<String> {
    let mut fields = Vec::new();
    for (place, id) in FLAGS.iter().enumerate() {
        if place == 0 || random.chance(9) {
            fields.push(id.to_string());
        }
    }
    for (place, id) in NUMBERS.iter().enumerate() {
        if place < 2 || random.chance(10) {
            fields.push(format!("{id}#{}", random.pick_value(&[80, 24, 132, 8, 48])));
        }
    }
    let percent = random.between(8, 28);
    for (place, id) in STRINGS.iter().enumerate() {
        if place == 0 {
            fields.push(format!("{id}=\\E[%i%d;%dH"));
        } else if random.chance(percent) {
            fields.push(format!("{id}={}", random.pick(&TEXTS)));
        }
    }
    fields
}

/// The description on several physical lines, each but the last with a backslash at its end.
fn describe(names: &[String], link: Option<&str>, fields: &[String]) -> String {
    let mut text = names.join("|") + ":\\\n\t:";
    let mut line = 2;
    let link = link.map(|name| format!("tc={name}"));
    for field in fields.iter().chain(&link) {
        if line > 2 && line + field.len() + 2 > LINE_BYTES {
            text += "\\\n\t:";
            line = 2;
        }
        text += field;
        text += ":";
        line += field.len() + 1;
    }
    text + "\n"
}

fn comments(random: &mut Random) -> String {
    let mut text = String::new();
    if random.chance(30) {
        text += "\n";
    }
    for _ in 0..random.between(1, 17) {
        // A line that was a part of a description once: its backslash joins the next comment.
        if random.chance(2) {
            text += "#\t:is=\\E[1m\\E[7m:am:\\\n";
        }
        text += &comment(random);
        text += "\n";
    }
    text
}

fn comment(random: &mut Random) -> String {
    let mut line = String::from("#");
    if random.chance(8) {
        return line;
    }
    // Bars and colons stand in comments, too.
    match random.below(20) {
        0 => line += " am|xn:",
        1 => line += " From:",
        _ => {}
    }
    let most = random.between(12, 75) as usize;
    loop {
        let word = random.pick(&COMMENT_WORDS);
        if line.len() + 1 + word.len() > most {
            return line;
        }
        line += " ";
        line += word;
    }
}
