//! Databases, and names and ids to ask of them.

use crate::case::{Case, Operation};
use crate::random::Random;
use crate::reference::{self, Files};

const NAMES: [&[u8]; 20] = [
    b"a", b"b", b"c", b"A", b"B", b"ab", b"Ab", b"n0", b"n1", b"x y", b"a=", b"a#b", b".n", b"tc",
    b"~", b" ", b"  ", b"#x", b"aa", b"N0",
];

/// Names that a line may have, though nobody can ask for them.
const ODD_NAMES: [&[u8]; 9] =
    [b"", b"a\\", b"\\", b"a\\b", b"\x01", b"\xff", b"\t", b"a\0", &[b'N'; 66]];

pub const IDS: [&[u8]; 16] = [
    b"am", b"co", b"li", b"cl", b"bs", b"le", b"a#", b"a=", b"==", b"@@", b"#1", b"a.", b"|x",
    b"t#", b"!~", b"tC",
];

/// Bytes that mean something to some rule, or stand just outside a range.
const EDGE_BYTES: &[u8] = b"\\\\\n\n::||##@@==..^^ \t\r0178aEtcmn%?>~\x00\x1f\x7f\x80\xff";

pub fn fill_in(random: &mut Random, case: &mut Case) {
    let huge_share = match case.operation {
        // The properties take many calls, which would be slow on a huge database.
        Operation::Properties => 0,
        // Few of the cases are of these, and they have few refusals.
        Operation::Show | Operation::Search => 20,
        // To the finder no file is too large.
        Operation::Finder | Operation::FinderState => 2,
        _ => 8,
    };
    let made = database(random, huge_share);
    let too_large = made.text.len() > reference::MAX_DATABASE;
    // Refusal 3 is rare, so the refusals before it are made common beside it.
    let bad_percent = if too_large { 60 } else { 5 };
    case.name =
        if random.chance(bad_percent) { edge_name(random) } else { asked_name(random, &made) };
    case.database = made.text;
    case.id = match case.operation {
        Operation::Flag => question_id(random, case, 1, b":\n", bad_percent),
        Operation::Number => question_id(random, case, 2, b"#", bad_percent),
        Operation::String => question_id(random, case, 3, b"=", bad_percent),
        Operation::Properties => {
            let count = random.between(1, 4);
            (0..count).flat_map(|_| asked_id(random, &case.database, b":#=@")).collect()
        }
        _ => Vec::new(),
    };
    if case.operation == Operation::Batch {
        case.questions = questions(random, case);
    }
}

/// The questions of a batch: mostly whole ones, few where each is slow for the reference.
fn questions(random: &mut Random, case: &Case) -> Vec<u8> {
    let most = if case.database.len() > 20_000 { 3 } else { 20 };
    let live = reference::list_bytes(Files::alone(&case.database), &case.name).unwrap_or_default();
    let count = random.between(0, most);
    let mut asked: Vec<u8> = (0..count).flat_map(|_| question(random, case, &live)).collect();
    if random.chance(6) {
        let over = random.between(1, 3) as usize;
        asked.resize((asked.len() + over).saturating_sub(random.pick_value(&[0, 4])), b'a');
    }
    asked
}

/// One question: what the terminal has, the same id with any kind, an id of the database, or one
/// with a bad byte.
fn question(random: &mut Random, case: &Case, live: &[u8]) -> [u8; 4] {
    let records: Vec<&[u8]> = live.chunks(reference::RECORD_BYTES).collect();
    let kind = random.pick_value(&[1, 2, 3]);
    let [a, b, kind] = match random.below(10) {
        0..=3 if !records.is_empty() => {
            let record = random.pick(&records);
            [record[0], record[1], record[2]]
        }
        4 if !records.is_empty() => {
            let record = random.pick(&records);
            [record[0], record[1], kind]
        }
        5 => {
            let id = edge_id(random);
            [id.first().copied().unwrap_or(b'a'), id.get(1).copied().unwrap_or(b'm'), kind]
        }
        _ => {
            let id = asked_id(random, &case.database, b":#=@");
            [id.first().copied().unwrap_or(b'a'), id.get(1).copied().unwrap_or(b'm'), kind]
        }
    };
    match random.below(24) {
        0 => [a, b, random.pick_value(&[0, 4, 48, 255]), 0],
        1 => [a, b, kind, random.pick_value(&[1, 48, 255])],
        _ => [a, b, kind, 0],
    }
}

fn question_id(
    random: &mut Random,
    case: &Case,
    kind: u8,
    before: &[u8],
    bad_percent: u64,
) -> Vec<u8> {
    if random.chance(bad_percent) {
        return edge_id(random);
    }
    let live = if random.chance(50) { live_id(random, case, kind) } else { None };
    live.unwrap_or_else(|| asked_id(random, &case.database, before))
}

/// An id for which the answer is present, if there is one.
fn live_id(random: &mut Random, case: &Case, kind: u8) -> Option<Vec<u8>> {
    let records = reference::list_bytes(case.files(), &case.name).ok()?;
    let of_kind: Vec<&[u8]> =
        records.chunks(reference::RECORD_BYTES).filter(|record| record[2] == kind).collect();
    if of_kind.is_empty() {
        None
    } else {
        Some(random.pick(&of_kind)[..2].to_vec())
    }
}

/// Any database, for an operation that takes no name.
pub fn any(random: &mut Random) -> Vec<u8> {
    database(random, 8).text
}

/// A database, and a name in it that is worth asking for.
struct Made {
    text: Vec<u8>,
    asked: Option<Vec<u8>>,
}

fn database(random: &mut Random, huge_share: u64) -> Made {
    match random.weighted(&[330, 240, 130, 150, 40, 40, 25, 37, 30, huge_share]) {
        0 => valid(random),
        1 => damaged(random),
        2 => laced(random),
        3 => tangled(random),
        4 => long_chain(random),
        5 => large_chain(random),
        6 => noise(random),
        7 => edge_fields(random),
        8 => far(random),
        _ => huge(random),
    }
}

/// Mostly the name the database was made for, else one that stands in it, else any.
fn asked_name(random: &mut Random, made: &Made) -> Vec<u8> {
    match (&made.asked, random.weighted(&[78, 17, 5])) {
        (Some(name), 0) => name.clone(),
        (_, 0 | 1) => name_in(random, &made.text),
        _ => random.pick(&NAMES).to_vec(),
    }
}

/// The start or the end of a database that is too long to be looked through.
fn window<'a>(random: &mut Random, text: &'a [u8]) -> &'a [u8] {
    const LONGEST: usize = 20_000;
    if text.len() <= LONGEST {
        text
    } else if random.chance(50) {
        &text[..LONGEST]
    } else {
        &text[text.len() - LONGEST..]
    }
}

/// Some text between the separators of names.
fn name_in(random: &mut Random, text: &[u8]) -> Vec<u8> {
    let text = without_pairs(window(random, text));
    let line = random_piece(random, &text, b'\n');
    let names = line.split(|&byte| byte == b':').next().unwrap_or(b"");
    random_piece(random, names, b'|').to_vec()
}

/// One of the pieces that aren't empty.
fn random_piece<'a>(random: &mut Random, text: &'a [u8], separator: u8) -> &'a [u8] {
    let mut pieces: Vec<&[u8]> = text.split(|&byte| byte == separator).collect();
    pieces.retain(|piece| !piece.is_empty());
    if pieces.is_empty() {
        b""
    } else {
        pieces[random.below(pieces.len())]
    }
}

fn without_pairs(text: &[u8]) -> Vec<u8> {
    let mut rest = Vec::new();
    for &byte in text {
        if byte == b'\n' && rest.last() == Some(&b'\\') {
            rest.pop();
        } else {
            rest.push(byte);
        }
    }
    rest
}

/// Names at the edges of refusal 1, most of them outside.
fn edge_name(random: &mut Random) -> Vec<u8> {
    const BAD: [&[u8]; 9] = [b"a|b", b"a:b", b"a\\b", b"|", b":", b"\\", b"\n", b"a\n", b"a\0"];
    match random.below(6) {
        0 => Vec::new(),
        1 => vec![b'N'; 65],
        2 => vec![b'N'; random.between(63, 66) as usize],
        3 => random.pick(&BAD).to_vec(),
        _ => {
            let mut name = random.pick(&NAMES).to_vec();
            let place = random.below(name.len() + 1);
            name.insert(place, random.pick_value(b"\x1f\x7f\x80\xff\x00\t\n|:\\ ~"));
            name
        }
    }
}

/// An id that stands in the database, mostly before one of the bytes given.
fn asked_id(random: &mut Random, text: &[u8], before: &[u8]) -> Vec<u8> {
    if random.chance(8) {
        return random.pick(&IDS).to_vec();
    }
    let any_kind = random.chance(15);
    let mut text = without_pairs(window(random, text));
    text.push(b'\n');
    let places: Vec<usize> = (0..text.len().saturating_sub(3))
        .filter(|&place| text[place] == b':')
        .filter(|&place| any_kind || before.contains(&text[place + 3]))
        .filter(|&place| reference::is_id(&text[place + 1..place + 3]))
        .collect();
    if places.is_empty() {
        return random.pick(&IDS).to_vec();
    }
    let place = places[random.below(places.len())];
    text[place + 1..place + 3].to_vec()
}

/// Ids at the edges of refusal 2, most of them outside.
fn edge_id(random: &mut Random) -> Vec<u8> {
    match random.below(4) {
        0 => random.pick(&[b"" as &[u8], b"a", b"amx", b"co#", b"t", b"tcc"]).to_vec(),
        1 => random.pick(&[b"tc", b"tc", b".a", b"..", b"a.", b"tC", b"Tc", b"ct"]).to_vec(),
        _ => {
            let mut id = random.pick(&IDS).to_vec();
            id[random.below(2)] = random.pick_value(b"\x00\x1f !~\x7f\x80\xff:\\.\n\t");
            id
        }
    }
}

// ---------------------------------------------------------------------------------------------
// Valid databases
// ---------------------------------------------------------------------------------------------

/// A few ids for one database, so that fields of one name meet.
pub fn theme(random: &mut Random) -> Vec<&'static [u8]> {
    let count = random.between(1, 5);
    (0..count).map(|_| random.pick(&IDS)).collect()
}

/// One line being made: names, fields, and how it ends.
pub struct Line {
    pub names: Vec<Vec<u8>>,
    pub fields: Vec<Vec<u8>>,
    last_colon: bool,
}

impl Line {
    pub fn new(random: &mut Random, names: Vec<Vec<u8>>) -> Line {
        Line { names, fields: Vec::new(), last_colon: !random.chance(15) }
    }

    fn text(&self) -> Vec<u8> {
        let mut text = self.names.join(&b'|');
        text.push(b':');
        text.extend_from_slice(&self.fields.join(&b':'));
        if self.last_colon && !self.fields.is_empty() {
            text.push(b':');
        }
        text
    }

    /// The size by the paper's rule, as far as the generator needs it.
    pub fn size(&self) -> usize {
        let fields: usize = self.fields.iter().map(|field| field.len() + 1).sum();
        self.names.join(&b'|').len() + 1 + fields
    }

    pub fn link(&mut self, random: &mut Random, name: &[u8]) {
        self.fields.push([b"tc=", name].concat());
        if random.chance(20) {
            self.fields.push(ignored_field(random));
        }
    }
}

/// Lines of different first names, of which some form a chain in any order. Other names of a line
/// may shadow later lines.
fn valid(random: &mut Random) -> Made {
    let ids = theme(random);
    let mut pool = NAMES.to_vec();
    if random.chance(10) {
        pool.push(&[b'N'; 64]);
        pool.push(&[b'N'; 63]);
    }
    shuffle(random, &mut pool);
    let count = random.between(1, 5) as usize;
    let mut lines = Vec::new();
    for place in 0..count {
        let mut names = vec![pool[place].to_vec()];
        while random.chance(35) {
            let other = pool[random.below(pool.len())].to_vec();
            let at = random.below(names.len() + 1);
            names.insert(at, other);
        }
        if random.chance(8) {
            names.push(random.pick(&ODD_NAMES).to_vec());
        }
        let mut line = Line::new(random, names);
        for _ in 0..random.below(8) {
            line.fields.push(field(random, &ids));
        }
        lines.push(line);
    }
    let mut order: Vec<usize> = (0..count).collect();
    shuffle(random, &mut order);
    let length = random.between(1, count as u64) as usize;
    for place in 1..length {
        lines[order[place - 1]].link(random, pool[order[place]]);
    }
    for &place in &order[length..] {
        if random.chance(40) {
            let name = pool[random.below(pool.len())];
            lines[place].link(random, name);
        }
    }
    Made { text: lay_out(random, &lines), asked: Some(pool[order[0]].to_vec()) }
}

pub fn shuffle<T>(random: &mut Random, things: &mut [T]) {
    for place in (1..things.len()).rev() {
        things.swap(place, random.below(place + 1));
    }
}

/// The lines as text, with comments and blank lines between some of them.
pub fn lay_out(random: &mut Random, lines: &[Line]) -> Vec<u8> {
    const BETWEEN: [&[u8]; 12] = [
        b"\n", b" \n", b"\t \n", b"# comment\n", b"#a|b:am:\n", b"#\n", b" \\\n\t\n", b"#c\\\n",
        b"#c\\\\\n", b"\\\n#d:am\n", b"\\\n", b" #e\n",
    ];
    let mut text = Vec::new();
    for line in lines {
        while random.chance(10) {
            text.extend_from_slice(random.pick(&BETWEEN));
        }
        let mut line = line.text();
        if random.chance(12) {
            line = in_the_usual_style(&line);
        }
        text.extend_from_slice(&line);
        text.push(b'\n');
    }
    if random.chance(30) {
        text.pop();
    }
    if random.chance(5) {
        text.extend_from_slice(random.pick(&BETWEEN));
    }
    text
}

/// Each field on a physical line of its own, indented by a tab, as databases are often written.
fn in_the_usual_style(line: &[u8]) -> Vec<u8> {
    let mut text = Vec::new();
    for &byte in line {
        text.push(byte);
        if byte == b':' {
            text.extend_from_slice(b"\\\n\t:");
        }
    }
    text
}

pub fn field(random: &mut Random, ids: &[&[u8]]) -> Vec<u8> {
    let id = ids[random.below(ids.len())];
    match random.weighted(&[22, 20, 30, 13, 15]) {
        0 => id.to_vec(),
        1 => [id, b"#", &number_text(random)].concat(),
        2 => [id, b"=", &string_text(random)].concat(),
        3 => [id, b"@"].concat(),
        _ => ignored_field(random),
    }
}

fn number_text(random: &mut Random) -> Vec<u8> {
    const TEXTS: [&[u8]; 16] = [
        b"0", b"1", b"9", b"24", b"30", b"80", b"255", b"256", b"000030", b"065535", b"65535",
        b"000000", b"010", b"00", b"0377", b"077777",
    ];
    if random.chance(70) {
        random.pick(&TEXTS).to_vec()
    } else {
        random.between(0, 65_535).to_string().into_bytes()
    }
}

/// A text without a fault.
fn string_text(random: &mut Random) -> Vec<u8> {
    const PLAIN: &[u8] = b" !\"#%+,-./0179;<=>?@AEZ[]_`abcnrtz{|}~";
    const ESCAPES: [&[u8]; 24] = [
        b"\\E", b"\\n", b"\\r", b"\\t", b"\\b", b"\\f", b"\\^", b"\\\\", b"\\000", b"\\072",
        b"\\177", b"\\200", b"\\377", b"\\1234", b"^?", b"^@", b"^[", b"^\\", b"^]", b"^^", b"^_",
        b"^`", b"^~", b"^\\072",
    ];
    let pieces = if random.chance(2) { random.below(300) } else { random.below(7) };
    let mut text = Vec::new();
    for _ in 0..pieces {
        match random.weighted(&[50, 40, 10]) {
            0 => text.push(random.pick_value(PLAIN)),
            1 => text.extend_from_slice(random.pick(&ESCAPES)),
            _ => text.extend_from_slice(format!("\\{:03o}", random.byte()).as_bytes()),
        }
    }
    text
}

fn ignored_field(random: &mut Random) -> Vec<u8> {
    const FIELDS: [&[u8]; 10] =
        [b"", b"", b" ", b"\t", b" \t ", b".", b".am", b".co#99999999", b".tc=a", b".\\\xff\x00"];
    random.pick(&FIELDS).to_vec()
}

// ---------------------------------------------------------------------------------------------
// Damaged databases
// ---------------------------------------------------------------------------------------------

fn damaged(random: &mut Random) -> Made {
    let mut made = valid(random);
    damage(random, &mut made.text);
    made
}

/// One edit.
pub fn damage(random: &mut Random, text: &mut Vec<u8>) {
    match random.weighted(&[20, 18, 16, 8, 6, 4, 28]) {
        0 if !text.is_empty() => {
            let place = random.below(text.len());
            text[place] = random.pick_value(EDGE_BYTES);
        }
        1 => {
            let place = random.below(text.len() + 1);
            text.insert(place, random.pick_value(EDGE_BYTES));
        }
        2 if !text.is_empty() => {
            text.remove(random.below(text.len()));
        }
        choice @ 3..=5 => edit_lines(random, text, choice),
        _ => spoil_field(random, text),
    }
}

/// Two lines swapped, one duplicated, or one removed.
fn edit_lines(random: &mut Random, text: &mut Vec<u8>, choice: usize) {
    let mut lines: Vec<Vec<u8>> = text.split(|&byte| byte == b'\n').map(<[u8]>::to_vec).collect();
    let (one, other) = (random.below(lines.len()), random.below(lines.len()));
    match choice {
        3 => lines.swap(one, other),
        4 => lines.insert(other, lines[one].clone()),
        _ => {
            lines.remove(one);
        }
    }
    *text = lines.join(&b'\n');
}

/// A field that is malformed in one way, put in after some colon.
fn spoil_field(random: &mut Random, text: &mut Vec<u8>) {
    let colons: Vec<usize> = (0..text.len()).filter(|&place| text[place] == b':').collect();
    let place = if colons.is_empty() { 0 } else { colons[random.below(colons.len())] + 1 };
    let mut field = edge_field(random);
    field.push(b':');
    text.splice(place..place, field);
}

/// Fields at the edges of the rules, most of them malformed.
pub fn edge_field(random: &mut Random) -> Vec<u8> {
    const SHAPES: [&[u8]; 26] = [
        b" am", b"am ", b"\tam", b" .x", b"a", b".", b"am@x", b"am@@", b"am@", b"am\t", b"amx",
        b"co", b"co#1x", b"co#-1", b"co# 1", b"co#+1", b"a\\", b"\\a", b"a\x7f", b"a ", b"!~",
        b"#foo", b"am\\", b"a.", b"\r", b"am#",
    ];
    const LINKS: [&[u8]; 12] = [
        b"tc", b"tc=", b"tc@", b"tc#1", b"tcx", b"tc=a|b", b"tc=a\\b", b"tc=\t", b"tc= ",
        b"tc=nowhere", b"tc=a\x7f", b"tc=a",
    ];
    match random.weighted(&[30, 16, 5, 20, 29]) {
        0 => random.pick(&SHAPES).to_vec(),
        1 => random.pick(&LINKS).to_vec(),
        2 => [b"tc=".to_vec(), vec![b'N'; random.between(63, 66) as usize]].concat(),
        3 => [b"co#".to_vec(), edge_number(random)].concat(),
        _ => [b"cl=".to_vec(), edge_text(random)].concat(),
    }
}

fn edge_number(random: &mut Random) -> Vec<u8> {
    const NUMBERS: [&[u8]; 22] = [
        b"", b"65535", b"65536", b"65536", b"065536", b"65545", b"99999", b"100000", b"131071",
        b"000030", b"0000030", b"0065535", b"999999", b"4294967326", b"08", b"09", b"00", b"019",
        b"0190", b"077778", b"077777", b"0177777",
    ];
    random.pick(&NUMBERS).to_vec()
}

fn edge_text(random: &mut Random) -> Vec<u8> {
    const TEXTS: [&[u8]; 22] = [
        b"\\", b"^", b"a^", b"\\^^", b"^\\", b"\\\\\\", b"^>", b"^?", b"^@", b"^~", b"^\x7f",
        b"^ ", b"\\q", b"\\e", b"\\N", b"\\,", b"\x1f", b"\x7f", b"\x80", b"\0", b"\t", b"~ ",
    ];
    match random.weighted(&[45, 15, 40]) {
        0 => random.pick(&TEXTS).to_vec(),
        1 => b"\\:".to_vec(),
        _ => {
            let digits = random.between(1, 4);
            let mut text = b"\\".to_vec();
            text.extend((0..digits).map(|_| random.pick_value(b"01347789")));
            text
        }
    }
}

/// A short line of fields at the edges, alone or behind a link.
fn edge_fields(random: &mut Random) -> Made {
    let ids = theme(random);
    let names = if random.chance(20) { vec![b'N'; 64] } else { b"n0".to_vec() };
    let mut text = [&names[..], b":"].concat();
    for _ in 0..random.between(1, 3) {
        let field = if random.chance(65) { edge_field(random) } else { field(random, &ids) };
        text.extend_from_slice(&field);
        text.push(b':');
    }
    if random.chance(20) {
        text.extend_from_slice(random.pick(&[b"tc=n0:", b"tc=n1:", b"tc=n1:"]));
    }
    text.extend_from_slice(random.pick(&[
        b"" as &[u8], b"\n", b"\nn1:am:", b"\nn1:cl=\\E:co#80:\n", b"\\", b"\\\n\n", b"\r\n",
    ]));
    Made { text, asked: Some(names) }
}

/// Continuation pairs anywhere: in names, escapes, numbers, links, before and behind newlines.
fn laced(random: &mut Random) -> Made {
    let mut made = if random.chance(75) { valid(random) } else { tangled(random) };
    if random.chance(25) {
        damage(random, &mut made.text);
    }
    for _ in 0..random.between(1, 8) {
        let place = random.below(made.text.len() + 1);
        made.text.splice(place..place, *b"\\\n");
    }
    if random.chance(15) {
        made.text.push(b'\\');
    }
    made
}

/// Few names and many links: cycles, links to oneself, to shadowed names and to nowhere.
fn tangled(random: &mut Random) -> Made {
    const FEW: [&[u8]; 4] = [b"a", b"b", b"c", b"ab"];
    let ids = theme(random);
    let mut lines = Vec::new();
    for _ in 0..random.between(1, 5) {
        let mut names = vec![random.pick(&FEW[..3]).to_vec()];
        while random.chance(30) {
            names.push(random.pick(&FEW[..3]).to_vec());
        }
        let mut line = Line::new(random, names);
        for _ in 0..random.below(3) {
            line.fields.push(field(random, &ids));
        }
        if random.chance(60) {
            let name = random.pick(&FEW);
            line.link(random, name);
        }
        lines.push(line);
    }
    Made { text: lay_out(random, &lines), asked: None }
}

/// Bytes without a plan.
fn noise(random: &mut Random) -> Made {
    const LETTERS: &[u8] = b"a|a:\n:am:b:tc=a:b@#1=\\\\n^ .";
    let length = random.pick_value(&[0, 1, 2, 5, 12, 30, 60]);
    let any = random.chance(15);
    let text = (0..random.below(length + 1))
        .map(|_| match random.weighted(&[75, 25]) {
            _ if any => random.byte(),
            0 => random.pick_value(LETTERS),
            _ => random.pick_value(EDGE_BYTES),
        })
        .collect();
    Made { text, asked: None }
}

// ---------------------------------------------------------------------------------------------
// Databases at the limits
// ---------------------------------------------------------------------------------------------

/// A chain of 31 to 34 descriptions, its last one ending, going nowhere, going back, or malformed.
fn long_chain(random: &mut Random) -> Made {
    let ids = theme(random);
    let length = random.pick_value(&[31, 32, 32, 32, 33, 33, 34]);
    let mut lines = Vec::new();
    for place in 0..length {
        let mut line = Line::new(random, vec![chain_name(place)]);
        if random.chance(30) {
            line.fields.push(field(random, &ids));
        }
        if place + 1 < length {
            line.link(random, &chain_name(place + 1));
        }
        lines.push(line);
    }
    match random.weighted(&[35, 20, 20, 25]) {
        0 => {}
        1 => lines[length - 1].fields.push(b"tc=nowhere".to_vec()),
        2 => {
            let back = chain_name(random.below(length));
            lines[length - 1].fields.push([b"tc=", &back[..]].concat());
        }
        _ => {
            let place = length - 1 - random.below(3);
            let field = edge_field(random);
            lines[place].fields.insert(0, field);
        }
    }
    match random.below(3) {
        0 => shuffle(random, &mut lines),
        1 => lines.reverse(),
        _ => {}
    }
    Made { text: lay_out(random, &lines), asked: Some(chain_name(0)) }
}

fn chain_name(place: usize) -> Vec<u8> {
    format!("k{place}").into_bytes()
}

/// A chain whose size is 16,382 to 16,386, by different kinds of bulk.
fn large_chain(random: &mut Random) -> Made {
    let ids = theme(random);
    let target = random.between(16_382, 16_386) as usize;
    let length = random.between(1, 4) as usize;
    let mut lines = Vec::new();
    for place in 0..length {
        let mut line = Line::new(random, vec![chain_name(place)]);
        for _ in 0..random.below(3) {
            line.fields.push(field(random, &ids));
        }
        lines.push(line);
    }
    let last_links: [&[u8]; 5] = [b"", b"", b"", b"tc=nowhere", b"tc=k0"];
    let last_link = random.pick(&last_links).to_vec();
    if !last_link.is_empty() {
        lines[length - 1].fields.push(last_link);
    }
    for place in 1..length {
        lines[place - 1].fields.push([b"tc=", &chain_name(place)[..]].concat());
    }
    let size: usize = lines.iter().map(Line::size).sum();
    let heavy = random.below(length);
    bulk_up(random, &mut lines[heavy], target.saturating_sub(size));
    if random.chance(15) {
        let place = random.below(length);
        let field = edge_field(random);
        lines[place].fields.insert(0, field);
    }
    let mut text = lay_out(random, &lines);
    if random.chance(20) {
        let place = random.below(text.len());
        text.splice(place..place, *b"\\\n");
    }
    Made { text, asked: Some(chain_name(0)) }
}

/// Makes the line larger by exactly `more`, which must be 2 or more for that.
fn bulk_up(random: &mut Random, line: &mut Line, more: usize) {
    let mut left = more;
    let mut fields: Vec<Vec<u8>> = Vec::new();
    match random.weighted(&[30, 25, 15, 15, 10, 5]) {
        0 => {}
        1 => fields.push([b"zz=".to_vec(), vec![b'x'; left / 2]].concat()),
        2 => line.names.push(vec![b'n'; left / 2]),
        3 => fields.resize(left / 2, Vec::new()),
        4 => fields.push([b"zz=".to_vec(), b"\\072".repeat(left / 8)].concat()),
        _ => fields = many_flags().take(left / 3 - 1).collect(),
    }
    left -= fields.iter().map(|field| field.len() + 1).sum::<usize>();
    left -= line.names[1..].iter().map(|name| name.len() + 1).sum::<usize>();
    if left > 1 {
        fields.push([b".".to_vec(), vec![b'y'; left - 2]].concat());
    }
    line.fields.splice(0..0, fields);
}

/// More different flags than one chain can hold.
pub fn many_flags() -> impl Iterator<Item = Vec<u8>> {
    let firsts = (33..=126).filter(|first| !b":\\.".contains(first));
    firsts.flat_map(|first| {
        let seconds = (33..=126).filter(|second| !b":\\".contains(second));
        seconds.map(move |second| vec![first, second]).filter(|name| name != b"tc")
    })
}

/// A small database before and behind some thousand bytes: more than a search looks at in one go.
fn far(random: &mut Random) -> Made {
    let mut made = match random.below(4) {
        0 => valid(random),
        1 => damaged(random),
        2 => laced(random),
        _ => tangled(random),
    };
    let (before, behind) = (random.below(9_000), random.between(6_000, 9_000) as usize);
    fill_before(&mut made, filling(random, before));
    made.text.push(b'\n');
    made.text.extend_from_slice(&filling(random, behind));
    made
}

/// Lines, comments or pairs of so many bytes.
fn filling(random: &mut Random, size: usize) -> Vec<u8> {
    let unit: &[u8] = random.pick(&[b"x" as &[u8], b"\n", b"z:am:\n", b"y|z:tc=a:\n", b"\\\n"]);
    let mut filling = b"#".to_vec();
    filling.extend_from_slice(&unit.repeat(size / unit.len()));
    filling.truncate(size);
    filling
}

fn fill_before(made: &mut Made, mut filling: Vec<u8>) {
    if let Some(last) = filling.last_mut() {
        *last = b'\n';
    }
    made.text.splice(0..0, filling);
}

/// A database of 1,048,575 to 1,048,577 bytes: a small one, and filling before or behind it.
fn huge(random: &mut Random) -> Made {
    // One that is too large costs little, as it isn't searched.
    let over = random.chance(65);
    let target = if over { 1_048_577 } else { random.between(1_048_575, 1_048_576) as usize };
    let mut made = if random.chance(70) { valid(random) } else { tangled(random) };
    made.text.push(b'\n');
    let filling = filling(random, target - made.text.len());
    if random.chance(50) {
        made.text.extend_from_slice(&filling);
    } else {
        fill_before(&mut made, filling);
    }
    made
}
