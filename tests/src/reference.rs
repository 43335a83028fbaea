//! Document 01 written down a second time: simple, slow, and in the paper's own order. The requests of
//! document 02 that add operations have files of their own.
//!
//! Nothing here is shared with the library under test. Headings are the paper's sections, words in
//! quotation marks are its own, and "our reading" marks where it can be read in two ways or is
//! silent. Every operation gives `Err` with the refusal number, or `Ok`; `Ok(None)` is "absent".

pub mod batch;
pub mod files;
pub mod finder;
pub mod finder_steps;
pub mod halves;
pub mod pasting;
pub mod repair;
pub mod search;

pub use files::Files;
use files::{find_from, Location};

pub type Refusal = u8;

// ---------------------------------------------------------------------------------------------
// The operations
// ---------------------------------------------------------------------------------------------

/// A part of the caller's database, by place.
#[derive(Clone, Copy, Debug, PartialEq, Eq)]
pub struct Part {
    pub start: usize,
    pub length: usize,
}

/// Show: "the part of the caller's database that holds the first description with that name,
/// unjoined". "It looks at names only, not at fields or links."
pub fn show(database: Files, name: &[u8]) -> Result<Part, Refusal> {
    database.check_ends()?;
    check_name(name)?;
    check_database(database.bytes)?;
    let files = database.lines();
    let found = find_from(&files, 0, name).ok_or(UNKNOWN_NAME)?;
    let file = &files[found.file];
    let line = &file.lines[found.place];
    Ok(Part { start: file.start + line.start, length: line.end - line.start })
}

/// Flag: "present with its value, or absent"; the value of a flag is 1, as in its record.
pub fn flag(database: Files, name: &[u8], id: &[u8]) -> Result<Option<u64>, Refusal> {
    let joined = chain_for_question(database, name, id)?;
    Ok(answer(&joined, id, Kind::FLAG).map(|_| 1))
}

/// Number: "present with its value, or absent".
pub fn number(database: Files, name: &[u8], id: &[u8]) -> Result<Option<u64>, Refusal> {
    let joined = chain_for_question(database, name, id)?;
    Ok(answer(&joined, id, Kind::NUMBER).map(|place| u64::from(record_value(&joined[place]))))
}

/// String: "writes the decoded bytes and reports their count".
pub fn string(
    database: Files,
    name: &[u8],
    id: &[u8],
    out: &mut [u8],
) -> Result<Option<usize>, Refusal> {
    match string_bytes(database, name, id)? {
        // "Absent is no refusal, and writes nothing": no room is needed either (our reading).
        None => Ok(None),
        Some(bytes) => write(&bytes, out).map(Some),
    }
}

/// The bytes that String writes.
pub fn string_bytes(database: Files, name: &[u8], id: &[u8]) -> Result<Option<Vec<u8>>, Refusal> {
    let joined = chain_for_question(database, name, id)?;
    match answer(&joined, id, Kind::STRING) {
        None => Ok(None),
        Some(place) => match &joined[place].capability.value {
            Value::String(decoded) => Ok(Some(decoded.clone())),
            _ => unreachable!("the answer of this kind is a string"),
        },
    }
}

/// List: one record for each live pair, of 12 bytes by Ask 5; "reports the number of records".
pub fn list(database: Files, name: &[u8], out: &mut [u8]) -> Result<usize, Refusal> {
    let records = list_bytes(database, name)?;
    write(&records, out).map(|bytes| bytes / RECORD_BYTES)
}

/// Flat: "the resolved terminal as one line; reports its bytes".
pub fn flat(database: Files, name: &[u8], out: &mut [u8]) -> Result<usize, Refusal> {
    let line = flat_bytes(database, name)?;
    write(&line, out)
}

/// Send: "(decoded command, lines, speed, pad byte): body and padding".
pub fn send(
    command: &[u8],
    lines: u64,
    speed: u64,
    pad: u8,
    out: &mut [u8],
) -> Result<usize, Refusal> {
    let (body, pads) = send_parts(command, lines, speed)?;
    write_with_pads(&body, pads, pad, out)
}

/// The body that Send writes, and the number of pads after it.
pub fn send_parts(command: &[u8], lines: u64, speed: u64) -> Result<(Vec<u8>, u64), Refusal> {
    // Ask 7: "for plain Send 13, 12, 9".
    let (padding, body) = split_padding(command)?;
    check_lines_and_speed(lines, speed)?;
    // "Send copies percent signs unchanged."
    Ok((body.to_vec(), pad_count(padding, lines, speed)))
}

/// "Send at takes also a row, a column, a back string and an up string."
#[derive(Clone, Copy, Debug)]
pub struct Position<'a> {
    pub row: u64,
    pub column: u64,
    pub back: &'a [u8],
    pub up: &'a [u8],
}

pub fn send_at(
    command: &[u8],
    position: Position,
    lines: u64,
    speed: u64,
    pad: u8,
    out: &mut [u8],
) -> Result<usize, Refusal> {
    let (body, pads) = send_at_parts(command, position, lines, speed)?;
    write_with_pads(&body, pads, pad, out)
}

/// The body and compensations that Send at writes, and the number of pads after them.
pub fn send_at_parts(
    command: &[u8],
    position: Position,
    lines: u64,
    speed: u64,
) -> Result<(Vec<u8>, u64), Refusal> {
    // Ask 7: "for Send at, 12 for row and column, 13, the body's faults, then 12 for lines and
    // speed, then 9".
    check_row_and_column(position.row, position.column)?;
    let (padding, body) = split_padding(command)?;
    let filled = fill_in(body, position)?;
    check_lines_and_speed(lines, speed)?;
    Ok((filled, pad_count(padding, lines, speed)))
}

/// "An opened reader keeps the database it was opened on and serves Show, Flag and Number from it
/// with equal answers and refusals; opening itself refuses nothing."
pub struct Reader<'a> {
    database: Files<'a>,
}

impl<'a> Reader<'a> {
    pub fn open(database: Files<'a>) -> Reader<'a> {
        Reader { database }
    }

    pub fn show(&self, name: &[u8]) -> Result<Part, Refusal> {
        show(self.database, name)
    }

    pub fn flag(&self, name: &[u8], id: &[u8]) -> Result<Option<u64>, Refusal> {
        flag(self.database, name, id)
    }

    pub fn number(&self, name: &[u8], id: &[u8]) -> Result<Option<u64>, Refusal> {
        number(self.database, name, id)
    }
}

// ---------------------------------------------------------------------------------------------
// Refusal numbers
// ---------------------------------------------------------------------------------------------

pub const BAD_NAME: Refusal = 1;
pub const BAD_ID: Refusal = 2;
pub const DATABASE_TOO_LARGE: Refusal = 3;
pub const UNKNOWN_NAME: Refusal = 4;
pub const LINK_NOWHERE: Refusal = 5;
pub const MALFORMED: Refusal = 6;
pub const LINK_INTO_CHAIN: Refusal = 7;
pub const CHAIN_TOO_LARGE: Refusal = 8;
pub const NO_ROOM: Refusal = 9;
pub const UNKNOWN_SEQUENCE: Refusal = 10;
pub const TOO_FEW_PARAMETERS: Refusal = 11;
pub const OUT_OF_RANGE: Refusal = 12;
pub const BAD_PADDING: Refusal = 13;

pub const MAX_DATABASE: usize = 1_048_576;
pub const MAX_DESCRIPTIONS: usize = 32;
pub const MAX_CHAIN_SIZE: usize = 16_384;

fn require(holds: bool, refusal: Refusal) -> Result<(), Refusal> {
    if holds {
        Ok(())
    } else {
        Err(refusal)
    }
}

/// 1: "asked name is not 1 to 64 bytes, or has a byte outside 32..126 or one of `|` `:` `\`".
fn is_name(name: &[u8]) -> bool {
    (1..=64).contains(&name.len())
        && name.iter().all(|byte| (32..=126).contains(byte) && !b"|:\\".contains(byte))
}

fn check_name(name: &[u8]) -> Result<(), Refusal> {
    require(is_name(name), BAD_NAME)
}

/// 2: "id is not two bytes 33..126, has `:` or `\`, starts with `.`, or is `tc`".
pub fn is_id(id: &[u8]) -> bool {
    id.len() == 2
        && id.iter().all(|byte| (33..=126).contains(byte) && !b":\\".contains(byte))
        && id[0] != b'.'
        && id != b"tc"
}

fn check_id(id: &[u8]) -> Result<(), Refusal> {
    require(is_id(id), BAD_ID)
}

/// 3: "database over 1,048,576 bytes".
fn check_database(database: &[u8]) -> Result<(), Refusal> {
    require(database.len() <= MAX_DATABASE, DATABASE_TOO_LARGE)
}

/// "Order: 1, 2, 3, then the walk, then 9", and 16 "before all others". For List and Flat, which take
/// no id. "Limit 3 is for all of [the buffer]."
fn chain_for_name(database: Files, name: &[u8]) -> Result<Vec<Description>, Refusal> {
    database.check_ends()?;
    check_name(name)?;
    check_database(database.bytes)?;
    walk(database, name)
}

/// "Order: 1, 2, 3, then the walk, then 9." For the questions, which take an id.
fn chain_for_question(
    database: Files,
    name: &[u8],
    id: &[u8],
) -> Result<Vec<JoinedField>, Refusal> {
    database.check_ends()?;
    check_name(name)?;
    check_id(id)?;
    check_database(database.bytes)?;
    Ok(join_fields(&walk(database, name)?))
}

/// "At each step of the walk: find the line (4 for the first, else 5), then 7, then 33rd (8), then
/// 6, then size (8), then the next link."
fn walk(database: Files, name: &[u8]) -> Result<Vec<Description>, Refusal> {
    let files = database.lines();
    let mut places: Vec<Location> = Vec::new();
    let mut chain: Vec<Description> = Vec::new();
    let mut chain_size = 0;
    let mut wanted = name.to_vec();
    let mut first_file = 0;
    loop {
        let found = find_from(&files, first_file, &wanted);
        let place = match found {
            Some(place) => place,
            None if chain.is_empty() => return Err(UNKNOWN_NAME),
            None => return Err(LINK_NOWHERE),
        };
        // "Only the line counts; a name may be shadowed" (slips we have seen); it is known by file and
        // place.
        if places.contains(&place) {
            return Err(LINK_INTO_CHAIN);
        }
        if chain.len() == MAX_DESCRIPTIONS {
            return Err(CHAIN_TOO_LARGE);
        }
        let mut description = read_description(&files[place.file].lines[place.place].joined)?;
        description.location = place;
        chain_size += description.size();
        if chain_size > MAX_CHAIN_SIZE {
            return Err(CHAIN_TOO_LARGE);
        }
        let link = description.link();
        places.push(place);
        chain.push(description);
        match link {
            Some(link) => (wanted, first_file) = (link, place.file),
            None => return Ok(chain),
        }
    }
}

/// 9: "the output doesn't fit the lent buffer". "The output buffer keeps every byte" then; after a
/// success it keeps those past the bytes reported (our reading).
fn write(bytes: &[u8], out: &mut [u8]) -> Result<usize, Refusal> {
    if bytes.len() > out.len() {
        return Err(NO_ROOM);
    }
    out[..bytes.len()].copy_from_slice(bytes);
    Ok(bytes.len())
}

// ---------------------------------------------------------------------------------------------
// Lines and names
// ---------------------------------------------------------------------------------------------

/// A logical line: where it stands in the database, and its joined text.
struct Line {
    start: usize,
    end: usize,
    joined: Vec<u8>,
}

/// "A newline whose preceding byte is a backslash vanishes with that backslash, wherever it
/// stands. Every other newline ends a logical line; so does the end of the database." The
/// preceding byte is the one of the database as given, also where a pair has
/// vanished before it (our reading).
fn logical_lines(database: &[u8]) -> Vec<Line> {
    let mut lines = Vec::new();
    let mut start = 0;
    let mut joined = Vec::new();
    for (place, &byte) in database.iter().enumerate() {
        if byte != b'\n' {
            joined.push(byte);
        } else if place > 0 && database[place - 1] == b'\\' {
            joined.pop();
        } else {
            lines.push(Line { start, end: place, joined });
            start = place + 1;
            joined = Vec::new();
        }
    }
    lines.push(Line { start, end: database.len(), joined });
    lines
}

fn is_blank(byte: &u8) -> bool {
    *byte == b' ' || *byte == b'\t'
}

/// "Ignored: lines of only spaces and tabs, and lines that start with `#`." The empty line is
/// ignored too (our reading).
fn is_ignored_line(joined: &[u8]) -> bool {
    joined.iter().all(is_blank) || joined.starts_with(b"#")
}

/// "The names are the text before the first colon, or the whole line if there is none".
fn names_of(joined: &[u8]) -> &[u8] {
    match joined.iter().position(|&byte| byte == b':') {
        Some(colon) => &joined[..colon],
        None => joined,
    }
}

/// "... split at `|`. Comparison is exact. The search stops at the first logical line that holds
/// the name; links search again from the start."
fn find_line(lines: &[Line], name: &[u8]) -> Option<usize> {
    lines.iter().position(|line| {
        !is_ignored_line(&line.joined)
            && names_of(&line.joined).split(|&byte| byte == b'|').any(|one| one == name)
    })
}

// ---------------------------------------------------------------------------------------------
// Fields
// ---------------------------------------------------------------------------------------------

/// A description that isn't malformed: the file and the place of its line, its names, and its fields
/// in order.
struct Description {
    location: Location,
    names: Vec<u8>,
    fields: Vec<Field>,
}

/// A field as written (joined), and what it means.
struct Field {
    written: Vec<u8>,
    meaning: Meaning,
}

enum Meaning {
    Ignored,
    Link(Vec<u8>),
    Capability(Capability),
}

#[derive(Clone)]
struct Capability {
    name: [u8; 2],
    value: Value,
}

#[derive(Clone)]
enum Value {
    Flag,
    Number(u32),
    String(Vec<u8>),
    Cancel,
}

impl Description {
    /// "A line's size is its names plus 1, plus each field's length plus 1": every field counts,
    /// also an ignored one, and the last one with or without its colon (our reading).
    fn size(&self) -> usize {
        let fields: usize = self.fields.iter().map(|field| field.written.len() + 1).sum();
        self.names.len() + 1 + fields
    }

    fn link(&self) -> Option<Vec<u8>> {
        self.fields.iter().find_map(|field| match &field.meaning {
            Meaning::Link(name) => Some(name.clone()),
            _ => None,
        })
    }
}

/// "The fields are read from the byte after the first colon on; each ends at a colon, always, and
/// text after the last colon is a field unless empty." "A line without a colon" is malformed.
fn read_description(joined: &[u8]) -> Result<Description, Refusal> {
    let names = names_of(joined);
    if names.len() == joined.len() {
        return Err(MALFORMED);
    }
    let mut texts: Vec<&[u8]> = joined[names.len() + 1..].split(|&byte| byte == b':').collect();
    if texts.last().is_some_and(|last| last.is_empty()) {
        texts.pop();
    }
    let mut fields = Vec::new();
    let mut linked = false;
    for text in texts {
        let meaning = read_field(text)?;
        // "After it only ignored fields may stand."
        if linked && !matches!(meaning, Meaning::Ignored) {
            return Err(MALFORMED);
        }
        linked = linked || matches!(meaning, Meaning::Link(_));
        fields.push(Field { written: text.to_vec(), meaning });
    }
    Ok(Description { location: Location { file: 0, place: 0 }, names: names.to_vec(), fields })
}

fn read_field(text: &[u8]) -> Result<Meaning, Refusal> {
    // "Only spaces and tabs, or empty: ignored. First byte `.`: ignored."
    if text.iter().all(is_blank) || text.starts_with(b".") {
        return Ok(Meaning::Ignored);
    }
    // "A link is a field that starts with the three bytes `tc=`, followed by a name as in refusal
    // 1." Without such a name it is no link, and falls to the next rule (our reading).
    if text.starts_with(b"tc=") && is_name(&text[3..]) {
        return Ok(Meaning::Link(text[3..].to_vec()));
    }
    // "No other field may have the name `tc`." "Otherwise two name bytes as in refusal 2, then".
    if text.len() < 2 || !is_id(&text[..2]) {
        return Err(MALFORMED);
    }
    let value = read_value(&text[2..])?;
    Ok(Meaning::Capability(Capability { name: [text[0], text[1]], value }))
}

/// "nothing (flag); `#` and 1 to 6 decimal digits of at most 65,535 (number); `=` and a text
/// (string); `@` and nothing (cancel). Anything else is malformed".
fn read_value(text: &[u8]) -> Result<Value, Refusal> {
    match text.first() {
        None => Ok(Value::Flag),
        Some(b'#') => read_number(&text[1..]).map(Value::Number),
        Some(b'=') => decode(&text[1..]).map(Value::String),
        Some(b'@') if text.len() == 1 => Ok(Value::Cancel),
        Some(_) => Err(MALFORMED),
    }
}

/// Ask 4: "A number of two or more digits starting with 0 is octal ... A digit 8 or 9 in it is
/// malformed. The limits of 6 digits and 65,535 stay."
fn read_number(digits: &[u8]) -> Result<u32, Refusal> {
    if !(1..=6).contains(&digits.len()) || !digits.iter().all(u8::is_ascii_digit) {
        return Err(MALFORMED);
    }
    let octal = digits.len() >= 2 && digits.starts_with(b"0");
    let base = if octal { 8 } else { 10 };
    // All are digits, so this fails on an 8 or a 9 in an octal number alone.
    let text = std::str::from_utf8(digits).expect("digits are ASCII");
    let value = u32::from_str_radix(text, base).map_err(|_| MALFORMED)?;
    require(value <= 65_535, MALFORMED)?;
    Ok(value)
}

/// "A text may be empty. It is read from left to right and has only bytes 32..126, a bare `\` or
/// `^` excepted, and these escapes".
fn decode(text: &[u8]) -> Result<Vec<u8>, Refusal> {
    let mut decoded = Vec::new();
    let mut rest = text;
    while let Some(&byte) = rest.first() {
        let (value, used) = match byte {
            b'\\' => read_backslash(&rest[1..])?,
            b'^' => read_caret(&rest[1..])?,
            32..=126 => (byte, 1),
            _ => return Err(MALFORMED),
        };
        decoded.push(value);
        rest = &rest[used..];
    }
    Ok(decoded)
}

/// After a backslash: "`\E` 27, `\n` 10, `\r` 13, `\t` 9, `\b` 8, `\f` 12, `\^`, `\\`, a backslash
/// and exactly three octal digits up to 377". Gives the byte, and how many bytes the escape has.
fn read_backslash(after: &[u8]) -> Result<(u8, usize), Refusal> {
    match after.first() {
        Some(b'E') => Ok((27, 2)),
        Some(b'n') => Ok((10, 2)),
        Some(b'r') => Ok((13, 2)),
        Some(b't') => Ok((9, 2)),
        Some(b'b') => Ok((8, 2)),
        Some(b'f') => Ok((12, 2)),
        Some(b'^') => Ok((b'^', 2)),
        Some(b'\\') => Ok((b'\\', 2)),
        _ => read_octal(after).map(|value| (value, 4)),
    }
}

fn read_octal(after: &[u8]) -> Result<u8, Refusal> {
    let digits = after.get(..3).ok_or(MALFORMED)?;
    let mut value: u32 = 0;
    for digit in digits {
        if !(b'0'..=b'7').contains(digit) {
            return Err(MALFORMED);
        }
        value = value * 8 + u32::from(digit - b'0');
    }
    u8::try_from(value).map_err(|_| MALFORMED)
}

/// "`^` with a byte 63..126 (`^?` is 127, else the byte modulo 32)". Reading from left to right,
/// `^\` uses up the backslash.
fn read_caret(after: &[u8]) -> Result<(u8, usize), Refusal> {
    match after.first() {
        Some(b'?') => Ok((127, 2)),
        Some(&byte) if (63..=126).contains(&byte) => Ok((byte % 32, 2)),
        _ => Err(MALFORMED),
    }
}

// ---------------------------------------------------------------------------------------------
// Lookup, List and Flat
// ---------------------------------------------------------------------------------------------

/// "Kinds are numbered 1 for a flag, 2 for a number, 3 for a string."
#[derive(Clone, Copy, Debug, PartialEq, Eq)]
struct Kind(u8);

impl Kind {
    const FLAG: Kind = Kind(1);
    const NUMBER: Kind = Kind(2);
    const STRING: Kind = Kind(3);
}

/// The kind of a capability; a cancel has none.
fn kind_of(value: &Value) -> Option<Kind> {
    match value {
        Value::Flag => Some(Kind::FLAG),
        Value::Number(_) => Some(Kind::NUMBER),
        Value::String(_) => Some(Kind::STRING),
        Value::Cancel => None,
    }
}

/// A capability or cancel of the chain, with the "place of the description in the chain from 0".
struct JoinedField {
    place: u8,
    file: u8,
    written: Vec<u8>,
    capability: Capability,
}

/// "Join the fields of the chain in order." Ignored fields and links answer nothing.
fn join_fields(chain: &[Description]) -> Vec<JoinedField> {
    let mut joined = Vec::new();
    for (place, description) in chain.iter().enumerate() {
        for field in &description.fields {
            if let Meaning::Capability(capability) = &field.meaning {
                joined.push(JoinedField {
                    place: place as u8,
                    file: description.location.file as u8,
                    written: field.written.clone(),
                    capability: capability.clone(),
                });
            }
        }
    }
    joined
}

/// "The answer for an id and a kind is the first field of that name and kind, unless a cancel of
/// that name stands earlier; a field of another kind is passed over." Gives the field's index.
fn answer(joined: &[JoinedField], id: &[u8], kind: Kind) -> Option<usize> {
    for (index, field) in joined.iter().enumerate() {
        if field.capability.name != id {
            continue;
        }
        match kind_of(&field.capability.value) {
            None => return None,
            Some(its_kind) if its_kind == kind => return Some(index),
            Some(_) => {}
        }
    }
    None
}

/// "Where the answer is present, that first field is the winning field of the pair of name and
/// kind, and the pair is live; no other field wins, and a cancel never does."
fn winning_fields(joined: &[JoinedField]) -> Vec<&JoinedField> {
    let mut winning = Vec::new();
    for (index, field) in joined.iter().enumerate() {
        if let Some(kind) = kind_of(&field.capability.value) {
            if answer(joined, &field.capability.name, kind) == Some(index) {
                winning.push(field);
            }
        }
    }
    winning
}

pub const RECORD_BYTES: usize = 12;

/// "1, the number, or the decoded length".
fn record_value(field: &JoinedField) -> u32 {
    match &field.capability.value {
        Value::Flag => 1,
        Value::Number(number) => *number,
        Value::String(decoded) => decoded.len() as u32,
        Value::Cancel => unreachable!("a cancel never wins"),
    }
}

/// "A record is: two name bytes; kind; place of the description in the chain from 0; a 32-bit
/// value, high byte first. Records stand in the order of the winning fields. No header." Ask 5: "12
/// bytes, with the file number from 0 and three zeros at the end".
pub fn list_bytes(database: Files, name: &[u8]) -> Result<Vec<u8>, Refusal> {
    let joined = join_fields(&chain_for_name(database, name)?);
    let mut records = Vec::new();
    for field in winning_fields(&joined) {
        let kind = kind_of(&field.capability.value).expect("a cancel never wins");
        records.extend_from_slice(&field.capability.name);
        records.push(kind.0);
        records.push(field.place);
        records.extend_from_slice(&record_value(field).to_be_bytes());
        records.extend_from_slice(&[field.file, 0, 0, 0]);
    }
    Ok(records)
}

/// "Flat is the first line's names, a colon, then each winning field as written (joined) with a
/// colon, then a newline."
pub fn flat_bytes(database: Files, name: &[u8]) -> Result<Vec<u8>, Refusal> {
    let chain = chain_for_name(database, name)?;
    let joined = join_fields(&chain);
    let mut line = chain[0].names.clone();
    line.push(b':');
    for field in winning_fields(&joined) {
        line.extend_from_slice(&field.written);
        line.push(b':');
    }
    line.push(b'\n');
    Ok(line)
}

// ---------------------------------------------------------------------------------------------
// Filling in a position
// ---------------------------------------------------------------------------------------------

/// "Row is the first parameter, column the second, each 0..9,999."
fn check_row_and_column(row: u64, column: u64) -> Result<(), Refusal> {
    require(row <= 9_999 && column <= 9_999, OUT_OF_RANGE)
}

/// "A row is never taken for a column: each keeps its axis when exchanged."
#[derive(Clone, Copy, Debug, PartialEq, Eq)]
enum Axis {
    Row,
    Column,
}

#[derive(Clone, Copy, Debug)]
struct Parameter {
    axis: Axis,
    value: i64,
}

/// What is known while a body is filled in.
struct Filling<'a> {
    /// The unused parameters, the next one first.
    unused: Vec<Parameter>,
    back: &'a [u8],
    up: &'a [u8],
    output: Vec<u8>,
    compensations: Vec<u8>,
}

/// "Plain bytes and percent sequences alternate until the command is used up." Compensations are
/// "appended after the body". Unused parameters at the end are no fault (our reading).
fn fill_in(body: &[u8], position: Position) -> Result<Vec<u8>, Refusal> {
    let row = Parameter { axis: Axis::Row, value: position.row as i64 };
    let column = Parameter { axis: Axis::Column, value: position.column as i64 };
    let mut filling = Filling {
        unused: vec![row, column],
        back: position.back,
        up: position.up,
        output: Vec::new(),
        compensations: Vec::new(),
    };
    let mut rest = body;
    while let Some(&byte) = rest.first() {
        if byte == b'%' {
            let used = filling.percent_sequence(rest)?;
            rest = &rest[used..];
        } else {
            filling.output.push(byte);
            rest = &rest[1..];
        }
    }
    let mut filled = filling.output;
    filled.extend_from_slice(&filling.compensations);
    Ok(filled)
}

impl Filling<'_> {
    /// One percent sequence at the start of `rest`; gives the number of its bytes. "For one
    /// sequence 10 is tested first, then 11, then 12": the match is the test for 10.
    fn percent_sequence(&mut self, rest: &[u8]) -> Result<usize, Refusal> {
        match rest[1..] {
            // "Output, each using up one parameter".
            [b'd', ..] => self.decimal(1).map(|()| 2),
            [b'2', ..] => self.decimal(2).map(|()| 2),
            [b'3', ..] => self.decimal(3).map(|()| 2),
            [b'.', ..] => self.byte(0).map(|()| 2),
            [b'+', added, ..] => self.byte(added).map(|()| 3),
            // "`%%` writes `%` and uses none."
            [b'%', ..] => {
                self.output.push(b'%');
                Ok(2)
            }
            // "Changes".
            [b'i', ..] => self.change_every(|value| Ok(value + 1)).map(|()| 2),
            [b'n', ..] => self.change_every(|value| Ok(not_negative(value)? ^ 96)).map(|()| 2),
            [b'r', ..] => self.exchange().map(|()| 2),
            [b'>', above, added, ..] => {
                self.change_next(|value| Ok(add_if_above(value, above, added))).map(|()| 4)
            }
            [b'B', ..] => self.change_next(binary_coded).map(|()| 2),
            [b'D', ..] => self.change_next(reverse_coded).map(|()| 2),
            // 10: "unknown, or cut off, percent sequence".
            _ => Err(UNKNOWN_SEQUENCE),
        }
    }

    /// 11: "too few unused parameters".
    fn use_up(&mut self) -> Result<Parameter, Refusal> {
        if self.unused.is_empty() {
            return Err(TOO_FEW_PARAMETERS);
        }
        Ok(self.unused.remove(0))
    }

    /// "`%d` decimal; `%2`, `%3` at least two or three digits". "Negative decimals ... are 12."
    fn decimal(&mut self, least_digits: usize) -> Result<(), Refusal> {
        let parameter = self.use_up()?;
        if parameter.value < 0 {
            return Err(OUT_OF_RANGE);
        }
        let digits = format!("{:0least_digits$}", parameter.value);
        self.output.extend_from_slice(digits.as_bytes());
        Ok(())
    }

    /// "`%.` the byte; `%+c` the value plus c's byte." "Bytes outside 0..255, are 12." "The range
    /// test comes before raising." What is tested is the sum (our reading).
    fn byte(&mut self, added: u8) -> Result<(), Refusal> {
        let parameter = self.use_up()?;
        let sum = parameter.value + i64::from(added);
        let byte = u8::try_from(sum).map_err(|_| OUT_OF_RANGE)?;
        // Ask 1: "raised until it is none of these, with one compensation for each step".
        let mut byte = byte;
        while matches!(byte, 0 | 4 | 9 | 10) && self.raises(parameter.axis) {
            byte += 1;
            self.compensate(parameter.axis);
        }
        self.output.push(byte);
        Ok(())
    }

    fn raises(&self, axis: Axis) -> bool {
        match axis {
            // "Both strings empty: off."
            _ if self.back.is_empty() && self.up.is_empty() => false,
            // "Only up empty: rows aren't raised."
            Axis::Row => !self.up.is_empty(),
            Axis::Column => true,
        }
    }

    /// "A compensation is appended after the body, in the order of the raised bytes: back string
    /// for a column, up string for a row, taken as they stand." "Only back empty: byte 8 stands
    /// for it."
    fn compensate(&mut self, axis: Axis) {
        match axis {
            Axis::Row => self.compensations.extend_from_slice(self.up),
            Axis::Column if self.back.is_empty() => self.compensations.push(8),
            Axis::Column => self.compensations.extend_from_slice(self.back),
        }
    }

    /// "`%i` adds 1 to every unused parameter, `%n` XORs each with 96 (11 for either if none is
    /// unused)".
    fn change_every(&mut self, change: fn(i64) -> Result<i64, Refusal>) -> Result<(), Refusal> {
        if self.unused.is_empty() {
            return Err(TOO_FEW_PARAMETERS);
        }
        for parameter in &mut self.unused {
            parameter.value = in_range(change(parameter.value)?)?;
        }
        Ok(())
    }

    /// "`%r` exchanges the two (both unused)".
    fn exchange(&mut self) -> Result<(), Refusal> {
        if self.unused.len() < 2 {
            return Err(TOO_FEW_PARAMETERS);
        }
        self.unused.swap(0, 1);
        Ok(())
    }

    /// "On the next one": the first unused in the present order (our reading).
    fn change_next(&mut self, change: impl Fn(i64) -> Result<i64, Refusal>) -> Result<(), Refusal> {
        let next = self.unused.first_mut().ok_or(TOO_FEW_PARAMETERS)?;
        next.value = in_range(change(next.value)?)?;
        Ok(())
    }
}

/// "`%>xy` adds y's byte if the value is above x's".
fn add_if_above(value: i64, above: u8, added: u8) -> i64 {
    if value > i64::from(above) {
        value + i64::from(added)
    } else {
        value
    }
}

/// "`%B` makes 16 times the quotient by 10 plus the remainder".
fn binary_coded(value: i64) -> Result<i64, Refusal> {
    let value = not_negative(value)?;
    Ok(16 * (value / 10) + value % 10)
}

/// "`%D` subtracts twice the remainder by 16."
fn reverse_coded(value: i64) -> Result<i64, Refusal> {
    let value = not_negative(value)?;
    Ok(value - 2 * (value % 16))
}

/// "`%n`, `%B`, `%D` of a negative ... are 12."
fn not_negative(value: i64) -> Result<i64, Refusal> {
    require(value >= 0, OUT_OF_RANGE)?;
    Ok(value)
}

/// "Any result outside -32,768..32,767, are 12": of the changes (our reading).
fn in_range(value: i64) -> Result<i64, Refusal> {
    require((-32_768..=32_767).contains(&value), OUT_OF_RANGE)?;
    Ok(value)
}

// ---------------------------------------------------------------------------------------------
// Padding
// ---------------------------------------------------------------------------------------------

/// The padding prefix: its delay in tenths of a millisecond before lines are counted in.
#[derive(Clone, Copy, Debug)]
struct Padding {
    tenths: u64,
    starred: bool,
}

/// "At the start: digits, then maybe `.` and a digit, then maybe `*`. No leading digit, no
/// padding; a `.` without a digit after it belongs to the body." Gives the padding and the body.
fn split_padding(command: &[u8]) -> Result<(Padding, &[u8]), Refusal> {
    let digits = leading_digits(command);
    if digits.is_empty() {
        return Ok((Padding { tenths: 0, starred: false }, command));
    }
    let mut body = &command[digits.len()..];
    let mut decimals: &[u8] = b"";
    if body.first() == Some(&b'.') {
        decimals = leading_digits(&body[1..]);
        if !decimals.is_empty() {
            body = &body[1 + decimals.len()..];
        }
    }
    // 13: "padding with over 4 digits before the point, or over one after it", also where there is
    // no point (our reading).
    if digits.len() > 4 || decimals.len() > 1 {
        return Err(BAD_PADDING);
    }
    let starred = body.first() == Some(&b'*');
    if starred {
        body = &body[1..];
    }
    // "ten times the digits plus the tenth".
    let tenths = 10 * decimal_value(digits) + decimal_value(decimals);
    Ok((Padding { tenths, starred }, body))
}

fn leading_digits(text: &[u8]) -> &[u8] {
    let count = text.iter().take_while(|byte| byte.is_ascii_digit()).count();
    &text[..count]
}

fn decimal_value(digits: &[u8]) -> u64 {
    digits.iter().fold(0, |value, digit| value * 10 + u64::from(digit - b'0'))
}

/// "Lines 1..1,000, speed 0..115,200 bits a second, else 12", with or without padding (our
/// reading).
fn check_lines_and_speed(lines: u64, speed: u64) -> Result<(), Refusal> {
    require((1..=1_000).contains(&lines) && speed <= 115_200, OUT_OF_RANGE)
}

/// "The delay d in tenths of a millisecond is ten times the digits plus the tenth, times lines if
/// starred." "Ten bits a byte: the count is d times speed over 100,000, rounded up."
fn pad_count(padding: Padding, lines: u64, speed: u64) -> u64 {
    let delay = if padding.starred { padding.tenths * lines } else { padding.tenths };
    (delay * speed).div_ceil(100_000)
}

/// "Body, compensations, then pads; the pads are written into the room that is left." The body
/// given here has its compensations already.
fn write_with_pads(body: &[u8], pads: u64, pad: u8, out: &mut [u8]) -> Result<usize, Refusal> {
    let total = body.len() as u64 + pads;
    if total > out.len() as u64 {
        return Err(NO_ROOM);
    }
    let (written, left) = out.split_at_mut(body.len());
    written.copy_from_slice(body);
    left[..pads as usize].fill(pad);
    Ok(total as usize)
}
