//! Answers written by hand from documents 01 and 02, and from the readings taken of its open points: none
//! was computed. They are asked of the reference by the unit test below, and of the library before
//! any generated case.

use crate::case::{before, describe, observe, Case, Operation, GUARD};
use crate::generate::many_flags;
use crate::subject::{Subject, ABSENT, ACCEPTED};

mod finders;

pub struct Example {
    pub title: &'static str,
    pub case: Case,
    pub expected: Expected,
}

#[derive(Clone, Debug)]
pub enum Expected {
    Refused(u32),
    Absent,
    Shown {
        start: u64,
        length: u64,
    },
    /// Whether the name is found, and how many names were compared.
    Counted {
        found: bool,
        compared: u64,
    },
    Value(u64),
    /// The bytes written, and their count.
    Bytes(Vec<u8>),
    /// The bytes written, and a count of one for every twelve.
    Records(Vec<u8>),
    /// Status, refusal number and value of each answer of a batch.
    Answers(Vec<(u8, u8, u32)>),
    /// The delay and the star, and the finished bytes with their count.
    Finished(u64, u64, Vec<u8>),
    /// The mended database, and line, place, reason and count of each removal.
    Mended(Vec<u8>, Vec<[u32; 4]>),
    /// The results of a finder's calls before its answer.
    Results(Vec<u32>),
    /// Stage, matched, count and held of a finder after its blocks, and the bytes of its text that have
    /// changed.
    Standing([u16; 4], Vec<u8>),
}
use Expected::{
    Absent, Answers, Bytes, Counted, Finished, Mended, Records, Refused, Results, Shown, Standing,
    Value,
};

/// What is wrong with the subject's answer, in words; nothing if it is the one written here.
pub fn wrong(example: &Example, subject: &impl Subject) -> Option<String> {
    let case = &example.case;
    let mut right = before(case);
    right.code = match &example.expected {
        Refused(number) => *number,
        Absent => ABSENT,
        _ => ACCEPTED,
    };
    let answers: Vec<u8> = match &example.expected {
        Answers(answers) => answers.iter().flat_map(answer_bytes).collect(),
        _ => Vec::new(),
    };
    let (numbers, bytes): (&[u64], &[u8]) = match &example.expected {
        Refused(_) | Absent => (&[], b""),
        Shown { start, length } => (&[*start, *length], b""),
        Counted { found, compared } => (&[u64::from(*found), *compared], b""),
        Value(value) => (&[*value], b""),
        Bytes(bytes) => (&[bytes.len() as u64], bytes),
        Records(bytes) => (&[bytes.len() as u64 / 12], bytes),
        Answers(each) => (&[each.len() as u64], &answers),
        Finished(delay, star, bytes) => (&[*delay, *star, bytes.len() as u64], bytes),
        Mended(text, removals) => (&[text.len() as u64, removals.len() as u64], text),
        Results(_) | Standing(..) => return finders::wrong(example, subject),
    };
    if let Mended(_, removals) = &example.expected {
        let numbers = removals.iter().flatten();
        let bytes: Vec<u8> = numbers.flat_map(|number| number.to_be_bytes()).collect();
        right.records_block[GUARD..GUARD + bytes.len()].copy_from_slice(&bytes);
    }
    right.numbers[..numbers.len()].copy_from_slice(numbers);
    right.block[GUARD..GUARD + bytes.len()].copy_from_slice(bytes);
    let seen = observe(case, subject);
    // What a finder has besides its answer is judged by examples of its own.
    right.finder.clone_from(&seen.finder);
    (seen != right).then(|| {
        format!("expected: {}\nseen:     {}\n", describe(case, &right), describe(case, &seen))
    })
}

/// "Status, refusal number, two zeros, and the value."
fn answer_bytes(&(status, refusal, value): &(u8, u8, u32)) -> Vec<u8> {
    [&[status, refusal, 0, 0][..], &value.to_be_bytes()].concat()
}

pub fn all() -> Vec<Example> {
    let parts = [
        whole_case(),
        marked(),
        by_a_program(),
        slips(),
        names_and_ids(),
        continuations(),
        lines(),
        fields(),
        texts(),
        walk(),
        lookup(),
        room(),
        filling_in(),
        changes(),
        raising(),
        padding(),
        order_of_send(),
        several_files(),
        ends_refused(),
        counting(),
        repairs(),
        repairs_of_links(),
        repairs_refused(),
        batches(),
        batches_with_bad_questions(),
        batches_refused(),
        first_half(),
        second_half(),
        finders::all(),
    ];
    parts.into_iter().flatten().collect()
}

// ---------------------------------------------------------------------------------------------
// Short ways to write a case
// ---------------------------------------------------------------------------------------------

fn example(title: &'static str, case: Case, expected: Expected) -> Example {
    Example { title, case, expected }
}

fn ask(operation: Operation, database: &[u8], name: &[u8]) -> Case {
    Case { operation, database: database.to_vec(), name: name.to_vec(), fill: 7, ..Case::default() }
}

fn show(database: &[u8], name: &[u8]) -> Case {
    ask(Operation::Show, database, name)
}

fn search(database: &[u8], name: &[u8]) -> Case {
    ask(Operation::Search, database, name)
}

fn flag(database: &[u8], name: &[u8], id: &[u8]) -> Case {
    Case { id: id.to_vec(), ..ask(Operation::Flag, database, name) }
}

fn number(database: &[u8], name: &[u8], id: &[u8]) -> Case {
    Case { id: id.to_vec(), ..ask(Operation::Number, database, name) }
}

fn string(database: &[u8], name: &[u8], id: &[u8]) -> Case {
    Case { id: id.to_vec(), room: 40, ..ask(Operation::String, database, name) }
}

fn list(database: &[u8], name: &[u8]) -> Case {
    Case { room: 80, ..ask(Operation::List, database, name) }
}

fn flat(database: &[u8], name: &[u8]) -> Case {
    Case { room: 17_000, ..ask(Operation::Flat, database, name) }
}

fn batch(database: &[u8], name: &[u8], questions: &[u8]) -> Case {
    Case { questions: questions.to_vec(), room: 60, ..ask(Operation::Batch, database, name) }
}

const PRESENT: fn(u32) -> (u8, u8, u32) = |value| (0, 0, value);
const NONE: (u8, u8, u32) = (1, 0, 0);
const NO: fn(u8) -> (u8, u8, u32) = |refusal| (2, refusal, 0);

fn repair(database: &[u8]) -> Case {
    Case { room: 60, records_room: 80, ..ask(Operation::Repair, database, b"") }
}

/// The same over files with these ends.
fn with_ends(case: Case, ends: &[usize]) -> Case {
    Case { ends: Some(ends.to_vec()), ..case }
}

fn mended(text: &[u8], removals: &[[u32; 4]]) -> Expected {
    Mended(text.to_vec(), removals.to_vec())
}

fn send(command: &[u8], lines: u64, speed: u64) -> Case {
    Case {
        operation: Operation::Send,
        command: command.to_vec(),
        lines,
        speed,
        pad: b'P',
        room: 40,
        fill: 7,
        ..Case::default()
    }
}

fn send_at(command: &[u8], row: u64, column: u64) -> Case {
    Case { operation: Operation::SendAt, row, column, ..send(command, 1, 9_600) }
}

fn stepping(command: &[u8], row: u64, column: u64, back: &[u8], up: &[u8]) -> Case {
    Case { back: back.to_vec(), up: up.to_vec(), ..send_at(command, row, column) }
}

fn fill(command: &[u8], row: u64, column: u64) -> Case {
    let case = Case { operation: Operation::Fill, ..send_at(command, row, column) };
    Case { lines: 0, speed: 0, pad: 0, ..case }
}

/// For 2 lines at 10,000 bits a second: a pad for each ten tenths.
fn pad(delay: u64, star: u64, bytes: &[u8]) -> Case {
    Case { operation: Operation::Pad, delay, star, ..send(bytes, 2, 10_000) }
}

fn finished(delay: u64, star: u64, bytes: &[u8]) -> Expected {
    Finished(delay, star, bytes.to_vec())
}

fn bytes(bytes: &[u8]) -> Expected {
    Bytes(bytes.to_vec())
}

/// `k0` links to `k1` and so on; the last of `length` descriptions has the text given.
fn chain(length: usize, last: &str) -> Vec<u8> {
    let mut text = String::new();
    for place in 1..length {
        text += &format!("k{}:tc=k{place}:\n", place - 1);
    }
    text += &format!("k{}:{last}\n", length - 1);
    text.into_bytes()
}

/// `n:.xxx`, of this size by the paper's rule: the name and 1, then the field and 1.
fn of_size(size: usize) -> Vec<u8> {
    [b"n:.".to_vec(), vec![b'x'; size - 4]].concat()
}

// ---------------------------------------------------------------------------------------------
// The whole case, the marked examples, the program's list
// ---------------------------------------------------------------------------------------------

const CASE: &[u8] = b"\
N9|aaa:am:li#30:tc=aaa-unk:
NY|aaa-unk:co#80:li#48:cl=\\E[H:
QZ|aaa-nam:am@:tc=aaa:
";

const CASE_RECORDS: [u8; 36] = [
    108, 105, 2, 1, 0, 0, 0, 30, 0, 0, 0, 0, //
    99, 111, 2, 2, 0, 0, 0, 80, 0, 0, 0, 0, //
    99, 108, 3, 2, 0, 0, 0, 3, 0, 0, 0, 0,
];

const CASE_FLAT: &[u8] = b"QZ|aaa-nam:li#30:co#80:cl=\\E[H:\n";

const ALONE_RECORDS: [u8; 36] = [
    108, 105, 2, 0, 0, 0, 0, 30, 0, 0, 0, 0, //
    99, 111, 2, 0, 0, 0, 0, 80, 0, 0, 0, 0, //
    99, 108, 3, 0, 0, 0, 0, 3, 0, 0, 0, 0,
];

fn whole_case() -> Vec<Example> {
    let name = b"aaa-nam";
    vec![
        example("whole case, List", list(CASE, name), Records(CASE_RECORDS.to_vec())),
        example("whole case, Flat", flat(CASE, name), bytes(CASE_FLAT)),
        example("whole case, Show", show(CASE, name), Shown { start: 60, length: 22 }),
        example("whole case, Show first", show(CASE, b"aaa"), Shown { start: 0, length: 27 }),
        example("whole case, am", flag(CASE, name, b"am"), Absent),
        example("whole case, am of aaa", flag(CASE, b"aaa", b"am"), Value(1)),
        example("whole case, li", number(CASE, name, b"li"), Value(30)),
        example("whole case, li of aaa-unk", number(CASE, b"aaa-unk", b"li"), Value(48)),
        example("whole case, co", number(CASE, name, b"co"), Value(80)),
        example("whole case, cl", string(CASE, name, b"cl"), bytes(b"\x1b[H")),
        example("whole case, cl is no flag", flag(CASE, name, b"cl"), Absent),
        example("listing Flat", list(CASE_FLAT, name), Records(ALONE_RECORDS.to_vec())),
        example("Flat of Flat", flat(CASE_FLAT, name), bytes(CASE_FLAT)),
    ]
}

fn marked() -> Vec<Example> {
    vec![
        example("(a)", flat(CASE, b"aaa-nam"), bytes(CASE_FLAT)),
        example("(b)", flag(b"n:am:am@:", b"n", b"am"), Value(1)),
        example("(c)", flag(b"n:am@:am:", b"n", b"am"), Absent),
        example("(d) flag", flag(b"n:co:co#80:", b"n", b"co"), Value(1)),
        example("(d) number", number(b"n:co:co#80:", b"n", b"co"), Value(80)),
        example("(e)", send_at(b"\x1b[%i%d;%dH", 20, 58), bytes(b"\x1b[21;59H")),
        example("(f)", send_at(b"%+ %+ ", 0, 79), bytes(&[32, 111])),
        example("(g)", send_at(b"%B%d", 27, 0), bytes(b"39")),
        example("(h)", send_at(b"%D%d", 27, 0), bytes(b"5")),
        example("(i)", send_at(b"%D%d", 9, 0), Refused(12)),
        example("(j)", send(b"5", 1, 9_600), bytes(b"PPPPP")),
        example("(k)", send(b"20*", 3, 1_200), bytes(b"PPPPPPPP")),
        example("(l)", send(b"100", 1, 1_200), bytes(b"PPPPPPPPPPPP")),
    ]
}

fn by_a_program() -> Vec<Example> {
    let short = |case: Case, room: u64| Case { room, ..case };
    vec![
        example("size 16,384", flat(&of_size(16_384), b"n"), bytes(b"n:\n")),
        example("size 16,385", flat(&of_size(16_385), b"n"), Refused(8)),
        example("chain of 32", flag(&chain(32, "am:"), b"k0", b"am"), Value(1)),
        example("chain of 33", flag(&chain(33, "am:"), b"k0", b"am"), Refused(8)),
        example("self-link", list(b"n:tc=n:\n", b"n"), Refused(7)),
        example("li#65535", number(b"n:li#65535:", b"n", b"li"), Value(65_535)),
        example("li#65536", number(b"n:li#65536:", b"n", b"li"), Refused(6)),
        example("\\377", string(b"n:cl=\\377:", b"n", b"cl"), bytes(&[255])),
        example("\\400", string(b"n:cl=\\400:", b"n", b"cl"), Refused(6)),
        example("string one short", short(string(CASE, b"aaa-nam", b"cl"), 2), Refused(9)),
        example("string fits", short(string(CASE, b"aaa-nam", b"cl"), 3), bytes(b"\x1b[H")),
        example("list one short", short(list(CASE, b"aaa-nam"), 35), Refused(9)),
        example("list fits", short(list(CASE, b"aaa-nam"), 36), Records(CASE_RECORDS.to_vec())),
        example("flat one short", short(flat(CASE, b"aaa-nam"), 31), Refused(9)),
        example("flat fits", short(flat(CASE, b"aaa-nam"), 32), bytes(CASE_FLAT)),
        example("send one short", short(send(b"5ab", 1, 9_600), 6), Refused(9)),
        example("send fits", short(send(b"5ab", 1, 9_600), 7), bytes(b"abPPPPP")),
        example("send at one short", short(send_at(b"%d%d", 10, 10), 3), Refused(9)),
        example("empty database, Show", show(b"", b"n"), Refused(4)),
        example("empty database, List", list(b"", b"n"), Refused(4)),
    ]
}

/// "Slips we have seen".
fn slips() -> Vec<Example> {
    let recurring = b"a|b:am:tc=c:\nc|b:co#1:tc=d:\nd|a:bs:\n";
    vec![
        example("padding is read before filling in", send_at(b"%dA", 5, 0), bytes(b"5A")),
        example(
            "a cancel hides fields of later descriptions",
            flag(b"a:am@:tc=b:\nb:tc=c:\nc:am:\n", b"a", b"am"),
            Absent,
        ),
        example("\\: is no colon", string(b"n:cl=\\:x:", b"n", b"cl"), Refused(6)),
        example(
            "\\: spoils a line asked for another field",
            flag(b"n:am:cl=\\:", b"n", b"am"),
            Refused(6),
        ),
        example("a name that recurs is no cycle", flag(recurring, b"a", b"bs"), Value(1)),
        example(
            "a name that leads to an earlier line is none",
            flag(b"b:am:\na|b:tc=b:\n", b"a", b"am"),
            Value(1),
        ),
        example("a bar in a link's name", flag(b"a:tc=b|:\nb:bs:\n", b"a", b"bs"), Refused(6)),
    ]
}

// ---------------------------------------------------------------------------------------------
// Refusals 1, 2 and 3
// ---------------------------------------------------------------------------------------------

fn names_and_ids() -> Vec<Example> {
    let long = [vec![b'N'; 64], b":am:\n".to_vec()].concat();
    let exact = [b"n:am:\n#".to_vec(), vec![b'x'; 1_048_576 - 7]].concat();
    let over = [&exact[..], b"x"].concat();
    vec![
        example("name of no bytes", show(b"n:am:", b""), Refused(1)),
        example("name of 64 bytes", flag(&long, &[b'N'; 64], b"am"), Value(1)),
        example("name of 65 bytes", flag(&long, &[b'N'; 65], b"am"), Refused(1)),
        example("name with byte 31", show(b"n:am:", b"n\x1f"), Refused(1)),
        example("name with byte 127", show(b"n:am:", b"n\x7f"), Refused(1)),
        example("name of byte 126", show(b"~:am:", b"~"), Shown { start: 0, length: 5 }),
        example("name with a bar", show(b"a|b:am:", b"a|b"), Refused(1)),
        example("name with a colon", show(b"a:b:am:", b"a:b"), Refused(1)),
        example("name with a backslash", show(b"a\\b:am:", b"a\\b"), Refused(1)),
        example("name with a carriage return", list(b"n:am:", b"n\r"), Refused(1)),
        example("id of no bytes", flag(b"n:am:", b"n", b""), Refused(2)),
        example("id of one byte", flag(b"n:am:", b"n", b"a"), Refused(2)),
        example("id of three bytes", flag(b"n:am:", b"n", b"amx"), Refused(2)),
        example("id with a space", flag(b"n:am:", b"n", b"a "), Refused(2)),
        example("id of bytes 33 and 126", flag(b"n:!~:", b"n", b"!~"), Value(1)),
        example("id with byte 127", number(b"n:am:", b"n", b"a\x7f"), Refused(2)),
        example("id with a colon", number(b"n:am:", b"n", b"a:"), Refused(2)),
        example("id with a backslash", string(b"n:am:", b"n", b"\\E"), Refused(2)),
        example("id that starts with a point", flag(b"n:.a:", b"n", b".a"), Refused(2)),
        example("id that ends with a point", flag(b"n:a.:", b"n", b"a."), Value(1)),
        example("id tc", string(b"n:tc=m:", b"n", b"tc"), Refused(2)),
        example("1 before 2", flag(b"n:am:", b"", b""), Refused(1)),
        example("2 before 3", flag(&over, b"n", b""), Refused(2)),
        example("1 before 3", show(&over, b""), Refused(1)),
        example("1 before 3, List", list(&over, b""), Refused(1)),
        example("1 before 3, Flat", flat(&over, b"n:"), Refused(1)),
        example("2 before 4", flag(b"", b"n", b"tc"), Refused(2)),
        example("database of 1,048,576 bytes", flag(&exact, b"n", b"am"), Value(1)),
        example("database of 1,048,577 bytes", flag(&over, b"n", b"am"), Refused(3)),
        example("Show of a database too large", show(&over, b"n"), Refused(3)),
        example("3 before 4", show(&over, b"m"), Refused(3)),
    ]
}

// ---------------------------------------------------------------------------------------------
// Lines and names
// ---------------------------------------------------------------------------------------------

fn continuations() -> Vec<Example> {
    let everywhere =
        b"n\\\n0:l\\\ni\\\n#\\\n3\\\n0:c\\\nl=\\\\\nE\\\\\n0\\\n33:t\\\nc\\\n=\\\nm:\\\n\nm:am:\n";
    // The first newline vanishes; the second one's preceding byte is a newline.
    let twice = b"n:cl=\\\\\\\n\nm:am:\n";
    vec![
        example("pairs inside a number", number(everywhere, b"n0", b"li"), Value(30)),
        example("pairs inside escapes", string(everywhere, b"n0", b"cl"), bytes(&[27, 27])),
        example("pairs inside a link", flag(everywhere, b"n0", b"am"), Value(1)),
        example("\\\\ NL leaves a backslash", string(b"n:cl=\\\\\nE:", b"n", b"cl"), bytes(&[27])),
        example(
            "a line that ends in a backslash",
            flag(b"n:am:\\\\\n\nm:am:\n", b"n", b"am"),
            Refused(6),
        ),
        example(
            "and no third line is swallowed",
            flag(b"n:am:\\\\\n\nm:am:\n", b"m", b"am"),
            Value(1),
        ),
        example("two backslashes, a pair, a newline", string(twice, b"n", b"cl"), bytes(b"\\")),
        example("the line after it", flag(twice, b"m", b"am"), Value(1)),
        example("Flat joins", flat(b"n\\\n0:a\\\nm:\\\n", b"n0"), bytes(b"n0:am:\n")),
        example("n0:am\\ at the end", flag(b"n0:am\\", b"n0", b"am"), Refused(6)),
        example("n0:le=\\\\ at the end", string(b"n0:le=\\\\", b"n0", b"le"), bytes(b"\\")),
        example("n0:le=^\\ at the end", string(b"n0:le=^\\", b"n0", b"le"), bytes(&[28])),
        example("n0:.x\\ at the end", list(b"n0:.x\\", b"n0"), Records(Vec::new())),
        example("a pair, then #", show(b"\\\n#c:am:\nc:am:\n", b"#c"), Refused(4)),
        example("a blank, then #", show(b" #c", b" #c"), Shown { start: 0, length: 3 }),
        example("a blank, then #, has no colon", list(b" #c", b" #c"), Refused(6)),
        example("# on a continued line", list(b"n0:am:\\\n#foo:", b"n0"), Refused(6)),
        example("a comment swallows its next line", show(b"#c\\\nn:am:\n", b"n"), Refused(4)),
        example("a comment that ends in \\\\ does too", show(b"#c\\\\\nn:am:\n", b"n"), Refused(4)),
    ]
}

fn lines() -> Vec<Example> {
    vec![
        example("empty lines", show(b"\n\nn:\n", b"n"), Shown { start: 2, length: 2 }),
        example("only newlines", show(b"\n\n", b"n"), Refused(4)),
        example(
            "a line of blanks has no names",
            show(b"  \n  :am:\n", b"  "),
            Shown { start: 3, length: 6 },
        ),
        example("blanks alone", show(b"  ", b"  "), Refused(4)),
        example("blanks and a bar", show(b"  |x", b"  "), Shown { start: 0, length: 4 }),
        example("#x as a first name", show(b"#x:am:\n", b"#x"), Refused(4)),
        example("#x as a second name", flag(b"y|#x:am:\n", b"#x", b"am"), Value(1)),
        example("no colon, Show", show(b"m\nn\nn:am:\n", b"n"), Shown { start: 2, length: 1 }),
        example("no colon, asked", flag(b"m\nn\nn:am:\n", b"n", b"am"), Refused(6)),
        example("no colon, linked", flag(b"m:tc=n:\nn\nn:am:\n", b"m", b"am"), Refused(6)),
        example("names are not judged", flag(b"||\x01\\\xff|n:am:\n", b"n", b"am"), Value(1)),
        example(
            "and stay in Flat",
            flat(b"||\x01\\\xff|n:am:\n", b"n"),
            bytes(b"||\x01\\\xff|n:am:\n"),
        ),
        example("no names", show(b":am:\n", b"am"), Refused(4)),
        example("a backslash before the first colon", flag(b"x|n\\:am:\n", b"x", b"am"), Value(1)),
        example("protects nothing", show(b"n\\:am:\n", b"n"), Refused(4)),
        example(
            "Show begins with a pair",
            show(b"m:\n\\\nn:am:\n", b"n"),
            Shown { start: 3, length: 7 },
        ),
        example(
            "Show ends before its newline",
            show(b"n:\\\n\tam:\\\n\nm:\n", b"n"),
            Shown { start: 0, length: 10 },
        ),
        example("Show to the end", show(b"m:\nn:am", b"n"), Shown { start: 3, length: 4 }),
        example(
            "Show looks at names only",
            show(b"n: bad:tc=gone:\n", b"n"),
            Shown { start: 0, length: 15 },
        ),
        example("carriage return is a field", flag(b"n:am:\r\n", b"n", b"am"), Refused(6)),
        example("and part of a name", show(b"n\r\n", b"n"), Refused(4)),
        example(
            "the search stops at the first line",
            number(b"n:co#1:\nn:co#2:\n", b"n", b"co"),
            Value(1),
        ),
        example("comparison is exact", show(b"nn|N|n :am:\n", b"n"), Refused(4)),
        example(
            "lines outside the chain are never judged",
            flag(b"m: bad\nn:am:\no\n", b"n", b"am"),
            Value(1),
        ),
    ]
}

// ---------------------------------------------------------------------------------------------
// Fields
// ---------------------------------------------------------------------------------------------

fn fields() -> Vec<Example> {
    let none = || Records(Vec::new());
    let link65 = [b"n:tc=".to_vec(), vec![b'N'; 65], b":\n".to_vec()].concat();
    let link64 = [b"n:tc=".to_vec(), vec![b'N'; 64], b":\n".to_vec()].concat();
    vec![
        example("no field", list(b"n:", b"n"), none()),
        example("an empty field", list(b"n::", b"n"), none()),
        example("a last field without a colon", flag(b"n:am", b"n", b"am"), Value(1)),
        example("blank fields", list(b"n: :\t: \t :", b"n"), none()),
        example("tc= and nothing", list(b"n:tc=:", b"n"), Refused(6)),
        example("tc= and 65 bytes", list(&link65, b"n"), Refused(6)),
        example("tc= and 64 bytes", list(&link64, b"n"), Refused(5)),
        example("tc= and a backslash", list(b"n:tc=a\\b:", b"n"), Refused(6)),
        example("odd names of links", flag(b"n:tc=. #:\nx|. #:am:\n", b"n", b"am"), Value(1)),
        example("tc as a flag", list(b"n:tc:", b"n"), Refused(6)),
        example("tc as a number", list(b"n:tc#5:", b"n"), Refused(6)),
        example("tc as a cancel", list(b"n:tc@:", b"n"), Refused(6)),
        example("tcx", list(b"n:tcx:", b"n"), Refused(6)),
        example(
            "ignored fields after a link",
            flag(b"n:tc=m:: :.x:\nm:am:\n", b"n", b"am"),
            Value(1),
        ),
        example("a flag after a link", flag(b"n:tc=m:am:\nm:am:\n", b"n", b"am"), Refused(6)),
        example("a cancel after a link", flag(b"n:tc=m:am@:\nm:am:\n", b"n", b"am"), Refused(6)),
        example("a link after a link", flag(b"n:tc=m:tc=m:\nm:am:\n", b"n", b"am"), Refused(6)),
        example("a##5", number(b"n:a##5:", b"n", b"a#"), Value(5)),
        example("==", flag(b"n:==:", b"n", b"=="), Value(1)),
        example("@@@ cancels", flag(b"n:@@@:@@:", b"n", b"@@"), Absent),
        example("@@ is a flag", flag(b"n:@@:", b"n", b"@@"), Value(1)),
        example("a= is a flag", flag(b"n:a=:", b"n", b"a="), Value(1)),
        example("|x is a flag", flag(b"n:|x:", b"n", b"|x"), Value(1)),
        example(".x and anything", list(b"n:.\xff\x00^:.\\", b"n"), none()),
        example("a NUL ends nothing", flag(b"n:.\0:am:", b"n", b"am"), Value(1)),
        example("a point alone", list(b"n:.:", b"n"), none()),
        example("a link that is ignored", flag(b"n:.tc=m:\nm:am:", b"n", b"am"), Absent),
        example("a blank, then .x", list(b"n: .x:", b"n"), Refused(6)),
        example("a field that starts with a blank", list(b"n:\tam:", b"n"), Refused(6)),
        example("a field of one byte", list(b"n:a:", b"n"), Refused(6)),
        example("a flag and more", list(b"n:am :", b"n"), Refused(6)),
        example("a cancel and more", list(b"n:am@x:", b"n"), Refused(6)),
        example("a name byte above 126", list(b"n:a\x7f:", b"n"), Refused(6)),
        example("030", number(b"n:li#030:", b"n", b"li"), Value(24)),
        example("000030", number(b"n:li#000030:", b"n", b"li"), Value(24)),
        example("030 over two lines", number(b"n:li#0\\\n30:", b"n", b"li"), Value(24)),
        example("0", number(b"n:li#0:", b"n", b"li"), Value(0)),
        example("00", number(b"n:li#00:", b"n", b"li"), Value(0)),
        example("8", number(b"n:li#8:", b"n", b"li"), Value(8)),
        example("08", number(b"n:li#08:", b"n", b"li"), Refused(6)),
        example("019", number(b"n:li#019:", b"n", b"li"), Refused(6)),
        example("08 over two lines", number(b"n:li#\\\n0\\\n8:", b"n", b"li"), Refused(6)),
        example("09 behind a cancel", flag(b"n:am:li@:li#09:", b"n", b"am"), Refused(6)),
        example("190", number(b"n:li#190:", b"n", b"li"), Value(190)),
        example("077777", number(b"n:li#077777:", b"n", b"li"), Value(32_767)),
        example("seven octal digits", number(b"n:li#0177777:", b"n", b"li"), Refused(6)),
        example("seven digits", number(b"n:li#0000030:", b"n", b"li"), Refused(6)),
        example("six digits too large", number(b"n:li#100000:", b"n", b"li"), Refused(6)),
        example("no digits", number(b"n:li#:", b"n", b"li"), Refused(6)),
        example("a sign", number(b"n:li#-1:", b"n", b"li"), Refused(6)),
        example("a digit and more", number(b"n:li#1x:", b"n", b"li"), Refused(6)),
    ]
}

fn texts() -> Vec<Example> {
    let of = |text: &[u8]| string(&[b"n:cl=", text, b":"].concat(), b"n", b"cl");
    vec![
        example("an empty text", of(b""), bytes(b"")),
        example(
            "all escapes",
            of(b"\\E\\n\\r\\t\\b\\f\\^\\\\"),
            bytes(&[27, 10, 13, 9, 8, 12, 94, 92]),
        ),
        example("octal", of(b"\\000\\072\\1234"), bytes(&[0, 58, 83, 52])),
        example("two octal digits", of(b"\\12"), Refused(6)),
        example("two octal digits and an 8", of(b"\\128"), Refused(6)),
        example("an unknown escape", of(b"\\q"), Refused(6)),
        example("a small e", of(b"\\e"), Refused(6)),
        example("an escaped comma", of(b"\\,"), Refused(6)),
        example("a bare backslash", of(b"a\\"), Refused(6)),
        example("a bare caret", of(b"a^"), Refused(6)),
        example("byte 31", of(b"\x1f"), Refused(6)),
        example("bytes 32 and 126", of(b" ~"), bytes(b" ~")),
        example("byte 127", of(b"\x7f"), Refused(6)),
        example("a byte above 127", of(b"\xe9"), Refused(6)),
        example("a tab", of(b"\t"), Refused(6)),
        example("^\\ and digits", of(b"^\\072"), bytes(&[28, 48, 55, 50])),
        example("^^, ^@, ^`", of(b"^^^@^`"), bytes(&[30, 0, 0])),
        example("\\^ and a bare caret", of(b"\\^^"), Refused(6)),
        example("^? and ^~", of(b"^?^~"), bytes(&[127, 30])),
        example("^ and byte 62", of(b"^>"), Refused(6)),
        example("^ and byte 127", of(b"^\x7f"), Refused(6)),
        example("an equals sign and a number sign", of(b"=#@.|"), bytes(b"=#@.|")),
    ]
}

// ---------------------------------------------------------------------------------------------
// The walk, lookup and room
// ---------------------------------------------------------------------------------------------

fn walk() -> Vec<Example> {
    let am = |database: &[u8], name: &[u8]| flag(database, name, b"am");
    let with = |length, last: &str, more: &[u8]| [&chain(length, last), more].concat();
    // The size with a colon at the end is that without it.
    let colon = [of_size(16_384), b":".to_vec()].concat();
    let empties = [b"n".to_vec(), vec![b':'; 16_383]].concat();
    let many_empties = [b"n".to_vec(), vec![b':'; 16_384]].concat();
    let malformed = [of_size(16_384), b":x:".to_vec()].concat();
    let lost = [of_size(16_384), b":tc=gone:".to_vec()].concat();
    let into = [of_size(16_384), b":tc=n:".to_vec()].concat();
    let fits = [b"n:tc=m:\nm:.".to_vec(), vec![b'x'; 16_384 - 7 - 4]].concat();
    let passes = [&fits[..], b"x"].concat();
    vec![
        example("a lost link", am(b"n:am:tc=gone:", b"n"), Refused(5)),
        example("a cycle of two", am(b"n:am:tc=m:\nm:tc=n:", b"n"), Refused(7)),
        example("a link to a shadowed name", am(b"n|m:tc=m:\nm:am:", b"n"), Refused(7)),
        example("a 33rd name nowhere", am(&chain(32, "tc=gone:"), b"k0"), Refused(5)),
        example("a 33rd into the chain", am(&chain(32, "tc=k5:"), b"k0"), Refused(7)),
        example("a 33rd malformed", am(&with(32, "tc=m:", b"m\n"), b"k0"), Refused(8)),
        example("a 32nd malformed", am(&with(31, "tc=m:", b"m\n"), b"k0"), Refused(6)),
        example("malformed and too big", am(&malformed, b"n"), Refused(6)),
        example("too big, and a lost link", am(&lost, b"n"), Refused(8)),
        example("too big, and a link to itself", am(&into, b"n"), Refused(8)),
        example("a last colon adds nothing", list(&colon, b"n"), Records(Vec::new())),
        example("empty fields count, 16,384", list(&empties, b"n"), Records(Vec::new())),
        example("empty fields count, 16,385", list(&many_empties, b"n"), Refused(8)),
        example("the sum of two lines, 16,384", list(&fits, b"n"), Records(Vec::new())),
        example("the sum of two lines, 16,385", list(&passes, b"n"), Refused(8)),
        example("same names on another line", am(b"n:tc=m:\nn|m:am:\n", b"n"), Value(1)),
    ]
}

fn lookup() -> Vec<Example> {
    let kinds = b"n:co=x:co#5:co:co#6:co@:co:tc=m:\nm:co#7:li#258:\n";
    let records = [
        99, 111, 3, 0, 0, 0, 0, 1, 0, 0, 0, 0, //
        99, 111, 2, 0, 0, 0, 0, 5, 0, 0, 0, 0, //
        99, 111, 1, 0, 0, 0, 0, 1, 0, 0, 0, 0, //
        108, 105, 2, 1, 0, 0, 1, 2, 0, 0, 0, 0,
    ];
    let cancelled = b"n:co#5:tc=m:\nm:co@:tc=o:\no:co:co#7:\n";
    vec![
        example("another kind is passed over", list(kinds, b"n"), Records(records.to_vec())),
        example(
            "Flat in the order of winning fields",
            flat(kinds, b"n"),
            bytes(b"n:co=x:co#5:co:li#258:\n"),
        ),
        example("a field before the cancel wins", number(cancelled, b"n", b"co"), Value(5)),
        example("another kind after it is hidden", flag(cancelled, b"n", b"co"), Absent),
        example("nothing live", flat(b"n|m:am@:am:", b"m"), bytes(b"n|m:\n")),
        example(
            "Flat keeps what is written",
            flat(b"n:li#0030:cl=^[\\033:", b"n"),
            bytes(b"n:li#0030:cl=^[\\033:\n"),
        ),
        example(
            "a record has the value of octal digits",
            list(b"n:li#030:", b"n"),
            Records(vec![108, 105, 2, 0, 0, 0, 0, 24, 0, 0, 0, 0]),
        ),
        example(
            "place 31",
            list(&chain(32, "am:"), b"k0"),
            Records(vec![97, 109, 1, 31, 0, 0, 0, 1, 0, 0, 0, 0]),
        ),
    ]
}

fn room() -> Vec<Example> {
    let flags = many_flags().take(5_460).collect::<Vec<_>>();
    assert_eq!(flags.len(), 5_460);
    let many = [b"n:".to_vec(), flags.join(&b':')].concat();
    let records =
        flags.iter().flat_map(|id| [id[0], id[1], 1, 0, 0, 0, 0, 1, 0, 0, 0, 0]).collect();
    let with_room = |case: Case, room: u64| Case { room, ..case };
    vec![
        example(
            "an absent string needs no room",
            with_room(string(b"n:am:", b"n", b"cl"), 0),
            Absent,
        ),
        example("nor does an empty one", with_room(string(b"n:cl=:", b"n", b"cl"), 0), bytes(b"")),
        example("9 comes after the walk", with_room(list(b"n:am:tc=gone:", b"n"), 0), Refused(5)),
        example(
            "no records need no room",
            with_room(list(b"n:am@:", b"n"), 0),
            Records(Vec::new()),
        ),
        example("5,460 records", with_room(list(&many, b"n"), 65_520), Records(records)),
        example("one byte short", with_room(list(&many, b"n"), 65_519), Refused(9)),
    ]
}

// ---------------------------------------------------------------------------------------------
// Filling in
// ---------------------------------------------------------------------------------------------

fn filling_in() -> Vec<Example> {
    vec![
        example("plain bytes", send_at(b"ab\0", 1, 2), bytes(b"ab\0")),
        example("an empty command", send_at(b"", 1, 2), bytes(b"")),
        example("unused parameters", send_at(b"%d", 1, 2), bytes(b"1")),
        example("row first", send_at(b"%d,%d", 3, 4), bytes(b"3,4")),
        example("%2 and %3", send_at(b"%2%3", 5, 6), bytes(b"05006")),
        example("%2 and %3 of more digits", send_at(b"%2%3", 123, 9_999), bytes(b"1239999")),
        example("%.", send_at(b"%.%.", 65, 255), bytes(&[65, 255])),
        example("%. of 256", send_at(b"%.", 256, 0), Refused(12)),
        example("%+", send_at(b"%+%%+%", 1, 2), bytes(&[38, 39])),
        example("%%", send_at(b"%%%%%d", 1, 2), bytes(b"%%1")),
        example("a third output", send_at(b"%d%d%d", 1, 2), Refused(11)),
        example("a lone percent sign", send_at(b"%d%", 1, 2), Refused(10)),
        example("%+ cut off, none left", send_at(b"%d%d%+", 1, 2), Refused(10)),
        example("%> cut off", send_at(b"%>x", 1, 2), Refused(10)),
        example("%>%% takes its operands", send_at(b"%>%%%d", 38, 0), bytes(b"75")),
        example("an unknown sequence", send_at(b"%x", 1, 2), Refused(10)),
        example("%s of the manual", send_at(b"%s", 1, 2), Refused(10)),
        example("%a of the manual", send_at(b"%a+\x01%d", 1, 2), Refused(10)),
        example("unknown, none left", send_at(b"%d%d%x", 1, 2), Refused(10)),
        example("faults from left to right", send_at(b"%.%x", 256, 0), Refused(12)),
        example("faults from left to right, again", send_at(b"%x%.", 256, 0), Refused(10)),
        example("the sum is tested", send_at(b"%D%+ ", 9, 0), bytes(&[23])),
        example("255 plus 1", send_at(b"%+\x01", 255, 0), Refused(12)),
        example("a negative sum", send_at(b"%D%+\x08", 9, 0), Refused(12)),
        example("a negative byte", send_at(b"%D%.", 9, 0), Refused(12)),
        example("a negative decimal of two digits", send_at(b"%D%2", 9, 0), Refused(12)),
    ]
}

fn changes() -> Vec<Example> {
    let times = |sequence: &[u8], count: usize| [sequence.repeat(count), b"%d".to_vec()].concat();
    vec![
        example("%i of both", send_at(b"%i%d;%d", 1, 5), bytes(b"2;6")),
        example("%i of one", send_at(b"%d%i;%d", 1, 5), bytes(b"1;6")),
        example("%i of none", send_at(b"%d%d%i", 1, 5), Refused(11)),
        example("%n of both", send_at(b"%n%d;%d", 0, 97), bytes(b"96;1")),
        example("%n of none", send_at(b"%d%d%n", 1, 5), Refused(11)),
        example("%r", send_at(b"%r%d;%d", 1, 5), bytes(b"5;1")),
        example("%r of one", send_at(b"%d%r", 1, 5), Refused(11)),
        example("%B after %r", send_at(b"%r%B%d;%d", 10, 20), bytes(b"32;10")),
        example("%B of none", send_at(b"%d%d%B", 1, 5), Refused(11)),
        example("%D of none", send_at(b"%d%d%D", 1, 5), Refused(11)),
        example("%> of none", send_at(b"%d%d%>xy", 1, 5), Refused(11)),
        example("%> above", send_at(b"%>\x09\x05%d", 10, 0), bytes(b"15")),
        example("%> not above a large byte", send_at(b"%>\xc8\x01%d", 100, 0), bytes(b"100")),
        example("%> not above", send_at(b"%>\x09\x05%d", 9, 0), bytes(b"9")),
        example("%> of a negative", send_at(b"%D%>\x00\xff%i%+\x09", 9, 0), bytes(&[1])),
        example("%n of a negative second", send_at(b"%r%D%r%n", 1, 9), Refused(12)),
        example("%B of a negative", send_at(b"%D%B", 9, 0), Refused(12)),
        example("%D of a negative", send_at(b"%D%D", 9, 0), Refused(12)),
        example("%i of a negative", send_at(b"%D%i%d", 1, 0), bytes(b"0")),
        example("%B twice on 9,999", send_at(&times(b"%B", 2), 9_999, 0), bytes(b"25587")),
        example("%B three times", send_at(&times(b"%B", 3), 9_999, 0), Refused(12)),
        example("%i up to 32,767", send_at(&times(b"%i", 22_768), 9_999, 0), bytes(b"32767")),
        example("%i above it", send_at(&times(b"%i", 22_769), 9_999, 0), Refused(12)),
        example("%i above it, the second", send_at(&times(b"%i", 22_769), 0, 9_999), Refused(12)),
    ]
}

fn raising() -> Vec<Example> {
    let both = |command: &[u8], row, column| stepping(command, row, column, b"<", b"^^");
    vec![
        example("0 becomes 1", both(b"%+A%.", 0, 0), bytes(b"A\x01<")),
        example("4 becomes 5", both(b"%+A%.", 0, 4), bytes(b"A\x05<")),
        example("9 becomes 11 with two", both(b"%+A%.", 0, 9), bytes(b"A\x0b<<")),
        example("10 becomes 11", both(b"%+A%.", 0, 10), bytes(b"A\x0b<")),
        example("after c was added", both(b"%+\x08%+\x01", 1, 9), bytes(b"\x0b\x0b^^^^<")),
        example("8 and 11 stay", both(b"%.%.", 8, 11), bytes(&[8, 11])),
        example("5 and 13 stay", both(b"%.%.", 5, 13), bytes(&[5, 13])),
        example(
            "in the order of the raised bytes",
            both(b"%r%.%.x", 9, 10),
            bytes(b"\x0b\x0bx<^^^^"),
        ),
        example("decimals aren't raised", both(b"%d%2", 0, 9), bytes(b"009")),
        example("both strings empty", stepping(b"%.%.", 0, 9, b"", b""), bytes(&[0, 9])),
        example("only back empty", stepping(b"%.%.", 0, 9, b"", b"U"), bytes(b"\x01\x0bU\x08\x08")),
        example("only up empty", stepping(b"%.%.", 9, 10, b"B", b""), bytes(b"\x09\x0bB")),
        example(
            "only up empty, exchanged",
            stepping(b"%r%.%.", 0, 10, b"B", b""),
            bytes(b"\x0b\x00B"),
        ),
        example(
            "as they stand",
            stepping(b"%.%.", 0, 0, b"5%d", b"3*%%"),
            bytes(b"\x01\x013*%%5%d"),
        ),
        example("compensations, then pads", stepping(b"1%.x", 0, 0, b"B", b"U"), bytes(b"\x01xUP")),
        example("a compensation needs room", Case { room: 2, ..both(b"%.", 0, 0) }, Refused(9)),
        example("and fits", Case { room: 3, ..both(b"%.", 0, 0) }, bytes(b"\x01^^")),
    ]
}

// ---------------------------------------------------------------------------------------------
// Padding and the order of Send
// ---------------------------------------------------------------------------------------------

fn padding() -> Vec<Example> {
    // At 10,000 bits a second a pad lasts a millisecond, a tenth of it is rounded up to one.
    let at = |command: &[u8]| send(command, 2, 10_000);
    vec![
        example("no padding", at(b"ab"), bytes(b"ab")),
        example("Send copies percent signs", at(b"%d%%%"), bytes(b"%d%%%")),
        example("five digits", at(b"12345"), Refused(13)),
        example("five digits, small", at(b"00001"), Refused(13)),
        example("010 is ten milliseconds", at(b"010"), bytes(&[b'P'; 10])),
        example("08 is eight milliseconds", at(b"08"), bytes(&[b'P'; 8])),
        example("four digits", at(b"0003a"), bytes(b"aPPP")),
        example("1.23", at(b"1.23"), Refused(13)),
        example("1.2.3", at(b"1.2.3"), bytes(b".3PP")),
        example("5.*", at(b"5.*"), bytes(b".*PPPPP")),
        example("5*.3", at(b"5*.3"), bytes(b".3PPPPPPPPPP")),
        example("5**", at(b"5**"), bytes(b"*PPPPPPPPPP")),
        example("no leading digit", at(b".5"), bytes(b".5")),
        example("no leading digit, a star", at(b"*5"), bytes(b"*5")),
        example("the whole sum times lines", at(b"1.5*"), bytes(b"PPP")),
        example("and the tenth too", send(b"0.5*", 3, 10_000), bytes(b"PP")),
        example("rounded up", at(b"1.1"), bytes(b"PP")),
        example("speed 0", send(b"9999*a", 1_000, 0), bytes(b"a")),
        example("the most pads", send(b"9999.9*", 1_000, 115_200), Refused(9)),
        example(
            "115,189 pads",
            Case { room: 115_189, ..send(b"9999", 1, 115_200) },
            bytes(&[b'P'; 115_189]),
        ),
        example("the least pad", send(b"0.1", 1, 1), bytes(b"P")),
        example("exactly one pad", send(b"100", 1, 100), bytes(b"P")),
        example("pads in Send at", send_at(b"5*%d", 7, 0), bytes(b"7PPPPP")),
    ]
}

fn order_of_send() -> Vec<Example> {
    let bad_row = Case { command: b"12345%x".to_vec(), ..send_at(b"", 10_000, 0) };
    let bad_lines = |command: &[u8]| Case { lines: 1_001, ..send_at(command, 27, 0) };
    let long_fault = [vec![b'a'; 3_000], b"%x".to_vec()].concat();
    vec![
        example("lines 0", send(b"a", 0, 0), Refused(12)),
        example("lines 1,000", send(b"a", 1_000, 0), bytes(b"a")),
        example("lines 1,001", send(b"a", 1_001, 0), Refused(12)),
        example("speed 115,200", send(b"a", 1, 115_200), bytes(b"a")),
        example("speed 115,201", send(b"a", 1, 115_201), Refused(12)),
        example("row 9,999", send_at(b"%d", 9_999, 0), bytes(b"9999")),
        example("row 10,000", send_at(b"a", 10_000, 0), Refused(12)),
        example("column 10,000", send_at(b"a", 0, 10_000), Refused(12)),
        example("a row that is large", send_at(b"a", 1 << 32, 0), Refused(12)),
        example("a speed that is large", send(b"a", 1, (1 << 32) + 9_600), Refused(12)),
        example("lines that are large", send(b"a", (1 << 32) + 1, 0), Refused(12)),
        // Ask 7: Send at 12 (row, column), 13, the body, 12 (lines, speed), 9; Send 13, 12, 9.
        example("12 before 13, row", bad_row, Refused(12)),
        example("12 before 13, column", send_at(b"12345%x", 0, 10_000), Refused(12)),
        example("13 before 12, lines", bad_lines(b"12345%x"), Refused(13)),
        example("10 before 12, lines", bad_lines(b"%x"), Refused(10)),
        example("11 before 12, lines", bad_lines(b"%d%d%d"), Refused(11)),
        example("a long body's fault before 12", bad_lines(&long_fault), Refused(10)),
        example("12 for lines before 9", Case { room: 0, ..bad_lines(b"a") }, Refused(12)),
        example("13 before 12, Send", send(b"12345", 0, 0), Refused(13)),
        example("13 before 12, speed", send(b"1.23", 1, 115_201), Refused(13)),
        example("12 before 9, Send", Case { room: 0, ..send(b"a", 0, 0) }, Refused(12)),
        example("13 before 10", send_at(b"12345%x", 0, 0), Refused(13)),
        example("13 before 9", Case { room: 0, ..send(b"12345a", 1, 0) }, Refused(13)),
        example("10 before 9", Case { room: 0, ..send_at(b"abc%x", 0, 0) }, Refused(10)),
        example("11 before 9", Case { room: 0, ..send_at(b"%d%d%d", 0, 0) }, Refused(11)),
    ]
}

// ---------------------------------------------------------------------------------------------
// Document 02, Ask 2: a removal is line, place, reason and count
// ---------------------------------------------------------------------------------------------

fn repairs() -> Vec<Example> {
    vec![
        example("nothing to mend", repair(b"n:am:\n"), mended(b"n:am:\n", &[])),
        example("an empty database to mend", repair(b""), mended(b"", &[])),
        example("mended: no last newline", repair(b"n:am"), mended(b"n:am", &[])),
        example(
            "a line without a colon is dropped",
            repair(b"m\nn:am:\n"),
            mended(b"n:am:\n", &[[0, 0, 1, 1]]),
        ),
        example(
            "ignored lines stay, and are counted",
            repair(b"#c:tc=q:\n\n \t\nmm\nn:am:\n"),
            mended(b"#c:tc=q:\n\n \t\nn:am:\n", &[[3, 0, 1, 2]]),
        ),
        example(
            "a dropped line is counted joined",
            repair(b"m\\\nm\nn:\n"),
            mended(b"n:\n", &[[0, 0, 1, 2]]),
        ),
        example(
            "malformed fields, the last without a colon",
            repair(b"n:x:am:y"),
            mended(b"n:am:\n", &[[0, 2, 2, 2], [0, 7, 2, 1]]),
        ),
        example(
            "a changed line is written joined",
            repair(b"n|\\\nm:\\\n x:am:\n"),
            mended(b"n|m:am:\n", &[[0, 4, 2, 3]]),
        ),
        example(
            "an unchanged line keeps its pairs",
            repair(b"n:\\\nam:\nm:x:\n"),
            mended(b"n:\\\nam:\nm:\n", &[[1, 2, 2, 2]]),
        ),
        example(
            "a colon before the newline",
            repair(b"n:x:.\\"),
            mended(b"n:.\\:\n", &[[0, 2, 2, 2]]),
        ),
        example("a carriage return", repair(b"n:am:\r\n"), mended(b"n:am:\n", &[[0, 5, 2, 1]])),
        example(
            "an 8 in an octal number",
            repair(b"n:li#08:co#030:it#8:\n"),
            mended(b"n:co#030:it#8:\n", &[[0, 2, 2, 6]]),
        ),
    ]
}

fn repairs_of_links() -> Vec<Example> {
    vec![
        example(
            "fields after a link",
            repair(b"n:tc=m:am:.x: :tc=n:co#:\nm:\n"),
            mended(b"n:tc=m:.x: :\nm:\n", &[[0, 7, 3, 3], [0, 15, 3, 5], [0, 20, 2, 4]]),
        ),
        example(
            "a malformed link is no first link",
            repair(b"n:tc=:am:tc=m:\nm:\n"),
            mended(b"n:am:tc=m:\nm:\n", &[[0, 2, 2, 4]]),
        ),
        example(
            "a lost link; what stood after it does not come back",
            repair(b"n:tc=q:am:\n"),
            mended(b"n:\n", &[[0, 2, 4, 5], [0, 7, 3, 3]]),
        ),
        example(
            "a dropped line does not answer",
            repair(b"m\nn:tc=m:\n"),
            mended(b"n:\n", &[[0, 0, 1, 1], [1, 2, 4, 5]]),
        ),
        example(
            "a dropped line does not shadow",
            repair(b"m\nn:tc=m:\nm:am:\n"),
            mended(b"n:tc=m:\nm:am:\n", &[[0, 0, 1, 1]]),
        ),
        example("a self-link", repair(b"n:tc=n:\n"), mended(b"n:\n", &[[0, 2, 5, 5]])),
        example(
            "the first line of a ring",
            repair(b"a:tc=b:\nb:tc=c:\nc:tc=b:\n"),
            mended(b"a:tc=b:\nb:\nc:tc=b:\n", &[[1, 2, 5, 5]]),
        ),
        example(
            "a link to a line with a lost link",
            repair(b"a:tc=b:\nb:tc=q:\n"),
            mended(b"a:tc=b:\nb:\n", &[[1, 2, 4, 5]]),
        ),
        example(
            "a line that no name finds",
            repair(b"n:am:\nn:x:tc=n:\n"),
            mended(b"n:am:\nn:tc=n:\n", &[[1, 2, 2, 2]]),
        ),
        example(
            "a ring of names that recur",
            repair(b"a|b:tc=b:\nb:tc=a:\n"),
            mended(b"a|b:\nb:tc=a:\n", &[[0, 4, 5, 5]]),
        ),
    ]
}

/// Ask 5. A private file links to the common one, in which `n` is another line.
const TWO_FILES: &[u8] = b"n:am:tc=m:\nm:co#80:tc=n:\nn:li#24:\n";

fn several_files() -> Vec<Example> {
    let two = |case: Case| with_ends(case, &[11, 34]);
    let records = [
        97, 109, 1, 0, 0, 0, 0, 1, 0, 0, 0, 0, //
        99, 111, 2, 1, 0, 0, 0, 80, 1, 0, 0, 0, //
        108, 105, 2, 2, 0, 0, 0, 24, 1, 0, 0, 0,
    ];
    let joined: &[u8] = b"n:.x\\\nm:am:\n";
    vec![
        example(
            "a link from its own file on",
            two(list(TWO_FILES, b"n")),
            Records(records.to_vec()),
        ),
        example("Flat over two files", two(flat(TWO_FILES, b"n")), bytes(b"n:am:co#80:li#24:\n")),
        example("the same in one file", with_ends(list(TWO_FILES, b"n"), &[34]), Refused(7)),
        example("the same without ends", list(TWO_FILES, b"n"), Refused(7)),
        example(
            "Show in the first file",
            two(show(TWO_FILES, b"n")),
            Shown { start: 0, length: 10 },
        ),
        example("Show in the second", two(show(TWO_FILES, b"m")), Shown { start: 11, length: 13 }),
        example(
            "no link to an earlier file",
            with_ends(flag(b"p:am:\nn:tc=p:\n", b"n", b"am"), &[6, 14]),
            Refused(5),
        ),
        example(
            "the earlier file is asked",
            with_ends(flag(b"p:am:\nn:tc=p:\n", b"p", b"am"), &[6, 14]),
            Value(1),
        ),
        example(
            "one place in two files",
            with_ends(flag(b"n:tc=m:m:am:", b"n", b"am"), &[7, 12]),
            Value(1),
        ),
        example(
            "a self-link in the second file is not reached",
            with_ends(flag(b"n:tc=n:n:tc=n:am:", b"n", b"am"), &[7, 17]),
            Refused(7),
        ),
        example(
            "a file's last backslash",
            with_ends(show(joined, b"m"), &[5, 12]),
            Shown { start: 6, length: 5 },
        ),
        example("joined in one file", show(joined, b"m"), Refused(4)),
        example(
            "a file's end ends a line",
            with_ends(show(b"n:am:co:\n", b"n"), &[4, 9]),
            Shown { start: 0, length: 4 },
        ),
        example(
            "an empty file",
            with_ends(show(b"m:\nn:am:\n", b"n"), &[3, 3, 9]),
            Shown { start: 3, length: 5 },
        ),
        example(
            "eight files",
            with_ends(show(b"n:am:\n", b"n"), &[6; 8]),
            Shown { start: 0, length: 5 },
        ),
        example(
            "the eighth file",
            with_ends(list(b"n:am:", b"n"), &[0, 0, 0, 0, 0, 0, 0, 5]),
            Records(vec![97, 109, 1, 0, 0, 0, 0, 1, 7, 0, 0, 0]),
        ),
        example("no file", with_ends(show(b"n:am:\n", b"n"), &[]), Refused(4)),
        example(
            "bytes after the last end",
            with_ends(show(b"n:am:\nm:am:\n", b"m"), &[6]),
            Refused(4),
        ),
    ]
}

fn ends_refused() -> Vec<Example> {
    let large = vec![b'\n'; 1_048_577];
    vec![
        example("ends that fall", with_ends(show(b"n:am:\n", b"n"), &[5, 4]), Refused(16)),
        example("an end past the buffer", with_ends(show(b"n:am:\n", b"n"), &[7]), Refused(16)),
        example("nine ends", with_ends(show(b"n:am:\n", b"n"), &[6; 9]), Refused(16)),
        example("16 before 1", with_ends(show(b"n:am:\n", b""), &[7]), Refused(16)),
        example("16 before 2", with_ends(flag(b"n:am:", b"n", b"a"), &[6]), Refused(16)),
        example("16 before 3", with_ends(list(&large, b"n"), &[9, 8]), Refused(16)),
        example("3 is for the whole buffer", with_ends(list(&large, b"n"), &[0]), Refused(3)),
        example(
            "16 of Flat before 9",
            Case { room: 0, ..with_ends(flat(b"n:am:", b"n"), &[6]) },
            Refused(16),
        ),
        example("16 of a string", with_ends(string(b"n:cl=:", b"n", b"cl"), &[7]), Refused(16)),
        example("16 of a number", with_ends(number(b"n:co#1:", b"", b""), &[3, 2]), Refused(16)),
    ]
}

/// Ask 6: the search that counts.
fn counting() -> Vec<Example> {
    // Names of one byte in lines that aren't ignored: n; o, n, p.
    const DATABASE: &[u8] = b"abc|n:\n#x|m:\n  \no|n|p:am:\n";
    let found = |compared| Counted { found: true, compared };
    let missing = |compared| Counted { found: false, compared };
    let large = vec![b'n'; 1_048_577];
    vec![
        example("the first of its length", search(DATABASE, b"n"), found(1)),
        example("the last of its length", search(DATABASE, b"p"), found(4)),
        example("a comment holds no names", search(DATABASE, b"m"), missing(4)),
        example("another length", search(DATABASE, b"abc"), found(1)),
        example("no name of this length", search(DATABASE, b"ab"), missing(0)),
        example("a line without a colon is all names", search(b"x\ny|z", b"z"), found(3)),
        example("names after the equal one", search(b"n|n:\nn:\n", b"n"), found(1)),
        example("a name that starts with it", search(b"vt100|vt|vt1:", b"vt1"), found(1)),
        example(
            "the length is that of the joined name",
            search(b"a\\\nb|cd:\nab:", b"ab"),
            found(1),
        ),
        example("a pair behind a name", search(b"cd\\\n|ab:", b"ab"), found(2)),
        example("a comment's next line", search(b"# c\\\nn:am:\nm:\n", b"n"), missing(1)),
        example("fields are no names", search(b"a:b:c|d:\n", b"d"), missing(1)),
        example("empty names", search(b"||:", b"n"), missing(0)),
        example("an empty database", search(b"", b"n"), missing(0)),
        example("over two files", with_ends(search(b"a:b:\nb:", b"b"), &[4, 7]), found(2)),
        example("not past the last end", with_ends(search(b"a:b:\nb:", b"b"), &[4]), missing(1)),
        example("found in the first file", with_ends(search(b"m|n:n|m:", b"n"), &[4, 8]), found(2)),
        example("each file joined", with_ends(search(b"# c\\\nn:", b"n"), &[4, 7]), found(1)),
        example("no files", with_ends(search(b"n:", b"n"), &[]), missing(0)),
        example("16 before 1 of a search", with_ends(search(b"n:", b""), &[3]), Refused(16)),
        example("1 of a search", search(b"n:", b""), Refused(1)),
        example("1 before 3 of a search", search(&large, b"a|b"), Refused(1)),
        example("3 of a search", search(&large, b"n"), Refused(3)),
        example("1,048,576 bytes", search(&large[1..], b"n"), missing(0)),
    ]
}

fn repairs_refused() -> Vec<Example> {
    let (most, over) = (b"n:\n".repeat(4_096), b"n:\n".repeat(4_097));
    let large = vec![b'#'; 1_048_577];
    let many_and_large = [over.clone(), vec![b'#'; 1_048_577]].concat();
    vec![
        example("4,096 lines", Case { room: 12_288, ..repair(&most) }, mended(&most, &[])),
        example("4,097 lines", repair(&over), Refused(14)),
        example("14 before 9", Case { room: 0, ..repair(&over) }, Refused(14)),
        example("4,096 lines and no room", Case { room: 12_287, ..repair(&most) }, Refused(9)),
        example("a repair of too many bytes", repair(&large), Refused(3)),
        example("3 before 14", repair(&many_and_large), Refused(3)),
        example("no room for the text", Case { room: 2, ..repair(b"n:x:\n") }, Refused(9)),
        example("no room for a record", Case { records_room: 15, ..repair(b"n:x:\n") }, Refused(9)),
        example(
            "just room for both",
            Case { room: 3, records_room: 16, ..repair(b"n:x:\n") },
            mended(b"n:\n", &[[0, 2, 2, 2]]),
        ),
        example(
            "no room is needed for no records",
            Case { room: 5, records_room: 0, ..repair(b"n:am:") },
            mended(b"n:am:", &[]),
        ),
    ]
}

// ---------------------------------------------------------------------------------------------
// Document 02, Ask 3: an answer is status, refusal number and value
// ---------------------------------------------------------------------------------------------

fn batches() -> Vec<Example> {
    let screen = b"n:am:co#80:cl=\\E[H:li@:tc=m:\nm:li#24:bs:le=^@:\n";
    let longest = [b"n:cl=", &vec![b'x'; 16_376][..], b":\n"].concat();
    vec![
        example(
            "a batch with each kind, a cancel and a link",
            batch(screen, b"n", b"am\x01\0co\x02\0cl\x03\0li\x02\0bs\x01\0le\x03\0"),
            Answers(vec![PRESENT(1), PRESENT(80), PRESENT(3), NONE, PRESENT(1), PRESENT(1)]),
        ),
        example(
            "another kind is passed over, and a question may be put twice",
            batch(screen, b"n", b"am\x02\0am\x01\0am\x01\0co\x03\0"),
            Answers(vec![NONE, PRESENT(1), PRESENT(1), NONE]),
        ),
        example(
            "a cancel between fields of one name",
            batch(b"n:am:am@:am#5:am=x:", b"n", b"am\x01\0am\x02\0am\x03\0"),
            Answers(vec![PRESENT(1), NONE, NONE]),
        ),
        example(
            "the first field of a name and kind",
            batch(b"n:co#1:co#2:co=ab:co=c:", b"n", b"co\x02\0co\x03\0"),
            Answers(vec![PRESENT(1), PRESENT(2)]),
        ),
        example(
            "the largest number and an empty string",
            batch(b"n:li#65535:cl=:", b"n", b"li\x02\0cl\x03\0"),
            Answers(vec![PRESENT(65_535), PRESENT(0)]),
        ),
        example(
            "a string longer than the buffer",
            batch(&longest, b"n", b"cl\x03\0"),
            Answers(vec![PRESENT(16_376)]),
        ),
        example(
            "ids with the lowest and the highest bytes",
            batch(b"n:!!#3:~~:!~=x:", b"n", b"!!\x02\0~~\x01\0!~\x03\0~!\x01\0"),
            Answers(vec![PRESENT(3), PRESENT(1), PRESENT(1), NONE]),
        ),
        example("no question", batch(screen, b"n", b""), Answers(vec![])),
        example("no question of an unknown name", batch(screen, b"q", b""), Answers(vec![])),
    ]
}

fn batches_with_bad_questions() -> Vec<Example> {
    vec![
        example(
            "a bad id is 2 in its own answer",
            batch(b"n:am:", b"n", b"tc\x01\0.x\x01\0a:\x01\0\\a\x01\0a \x01\0am\x01\0"),
            Answers(vec![NO(2), NO(2), NO(2), NO(2), NO(2), PRESENT(1)]),
        ),
        example(
            "a bad kind or fourth byte is 2 in its own answer",
            batch(b"n:am:", b"n", b"am\0\0am\x04\0am\xff\0am\x01\x01am\x011am\x01\0"),
            Answers(vec![NO(2), NO(2), NO(2), NO(2), NO(2), PRESENT(1)]),
        ),
        example(
            "what the walk refuses is in each answer, after 2",
            batch(b"n:am:tc=q:", b"n", b"am\x01\0am\x09\0co\x02\0tc\x03\0am\x01\x02"),
            Answers(vec![NO(5), NO(2), NO(5), NO(2), NO(2)]),
        ),
        example(
            "a batch of an unknown name",
            batch(b"n:am:", b"q", b"am\x01\0"),
            Answers(vec![NO(4)]),
        ),
        example("a malformed batch", batch(b"n:a:", b"n", b"am\x01\0"), Answers(vec![NO(6)])),
        example("a cyclic batch", batch(b"n:tc=n:", b"n", b"am\x01\0"), Answers(vec![NO(7)])),
        example(
            "a batch of too large a chain",
            batch(&[b"n:cl=", &vec![b'x'; 16_379][..], b":\n"].concat(), b"n", b"am\x01\0"),
            Answers(vec![NO(8)]),
        ),
    ]
}

fn batches_refused() -> Vec<Example> {
    let large = vec![b'#'; 1_048_577];
    let roomless = |case: Case| Case { room: 0, ..case };
    vec![
        example("a batch with a bad name", batch(b"n:am:", b"a|b", b"am\x01\0"), Refused(1)),
        example("1 before 3 and 15", roomless(batch(&large, b"", b"a")), Refused(1)),
        example("3 before 15", roomless(batch(&large, b"n", b"a")), Refused(3)),
        example("3 with no question", batch(&large, b"n", b""), Refused(3)),
        example("15 before 9", roomless(batch(b"n:am:", b"n", b"am\x01\0a")), Refused(15)),
        example("15 for less than one question", batch(b"n:am:", b"n", b"am\x01"), Refused(15)),
        example("15 before what the walk refuses", batch(b"", b"n", b"am\x01\0am"), Refused(15)),
        example(
            "no room for an absent answer",
            Case { room: 7, ..batch(b"n:am@:", b"n", b"am\x01\0") },
            Refused(9),
        ),
        example(
            "no room for the last answer",
            Case { room: 15, ..batch(b"", b"n", b"am\x01\0tc\x01\0") },
            Refused(9),
        ),
        example(
            "just room for two answers",
            Case { room: 16, ..batch(b"", b"n", b"am\x01\0tc\x01\0") },
            Answers(vec![NO(4), NO(2)]),
        ),
    ]
}

// ---------------------------------------------------------------------------------------------
// Document 02, Ask 7: Send at in two halves
// ---------------------------------------------------------------------------------------------

fn first_half() -> Vec<Example> {
    let raised = Case { back: b"<".to_vec(), up: b"^".to_vec(), ..fill(b"2%.%.", 9, 0) };
    let no_room = |command: &[u8]| Case { room: 0, ..fill(command, 0, 0) };
    vec![
        example("delay, star and bytes apart", fill(b"5*%dA", 5, 0), finished(50, 1, b"5A")),
        example("no star", fill(b"1.5%d", 5, 0), finished(15, 0, b"5")),
        example("no prefix", fill(b"%dA", 5, 0), finished(0, 0, b"5A")),
        example("the longest delay", fill(b"9999.9*a", 0, 0), finished(99_999, 1, b"a")),
        example("0* is a star", fill(b"0*", 0, 0), finished(0, 1, b"")),
        example("finished with compensations", raised, finished(20, 0, b"\x0b\x01^^<")),
        example("nothing to finish", no_room(b""), finished(0, 0, b"")),
        example(
            "finished in place",
            Case { room: 2, ..fill(b"5*%dA", 5, 0) },
            finished(50, 1, b"5A"),
        ),
        example("fill: 12 before 13, row", fill(b"12345%x", 10_000, 0), Refused(12)),
        example("fill: 12 before 13, column", fill(b"12345%x", 0, 10_000), Refused(12)),
        example("fill: 13 before 10", fill(b"12345%x", 0, 0), Refused(13)),
        example("fill: 10 before 9", no_room(b"a%x"), Refused(10)),
        example("fill: 11 before 9", no_room(b"%d%d%d"), Refused(11)),
        example("fill: 12 before 9", Case { room: 0, ..fill(b"%D%d", 9, 0) }, Refused(12)),
        example("fill: 9", Case { room: 1, ..fill(b"5*%dA", 5, 0) }, Refused(9)),
    ]
}

fn second_half() -> Vec<Example> {
    let most = Case { lines: 1_000, speed: 115_200, ..pad(99_999, 1, b"a") };
    vec![
        example("a digit is no padding", pad(20, 0, b"5A"), bytes(b"5APP")),
        example("nor is a star", pad(20, 1, b"5*%d"), bytes(b"5*%dPPPP")),
        example("nor are five digits", pad(0, 0, b"12345"), bytes(b"12345")),
        example("any star but 0", pad(20, u64::MAX, b"a"), bytes(b"aPPPP")),
        example("no bytes", pad(1, 0, b""), bytes(b"P")),
        example("99,999 tenths", Case { speed: 1, ..pad(99_999, 0, b"a") }, bytes(b"aP")),
        example("100,000 tenths", Case { speed: 1, ..pad(100_000, 0, b"a") }, Refused(12)),
        example("a delay that is large", pad((1 << 32) + 20, 0, b"a"), Refused(12)),
        example("pad: lines 0", Case { lines: 0, ..pad(0, 0, b"a") }, Refused(12)),
        example("pad: lines 1,001", Case { lines: 1_001, ..pad(0, 0, b"a") }, Refused(12)),
        example("pad: speed 115,201", Case { speed: 115_201, ..pad(0, 0, b"a") }, Refused(12)),
        example("pad: 12 before 9", Case { room: 0, ..pad(100_000, 0, b"a") }, Refused(12)),
        example("pad: the most pads", most, Refused(9)),
        example("pad: 9", Case { room: 3, ..pad(20, 0, b"5A") }, Refused(9)),
        example("pad: just room", Case { room: 4, ..pad(20, 0, b"5A") }, bytes(b"5APP")),
    ]
}

#[cfg(test)]
mod tests {
    use super::*;
    use crate::reference;
    use crate::subject::Reference;

    #[test]
    fn the_reference_gives_every_answer_written_by_hand() {
        for example in all() {
            if let Some(complaint) = wrong(&example, &Reference) {
                panic!("{}\n{complaint}", example.title);
            }
        }
    }

    #[test]
    fn an_opened_reader_gives_equal_answers() {
        for Example { title, case, .. } in all() {
            let (database, name, id) = (case.files(), &case.name, &case.id);
            let reader = reference::Reader::open(database);
            assert_eq!(reader.show(name), reference::show(database, name), "{title}");
            assert_eq!(reader.flag(name, id), reference::flag(database, name, id), "{title}");
            assert_eq!(reader.number(name, id), reference::number(database, name, id), "{title}");
        }
    }

    #[test]
    fn no_two_examples_have_the_same_title() {
        let mut titles: Vec<&str> = all().iter().map(|example| example.title).collect();
        titles.sort_unstable();
        let count = titles.len();
        titles.dedup();
        assert_eq!(titles.len(), count);
    }
}
