//! Calls with answers worked out by hand.

use termcap_proved::{
    fill, fill_into, send, send_at, send_at_into, send_into, Answered, Database, Files, Finder,
    Finished, Kind, Line, NotARefusal, Position, Question, Record, Refusal, Search,
    FINDER_TEXT_BYTES, FLAT_BYTES, RECORDS,
};

const CASE: &[u8] = br"N9|aaa:am:li#30:tc=aaa-unk:
NY|aaa-unk:co#80:li#48:cl=\E[H:
QZ|aaa-nam:am@:tc=aaa:
";

const FLAT: &[u8] = b"QZ|aaa-nam:li#30:co#80:cl=\\E[H:\n";

const SLOW: Line = Line { lines: 1, speed: 1200, pad: 0 };

/// A buffer whose bytes show whether they were written.
const MARK: u8 = 0xA5;

fn record(name: &[u8; 2], kind: Kind, place: u8, value: u32) -> Record {
    Record { name: *name, kind, place, value, file: 0 }
}

#[test]
fn a_search_counts_the_names_of_its_length() {
    let database = Database::new(CASE);
    assert_eq!(database.search("aaa-nam"), Ok(Search { found: true, compared: 2 }));
    assert_eq!(database.search("QZ"), Ok(Search { found: true, compared: 3 }));
    assert_eq!(database.search("ZZ"), Ok(Search { found: false, compared: 3 }));
    assert_eq!(database.search("press"), Ok(Search { found: false, compared: 0 }));
    assert_eq!(database.search("a|b"), Err(Refusal::BadName));

    let files = |ends| Database::with_ends(b"a:b:\nb:", ends).search("b");
    assert_eq!(files(&[4, 7]), Ok(Search { found: true, compared: 2 }));
    assert_eq!(files(&[4]), Ok(Search { found: false, compared: 1 }));
    assert_eq!(files(&[4, 3]), Err(Refusal::BadEnds));
}

#[test]
fn the_whole_case_is_listed() {
    let database = Database::new(CASE);
    let records = vec![
        record(b"li", Kind::Number, 1, 30),
        record(b"co", Kind::Number, 2, 80),
        record(b"cl", Kind::String, 2, 3),
    ];
    assert_eq!(database.list("aaa-nam"), Ok(records));

    let mut out = [MARK; 37];
    assert_eq!(database.list_into("aaa-nam", &mut out), Ok(3));
    let bytes = [
        [108, 105, 2, 1, 0, 0, 0, 30, 0, 0, 0, 0],
        [99, 111, 2, 2, 0, 0, 0, 80, 0, 0, 0, 0],
        [99, 108, 3, 2, 0, 0, 0, 3, 0, 0, 0, 0],
    ];
    assert_eq!(out[..36], bytes.concat());
    assert_eq!(out[36], MARK);
}

#[test]
fn the_whole_case_is_flattened() {
    assert_eq!(Database::new(CASE).flat("aaa-nam"), Ok(FLAT.to_vec()));
    let alone = Database::new(FLAT);
    assert_eq!(alone.flat("QZ"), Ok(FLAT.to_vec()));
    let records = vec![
        record(b"li", Kind::Number, 0, 30),
        record(b"co", Kind::Number, 0, 80),
        record(b"cl", Kind::String, 0, 3),
    ];
    assert_eq!(alone.list("aaa-nam"), Ok(records));
}

#[test]
fn the_whole_case_is_asked() {
    let database = Database::new(CASE);
    assert_eq!(database.flag("aaa", "am"), Ok(true));
    assert_eq!(database.flag("aaa-nam", "am"), Ok(false));
    assert_eq!(database.flag("aaa-nam", "co"), Ok(false));
    assert_eq!(database.number("aaa-nam", "li"), Ok(Some(30)));
    assert_eq!(database.number("aaa-nam", "co"), Ok(Some(80)));
    assert_eq!(database.number("aaa-nam", "cl"), Ok(None));
    assert_eq!(database.string("aaa-nam", "cl"), Ok(Some(b"\x1B[H".to_vec())));
    assert_eq!(database.string("aaa-nam", "co"), Ok(None));
    assert_eq!(database.show("aaa-unk"), Ok(&br"NY|aaa-unk:co#80:li#48:cl=\E[H:"[..]));
}

#[test]
fn show_gives_the_lent_bytes_themselves() {
    let part = Database::new(CASE).show("QZ").unwrap();
    assert_eq!(part.as_ptr(), CASE[60..].as_ptr());
    assert_eq!(part, b"QZ|aaa-nam:am@:tc=aaa:");
}

#[test]
fn names_and_ids_are_any_bytes() {
    let database = Database::new(b"n\x7F|n1:c1#7:");
    assert_eq!(database.number(String::from("n1"), vec![b'c', b'1']), Ok(Some(7)));
    assert_eq!(database.number(b"n\x7F", b"c1"), Err(Refusal::BadName));
}

#[test]
fn an_empty_name_id_database_or_command_is_fine_to_pass() {
    let empty = Database::new(b"");
    assert_eq!(empty.show(""), Err(Refusal::BadName));
    assert_eq!(empty.flag("n", ""), Err(Refusal::BadId));
    assert_eq!(empty.flat_into("n", &mut []), Err(Refusal::UnknownName));
    assert_eq!(send("", &SLOW), Ok(vec![]));
    assert_eq!(send_at_into("", &Position::default(), &SLOW, &mut []), Ok(0));
    assert_eq!(Database::new(b"n:le=:").string("n", "le"), Ok(Some(vec![])));
}

#[test]
fn a_private_file_stands_before_the_common_one() {
    let files = Files::from_iter(["n:am:tc=m:\n", "m:co#80:tc=n:\nn:li#24:\n"]);
    let database = files.database();
    let am = Record { file: 0, ..record(b"am", Kind::Flag, 0, 1) };
    let co = Record { file: 1, ..record(b"co", Kind::Number, 1, 80) };
    let li = Record { file: 1, ..record(b"li", Kind::Number, 2, 24) };
    assert_eq!(database.list("n"), Ok(vec![am, co, li]));
    assert_eq!(database.flat("n"), Ok(b"n:am:co#80:li#24:\n".to_vec()));
    assert_eq!(database.show("n"), Ok(&b"n:am:tc=m:"[..]));
    assert_eq!(database.show("m").unwrap().as_ptr(), database.as_bytes()[11..].as_ptr());
    // In one file the link of `m` comes back to the first `n`.
    assert_eq!(Database::new(database.as_bytes()).list("n"), Err(Refusal::Cycle));
    // A link is never searched in an earlier file.
    let files = Files::from_iter(["p:am:\n", "n:tc=p:\n"]);
    assert_eq!(files.database().flag("n", "am"), Err(Refusal::LostLink));
    assert_eq!(files.database().flag("p", "am"), Ok(true));
}

/// The example of the manual's 4.1.
#[test]
fn a_link_is_replaced_by_its_parents_fields() {
    const PARENTS: &[u8] = b"press:co#80:am:li#24:tc=desk:\ndesk:li#48:bl=^G:co@:\n";
    let before = [b"oven|oven-3:am@:\\\n\t:tc=press: :\n", PARENTS].concat();
    let after = [b"oven|oven-3:am@:\t:co#80:am:li#24:bl=^G: :\n", PARENTS].concat();
    let (before, after) = (Database::new(&before), Database::new(&after));
    assert_eq!(before.flat("press"), Ok(b"press:co#80:am:li#24:bl=^G:\n".to_vec()));
    for database in [&before, &after] {
        assert_eq!(database.flag("oven-3", "am"), Ok(false));
        assert_eq!(database.number("oven-3", "co"), Ok(Some(80)));
        assert_eq!(database.number("oven-3", "li"), Ok(Some(24)));
        let flat = b"oven|oven-3:co#80:li#24:bl=^G:\n";
        assert_eq!(database.flat("oven-3"), Ok(flat.to_vec()));
    }
    let records = |co, li, bl| {
        let co = record(b"co", Kind::Number, co, 80);
        vec![co, record(b"li", Kind::Number, li, 24), record(b"bl", Kind::String, bl, 1)]
    };
    assert_eq!(before.list("oven-3"), Ok(records(1, 1, 2)));
    assert_eq!(after.list("oven-3"), Ok(records(0, 0, 0)));
}

/// The manual's 4.1 again: the link finds the second `hall`, asked directly it is the first.
#[test]
fn a_parent_of_another_file_must_not_be_pasted() {
    let before = Files::from_iter(["hall:am:\n", "press:tc=hall:\nhall:co:\n"]);
    assert_eq!(before.database().flag("press", "co"), Ok(true));
    assert_eq!(before.database().flat("hall"), Ok(b"hall:am:\n".to_vec()));
    let after = Files::from_iter(["hall:am:\n", "press:am:\nhall:co:\n"]);
    assert_eq!(after.database().flag("press", "co"), Ok(false));
}

#[test]
fn ends_are_refused_before_all_else() {
    let ends = |ends: &[usize]| Database::with_ends(b"n:am:\n", ends).flag("", "a");
    assert_eq!(ends(&[5, 4]), Err(Refusal::BadEnds));
    assert_eq!(ends(&[7]), Err(Refusal::BadEnds));
    assert_eq!(ends(&[6; 9]), Err(Refusal::BadEnds));
    assert_eq!(ends(&[6; 8]), Err(Refusal::BadName));
    assert_eq!(Database::with_ends(b"n:am:\n", &[]).flag("n", "am"), Err(Refusal::UnknownName));
    assert_eq!(Database::with_ends(b"n:am:\n", &[0, 6]).flag("n", "am"), Ok(true));
    assert_eq!(Files::new().database().show("n"), Err(Refusal::UnknownName));
}

#[test]
fn each_refusal_of_a_question() {
    let refusal = |bytes: &[u8]| Database::new(bytes).number("n", "co").unwrap_err();
    assert_eq!(Database::new(b"n:").flag("a:b", "am"), Err(Refusal::BadName));
    assert_eq!(Database::new(b"n:").flag("n", "tc"), Err(Refusal::BadId));
    assert_eq!(refusal(&vec![b'\n'; 1_048_577]), Refusal::DatabaseTooLarge);
    assert_eq!(refusal(&vec![b'\n'; 1_048_576]), Refusal::UnknownName);
    assert_eq!(refusal(b"n:tc=m:"), Refusal::LostLink);
    assert_eq!(refusal(b"n:co#:"), Refusal::Malformed);
    assert_eq!(refusal(b"n:co#80:tc=m:\nm:tc=n:"), Refusal::Cycle);

    let mut chain = b"n:tc=1:\n".to_vec();
    for link in 1..32 {
        chain.extend_from_slice(format!("{link}:tc={}:\n", link + 1).as_bytes());
    }
    chain.extend_from_slice(b"32:co#80:\n");
    assert_eq!(refusal(&chain), Refusal::ChainTooLarge);
    assert_eq!(Database::new(&chain).number("1", "co"), Ok(Some(80)));
}

#[test]
fn each_refusal_of_send() {
    let position = Position { row: 27, column: 9, ..Position::default() };
    let refusal = |command: &str| send_at(command, &position, &SLOW).unwrap_err();
    assert_eq!(refusal("%x"), Refusal::UnknownSequence);
    assert_eq!(refusal("%d%d%d"), Refusal::TooFewParameters);
    assert_eq!(refusal("%d%D%d"), Refusal::OutOfRange);
    assert_eq!(refusal("12345A"), Refusal::BadPadding);
    assert_eq!(send("1.23A", &SLOW), Err(Refusal::BadPadding));

    let off = Position { row: 10_000, ..position };
    assert_eq!(send_at("A", &off, &SLOW), Err(Refusal::OutOfRange));
    assert_eq!(send("A", &Line { lines: 0, ..SLOW }), Err(Refusal::OutOfRange));
    assert_eq!(send("A", &Line { lines: 1_001, ..SLOW }), Err(Refusal::OutOfRange));
    assert_eq!(send("A", &Line { speed: 115_201, ..SLOW }), Err(Refusal::OutOfRange));
}

#[test]
fn a_buffer_one_short_is_refused_and_keeps_every_byte() {
    let database = Database::new(CASE);
    let position = Position { row: 20, column: 58, ..Position::default() };
    let mut out = [MARK; 64];

    assert_eq!(database.string_into("aaa-nam", "cl", &mut out[..2]), Err(Refusal::NoRoom));
    assert_eq!(database.list_into("aaa-nam", &mut out[..35]), Err(Refusal::NoRoom));
    assert_eq!(database.flat_into("aaa-nam", &mut out[..31]), Err(Refusal::NoRoom));
    assert_eq!(send_into("20A", &SLOW, &mut out[..3]), Err(Refusal::NoRoom));
    let moved = send_at_into("\x1B[%i%d;%dH", &position, &SLOW, &mut out[..7]);
    assert_eq!(moved, Err(Refusal::NoRoom));
    assert_eq!(out, [MARK; 64]);

    assert_eq!(database.string_into("aaa-nam", "cl", &mut out[..3]), Ok(Some(3)));
    assert_eq!(database.list_into("aaa-nam", &mut out[..36]), Ok(3));
    assert_eq!(database.flat_into("aaa-nam", &mut out[..32]), Ok(32));
    assert_eq!(send_into("20A", &SLOW, &mut out[..4]), Ok(4));
    let moved = send_at_into("\x1B[%i%d;%dH", &position, &SLOW, &mut out[..8]);
    assert_eq!(moved, Ok(8));
    assert_eq!(&out[..8], b"\x1B[21;59H");
    assert_eq!(out[36..], [MARK; 28]);
}

#[test]
fn nothing_is_written_on_other_refusals_and_when_absent() {
    let mut out = [MARK; 64];
    let damaged = Database::new(b"n:le=^H:tc=m:");
    assert_eq!(damaged.string_into("n", "le", &mut out), Err(Refusal::LostLink));
    assert_eq!(damaged.list_into("n", &mut out), Err(Refusal::LostLink));
    assert_eq!(damaged.flat_into("n", &mut out), Err(Refusal::LostLink));
    assert_eq!(Database::new(CASE).string_into("aaa", "le", &mut out), Ok(None));
    assert_eq!(Database::new(CASE).string_into("aaa", "le", &mut []), Ok(None));
    assert_eq!(send_into("00001A", &SLOW, &mut out), Err(Refusal::BadPadding));
    let cut_off = send_at_into("ABC%", &Position::default(), &SLOW, &mut out);
    assert_eq!(cut_off, Err(Refusal::UnknownSequence));
    assert_eq!(out, [MARK; 64]);
}

#[test]
fn positions() {
    let at = |command: &str, row, column| {
        send_at(command, &Position { row, column, ..Position::default() }, &SLOW)
    };
    assert_eq!(at("\x1B[%i%d;%dH", 20, 58), Ok(b"\x1B[21;59H".to_vec()));
    assert_eq!(at("%+ %+ ", 0, 79), Ok(vec![32, 111]));
    assert_eq!(at("%B%d", 27, 0), Ok(b"39".to_vec()));
    assert_eq!(at("%D%d", 27, 0), Ok(b"5".to_vec()));
    assert_eq!(at("%D%d", 9, 0), Err(Refusal::OutOfRange));
    assert_eq!(at("%r%3;%2%%", 4, 17), Ok(b"017;04%".to_vec()));
    // Nothing is raised while both strings are empty.
    assert_eq!(at("%.%.", 0, 9), Ok(vec![0, 9]));
}

#[test]
fn raised_bytes_are_compensated() {
    let at = |back, up| {
        let position = Position { row: 0, column: 10, back, up };
        send_at("%.%.", &position, &SLOW).unwrap()
    };
    assert_eq!(at(b"<", b"^"), b"\x01\x0B^<");
    assert_eq!(at(b"", b"^"), b"\x01\x0B^\x08");
    assert_eq!(at(b"<", b""), b"\x00\x0B<");
}

#[test]
fn a_byte_is_raised_past_4_9_and_10() {
    let at = |row, column| {
        let position = Position { row, column, back: b"<", up: b"^" };
        send_at("%.%.", &position, &SLOW).unwrap()
    };
    assert_eq!(at(4, 9), b"\x05\x0B^<<");
    assert_eq!(at(9, 4), b"\x0B\x05^^<");
    assert_eq!(at(3, 11), b"\x03\x0B");
}

#[test]
fn padding() {
    let pads = |command: &str, lines, speed| {
        send(command, &Line { lines, speed, pad: b'.' }).map(|bytes| bytes.len())
    };
    assert_eq!(pads("5", 1, 9600), Ok(5));
    assert_eq!(pads("20*", 3, 1200), Ok(8));
    assert_eq!(pads("100", 1, 1200), Ok(12));
    assert_eq!(send("1.5*%d", &Line { lines: 2, speed: 9600, pad: b'.' }), Ok(b"%d...".to_vec()));
}

#[test]
fn the_largest_outputs_fit() {
    // 5,460 flags of two bytes and a colon, after names of three bytes: a chain's size of 16,384.
    let bytes = (b'!'..=b'~').filter(|byte| !b":\\".contains(byte));
    let pairs = bytes.clone().flat_map(|first| bytes.clone().map(move |second| [first, second]));
    let ids = pairs.filter(|id| id[0] != b'.' && id != b"tc");
    let mut database = b"max:".to_vec();
    for id in ids.take(RECORDS) {
        database.extend_from_slice(&id);
        database.push(b':');
    }
    let flags = Database::new(&database);
    assert_eq!(database.len(), 16_384);
    assert_eq!(flags.list("max").map(|records| records.len()), Ok(5_460));
    assert_eq!(flags.flat("max").map(|line| line.len()), Ok(FLAT_BYTES));

    let text = [b"n:le=".to_vec(), vec![b'x'; 16_378], b":".to_vec()].concat();
    let decoded = Database::new(&text).string("n", "le");
    assert_eq!(decoded, Ok(Some(vec![b'x'; 16_378])));

    // 999,990 tenths of a millisecond at 115,200 bits a second are 1,151,988.48 bytes.
    let sent = send("9999.9*", &Line { lines: 10, speed: 115_200, pad: 0 });
    assert_eq!(sent.map(|bytes| bytes.len()), Ok(1_151_989));
}

#[test]
fn the_bound_of_send_at_without_pads_is_kept() {
    // Two decimals of five digits: %B makes 16 * 999 + 9 of 9,999.
    let position = Position { row: 9_999, column: 9_999, ..Position::default() };
    assert_eq!(send_at("%B%d%B%d", &position, &SLOW), Ok(b"1599315993".to_vec()));
}

#[test]
fn the_sample_databases() {
    let sample = Database::new(include_bytes!("../../../data/sample.tc"));
    // Written 01166, which is octal; Flat keeps it so.
    assert_eq!(sample.number("press-4", "TN"), Ok(Some(630)));
    let flat = sample.flat("press-4").unwrap();
    assert!(flat.windows(10).any(|part| part == b":TN#01166:"));
    assert_eq!(sample.number("press-4", "co"), Ok(Some(132)));
    assert_eq!(sample.flag("press-4", "am"), Ok(true));
    assert_eq!(sample.flag("press-1", "am"), Ok(false));
    assert_eq!(sample.string("press-1", "k1"), Ok(Some(b"\x1BOP".to_vec())));
    assert_eq!(sample.string("press-1", "k3"), Ok(None));
    assert_eq!(sample.string("oven-3", "Z1"), Ok(Some(b"heat: ".to_vec())));
    assert_eq!(sample.string("oven-3", "DG"), Ok(None));
    assert_eq!(sample.string("oven-4", "DG"), Ok(Some(vec![0o260])));
    assert_eq!(sample.string("dm1520", "nd"), Ok(Some(vec![28])));

    let damaged = Database::new(include_bytes!("../../../data/damaged.tc"));
    assert_eq!(damaged.list("whole").map(|records| records.len()), Ok(4));
    for (name, refusal) in [
        ("lost-link", Refusal::LostLink),
        ("cycle-a", Refusal::Cycle),
        ("cycle-b", Refusal::Cycle),
        ("self-link", Refusal::Cycle),
        ("no-colon", Refusal::Malformed),
        ("bad-number", Refusal::Malformed),
        ("big-number", Refusal::Malformed),
        ("eight-in-octal", Refusal::Malformed),
        ("bad-colon", Refusal::Malformed),
        ("after-link", Refusal::Malformed),
        ("long-link", Refusal::Malformed),
        ("bad-octal", Refusal::Malformed),
        ("indented", Refusal::Malformed),
    ] {
        assert_eq!(damaged.list(name), Err(refusal), "{name}");
    }
}

#[test]
fn padding_of_motions_is_taken_off_first() {
    let sample = Database::new(include_bytes!("../../../data/sample.tc"));
    let string = |id| sample.string("feeder", id).unwrap().unwrap();
    let (back, up) = (string("le"), string("up"));
    assert_eq!(back, b"2\x08");
    assert_eq!(up, b"3.5\x1B[A");

    let still = Line { speed: 0, ..Line::default() };
    let (bare_back, bare_up) = (send(&back, &still).unwrap(), send(&up, &still).unwrap());
    assert_eq!(bare_back, b"\x08");
    assert_eq!(bare_up, b"\x1B[A");

    // Row 10 is raised by one, column 9 by two: the cursor goes up, then back twice. The 4
    // milliseconds are 3.84 bytes at 9,600 bits a second.
    let at = |back, up| {
        let position = Position { row: 10, column: 9, back, up };
        send_at(string("cm"), &position, &Line::default()).unwrap()
    };
    assert_eq!(at(&bare_back, &bare_up), b"\x14\x0B\x0B\x1B[A\x08\x08\0\0\0\0");
    // As they stand, the digits are sent, too.
    assert_eq!(at(&back, &up), b"\x14\x0B\x0B3.5\x1B[A2\x082\x08\0\0\0\0");
}

#[test]
fn send_at_in_two_halves() {
    let position = Position { row: 9, column: 0, back: b"<", up: b"^" };
    let finished = fill("1.5*%.%.5", &position).unwrap();
    assert_eq!((finished.delay(), finished.star()), (15, true));
    assert_eq!(finished.as_bytes(), b"\x0B\x015^^<");

    // 3 milliseconds for two lines are 2.88 bytes at 9,600 bits a second, 0.36 at 1,200.
    let line = Line { lines: 2, speed: 9600, pad: b'.' };
    assert_eq!(finished.send_to(&line), Ok(b"\x0B\x015^^<...".to_vec()));
    assert_eq!(finished.send_to(&Line { speed: 1200, ..line }), Ok(b"\x0B\x015^^<.".to_vec()));
    assert_eq!(finished.send_to(&line), send_at("1.5*%.%.5", &position, &line));

    // Bytes that begin with a digit are not read as padding.
    let kept = Finished::from_parts(0, false, b"5*A");
    assert_eq!(kept.send_to(&line), Ok(b"5*A".to_vec()));
    assert_eq!(
        Finished::from_parts(99_999, false, b"").send_to(&Line { speed: 0, ..line }),
        Ok(vec![])
    );
    assert_eq!(Finished::from_parts(100_000, false, b"").send_to(&line), Err(Refusal::OutOfRange));
}

#[test]
fn the_halves_refuse_in_their_order() {
    let off = Position { row: 10_000, ..Position::default() };
    let at = Position::default();
    let bad = Line { lines: 0, ..SLOW };
    assert_eq!(fill("12345%x", &off), Err(Refusal::OutOfRange));
    assert_eq!(fill("12345%x", &at), Err(Refusal::BadPadding));
    assert_eq!(fill("%x", &at), Err(Refusal::UnknownSequence));
    assert_eq!(fill("%d%d%d", &at), Err(Refusal::TooFewParameters));
    assert_eq!(send_at("12345%x", &off, &bad), Err(Refusal::OutOfRange));
    assert_eq!(send_at("12345%x", &at, &bad), Err(Refusal::BadPadding));
    assert_eq!(send_at("%x", &at, &bad), Err(Refusal::UnknownSequence));
    assert_eq!(send_at("%d", &at, &bad), Err(Refusal::OutOfRange));
    assert_eq!(send("12345", &bad), Err(Refusal::BadPadding));

    let mut out = [MARK; 4];
    assert_eq!(fill_into("%dAB", &at, &mut out[..2]), Err(Refusal::NoRoom));
    let kept = Finished::from_parts(10, false, b"AB");
    assert_eq!(kept.send_to_into(&bad, &mut out[..2]), Err(Refusal::OutOfRange));
    assert_eq!(kept.send_to_into(&SLOW, &mut out[..2]), Err(Refusal::NoRoom));
    assert_eq!(out, [MARK; 4]);
    assert_eq!(kept.send_to_into(&SLOW, &mut out), Ok(3));
    assert_eq!(out, [b'A', b'B', 0, MARK]);
}

#[test]
fn a_refusal_is_told_in_a_sentence_of_its_own() {
    let texts = (1..=17).map(|number| Refusal::try_from(number).unwrap().to_string());
    let mut texts: Vec<String> = texts.collect();
    assert_eq!(texts[3], "no terminal in the database has this name");
    assert_eq!(texts[8], "the output does not fit the buffer");
    texts.sort();
    texts.dedup();
    assert_eq!(texts.len(), 17);
}

#[test]
fn the_whole_case_is_asked_in_one_batch() {
    let database = Database::new(CASE);
    let questions = [
        Question::flag(*b"am"),
        Question::number(*b"li"),
        Question::number(*b"co"),
        Question::string(*b"cl"),
        Question::string(*b"co"),
        Question::flag(*b"tc"),
    ];
    let [one, two, three] = [30, 80, 3].map(Answered::Present);
    let bad = Answered::Refused(Refusal::BadId);
    let answers = vec![Answered::Absent, one, two, three, Answered::Absent, bad];
    assert_eq!(database.batch("aaa-nam", &questions), Ok(answers));
    assert_eq!(database.batch("aaa-nam", &[]), Ok(vec![]));
    assert_eq!(database.batch("a:b", &questions), Err(Refusal::BadName));
    let lost = Answered::Refused(Refusal::LostLink);
    assert_eq!(Database::new(b"n:tc=m:").batch("n", &questions[..1]), Ok(vec![lost]));
}

#[test]
fn a_batch_writes_what_it_reports_and_no_more() {
    let database = Database::new(CASE);
    let asked = [Question::flag(*b"am").to_bytes(), Question::number(*b"li").to_bytes()].concat();
    assert_eq!(asked, [97, 109, 1, 0, 108, 105, 2, 0]);
    let mut out = [MARK; 17];
    assert_eq!(database.batch_into("aaa-nam", &asked, &mut out[..15]), Err(Refusal::NoRoom));
    assert_eq!(
        database.batch_into("aaa-nam", &asked[..7], &mut out),
        Err(Refusal::PartialQuestion)
    );
    assert_eq!(out, [MARK; 17]);
    assert_eq!(database.batch_into("aaa-nam", &asked, &mut out), Ok(2));
    assert_eq!(out, [1, 0, 0, 0, 0, 0, 0, 0, 0, 0, 0, 0, 0, 0, 0, 30, MARK]);
    assert_eq!(Answered::from_bytes([1, 0, 0, 0, 0, 0, 0, 0]), Some(Answered::Absent));
    assert_eq!(Answered::from_bytes([1, 0, 0, 0, 0, 0, 0, 1]), None);
    assert_eq!(Answered::from_bytes([2, 99, 0, 0, 0, 0, 0, 0]), None);
    assert_eq!(Answered::Present(30).value(), Ok(Some(30)));
}

/// The line that is found in these blocks, with this much text.
fn found(name: &str, room: usize, blocks: &[&[u8]]) -> Result<Vec<u8>, Refusal> {
    let mut text = vec![MARK; room];
    let mut finder = Finder::new(name, &mut text)?;
    blocks.iter().for_each(|block| finder.feed(block));
    finder.finish().map(<[u8]>::to_vec)
}

#[test]
fn the_whole_case_is_found_however_it_is_cut() {
    let line = br"NY|aaa-unk:co#80:li#48:cl=\E[H:".to_vec();
    for length in 1..=CASE.len() {
        let blocks: Vec<&[u8]> = CASE.chunks(length).collect();
        assert_eq!(found("aaa-unk", 40, &blocks), Ok(line.clone()), "blocks of {length}");
    }
    for cut in 0..=CASE.len() {
        let (first, second) = CASE.split_at(cut);
        let blocks = [first, b"", second];
        assert_eq!(found("QZ", 40, &blocks), Ok(b"QZ|aaa-nam:am@:tc=aaa:".to_vec()), "at {cut}");
        assert_eq!(found("aaa-", 40, &blocks), Err(Refusal::UnknownName), "at {cut}");
    }
}

#[test]
fn pairs_comments_and_blank_lines_may_be_cut() {
    let found = |name, blocks: &[&[u8]]| found(name, 40, blocks);
    assert_eq!(found("n", &[b"n:am:\\", b"\n\t:co:"]), Ok(b"n:am:\t:co:".to_vec()));
    assert_eq!(found("n", &[b"n:\\", b"E:\n"]), Ok(b"n:\\E:".to_vec()));
    assert_eq!(found("n", &[b"n:a\\"]), Ok(b"n:a\\".to_vec()));
    assert_eq!(found("n", &[b"# c\\", b"\nn:\n"]), Err(Refusal::UnknownName));
    assert_eq!(found("#n", &[b"#n:\n", b"x|#", b"n:"]), Ok(b"x|#n:".to_vec()));
    assert_eq!(found(" ", &[b" \n", b" ", b"|x"]), Ok(b" |x".to_vec()));
    assert_eq!(found("n", &[b"n", b"\nn:am:"]), Ok(b"n".to_vec()));
    assert_eq!(found("n", &[]), Err(Refusal::UnknownName));
}

#[test]
fn a_found_line_has_at_most_16_384_bytes() {
    let line = |size: usize| [b"n:".to_vec(), vec![b'x'; size - 2]].concat();
    let (longest, over) = (line(16_384), line(16_385));
    assert_eq!(found("n", FINDER_TEXT_BYTES, &[&longest]), Ok(longest.clone()));
    assert_eq!(found("n", FINDER_TEXT_BYTES, &[&over]), Err(Refusal::ChainTooLarge));
    assert_eq!(found("n", 16_383, &[&longest]), Err(Refusal::NoRoom));
    assert_eq!(found("n", 0, &[&over]), Err(Refusal::ChainTooLarge));
    // Other lines may be as long as they like, and so may the file.
    assert_eq!(found("n", 2, &[&vec![b'x'; 1_100_000], b"\nn:"]), Ok(b"n:".to_vec()));
}

#[test]
fn a_finder_is_opened_for_a_name() {
    let mut text = [MARK; 4];
    for name in ["", "a|b", "a:b", "a\\", "n\n", &"N".repeat(65)] {
        assert_eq!(Finder::new(name, &mut text).err(), Some(Refusal::BadName), "{name:?}");
    }
    assert!(Finder::new("N".repeat(64), &mut text).is_ok());
    assert_eq!(text, [MARK; 4]);
}

#[test]
fn a_finder_writes_what_it_collects_and_no_more() {
    let mut text = [MARK; 8];
    let mut finder = Finder::new("fan", &mut text).unwrap();
    assert_eq!(format!("{finder:?}"), r#"Finder { name: "fan", is_complete: false, .. }"#);
    finder.feed("# hall\nvent:am:\nfan");
    assert!(!finder.is_complete());
    finder.feed(b"\nkiln:");
    assert!(finder.is_complete());
    finder.feed(vec![b'x'; 100]);
    assert_eq!(finder.finish(), Ok(&b"fan"[..]));
    // The names of the line before are behind it.
    assert_eq!(text, [b'f', b'a', b'n', b't', MARK, MARK, MARK, MARK]);
}

#[cfg(feature = "std")]
mod streams {
    use super::*;
    use std::io::{self, Read};

    /// A stream that gives three bytes at a time, is interrupted before each, and breaks at its end.
    struct Slow<'a> {
        left: &'a [u8],
        interrupted: bool,
    }

    impl Read for Slow<'_> {
        fn read(&mut self, block: &mut [u8]) -> io::Result<usize> {
            self.interrupted = !self.interrupted;
            if self.interrupted {
                return Err(io::ErrorKind::Interrupted.into());
            }
            if self.left.is_empty() {
                return Err(io::ErrorKind::BrokenPipe.into());
            }
            let part = block.len().min(3);
            self.left.read(&mut block[..part])
        }
    }

    #[test]
    fn a_stream_is_read_until_the_line_is_complete() {
        let (mut text, mut block) = ([0; 40], [0; 16]);
        let mut stream = Slow { left: b"kiln:\nvent|fan:\\\n\t:am:\nmore:", interrupted: false };
        let mut finder = Finder::new("fan", &mut text).unwrap();
        finder.feed_from(&mut stream, &mut block).unwrap();
        // The line's newline is the 23rd byte, and they come in parts of three.
        assert_eq!(stream.left, b"ore:");
        assert_eq!(finder.finish(), Ok(&b"vent|fan:\t:am:"[..]));
    }

    #[test]
    fn a_stream_that_breaks_is_told() {
        let (mut text, mut block) = ([0; 40], [0; 16]);
        let mut finder = Finder::new("fan", &mut text).unwrap();
        let broken = finder.feed_from(Slow { left: b"vent|", interrupted: false }, &mut block);
        assert_eq!(broken.unwrap_err().kind(), io::ErrorKind::BrokenPipe);
        // The rest of the file may come from elsewhere.
        finder.feed_from(&b"fan:am:"[..], &mut block).unwrap();
        let empty = finder.feed_from(&b"co#40:"[..], &mut []);
        assert_eq!(empty.unwrap_err().kind(), io::ErrorKind::InvalidInput);
        assert_eq!(finder.finish(), Ok(&b"vent|fan:am:"[..]));
    }

    #[test]
    fn a_megabyte_is_found_in_with_little_memory() {
        let (mut text, mut block) = ([0; FINDER_TEXT_BYTES], [0; 512]);
        let sample = include_bytes!("../../../data/sample.tc");
        let stream = io::repeat(b'#').take(1_048_576).chain(&b"\n"[..]).chain(&sample[..]);
        let mut finder = Finder::new("press-2", &mut text).unwrap();
        finder.feed_from(stream, &mut block).unwrap();
        let line = finder.finish().unwrap();
        assert_eq!(
            line,
            b"press-1|press-2|eccentric presses 1 and 2:\
\t:k1=\\EOP:k2=\\EOQ:TN#160:ST=\\E[7mstroke\\E[m:pO=\\E[5i:pf=\\E[4i:tc=hall:"
        );
    }
}

#[test]
fn refusals_and_kinds_have_their_numbers() {
    for number in 1..=17 {
        let refusal = Refusal::try_from(number).unwrap();
        assert_eq!(refusal.number(), number);
    }
    for number in [0, 99, 255, u32::MAX] {
        assert_eq!(Refusal::try_from(number), Err(NotARefusal(number)));
    }
    assert_eq!(Refusal::BadName.number(), 1);
    assert_eq!(Refusal::BadPadding.number(), 13);
    assert_eq!(Refusal::TooManyLines.number(), 14);
    assert_eq!(Refusal::PartialQuestion.number(), 15);
    assert_eq!(Refusal::BadEnds.number(), 16);
    assert_eq!(Refusal::InvalidState.number(), 17);
    assert_eq!(NotARefusal(99).to_string(), "99 is no refusal number");

    assert_eq!(Kind::from_number(3), Some(Kind::String));
    assert_eq!(Kind::from_number(4), None);
    assert_eq!(Record::from_bytes([b'c', b'o', 0, 0, 0, 0, 0, 0, 0, 0, 0, 0]), None);
}
