//! Document 02, Ask 8: databases that arrive in blocks.

use super::{bytes, example, observe, Case, Example, Operation, CASE};
use super::{Refused, Results, Standing};
use crate::reference::finder::State;
use crate::subject::Subject;

pub fn all() -> Vec<Example> {
    [lines_found(), pairs_at_cuts(), ignored_lines(), limits(), refused(), standing(), any_bytes()]
        .into_iter()
        .flatten()
        .collect()
}

/// What is wrong with the results, or with what the finder has after its blocks.
pub fn wrong(example: &Example, subject: &impl Subject) -> Option<String> {
    let seen = observe(&example.case, subject).finder.expect("it is a finder's example");
    match &example.expected {
        Results(results) => (seen.results != *results)
            .then(|| format!("expected: {results:?}\nseen:     {:?}\n", seen.results)),
        Standing([stage, matched, count, held], text) => {
            let mut right = crate::finder::Lent::before(&example.case);
            let mut name = [0; 64];
            name[..example.case.name.len()].copy_from_slice(&example.case.name);
            right.states[1] = State {
                stage: *stage as u8,
                matched: *matched as u8,
                count: *count,
                held: *held as u8,
                ended: 0,
                size: example.case.name.len() as u16,
                name,
            };
            right.text_block[super::GUARD..super::GUARD + text.len()].copy_from_slice(text);
            (seen.fed != right).then(|| {
                let texts = [right.text(), seen.fed.text()].map(<[u8]>::escape_ascii);
                let [expected, seen_text] = texts.map(|text| text.to_string());
                let (right, seen) = (right.state(), seen.fed.state());
                format!("expected: {right:?} {expected}\nseen:     {seen:?} {seen_text}\n")
            })
        }
        _ => unreachable!("the other examples are judged by their answers"),
    }
}

/// A finder that is lent 40 bytes of text and 40 of room, fed these blocks.
fn find(name: &[u8], blocks: &[&[u8]]) -> Case {
    let mut cuts: Vec<usize> = Vec::new();
    for block in blocks {
        cuts.push(cuts.last().unwrap_or(&0) + block.len());
    }
    cuts.pop();
    Case {
        operation: Operation::Finder,
        database: blocks.concat(),
        cuts,
        name: name.to_vec(),
        text_room: 40,
        room: 40,
        fill: 7,
        ..Case::default()
    }
}

/// The worked example of the header and the manual.
const FAN: [&[u8]; 3] = [b"# hall\nve", b"nt|fan:am:\\", b"\n\t:co#40:\nkiln"];
const FAN_LINE: &[u8] = b"vent|fan:am:\t:co#40:";

/// With so many bytes of text and of room.
fn lent(case: Case, text_room: u64, room: u64) -> Case {
    Case { text_room, room, ..case }
}

/// "It collects the joined line of the first description with the asked name."
fn lines_found() -> Vec<Example> {
    let (first, rest) = CASE.split_at(66);
    vec![
        example(
            "found in the whole case, cut in its name",
            find(b"aaa-nam", &[first, rest]),
            bytes(b"QZ|aaa-nam:am@:tc=aaa:"),
        ),
        example(
            "found in the first line",
            find(b"aaa", &[CASE]),
            bytes(b"N9|aaa:am:li#30:tc=aaa-unk:"),
        ),
        example("fan, the line", find(b"fan", &FAN), bytes(FAN_LINE)),
        example("a name over three blocks", find(b"abc", &[b"a", b"b", b"c:"]), bytes(b"abc:")),
        example("an earlier line hides it", find(b"n", &[b"x|n:a\nn", b":b"]), bytes(b"x|n:a")),
        example("found without a colon", find(b"n", &[b"n", b"\nn:am:"]), bytes(b"n")),
        example("the last name of a line", find(b"n", &[b"a|b|", b"n", b"\n"]), bytes(b"a|b|n")),
        example("the last name of the file", find(b"n", &[b"a|b|", b"n"]), bytes(b"a|b|n")),
        example(
            "compared whole",
            find(b"ab", &[b"a|abc|xab|aab\n", b"Ab\nx|ab|c"]),
            bytes(b"x|ab|c"),
        ),
        example("a name in the fields", find(b"n", &[b"x:n|n:\nn", b":"]), bytes(b"n:")),
        example(
            "fields are not judged",
            find(b"n", &[b"n:li#x:", b"tc=n:\\q:tc:"]),
            bytes(b"n:li#x:tc=n:\\q:tc:"),
        ),
        example("empty blocks", find(b"n", &[b"", b"n:", b"", b"", b"am:", b""]), bytes(b"n:am:")),
        example("nothing but empty blocks", find(b"n", &[b"", b""]), Refused(4)),
        example("no blocks", find(b"n", &[]), Refused(4)),
        example("not in the file", find(b"n", &[b"x|", b"nn:\nN:\n"]), Refused(4)),
    ]
}

/// "A newline whose preceding byte is a backslash vanishes with that backslash, wherever it stands."
fn pairs_at_cuts() -> Vec<Example> {
    vec![
        example(
            "a pair cut in two",
            find(b"n", &[b"n:am:\\", b"\n\t:co:\n"]),
            bytes(b"n:am:\t:co:"),
        ),
        example("a pair in a name", find(b"vt52", &[b"vt\\", b"\n", b"52:"]), bytes(b"vt52:")),
        example("a pair behind a name, cut", find(b"n", &[b"n\\", b"\n|m:"]), bytes(b"n|m:")),
        example("no newline behind it", find(b"n", &[b"n:\\", b"E:"]), bytes(b"n:\\E:")),
        example("no byte behind it", find(b"n", &[b"n:a\\"]), bytes(b"n:a\\")),
        example("a name that ends in it", find(b"n", &[b"n\\"]), Refused(4)),
        example(
            "two backslashes and a newline",
            find(b"n", &[b"n:cl=\\", b"\\", b"\nE:\n"]),
            bytes(b"n:cl=\\E:"),
        ),
        example("a newline behind a pair", find(b"m", &[b"n:\\\n", b"\nm:"]), bytes(b"m:")),
        example("a pair and no more", find(b"n", &[b"n\\", b"\n"]), bytes(b"n")),
    ]
}

fn ignored_lines() -> Vec<Example> {
    vec![
        example("a comment has no names", find(b"n", &[b"#|n:\n", b"n:b"]), bytes(b"n:b")),
        example("a comment and its next line", find(b"n", &[b"# c\\", b"\nn:am:\n"]), Refused(4)),
        example("a comment behind a pair", find(b"n", &[b"\\\n#|n:\n", b"n:"]), bytes(b"n:")),
        example("found by a name with #", find(b"#x", &[b"#x:\n", b"y|#x:"]), bytes(b"y|#x:")),
        example("a blank and #", find(b" #x", &[b" ", b"#x:"]), bytes(b" #x:")),
        example("a blank line is no name", find(b"  ", &[b"  \n", b"  "]), Refused(4)),
        example("a blank name", find(b"  ", &[b"  \n", b"  ", b":am:"]), bytes(b"  :am:")),
        example("a blank name and others", find(b" ", &[b" \n", b"x| "]), bytes(b"x| ")),
        example("tabs and a bar", find(b" ", &[b"\t", b"| |"]), bytes(b"\t| |")),
    ]
}

/// "A matching line longer than 16,384 joined bytes is 8 (fields aren't judged); other lines may be as
/// long as they like. Limit 3 doesn't hold."
fn limits() -> Vec<Example> {
    let line = |size: usize| [&b"x|n:"[..], &vec![b'f'; size - 4]].concat();
    let with_pairs = [&line(16_000)[..], b"\\\n\\\n", &[b'g'; 384]].concat();
    let joined = [&line(16_000)[..], &[b'g'; 384]].concat();
    let full = |case| lent(case, 16_384, 16_384);
    let long = vec![b'x'; 20_000];
    let late_name = [&long[..], b"|n:"].concat();
    vec![
        example("a line of 16,384", full(find(b"n", &[&line(16_384)])), bytes(&line(16_384))),
        example("a line of 16,385", full(find(b"n", &[&line(16_385)])), Refused(8)),
        example(
            "a line of 16,385 in more text",
            lent(find(b"n", &[&line(16_385), b"\n"]), 20_000, 20_000),
            Refused(8),
        ),
        example("pairs do not count", full(find(b"n", &[&with_pairs])), bytes(&joined)),
        example("a name behind 20,000 bytes", full(find(b"n", &[&late_name])), Refused(8)),
        example("a long comment before", find(b"n", &[b"#", &long, b"\nn:"]), bytes(b"n:")),
        example("long fields before", find(b"n", &[b"m:", &long, b"\nn:"]), bytes(b"n:")),
        example("long names before", find(b"n", &[&long, b"|m\n", b"n:"]), bytes(b"n:")),
        example(
            "over 1,048,576 bytes",
            find(b"n", &[&vec![b'\n'; 700_000], &vec![b'\n'; 700_000], b"n:"]),
            bytes(b"n:"),
        ),
    ]
}

fn refused() -> Vec<Example> {
    let long = [b'N'; 65];
    let over = [&b"n:"[..], &vec![b'x'; 16_383]].concat();
    let line = [&long[..64], b":"].concat();
    vec![
        example("open: no bytes", find(b"", &[b"n:"]), Refused(1)),
        example("open: 65 bytes", lent(find(&long, &[b"N"]), 80, 80), Refused(1)),
        example("open: 64 bytes", lent(find(&long[..64], &[&line]), 65, 65), bytes(&line)),
        example("open: a bar", find(b"a|b", &[b"a|b:"]), Refused(1)),
        example("open: a backslash", find(b"a\\", &[b"a\\:"]), Refused(1)),
        example("open: a newline", find(b"n\n", &[b"n\n"]), Refused(1)),
        example("4 before 9", lent(find(b"n", &[b"x:"]), 0, 0), Refused(4)),
        example("8 before 9", lent(find(b"n", &[&over]), 0, 0), Refused(8)),
        example("no room in the output", lent(find(b"n", &[b"n:am:\n"]), 40, 4), Refused(9)),
        example("no room in the text", lent(find(b"n", &[b"n:am:\n"]), 4, 40), Refused(9)),
        example("just room in both", lent(find(b"n", &[b"n:am:\n"]), 5, 5), bytes(b"n:am:")),
        example(
            "a line before that is longer than the text",
            lent(find(b"n", &[b"longer|names:\nn:"]), 2, 2),
            bytes(b"n:"),
        ),
        example(
            "17 before the end and after it",
            find(b"n", &[b"n:", b"am:"]),
            Results(vec![0, 0, 0, 17, 0, 17, 17]),
        ),
        example(
            "a finder that was refused has ended",
            find(b"a:b", &[b"n:", b"am:"]),
            Results(vec![1, 17, 17, 4, 17, 17, 17]),
        ),
    ]
}

/// What the header says of the fields: stage, matched, count and held after the blocks.
fn standing() -> Vec<Example> {
    let state = |state, text: &[u8]| Standing(state, text.to_vec());
    vec![
        example("opened, not fed", find(b"ab", &[]), state([0, 0, 0, 0], b"")),
        example("only blanks", find(b"ab", &[b" \t"]), state([0, 65, 2, 0], b" \t")),
        example("blanks as in the name", find(b"  b", &[b" ", b" "]), state([0, 2, 2, 0], b"  ")),
        example("within a name", find(b"ab", &[b"x|", b"a"]), state([1, 1, 3, 0], b"x|a")),
        example("a whole name", find(b"ab", &[b"ab"]), state([1, 2, 2, 0], b"ab")),
        example("a byte too many", find(b"ab", &[b"ab", b"a"]), state([1, 65, 3, 0], b"aba")),
        example("behind a bar", find(b"ab", &[b"x|"]), state([1, 0, 2, 0], b"x|")),
        example("the line has the name", find(b"ab", &[b"ab|"]), state([2, 0, 3, 0], b"ab|")),
        example("in its fields", find(b"ab", &[b"ab:am"]), state([2, 0, 5, 0], b"ab:am")),
        example("in a comment", find(b"ab", &[b"# ab|"]), state([3, 0, 0, 0], b"")),
        example("in other fields", find(b"ab", &[b"x|y:ab|"]), state([3, 0, 3, 0], b"x|y")),
        example("complete", find(b"ab", &[b"ab:\nx|y:\n"]), state([4, 0, 3, 0], b"ab:")),
        example("held", find(b"ab", &[b"ab:\\"]), state([2, 0, 3, 1], b"ab:")),
        example("held, then not", find(b"ab", &[b"ab:\\", b"E"]), state([2, 0, 5, 0], b"ab:\\E")),
        example("held in vain", find(b"ab", &[b"ab:\nx:\\"]), state([4, 0, 3, 1], b"ab:")),
        example("fan, first block", find(b"fan", &FAN[..1]), state([1, 65, 2, 0], b"ve")),
        example("fan, held", find(b"fan", &FAN[..2]), state([2, 0, 12, 1], b"vent|fan:am:")),
        example("fan, complete", find(b"fan", &FAN), state([4, 0, 20, 0], FAN_LINE)),
        example(
            "names of a line before",
            find(b"ab", &[b"vt100|x:am:\n", b"a"]),
            state([1, 1, 1, 0], b"at100|x"),
        ),
        example(
            "text of two bytes",
            lent(find(b"ab", &[b"x|ab:"]), 2, 9),
            state([2, 0, 5, 0], b"x|"),
        ),
    ]
}

/// A finder that starts as these numbers: stage, matched, count, held, ended and size.
fn started(numbers: [u16; 6], name: &[u8], blocks: &[&[u8]]) -> Case {
    let [stage, matched, count, held, ended, size] = numbers;
    let ([c0, c1], [s0, s1]) = (count.to_ne_bytes(), size.to_ne_bytes());
    let numbers = [stage as u8, matched as u8, c0, c1, held as u8, ended as u8, s0, s1];
    Case {
        operation: Operation::FinderState,
        state: [&numbers[..], name].concat(),
        name: Vec::new(),
        ..find(b"", blocks)
    }
}

/// "Any bytes in it are safe."
fn any_bytes() -> Vec<Example> {
    let all = Case { state: vec![0xff; 72], ..started([0; 6], b"", &[b"n:am:"]) };
    let fed = |numbers| started(numbers, b"n", &[b"n", b":"]);
    vec![
        example("72 bytes 255", all, Refused(17)),
        example("72 bytes 0", started([0; 6], b"", &[b"n:am:"]), Refused(4)),
        example("any number but 0 is ended", fed([0, 0, 0, 0, 2, 1]), Refused(17)),
        example("a stage of 9 is 1", fed([9, 0, 0, 0, 0, 1]), bytes(b"n:")),
        example("16,385 were collected", fed([4, 0, 16_385, 0, 0, 1]), Refused(8)),
        example("65,535 were collected", fed([4, 0, 65_535, 0, 0, 1]), Refused(8)),
        example("16,384 were collected", fed([4, 0, 16_384, 0, 0, 1]), Refused(9)),
        example("the 16,385th byte", fed([2, 0, 16_383, 0, 0, 1]), Refused(8)),
        example("any number but 0 is held", fed([3, 0, 5, 255, 0, 1]), Refused(4)),
        example(
            "held before a newline",
            started([2, 0, 0, 9, 0, 1], b"n", &[b"\nab\ncd"]),
            bytes(b"ab"),
        ),
        example("a size over 64", fed([0, 0, 0, 0, 0, 65_535]), Refused(4)),
        example("matched over the size", fed([1, 200, 0, 0, 0, 1]), Refused(4)),
    ]
}
