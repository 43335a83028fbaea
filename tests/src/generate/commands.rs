//! Commands, positions, and the numbers that go with them.

use crate::case::{Case, Operation};
use crate::random::Random;

pub fn fill_in(random: &mut Random, case: &mut Case) {
    if case.operation.takes_position() {
        case.row = position(random);
        case.column = position(random);
        case.back = step_string(random);
        case.up = step_string(random);
    }
    if case.operation.takes_speed() {
        case.lines = lines(random);
        case.speed = speed(random);
        let any = random.byte();
        case.pad = random.pick_value(&[0, 0, 127, 128, b'%', b'5', any]);
    }
    if case.operation == Operation::Pad {
        case.delay = delay(random);
        case.star = random.pick_value(&[0, 0, 0, 1, 1, 2, 1 << 32, u64::MAX]);
    }
    case.command = padding_prefix(random);
    let body = body(random, case);
    case.command.extend_from_slice(&body);
    // A body may start with a digit, and then belongs to the padding: that is wanted.
    if random.chance(7) {
        cut_off(random, &mut case.command);
    }
}

/// Ends the command early, mostly within a percent sequence.
fn cut_off(random: &mut Random, command: &mut Vec<u8>) {
    let signs: Vec<usize> = (0..command.len()).filter(|&place| command[place] == b'%').collect();
    let end = if signs.is_empty() || random.chance(30) {
        random.below(command.len() + 1)
    } else {
        signs[random.below(signs.len())] + random.between(1, 3) as usize
    };
    command.truncate(end);
}

fn position(random: &mut Random) -> u64 {
    const EDGES: [u64; 20] =
        [0, 0, 0, 9, 9, 9, 10, 10, 10, 1, 4, 8, 11, 15, 16, 27, 127, 246, 255, 256];
    const OUTSIDE: [u64; 8] =
        [10_000, 10_001, 65_536, 65_545, 1 << 31, 1 << 32, (1 << 32) + 9, u64::MAX];
    let random_large = random.between(257, 9_999);
    match random.weighted(&[66, 17, 10, 5, 2]) {
        0 => random.pick_value(&EDGES),
        1 => random.between(0, 30),
        2 => random.between(0, 300),
        3 => random.pick_value(&[9_999, random_large]),
        _ => random.pick_value(&OUTSIDE),
    }
}

fn step_string(random: &mut Random) -> Vec<u8> {
    const STRINGS: [&[u8]; 8] = [b"\x08", b"\x1b[D", b"^", b"%d", b"5*", b"\0", b"<<", b"%"];
    match random.weighted(&[42, 50, 8]) {
        0 => Vec::new(),
        1 => random.pick(&STRINGS).to_vec(),
        _ => (0..random.between(1, 40)).map(|_| random.byte()).collect(),
    }
}

fn lines(random: &mut Random) -> u64 {
    const OUTSIDE: [u64; 7] = [0, 0, 1_001, 1 << 16, 1 << 32, (1 << 32) + 1, u64::MAX];
    match random.weighted(&[50, 31, 8, 6, 5]) {
        0 => 1,
        1 => random.between(2, 30),
        2 => random.between(1, 1_000),
        3 => 1_000,
        _ => random.pick_value(&OUTSIDE),
    }
}

fn speed(random: &mut Random) -> u64 {
    const USUAL: [u64; 9] = [0, 50, 110, 300, 1_000, 1_200, 2_400, 9_600, 19_200];
    const OUTSIDE: [u64; 6] = [115_201, 115_201, 1 << 17, 1 << 32, (1 << 32) + 9_600, u64::MAX];
    match random.weighted(&[60, 17, 10, 9, 4]) {
        0 => random.pick_value(&USUAL),
        1 => random.between(0, 2_000),
        2 => random.between(0, 115_200),
        3 => 115_200,
        _ => random.pick_value(&OUTSIDE),
    }
}

/// In tenths, handed to the second half.
fn delay(random: &mut Random) -> u64 {
    const EDGES: [u64; 6] = [99_990, 99_998, 99_999, 99_999, 1, 10];
    const OUTSIDE: [u64; 7] =
        [100_000, 100_000, 100_001, 1 << 17, 1 << 32, (1 << 32) + 50, u64::MAX];
    match random.weighted(&[24, 50, 8, 12, 6]) {
        0 => 0,
        1 => random.between(1, 2_000),
        2 => random.between(1, 99_999),
        3 => random.pick_value(&EDGES),
        _ => random.pick_value(&OUTSIDE),
    }
}

fn padding_prefix(random: &mut Random) -> Vec<u8> {
    const EDGES: [&[u8]; 34] = [
        b"5.", b"5.*", b"5*.3", b"5**", b"1.2.3", b"1.23", b"1.23*", b"12345", b"00001", b"0000",
        b"0001", b"9999", b"9999.9", b"9999.9*", b"10000", b"0", b"0.0*", b"0.1", b"*5", b".5",
        b"1234.", b"12345.", b"12345.6", b"1.2*", b"1.2**", b"5.x", b"5 *", b"5.*3", b"5*5",
        b"999999999999999999999", b"5.%d", b"1.11111", b"00000000", b"3.4.",
    ];
    match random.weighted(&[45, 33, 22]) {
        0 => Vec::new(),
        1 => {
            let any = random.below(200);
            let mut prefix = random.pick_value(&[5, 20, 100, any]).to_string();
            if random.chance(30) {
                prefix += &format!(".{}", random.below(10));
            }
            if random.chance(40) {
                prefix += "*";
            }
            prefix.into_bytes()
        }
        _ => random.pick(&EDGES).to_vec(),
    }
}

fn body(random: &mut Random, case: &Case) -> Vec<u8> {
    if case.operation.takes_position() {
        match random.weighted(&[8, 8, 20, 64]) {
            0 => return overflow(random, case),
            1 => return negative(random, case),
            2 => return raising(random, case),
            _ => {}
        }
    }
    let long = random.chance(1);
    let planned = random.chance(70);
    let mut body = plain(random, long);
    for _ in 0..random.between(1, 2) {
        let changes = if random.chance(45) { random.below(4) } else { 0 };
        for _ in 0..changes {
            change(random, case, &mut body);
        }
        output(random, case, &mut body);
        body.extend_from_slice(&plain(random, long));
    }
    if !planned {
        for _ in 0..random.between(1, 3) {
            loose_end(random, case, &mut body);
        }
    }
    body
}

fn plain(random: &mut Random, long: bool) -> Vec<u8> {
    let length = if long { random.below(3_000) } else { random.below(4) };
    (0..length).map(|_| random.pick_value(b"\x1b[;H=ABxyz.*+ i5\x00\xff")).collect()
}

fn change(random: &mut Random, case: &Case, body: &mut Vec<u8>) {
    const OPERANDS: &[u8] = b"\x00\x01\x08\x09\x0a\x20%%\x5f\x7f\x80\xfe\xff";
    let random_operand = random.pick_value(OPERANDS);
    match random.weighted(&[24, 15, 18, 18, 15, 10]) {
        0 => body.extend_from_slice(b"%i"),
        1 => body.extend_from_slice(b"%n"),
        2 => body.extend_from_slice(b"%r"),
        3 => {
            // Compared with the value itself, or with one less or more.
            let near =
                random.pick_value(&[case.row, case.column]).wrapping_add(random.number() % 3);
            let above = random.pick_value(&[random_operand, near.wrapping_sub(1) as u8]);
            body.extend_from_slice(&[b'%', b'>', above, random.pick_value(OPERANDS)]);
        }
        4 => body.extend_from_slice(b"%B"),
        _ => body.extend_from_slice(b"%D"),
    }
}

fn output(random: &mut Random, case: &Case, body: &mut Vec<u8>) {
    match random.weighted(&[25, 8, 8, 32, 24, 3]) {
        0 => body.extend_from_slice(b"%d"),
        1 => body.extend_from_slice(b"%2"),
        2 => body.extend_from_slice(b"%3"),
        3 => body.extend_from_slice(b"%."),
        4 => body.extend_from_slice(&[b'%', b'+', addend(random, case)]),
        _ => body.extend_from_slice(b"%%"),
    }
}

/// Bytes to be sent that are raised, stand beside those, or are the last ones allowed.
const EDGE_SUMS: [u64; 15] = [0, 0, 4, 4, 9, 9, 10, 10, 3, 5, 8, 11, 254, 255, 256];

/// A byte whose sum with a parameter is likely to be raised, or to leave 0..255.
fn addend(random: &mut Random, case: &Case) -> u8 {
    const USUAL: &[u8] = b"  %\x00\x01\x09\x0a\xff";
    if random.chance(40) {
        return random.pick_value(USUAL);
    }
    let value = random.pick_value(&[case.row, case.column]);
    random.pick_value(&EDGE_SUMS).wrapping_sub(value) as u8
}

/// Two outputs of bytes that are often raised, with changes that leave the sums foreseeable.
fn raising(random: &mut Random, case: &Case) -> Vec<u8> {
    let mut values = [case.row, case.column];
    let mut body = plain(random, false);
    if random.chance(30) {
        body.extend_from_slice(b"%i");
        values = values.map(|value| value.wrapping_add(1));
    }
    if random.chance(40) {
        body.extend_from_slice(b"%r");
        values.swap(0, 1);
    }
    for value in values {
        let raised = random.pick_value(&[0, 4, 9, 10]);
        if raised < value || random.chance(30) {
            body.extend_from_slice(b"%.");
        } else if random.chance(75) {
            body.extend_from_slice(&[b'%', b'+', (raised - value) as u8]);
        } else {
            body.extend_from_slice(&[b'%', b'+', addend(random, case)]);
        }
        body.extend_from_slice(&plain(random, false));
    }
    body
}

/// Something that may not be allowed where it stands.
fn loose_end(random: &mut Random, case: &Case, body: &mut Vec<u8>) {
    const FAULTY: [&[u8]; 16] = [
        b"%", b"%", b"%+", b"%>", b"%>x", b"%x", b"%s", b"%1", b"%4", b"%0", b"%a+1", b"%I", b"%b",
        b"%\x00", b"%\xff", b"%m",
    ];
    match random.weighted(&[30, 30, 40]) {
        0 => change(random, case, body),
        1 => output(random, case, body),
        _ => {
            let at = if random.chance(60) { body.len() } else { random.below(body.len() + 1) };
            body.splice(at..at, random.pick(&FAULTY).iter().copied());
        }
    }
}

/// A parameter made negative, if it is below 16, then changed again or brought back to a byte.
fn negative(random: &mut Random, case: &Case) -> Vec<u8> {
    let mut body = Vec::new();
    let second = random.chance(40);
    if second {
        body.extend_from_slice(b"%r");
    }
    body.extend_from_slice(b"%D");
    if second && random.chance(60) {
        body.extend_from_slice(b"%r");
    }
    for _ in 0..random.below(3) {
        change(random, case, &mut body);
    }
    for _ in 0..random.below(3) {
        let enough = [b'%', b'+', random.between(1, 40) as u8];
        let sequences: [&[u8]; 5] = [b"%d", b"%.", b"%r", &enough, &enough];
        body.extend_from_slice(random.pick(&sequences));
    }
    body
}

/// A parameter brought to 32,766 to 32,769, in steps that are allowed up to the limit, then changed
/// while it is the next one or the other.
fn overflow(random: &mut Random, case: &Case) -> Vec<u8> {
    if random.below(100) == 0 {
        let times = random.between(22_767, 22_770) as usize;
        return [b"%i".repeat(times), b"%d".to_vec()].concat();
    }
    let second = random.chance(50);
    let target = random.between(32_766, 32_769);
    let mut value = if second { case.column } else { case.row }.min(9_999);
    let mut body = if second { b"%r".to_vec() } else { Vec::new() };
    if value == 0 {
        body.extend_from_slice(b"%i");
        value += 1;
    }
    for _ in 0..random.below(4) {
        body.extend_from_slice(b"%B");
        value = value / 10 * 16 + value % 10;
    }
    while value < target {
        let step = (target - value).min(255) as u8;
        body.extend_from_slice(&[b'%', b'>', 0, step]);
        value += u64::from(step);
    }
    if second && random.chance(70) {
        body.extend_from_slice(b"%r");
    }
    if random.chance(60) {
        body.extend_from_slice(b"%i");
    }
    for _ in 0..random.below(3) {
        change(random, case, &mut body);
    }
    for _ in 0..random.below(3) {
        output(random, case, &mut body);
    }
    body
}
