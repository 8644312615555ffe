//! A good line made into one that is mostly of another form, or just as long as a line may be.

use super::Random;
use crate::model::listing::LONGEST;

pub fn spoil(random: &mut Random, line: Vec<u8>) -> Vec<u8> {
    match random.below(12) {
        0 | 1 => spaces(random, line),
        2..=4 => bytes(random, line),
        5 => fields(random, &line),
        6..=8 => numbers(random, &line),
        9 | 10 => padded(random, line),
        _ => any_bytes(random),
    }
}

/// Any place in a line, its end included.
fn place(random: &mut Random, line: &[u8]) -> usize {
    match random.below(4) {
        0 => 0,
        1 => line.len(),
        _ => random.below(line.len() as u64 + 1) as usize,
    }
}

/// A place where a space stands, if there is one.
fn space(random: &mut Random, line: &[u8]) -> Option<usize> {
    let places: Vec<usize> = (0..line.len()).filter(|&place| line[place] == b' ').collect();
    if places.is_empty() {
        return None;
    }
    Some(random.pick(&places))
}

/// A space too many, too few, or another byte instead.
fn spaces(random: &mut Random, mut line: Vec<u8>) -> Vec<u8> {
    match (random.below(5), space(random, &line)) {
        (0, Some(place)) => line.insert(place, b' '),
        (1, Some(place)) => drop(line.remove(place)),
        (2, Some(place)) => line[place] = random.pick(b"\t,\0\r\x0b\xa0_"),
        _ => line.insert(place(random, &line), b' '),
    }
    line
}

/// A byte that ends no line; those next to digits and letters, and those that others take for an end, more often.
fn byte(random: &mut Random) -> u8 {
    match random.below(4) {
        0 => random.pick(b"/:@G`gxX+-.\r\t\0\x1a\x7f\x80\xff"),
        1 => random.pick(b"swrqeSWRQE0123456789abcdefABCDEF"),
        _ => match random.below(256) as u8 {
            b'\n' => b'\r',
            other => other,
        },
    }
}

/// A byte inserted, replaced or taken away, a letter in the other case, or an end of line as others write it.
fn bytes(random: &mut Random, mut line: Vec<u8>) -> Vec<u8> {
    let place = place(random, &line);
    let inside = place.min(line.len() - 1);
    match random.below(6) {
        0 => line.insert(place, byte(random)),
        1 => line[inside] = byte(random),
        2 => drop(line.remove(inside)),
        3 => line[0] = line[0].to_ascii_uppercase(),
        4 => line.push(random.pick(b"\r\0 \t")),
        _ => line[inside] |= 0x80,
    }
    line
}

/// A field too many, too few or empty, two fields exchanged, or another letter.
fn fields(random: &mut Random, line: &[u8]) -> Vec<u8> {
    let mut fields: Vec<&[u8]> = line.split(|&byte| byte == b' ').collect();
    let place = random.below(fields.len() as u64) as usize;
    match random.below(6) {
        0 => fields.insert(place, fields[place]),
        1 => fields.push(b"0"),
        2 => drop(fields.remove(place)),
        3 => fields[place] = b"",
        4 => fields.swap(0, place),
        _ => fields[0] = random.pick(&[b"s", b"w", b"r", b"q", b"e", b"x"]),
    }
    fields.join(&b' ')
}

/// One number at or beyond an end of its range, or in a form that other programs take.
fn numbers(random: &mut Random, line: &[u8]) -> Vec<u8> {
    let mut fields: Vec<Vec<u8>> = line.split(|&byte| byte == b' ').map(<[u8]>::to_vec).collect();
    if fields.len() < 2 {
        return padded(random, line.to_vec());
    }
    let place = random.between(1, fields.len() as u64 - 1) as usize;
    fields[place] = number(random, &fields[place]).into_bytes();
    fields.join(&b' ')
}

fn number(random: &mut Random, field: &[u8]) -> String {
    let old = String::from_utf8_lossy(field).into_owned();
    let beyond = (1u128 << 64) + random.below(50) as u128;
    match random.below(14) {
        0 => u64::MAX.to_string(),
        1 => beyond.to_string(),
        2 => (beyond << random.below(60)).to_string(),
        3 => "9".repeat(random.between(19, 21) as usize),
        4 => format!("1{:0>20}", random.below(100)),
        5 => "f".repeat(random.between(15, 17) as usize),
        6 => format!("{beyond:x}"),
        7 => format!("{}{:0>16x}", random.pick(&["0", "1", "8", "10"]), random.number()),
        8 => random.pick(&["4294967295", "4294967296", "4294967297", "2", "00", "01"]).into(),
        9 => random.pick(&["0x", "0X", "+", "-", "#", "0b", "$"]).to_string() + &old,
        10 => old + random.pick(&["h", "u", ".", ".0", "e0", "_0", "L", ","]),
        11 => random.pick(&["a", "F", "g", "", "-", "+", "0x"]).into(),
        _ => random.number().to_string(),
    }
}

/// Zeros before a number until the line is about as long as one may be, or much longer.
fn padded(random: &mut Random, mut line: Vec<u8>) -> Vec<u8> {
    let length = match random.below(60) {
        0 => random.between(4_000, 9_000),
        1 => random.between(60_000, 70_000),
        2..=5 => random.between(83, 300),
        6..=9 => LONGEST as u64 + 80,
        _ => random.between(LONGEST as u64 - 1, LONGEST as u64 + 2),
    };
    let missing = (length as usize).saturating_sub(line.len());
    let (place, filling) = match space(random, &line) {
        Some(space) if random.percent(90) => (space + 1, b'0'),
        _ => (line.len(), random.pick(b" x\0")),
    };
    line.splice(place..place, std::iter::repeat(filling).take(missing));
    line
}

/// Any bytes, at times none.
fn any_bytes(random: &mut Random) -> Vec<u8> {
    let length = random.pick(&[0, 0, 0, 1, 1, 2, 5, 20, 80, 81]);
    (0..length).map(|_| byte(random)).collect()
}
