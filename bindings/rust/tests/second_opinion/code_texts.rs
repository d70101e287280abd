//! Cell numbers, rooms and texts for the grid codes: right ones, ones next to these, hostile ones.

use crate::code_rules::Code;
use crate::random::Random;

/// The sides in cm, their words and their largest cell numbers.
pub const SIDES: [(i64, &str, i64); 3] = [
    (10_000, "100m", 500_000),
    (100_000, "1km", 50_000),
    (1_000_000, "10km", 5_000),
];

/// Words of sides that a code may have, and others near them.
const WORDS: [&str; 24] = [
    "100m", "1km", "10km", "10m", "100km", "1m", "1000m", "1000km", "2km", "0km", "01km", "0100m",
    "10Km", "1Km", "1KM", "100M", "+1km", " 1km", "1 km", "1k", "1mk", "km", "m", "",
];

/// What may stand in the places of N and E.
const LETTERS: [(&str, &str); 11] = [
    ("E", "N"),
    ("n", "e"),
    ("N", "e"),
    ("n", "E"),
    ("N", "N"),
    ("E", "E"),
    ("S", "W"),
    ("N", ""),
    ("", "E"),
    ("N ", "E "),
    ("NN", "E"),
];

/// Other ways to write a number, among them digits beyond ASCII.
const NUMERALS: [&str; 13] = [
    "", "00", "-0", "+0", "0x1", "0b1", "1e3", "1.0", "1,000", "1_000", "1 000", "\u{ff11}",
    "\u{663}",
];

/// A cell number that a code may have, often one at a change of digits or at the largest.
fn good_number(random: &mut Random, largest: i64) -> i64 {
    let any = random.between(0, largest);
    let small = random.between(0, 12);
    let last = largest - random.between(0, 2);
    let digits = 10_i64.pow(random.below(6) as u32) - random.between(0, 1);
    random.pick(&[any, any, any, small, last, digits.min(largest)])
}

/// A cell number that may be negative or too far, even as far as 64 bits reach.
fn any_number(random: &mut Random, largest: i64) -> i64 {
    let good = good_number(random, largest);
    let limit = random.pick(&[largest, -largest]) + random.between(-1, 1);
    let low = random.pick(&[-1, -1, -2, -good]);
    let digits = 10_i64.pow(random.below(19) as u32) - random.between(0, 1);
    // Good again when cut to 32 bits, or when its product with the side is cut to 64 bits.
    let cut = good + (random.between(-9, 9) << 32);
    let wrapped = good + (random.between(-32, 31) << 58);
    let far = random.any_size();
    let extreme = random.pick(&[i64::MIN, i64::MAX, far, -digits]);
    if random.percent(75) {
        good
    } else {
        random.pick(&[limit, limit, limit, low, low, digits, cut, wrapped, extreme])
    }
}

/// A code's content for the side, which may be a bad one; then the numbers are near those of any.
pub fn any_code(random: &mut Random, side: i64) -> Code {
    let other = random.pick(&SIDES);
    let (_, _, largest) = SIDES
        .into_iter()
        .find(|(good, _, _)| *good == side)
        .unwrap_or(other);
    Code {
        side,
        east: any_number(random, largest),
        north: any_number(random, largest),
    }
}

pub fn good_code(random: &mut Random) -> Code {
    let (side, _, largest) = random.pick(&SIDES);
    Code {
        side,
        east: good_number(random, largest),
        north: good_number(random, largest),
    }
}

/// Lent bytes for a code of this length: mostly just enough, one too few or one too many.
pub fn room(random: &mut Random, length: usize) -> usize {
    let any = random.below(25);
    // Enough, but not when cut to 8 bits.
    let many = 256 + random.below(8);
    random.pick(&[
        length,
        length,
        length,
        length + 1,
        length - 1,
        length - 1,
        18,
        0,
        any,
        many,
    ])
}

/// A text for the reader: a right code, one with a part or with bytes altered, or noise.
pub fn any_text(random: &mut Random) -> Vec<u8> {
    match random.below(10) {
        0..=2 => right(random),
        3..=5 => altered_part(random),
        6..=8 => {
            let mut text = right(random);
            alter_bytes(random, &mut text);
            // Sometimes a second time, so that one change may hide the other.
            if random.percent(20) && !text.is_empty() {
                alter_bytes(random, &mut text);
            }
            text
        }
        _ => noise(random),
    }
}

fn right(random: &mut Random) -> Vec<u8> {
    let (_, word, largest) = random.pick(&SIDES);
    let north = good_number(random, largest);
    let east = good_number(random, largest);
    format!("{word}N{north}E{east}").into_bytes()
}

fn altered_part(random: &mut Random) -> Vec<u8> {
    let (_, mut word, largest) = random.pick(&SIDES);
    let mut letters = ("N", "E");
    let mut numbers = [(); 2].map(|()| good_number(random, largest).to_string());
    match random.below(6) {
        0 => letters = random.pick(&LETTERS),
        1 => word = random.pick(&WORDS),
        _ => numbers[random.below(2)] = altered_number(random, largest),
    }
    let [north, east] = numbers;
    format!("{word}{}{north}{}{east}", letters.0, letters.1).into_bytes()
}

fn altered_number(random: &mut Random, largest: i64) -> String {
    let good = good_number(random, largest);
    match random.below(7) {
        0 => format!("{}{good}", random.pick(&["0", "00", "000000000000"])),
        1 => format!("{}{good}", random.pick(&["+", "-", " ", "\t", "\0", "N"])),
        2 => format!("{good}{}", random.pick(&[" ", ".", "e0", "E0", "\0", "m"])),
        3 => (largest + random.pick(&[0, 1, 1, 1, 2, 10])).to_string(),
        4 => {
            // Good again when cut to fewer bits.
            let bits = random.pick(&[16, 31, 32, 63, 64, 64, 64, 96]);
            let high = u128::from(random.bits() % 99 + 1);
            ((high << bits) + u128::from(good.unsigned_abs())).to_string()
        }
        5 => {
            let count = 1 + random.below(60);
            let digits = (0..count).map(|_| char::from(random.pick(b"0123456789")));
            digits.collect()
        }
        _ => random.pick(&NUMERALS).to_owned(),
    }
}

/// A byte that codes have, one that looks like it, or any.
fn byte(random: &mut Random) -> u8 {
    let any = random.bits() as u8;
    let near = random.pick(b"00123456789NEkmneKMOl+-. \n\0");
    random.pick(&[near, near, any])
}

/// One change in a text that is not empty.
fn alter_bytes(random: &mut Random, text: &mut Vec<u8>) {
    let [at, other] = [(); 2].map(|()| random.below(text.len()));
    let new = byte(random);
    match random.below(10) {
        0 => text[at] = new,
        1 => text.insert(random.below(text.len() + 1), new),
        2 => {
            text.remove(at);
        }
        3 => text.swap(at, other),
        4 => text.truncate(at),
        5 => text.extend_from_slice(random.pick(&[b" ", b"\n", b"\0", b"0", b"E", b"\xff"])),
        6 => text.insert(0, random.pick(b" \n\0+-0N1")),
        7 => {
            for byte in text.iter_mut() {
                // One bit is a letter's case.
                if byte.is_ascii_alphabetic() && random.percent(50) {
                    *byte ^= 0x20;
                }
            }
        }
        8 => text.extend_from_within(..),
        _ => lengthen(random, text),
    }
}

/// Hundreds or thousands of bytes more, often so many that the length cut to fewer bits is right.
fn lengthen(random: &mut Random, text: &mut Vec<u8>) {
    let any = random.below(9_000);
    let more = random.pick(&[any, any, 256, 256, 512, 4_096, 65_536]);
    let filler = byte(random);
    text.resize(text.len() + more, filler);
}

/// Nothing, any bytes, or any text of a code's bytes.
fn noise(random: &mut Random) -> Vec<u8> {
    let length = random.below(33);
    match random.below(3) {
        0 => Vec::new(),
        1 => (0..length).map(|_| random.bits() as u8).collect(),
        _ => (0..length)
            .map(|_| random.pick(b"0123456789NEkm"))
            .collect(),
    }
}
