//! The grid codes: their form, their ranges, their refusals and the order of these. Writing formats
//! a text; reading takes one apart and shares nothing with the writing.

use crate::calls::RANGE;

pub const FORM: u8 = 31;
pub const NEGATIVE: u8 = 32;
pub const ROOM: u8 = 33;

/// What a code tells. The text has north before east; arguments and answers have east first.
#[derive(Clone, Copy, Debug, PartialEq, Eq)]
pub struct Code {
    pub side: i64,
    pub east: i64,
    pub north: i64,
}

/// The text that goes into the first of `room` lent bytes: "writing tests 3 (another side, or a
/// number too far from 0 on either side), then 32, then 33".
pub fn write(code: &Code, room: usize) -> Result<String, u8> {
    let word = match code.side {
        10_000 => "100m",
        100_000 => "1km",
        1_000_000 => "10km",
        _ => return Err(RANGE),
    };
    // Beyond the limit divided by the side, told without a division.
    let far = |number: i64| (i128::from(number) * i128::from(code.side)).abs() > 5_000_000_000;
    if far(code.east) || far(code.north) {
        return Err(RANGE);
    }
    if code.east < 0 || code.north < 0 {
        return Err(NEGATIVE);
    }
    let text = format!("{word}N{}E{}", code.north, code.east);
    if text.len() > room {
        return Err(ROOM);
    }
    Ok(text)
}

/// "lent bytes that hold nothing else": a side's word, N, a number, E, a number, the end.
pub fn read(text: &[u8]) -> Result<Code, u8> {
    parse(text).ok_or(FORM)
}

fn parse(text: &[u8]) -> Option<Code> {
    // No word and no number has either letter, so the first of each must be the one that parts.
    let (word, numbers) = part(text, b'N')?;
    let (north, east) = part(numbers, b'E')?;
    let (side, largest) = match word {
        b"100m" => (10_000, 500_000),
        b"1km" => (100_000, 50_000),
        b"10km" => (1_000_000, 5_000),
        _ => return None,
    };
    Some(Code {
        side,
        east: number(east, largest)?,
        north: number(north, largest)?,
    })
}

/// What stands before the first such letter, and what stands after it.
fn part(text: &[u8], letter: u8) -> Option<(&[u8], &[u8])> {
    let at = text.iter().position(|&byte| byte == letter)?;
    Some((&text[..at], &text[at + 1..]))
}

/// Digits alone, at least one, the first not 0 unless it stands alone, and not above the largest.
fn number(digits: &[u8], largest: i128) -> Option<i64> {
    if digits.is_empty() || !digits.iter().all(u8::is_ascii_digit) {
        return None;
    }
    if digits[0] == b'0' && digits.len() > 1 {
        return None;
    }
    let mut value: i128 = 0;
    for digit in digits {
        value = value * 10 + i128::from(digit - b'0');
        // Further digits only add to it; stopping here keeps it small.
        if value > largest {
            return None;
        }
    }
    i64::try_from(value).ok()
}
