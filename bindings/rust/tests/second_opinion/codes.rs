//! The grid codes' calls, raw and through the safe wrapper, against the second opinion: what they
//! write, what they leave untouched and what they read.

use crate::calls::RANGE;
use crate::code_rules::{self, Code, FORM, NEGATIVE, ROOM};
use crate::code_texts::{any_code, any_text, good_code, room, SIDES};
use crate::random::{inputs, seed, Random};
use crate::raw;
use crate::report::Report;
use crate::single::{filling, side};
use laea::{Cell, GridCode, Refusal, Side};

/// Bytes before and after the lent ones.
const MARGIN: usize = 9;

/// No code is longer.
const LONGEST: usize = 18;

fn number<T>(answer: &Result<T, u8>) -> u8 {
    answer.as_ref().err().copied().unwrap_or(0)
}

/// All that the wrapper's code shows.
fn seen(code: &GridCode) -> (Code, String) {
    assert_eq!(code.to_string(), code.as_str());
    let content = Code {
        side: code.side().centimetres(),
        east: code.cell().east,
        north: code.cell().north,
    };
    (content, code.as_str().to_owned())
}

/// The whole list as it must be after a call: the lent bytes begin with the text, if there is one.
fn after(before: &[u8], text: &Result<String, u8>) -> Vec<u8> {
    let mut list = before.to_vec();
    if let Ok(text) = text {
        list[MARGIN..][..text.len()].copy_from_slice(text.as_bytes());
    }
    list
}

/// The lent bytes without their margins.
fn lent(list: &mut [u8]) -> &mut [u8] {
    let end = list.len() - MARGIN;
    &mut list[MARGIN..end]
}

/// One test's random numbers and counts.
struct Run {
    random: Random,
    report: Report,
    accepted: u64,
}

impl Run {
    fn new(name: &'static str, seed: u64) -> Run {
        Run {
            random: Random::new(seed),
            report: Report::new(name, seed),
            accepted: 0,
        }
    }

    fn count(&mut self, number: u8) {
        self.report.inputs += 1;
        self.report.answered(number);
        self.accepted += u64::from(number == 0);
    }

    /// A run that hardly accepts, or hardly refuses, would compare little.
    fn end_balanced(self, expected: &[u8]) {
        let tenth = self.report.inputs / 10;
        let refused = self.report.inputs - self.accepted;
        assert!(
            self.accepted >= tenth && refused >= tenth,
            "accepted {}, refused {refused}",
            self.accepted
        );
        self.report.end(expected);
    }

    /// Writing into `room` bytes, which stand in a longer list of random ones.
    fn write(&mut self, code: &Code, room: usize) -> Result<String, u8> {
        let expected = code_rules::write(code, room);
        let mut before = vec![0; MARGIN + room + MARGIN];
        before.fill_with(|| self.random.bits() as u8);
        let mut length = [(); 3].map(|()| filling(&mut self.random));
        let mut length_after = length;
        if let Ok(text) = &expected {
            length_after[1] = text.len() as u64;
        }
        let mut list = before.clone();
        let null = room == 0 && self.random.percent(50);
        let bytes = if null { None } else { Some(lent(&mut list)) };
        let given = raw::write_code(code, bytes, &mut length);
        self.report.calls += 1;
        assert_eq!(
            given,
            number(&expected),
            "{code:?} in {room}: expected {expected:?}, length {length:?}, list {list:?}"
        );
        assert_eq!(length, length_after, "{code:?} in {room}: {expected:?}");
        assert_eq!(
            list,
            after(&before, &expected),
            "{code:?} in {room}: expected {expected:?} in {before:?}"
        );
        self.write_wrapped(code, &before, &expected);
        self.count(number(&expected));
        expected
    }

    /// The wrapper takes the room only after the code is made, so that 33 comes from its `write`.
    fn write_wrapped(&mut self, code: &Code, before: &[u8], expected: &Result<String, u8>) {
        let Some(side) = Side::from_centimetres(code.side) else {
            assert_eq!(*expected, Err(RANGE), "no side for {code:?}");
            return;
        };
        let cell = Cell {
            east: code.east,
            north: code.north,
        };
        let made = GridCode::new(side, cell).map_err(Refusal::number);
        self.report.calls += 1;
        assert_eq!(
            made.as_ref().map(seen).map_err(|number| *number),
            code_rules::write(code, LONGEST).map(|text| (*code, text)),
            "wrapper, {code:?}"
        );
        let Ok(made) = made else { return };
        let mut list = before.to_vec();
        let written = made.write(lent(&mut list)).map_err(Refusal::number);
        self.report.calls += 1;
        assert_eq!(
            written,
            expected.as_ref().map(String::len).map_err(|number| *number),
            "wrapper, {code:?}: expected {expected:?}"
        );
        assert_eq!(
            list,
            after(before, expected),
            "wrapper, {code:?}: expected {expected:?} in {before:?}"
        );
    }

    /// Reading the text, which stands in a longer one that goes on with bytes fit for codes.
    fn read(&mut self, text: &[u8]) -> Result<Code, u8> {
        let expected = code_rules::read(text);
        let mut margin = [0; MARGIN];
        margin.fill_with(|| self.random.pick(b"0123456789NE"));
        let list = [&margin, text, &margin].concat();
        let null = text.is_empty() && self.random.percent(50);
        let bytes = (!null).then_some(&list[MARGIN..][..text.len()]);
        let before = [(); 5].map(|()| filling(&mut self.random) as i64);
        let mut places = before;
        let given = raw::read_code(bytes, &mut places);
        self.report.calls += 1;
        let told = text.escape_ascii();
        assert_eq!(
            given,
            number(&expected),
            "\"{told}\": expected {expected:?}, places {places:?}"
        );
        let places_after = match expected {
            Ok(code) => [before[0], code.side, code.east, code.north, before[4]],
            Err(_) => before,
        };
        assert_eq!(places, places_after, "\"{told}\": expected {expected:?}");
        self.read_wrapped(text, expected);
        self.count(number(&expected));
        expected
    }

    /// Through `from_bytes`, and through `from_str` where the bytes are a `str`.
    fn read_wrapped(&mut self, text: &[u8], expected: Result<Code, u8>) {
        let string = std::str::from_utf8(text);
        let expected = expected.map(|code| (code, string.expect("ASCII").to_owned()));
        let told = text.escape_ascii();
        let given = GridCode::from_bytes(text).map_err(Refusal::number);
        self.report.calls += 1;
        assert_eq!(
            given.map(|code| seen(&code)),
            expected,
            "wrapper, \"{told}\""
        );
        let Ok(string) = string else { return };
        let given = string.parse::<GridCode>().map_err(Refusal::number);
        self.report.calls += 1;
        assert_eq!(
            given.map(|code| seen(&code)),
            expected,
            "wrapper, from_str, \"{told}\""
        );
    }
}

#[test]
fn write_code() {
    let mut run = Run::new("laea1_write_code", seed());
    while run.report.inputs < inputs() {
        let side = side(&mut run.random);
        let code = any_code(&mut run.random, side);
        // A code that is refused for its numbers has no length: then any will do.
        let text = code_rules::write(&code, LONGEST);
        let length = text.map_or(LONGEST, |text| text.len());
        let room = room(&mut run.random, length);
        let _ = run.write(&code, room);
    }
    run.end_balanced(&[0, RANGE, NEGATIVE, ROOM]);
}

#[test]
fn read_code() {
    let mut run = Run::new("laea1_read_code", seed());
    while run.report.inputs < inputs() {
        let text = any_text(&mut run.random);
        let _ = run.read(&text);
    }
    run.end_balanced(&[0, FORM]);
}

/// The archive's text for an accepted code; the rules are not asked.
fn written(code: &Code) -> Vec<u8> {
    let (mut text, mut length) = (vec![0; LONGEST], [0; 3]);
    assert_eq!(
        raw::write_code(code, Some(&mut text), &mut length),
        0,
        "{code:?}"
    );
    text.truncate(length[1] as usize);
    text
}

/// The archive's code for a text; the rules are not asked.
fn read_back(text: &[u8]) -> Result<Code, u8> {
    let mut places = [0; 5];
    match raw::read_code(Some(text), &mut places) {
        0 => Ok(Code {
            side: places[1],
            east: places[2],
            north: places[3],
        }),
        number => Err(number),
    }
}

/// "What is written reads back as the same cell and side, and each accepted text is the one that
/// would be written."
#[test]
fn code_round_trip() {
    let mut run = Run::new("laea1_write_code and laea1_read_code", seed());
    while run.report.inputs < inputs() {
        let code = good_code(&mut run.random);
        assert_eq!(read_back(&written(&code)), Ok(code));
        let text = any_text(&mut run.random);
        let answer = read_back(&text);
        if let Ok(code) = answer {
            assert_eq!(written(&code), text, "{code:?}");
        }
        run.report.calls += 3 + u64::from(answer.is_ok());
        run.count(number(&answer));
    }
    run.end_balanced(&[0, FORM]);
}

/// Each number of each side, once as east and once as north.
#[test]
fn code_numbers() {
    let mut run = Run::new("every number of a code", 1);
    for (side, _, largest) in SIDES {
        for east in 0..=largest {
            let north = largest - east;
            let code = Code { side, east, north };
            let text = run.write(&code, LONGEST).expect("a good code");
            assert_eq!(run.read(text.as_bytes()), Ok(code));
        }
    }
    run.report.end(&[0]);
}

/// Every pair of the numbers at the limits and at changes of digits, for each side in each room.
#[test]
fn code_edges() {
    let mut run = Run::new("edges of codes", 1);
    for ((side, _, limit), longest) in SIDES.into_iter().zip([18, 15, 14]) {
        let bad = [i64::MIN, -limit - 1, -limit, -1, limit + 1, i64::MAX];
        let good = [0, 1, 9, 10, 99, 100, limit - 1, limit];
        let numbers = [&bad[..], &good[..]].concat();
        for &east in &numbers {
            for &north in &numbers {
                let code = Code { side, east, north };
                let both = good.contains(&east) && good.contains(&north);
                for room in (0..=20).chain([255, 256, 257]) {
                    let answer = run.write(&code, room);
                    // The room decides for good pairs alone, and only below the longest code.
                    assert_eq!(matches!(answer, Ok(_) | Err(ROOM)), both, "{code:?}");
                    assert!(room < longest || answer != Err(ROOM), "{code:?}");
                }
            }
        }
        let last = Code {
            side,
            east: limit,
            north: limit,
        };
        assert_eq!(run.write(&last, longest).unwrap().len(), longest);
        assert_eq!(run.write(&last, longest - 1), Err(ROOM));
        assert_eq!(run.write(&last, 65_536).unwrap().len(), longest);
    }
    run.report.end(&[0, RANGE, NEGATIVE, ROOM]);
}

/// 3, then 32, then 33, each where the next would be given too.
#[test]
fn code_refusals() {
    let mut run = Run::new("order of a code's refusals", 1);
    for (side, word, limit) in SIDES {
        for (far, low) in [(limit + 1, -1), (-limit - 1, -limit), (i64::MIN, -1)] {
            for (east, north, expected) in [
                (far, low, RANGE),
                (low, far, RANGE),
                (0, low, NEGATIVE),
                (low, 0, NEGATIVE),
                (0, 0, ROOM),
            ] {
                let code = Code { side, east, north };
                assert_eq!(run.write(&code, 0), Err(expected), "{code:?}");
                let other = Code {
                    side: side + 1,
                    ..code
                };
                assert_eq!(run.write(&other, 0), Err(RANGE), "{other:?}");
            }
        }
        let code = Code {
            side,
            east: 0,
            north: 0,
        };
        let text = format!("{word}N0E0");
        assert_eq!(run.write(&code, text.len() - 1), Err(ROOM));
        assert_eq!(run.write(&code, text.len()), Ok(text));
    }
    run.report.end(&[0, RANGE, NEGATIVE, ROOM]);
}

/// Two codes with each byte changed to all values, each byte removed, each value put in anywhere.
#[test]
fn code_neighbours() {
    let mut run = Run::new("neighbours of codes", 1);
    for code in ["1kmN2999E3962", "100mN0E0"].map(str::as_bytes) {
        for at in 0..=code.len() {
            let (head, tail) = code.split_at(at);
            for byte in 0..=u8::MAX {
                let _ = run.read(&[head, &[byte], tail].concat());
                if let [_, rest @ ..] = tail {
                    let _ = run.read(&[head, &[byte], rest].concat());
                }
            }
            if let [_, rest @ ..] = tail {
                let _ = run.read(&[head, rest].concat());
            }
        }
    }
    run.report.end(&[0, FORM]);
}

/// Texts that are no codes.
const REFUSED: [&str; 36] = [
    "",
    "1km",
    "1kmN",
    "1kmE",
    "1kmNE",
    "1kmN1",
    "1kmN1E",
    "1kmNE1",
    "N1E1",
    "1kmE1N1",
    "1kmN1E1 ",
    "1kmN1E1\n",
    "1kmN1E1\0",
    " 1kmN1E1",
    "1kmN1E1E1",
    "1kmN1E11kmN1E1",
    "1kmN02999E3962",
    "1kmN2999E03962",
    "1kmN00E0",
    "1kmN0E00",
    "1kmN+1E1",
    "1kmN1E+1",
    "1kmN-1E1",
    "1kmN1E-0",
    "1KMN1E1",
    "1kmn1e1",
    "10mN1E1",
    "100kmN1E1",
    "10kmN5001E0",
    "10kmN0E5001",
    "1kmN50001E0",
    "1kmN0E50001",
    "100mN500001E0",
    "100mN0E500001",
    // 2^64 + 1
    "1kmN18446744073709551617E1",
    "1kmN\u{ff11}E1",
];

/// Texts by name, codes and others; the first is the paper's own example.
#[test]
fn code_texts_by_name() {
    let mut run = Run::new("texts by name", 1);
    for (text, side, east, north) in [
        ("1kmN2999E3962", 100_000, 3_962, 2_999),
        ("100mN0E0", 10_000, 0, 0),
        ("1kmN1E0", 100_000, 0, 1),
        ("100mN500000E500000", 10_000, 500_000, 500_000),
        ("1kmN50000E50000", 100_000, 50_000, 50_000),
        ("10kmN5000E5000", 1_000_000, 5_000, 5_000),
        ("10kmN10E100", 1_000_000, 100, 10),
    ] {
        let code = Code { side, east, north };
        assert_eq!(run.read(text.as_bytes()), Ok(code), "{text:?}");
        assert_eq!(run.write(&code, text.len()), Ok(text.to_owned()));
    }
    for text in REFUSED {
        assert_eq!(run.read(text.as_bytes()), Err(FORM), "{text:?}");
    }
    run.report.end(&[0, FORM]);
}
