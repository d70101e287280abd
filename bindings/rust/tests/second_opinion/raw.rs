//! The archive's calls without the safe wrapper, so that what a refused call leaves untouched can be
//! looked at, and so that lists can be null pointers and sides any number.

use crate::archive::{self, Tally, TallyResult};
use crate::calls::{Direction, Lists};
use crate::code_rules::Code;
use crate::steps::Set;
use crate::tally_rules::{Kind, LoopCell};
use std::ops::Range;
use std::ptr::{null, null_mut};

/// The places lent to a call are the middle two of four; the outer two must stay as they are.
pub type Places<T> = [T; 4];

/// The place lent for the count is the middle one of three; the outer two must stay as they are.
pub type Count = [u64; 3];

/// The set as the archive takes it.
pub fn lent(set: &Set) -> laea::Set {
    laea::Set {
        a: set.a,
        e2: set.e2,
        lat0: set.lat0,
        lon0: set.lon0,
        false_easting: set.fe,
        false_northing: set.fn_,
    }
}

fn middle<T>(places: &mut Places<T>) -> *mut [T; 2] {
    places[1..3].as_mut_ptr().cast()
}

pub fn single(direction: Direction, set: &Set, pair: (f64, f64), places: &mut Places<f64>) -> u8 {
    let call = match direction {
        Direction::Forward => archive::laea1_forward,
        Direction::Inverse => archive::laea1_inverse,
    };
    // SAFETY: the last argument is two places that may be written.
    unsafe { call(lent(set), pair.0, pair.1, middle(places)) }
}

pub fn whole(direction: Direction, set: &Set, pair: (i64, i64), places: &mut Places<i64>) -> u8 {
    let call = match direction {
        Direction::Forward => archive::laea1_forward_whole,
        Direction::Inverse => archive::laea1_inverse_whole,
    };
    // SAFETY: the last argument is two places that may be written.
    unsafe { call(lent(set), pair.0, pair.1, middle(places)) }
}

pub fn cell(side: i64, pair: (i64, i64), places: &mut Places<i64>) -> u8 {
    // SAFETY: the last argument is two places that may be written.
    unsafe { archive::laea1_cell(side, pair.0, pair.1, middle(places)) }
}

pub fn set_refusal(set: &Set) -> u8 {
    // SAFETY: the call takes every set and writes nothing.
    unsafe { archive::laea1_set_refusal(lent(set)) }
}

pub fn version() -> u32 {
    // SAFETY: the call takes nothing and writes nothing.
    unsafe { archive::laea1_version() }
}

/// A list call on a span of each list.
pub fn list(
    direction: Direction,
    set: &Set,
    lists: &mut Lists,
    spans: [Range<usize>; 5],
    count: &mut Count,
) -> u8 {
    let call = match direction {
        Direction::Forward => archive::laea1_forward_list,
        Direction::Inverse => archive::laea1_inverse_list,
    };
    let [first, second, third, fourth, fifth] = spans;
    let inputs = (&lists.inputs[0][first], &lists.inputs[1][second]);
    let [leading, trailing] = &mut lists.outputs;
    let outputs = (&mut leading[third], &mut trailing[fourth]);
    let marks = &mut lists.marks[fifth];
    // SAFETY: each pointer and length is of a slice, and the count's place may be written.
    unsafe {
        call(
            lent(set),
            inputs.0.as_ptr(),
            inputs.0.len(),
            inputs.1.as_ptr(),
            inputs.1.len(),
            outputs.0.as_mut_ptr(),
            outputs.0.len(),
            outputs.1.as_mut_ptr(),
            outputs.1.len(),
            marks.as_mut_ptr(),
            marks.len(),
            &mut count[1],
        )
    }
}

/// A list call with five null pointers and lengths of 0, except for the marks, which are given.
pub fn null_lists(direction: Direction, set: &Set, marks: &mut [u8], count: &mut Count) -> u8 {
    let call = match direction {
        Direction::Forward => archive::laea1_forward_list,
        Direction::Inverse => archive::laea1_inverse_list,
    };
    let given = if marks.is_empty() {
        null_mut()
    } else {
        marks.as_mut_ptr()
    };
    // SAFETY: a list of length 0 may be null, by the header; the marks are a slice's, and the
    // count's place may be written.
    unsafe {
        call(
            lent(set),
            null(),
            0,
            null(),
            0,
            null_mut(),
            0,
            null_mut(),
            0,
            given,
            marks.len(),
            &mut count[1],
        )
    }
}

/// The places lent for a code's side, east and north are the middle three of five; the outer two
/// must stay as they are.
pub type CodePlaces = [i64; 5];

/// A code written into the lent bytes; no bytes are a null pointer. The length's place is the
/// middle one of three.
pub fn write_code(code: &Code, text: Option<&mut [u8]>, length: &mut Count) -> u8 {
    let (bytes, room) = text.map_or((null_mut(), 0), |text| (text.as_mut_ptr(), text.len()));
    // SAFETY: the pointer and room are a slice's, or null and 0, which the header allows, and the
    // length's place may be written.
    unsafe {
        archive::laea1_write_code(
            code.side,
            code.east,
            code.north,
            bytes,
            room,
            &mut length[1],
        )
    }
}

/// A code read from the lent bytes; no bytes are a null pointer.
pub fn read_code(text: Option<&[u8]>, places: &mut CodePlaces) -> u8 {
    let (bytes, length) = text.map_or((null(), 0), |text| (text.as_ptr(), text.len()));
    // SAFETY: the pointer and length are a slice's, or null and 0, which the header allows, and
    // the last argument is three places that may be written.
    unsafe { archive::laea1_read_code(bytes, length, places[1..4].as_mut_ptr().cast()) }
}

/// The places lent for a cell's sum and counts are the middle three of five; the outer two must stay
/// as they are.
pub type SumPlaces = [u64; 5];

pub fn tally_new(side: i64) -> TallyResult {
    // SAFETY: the call takes every number and writes nothing but its result.
    unsafe { archive::laea2_tally_new(side) }
}

pub fn tally_add(tally: &Tally, of: LoopCell, kind: Kind, milliwatts: f64) -> TallyResult {
    let call = match kind {
        Kind::Power => archive::laea2_tally_add_power,
        Kind::Overload => archive::laea2_tally_add_overload,
    };
    // SAFETY: the call takes every value of its arguments and writes nothing but its result.
    unsafe { call(*tally, of.0, of.1, of.2, milliwatts) }
}

pub fn tally_clear(tally: &Tally, of: LoopCell) -> TallyResult {
    // SAFETY: the call takes every value of its arguments and writes nothing but its result.
    unsafe { archive::laea2_tally_clear(*tally, of.0, of.1, of.2) }
}

pub fn tally_read(tally: &Tally, of: LoopCell, places: &mut SumPlaces) -> u8 {
    let out = places[1..4].as_mut_ptr().cast();
    // SAFETY: the last argument is three places that may be written.
    unsafe { archive::laea2_tally_read(*tally, of.0, of.1, of.2, out) }
}
