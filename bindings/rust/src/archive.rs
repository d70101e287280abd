//! The functions of `liblaea_c.a`, as `include/laea.h` declares them, with the types of a tally.
//! Plane coordinates in metres are named by place, as in the Rattle code; the header names what
//! stands there.

use crate::{Set, SLOT_COUNT};

/// A cell of a control loop.
#[derive(Clone, Copy, Debug, PartialEq, Eq)]
#[repr(C)]
pub struct LoopCell {
    /// 1 or 2; 0 in a slot that is free.
    pub loop_number: u64,
    pub east: i64,
    pub north: i64,
}

/// What a tally holds of one cell of a loop.
#[derive(Clone, Copy, Debug, PartialEq, Eq)]
#[repr(C)]
pub struct Slot {
    pub cell: LoopCell,
    /// In nanowatts.
    pub sum: u64,
    pub count: u64,
    pub overloads: u64,
}

/// Every bit pattern is a value of every field.
#[derive(Clone, Copy, Debug, PartialEq, Eq)]
#[repr(C)]
pub struct Tally {
    /// The cells' side in cm.
    pub side: i64,
    pub slots: [Slot; SLOT_COUNT],
}

/// The tally after a call, and the refusal's number; 0 is none.
#[derive(Clone, Copy, Debug)]
#[repr(C)]
pub struct TallyResult {
    pub tally: Tally,
    pub refusal: u8,
}

extern "C" {
    pub fn laea1_forward(set: Set, latitude: f64, longitude: f64, out: *mut [f64; 2]) -> u8;

    pub fn laea1_inverse(set: Set, first: f64, second: f64, out: *mut [f64; 2]) -> u8;

    pub fn laea1_forward_whole(set: Set, latitude: i64, longitude: i64, out: *mut [i64; 2]) -> u8;

    pub fn laea1_inverse_whole(set: Set, easting: i64, northing: i64, out: *mut [i64; 2]) -> u8;

    pub fn laea1_cell(side: i64, easting: i64, northing: i64, out: *mut [i64; 2]) -> u8;

    pub fn laea1_forward_list(
        set: Set,
        latitudes: *const f64,
        latitudes_length: usize,
        longitudes: *const f64,
        longitudes_length: usize,
        leading: *mut f64,
        leading_length: usize,
        trailing: *mut f64,
        trailing_length: usize,
        marks: *mut u8,
        marks_length: usize,
        count: *mut u64,
    ) -> u8;

    pub fn laea1_inverse_list(
        set: Set,
        leading: *const f64,
        leading_length: usize,
        trailing: *const f64,
        trailing_length: usize,
        latitudes: *mut f64,
        latitudes_length: usize,
        longitudes: *mut f64,
        longitudes_length: usize,
        marks: *mut u8,
        marks_length: usize,
        count: *mut u64,
    ) -> u8;

    pub fn laea1_write_code(
        side: i64,
        east: i64,
        north: i64,
        text: *mut u8,
        text_length: usize,
        length: *mut u64,
    ) -> u8;

    pub fn laea1_read_code(text: *const u8, text_length: usize, out: *mut [i64; 3]) -> u8;

    pub fn laea2_tally_new(side: i64) -> TallyResult;

    pub fn laea2_tally_add_power(
        tally: Tally,
        loop_number: u64,
        east: i64,
        north: i64,
        milliwatts: f64,
    ) -> TallyResult;

    pub fn laea2_tally_add_overload(
        tally: Tally,
        loop_number: u64,
        east: i64,
        north: i64,
        milliwatts: f64,
    ) -> TallyResult;

    pub fn laea2_tally_clear(tally: Tally, loop_number: u64, east: i64, north: i64) -> TallyResult;

    pub fn laea2_tally_read(
        tally: Tally,
        loop_number: u64,
        east: i64,
        north: i64,
        out: *mut [u64; 3],
    ) -> u8;

    pub fn laea1_set_refusal(set: Set) -> u8;

    pub fn laea1_version() -> u32;
}
