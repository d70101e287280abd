//! The calls, with their limits, their refusals and the orders of these.

use crate::steps::{Constants, Set, DEGREE};

pub const NOT_FINITE: u8 = 2;
pub const RANGE: u8 = 3;
pub const FAR: u8 = 4;
pub const UNEQUAL: u8 = 5;
pub const LONG: u8 = 6;

const CM: i128 = 100;

/// Two values, or the refusal's number.
pub type Answer<T> = Result<(T, T), u8>;

/// near(value · scale) "of the double's exact value": the bits give a whole number times a power
/// of two. The value must be finite and below 2^53 in size.
pub fn exact_near(value: f64, scale: i128) -> i128 {
    let bits = value.to_bits();
    let (field, fraction) = ((bits >> 52) & 0x7ff, i128::from(bits & ((1 << 52) - 1)));
    assert!(field < 0x7ff);
    let (whole, exponent) = if field == 0 {
        (fraction, -1074)
    } else {
        (fraction + (1 << 52), field as i32 - 1075)
    };
    let product = whole * scale;
    let size = if exponent >= 0 {
        product << exponent
    } else if -exponent > 100 {
        // The product is below 2^75, so this is below one half.
        assert!(product < 1 << 75);
        0
    } else {
        // Adding one half and dropping the fraction.
        ((product << 1) + (1 << -exponent)) >> (1 - exponent)
    };
    if bits >> 63 == 1 {
        -size
    } else {
        size
    }
}

fn back(whole: (i128, i128), scale: i128) -> (f64, f64) {
    (whole.0 as f64 / scale as f64, whole.1 as f64 / scale as f64)
}

/// Refusals 2 and 3 of a pair of doubles: "both coordinates are tested for 2 before either for 3",
/// and "the f64 limits are tested on the float, before rounding".
fn test_floats(pair: (f64, f64), limits: (f64, f64)) -> Result<(), u8> {
    if !pair.0.is_finite() || !pair.1.is_finite() {
        return Err(NOT_FINITE);
    }
    if pair.0.abs() > limits.0 || pair.1.abs() > limits.1 {
        return Err(RANGE);
    }
    Ok(())
}

fn test_whole(pair: (i64, i64), limits: (u64, u64)) -> Result<(), u8> {
    if pair.0.unsigned_abs() > limits.0 || pair.1.unsigned_abs() > limits.1 {
        return Err(RANGE);
    }
    Ok(())
}

fn forward_point(constants: &Constants, pair: (f64, f64)) -> Answer<f64> {
    test_floats(pair, (90.0, 180.0))?;
    let answer = constants.forward(exact_near(pair.0, DEGREE), exact_near(pair.1, DEGREE));
    answer.map(|whole| back(whole, CM)).ok_or(FAR)
}

fn inverse_point(constants: &Constants, pair: (f64, f64)) -> Answer<f64> {
    test_floats(pair, (50_000_000.0, 50_000_000.0))?;
    let answer = constants.inverse(exact_near(pair.0, CM), exact_near(pair.1, CM));
    answer.map(|whole| back(whole, DEGREE)).ok_or(FAR)
}

/// A call for one point in doubles.
pub fn single(direction: Direction, set: &Set, pair: (f64, f64)) -> Answer<f64> {
    if let Some(number) = set.refusal() {
        return Err(number);
    }
    direction.point(&Constants::of(set), pair)
}

/// A call for one point in mas and cm.
pub fn whole(direction: Direction, set: &Set, pair: (i64, i64)) -> Answer<i64> {
    if let Some(number) = set.refusal() {
        return Err(number);
    }
    let constants = Constants::of(set);
    let wide = (i128::from(pair.0), i128::from(pair.1));
    let answer = match direction {
        Direction::Forward => {
            test_whole(pair, (324_000_000, 648_000_000))?;
            constants.forward(wide.0, wide.1)
        }
        Direction::Inverse => {
            test_whole(pair, (5_000_000_000, 5_000_000_000))?;
            constants.inverse(wide.0, wide.1)
        }
    };
    answer
        .map(|(first, second)| (narrow(first), narrow(second)))
        .ok_or(FAR)
}

fn narrow(value: i128) -> i64 {
    i64::try_from(value).expect("an answer fits 64 bits")
}

#[derive(Clone, Copy, Debug, PartialEq, Eq)]
pub enum Direction {
    Forward,
    Inverse,
}

impl Direction {
    fn point(self, constants: &Constants, pair: (f64, f64)) -> Answer<f64> {
        match self {
            Direction::Forward => forward_point(constants, pair),
            Direction::Inverse => inverse_point(constants, pair),
        }
    }
}

/// The five lists of a list call.
#[derive(Clone, Debug)]
pub struct Lists {
    pub inputs: [Vec<f64>; 2],
    pub outputs: [Vec<f64>; 2],
    pub marks: Vec<u8>,
}

/// A call for lists: the count, or the refusal's number.
pub fn list(direction: Direction, set: &Set, lists: &mut Lists) -> Result<usize, u8> {
    let length = lists.marks.len();
    if [
        &lists.inputs[0],
        &lists.inputs[1],
        &lists.outputs[0],
        &lists.outputs[1],
    ]
    .iter()
    .any(|list| list.len() != length)
    {
        return Err(UNEQUAL);
    }
    if length > 4096 {
        return Err(LONG);
    }
    if let Some(number) = set.refusal() {
        return Err(number);
    }
    let constants = Constants::of(set);
    for at in 0..length {
        let answer = direction.point(&constants, (lists.inputs[0][at], lists.inputs[1][at]));
        let (values, mark) = match answer {
            Ok(values) => (values, 0),
            Err(number) => ((0.0, 0.0), number),
        };
        lists.outputs[0][at] = values.0;
        lists.outputs[1][at] = values.1;
        lists.marks[at] = mark;
    }
    Ok(lists.marks.iter().filter(|&&mark| mark == 0).count())
}

/// "Another side, or a position beyond ±5,000,000,000 cm: refused 3."
pub fn cell(side: i64, easting: i64, northing: i64) -> Answer<i64> {
    if ![10_000, 100_000, 1_000_000].contains(&side) {
        return Err(RANGE);
    }
    test_whole((easting, northing), (5_000_000_000, 5_000_000_000))?;
    Ok((cell_number(side, easting), cell_number(side, northing)))
}

/// "the greatest whole number whose product with the side is not above the coordinate", searched
/// for without a division: low · side is never above the coordinate, high · side always is.
fn cell_number(side: i64, coordinate: i64) -> i64 {
    let above = |whole: i128| whole * i128::from(side) > i128::from(coordinate);
    // Beyond every accepted coordinate even for a side of 1.
    let (mut low, mut high) = (-5_000_000_001, 5_000_000_001);
    assert!(!above(low) && above(high));
    while low + 1 < high {
        let middle = (low + high) >> 1;
        if above(middle) {
            high = middle;
        } else {
            low = middle;
        }
    }
    narrow(low)
}
