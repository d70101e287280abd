//! Hostile random sides, loop numbers, cells, powers and calls for a tally.

use crate::random::Random;
use crate::tally_rules::{Kind, LoopCell, FARTHEST, LOOPS, SIDES};

/// East and north number of a cell.
pub type Cell = (i64, i64);

/// A call of a tally that has been made.
#[derive(Clone, Copy, Debug)]
pub enum Call {
    Add(LoopCell, Kind, f64),
    Clear(LoopCell),
    Read(LoopCell),
}

impl Call {
    /// The loop number and the cell of a call.
    pub fn of(self) -> LoopCell {
        match self {
            Call::Add(of, ..) | Call::Clear(of) | Call::Read(of) => of,
        }
    }
}

/// Numbers that no loop has; cut to fewer bits some of them are 1 or 2.
pub const BAD_LOOPS: [u64; 14] = [
    0,
    3,
    4,
    255,
    256,
    257,
    258,
    65_537,
    (1 << 32) + 1,
    (1 << 32) + 2,
    1 << 63,
    (1 << 63) + 1,
    u64::MAX - 1,
    u64::MAX,
];

/// Sides that no cell has and that stand close to those that cells have.
pub const BAD_SIDES: [i64; 34] = [
    0,
    1,
    -1,
    2,
    10,
    100,
    1_000,
    9_999,
    10_001,
    20_000,
    50_000,
    99_999,
    100_001,
    500_000,
    999_999,
    1_000_001,
    2_000_000,
    10_000_000,
    1_000_000_000,
    4_294_977_296,
    4_295_067_296,
    4_295_967_296,
    4_999_999_999,
    5_000_000_000,
    5_000_000_001,
    -10_000,
    -100_000,
    -1_000_000,
    -5_000_000_000,
    i64::MIN,
    i64::MIN + 1,
    i64::MIN + 10_000,
    i64::MAX - 1,
    i64::MAX,
];

/// Powers at the edges of the rules.
const EDGES: [f64; 16] = [
    0.0,
    -0.0,
    5e-324,
    -5e-324,
    2.2250738585072014e-308,
    -2.2250738585072014e-308,
    4.999999999999999e-7,
    5e-7,
    5.000000000000001e-7,
    -5e-7,
    1e-6,
    999.9999995,
    1000.0,
    -1000.0,
    1000.0000005,
    f64::MAX,
];

/// Bits of 1000.0.
const THOUSAND: i64 = 0x408f_4000_0000_0000;
/// Bits of 2^-27, below a hundredth of a nanowatt.
const SMALL: i64 = 0x3e40_0000_0000_0000;

/// The greatest cell number of a side.
pub fn last_number(side: i64) -> i64 {
    FARTHEST / side
}

/// A side that no cell has.
pub fn bad_side(random: &mut Random) -> i64 {
    let side = match random.below(4) {
        0 => random.pick(&BAD_SIDES),
        1 => random.pick(&SIDES) + random.between(-9, 9),
        2 => random.pick(&SIDES).wrapping_add(high_bit(random)),
        _ => random.any_size(),
    };
    if SIDES.contains(&side) {
        side + 1
    } else {
        side
    }
}

/// One bit that a narrower whole number has no place for.
fn high_bit(random: &mut Random) -> i64 {
    1 << random.between(20, 63)
}

/// A number that no loop has.
pub fn bad_loop(random: &mut Random) -> u64 {
    if random.percent(70) {
        random.pick(&BAD_LOOPS)
    } else {
        random.pick(&LOOPS) + (1 << random.between(2, 63))
    }
}

/// A loop, seldom a number that no loop has.
pub fn any_loop(random: &mut Random) -> u64 {
    if random.percent(4) {
        bad_loop(random)
    } else {
        random.pick(&LOOPS)
    }
}

/// A cell number, often at an end or near zero.
pub fn inside(random: &mut Random, last: i64) -> i64 {
    if random.percent(50) {
        random.pick(&[-last, 1 - last, -1, 0, 1, last - 1, last])
    } else {
        random.between(-last, last)
    }
}

/// A number that no cell of this side has.
pub fn outside(random: &mut Random, last: i64) -> i64 {
    let first = random.pick(&[last + 1, -last - 1]);
    let number = match random.below(6) {
        0 => first,
        1 => random.pick(&[i64::MIN, i64::MIN + 1, i64::MAX - 1, i64::MAX]),
        2 => random.pick(&[5_000, 50_000, 500_000, FARTHEST]),
        3 => inside(random, last).wrapping_add(high_bit(random)),
        4 => random.between(-20 * last, 20 * last),
        _ => random.any_size(),
    };
    if (-last..=last).contains(&number) {
        first
    } else {
        number
    }
}

/// A cell of this side.
pub fn any_cell(random: &mut Random, last: i64) -> Cell {
    (inside(random, last), inside(random, last))
}

/// A cell number that differs from the one given by its sign or by one bit's worth.
fn akin(random: &mut Random, number: i64, last: i64) -> i64 {
    let step = random.pick(&[-1, 1]) << random.below(19);
    let other = random.pick(&[-number, number + step]);
    if (-last..=last).contains(&other) {
        other
    } else {
        inside(random, last)
    }
}

/// Different cells, crossed from a few different numbers so that many share one.
pub fn pool(random: &mut Random, last: i64, numbers: usize, cells: usize) -> Vec<Cell> {
    let mut axis = vec![inside(random, last)];
    while axis.len() < numbers {
        let number = if random.percent(30) {
            let known = random.pick(&axis);
            akin(random, known, last)
        } else {
            inside(random, last)
        };
        if !axis.contains(&number) {
            axis.push(number);
        }
    }
    let mut pool = Vec::new();
    while pool.len() < cells {
        let cell = (random.pick(&axis), random.pick(&axis));
        if !pool.contains(&cell) {
            pool.push(cell);
        }
    }
    pool
}

/// A cell with at least one number that no cell of this side has.
pub fn bad_cell(random: &mut Random, cell: Cell, last: i64) -> Cell {
    let number = outside(random, last);
    match random.below(3) {
        0 => (number, cell.1),
        1 => (cell.0, number),
        _ => (number, outside(random, last)),
    }
}

pub fn kind(random: &mut Random) -> Kind {
    if random.percent(35) {
        Kind::Overload
    } else {
        Kind::Power
    }
}

/// A power from 0 to 1,000 mW.
pub fn good_power(random: &mut Random) -> f64 {
    match random.below(9) {
        0 => random.between(0, 1_000) as f64,
        1 => power_of_two(random.between(990, 1032)),
        2 => random.between(0, 1_000_000_000) as f64 / 1_000_000.0,
        3 | 4 => beside(random, near_half),
        5 => beside(random, exact_half),
        6 => f64::from_bits(random.between(0, THOUSAND) as u64),
        7 => f64::from_bits(random.between(SMALL, THOUSAND) as u64),
        _ => random.bits() as f64 / u64::MAX as f64 * 1_000.0,
    }
}

/// Any power, NaN and infinities too; about three of four are from 0 to 1,000 mW.
pub fn power(random: &mut Random) -> f64 {
    match random.below(28) {
        0 => f64::from_bits(random.bits()),
        1 => not_a_number(random),
        2 => random.pick(&[f64::INFINITY, f64::NEG_INFINITY]),
        3 | 4 => random.pick(&EDGES),
        5 => edge_neighbour(random),
        6 => -good_power(random),
        7 => f64::from_bits((THOUSAND + random.between(0, 1 << 53)) as u64),
        8 => power_of_two(random.between(0, 0x7fe)),
        9 => random.between(-1_002, 1_002) as f64,
        _ => good_power(random),
    }
}

/// A double with this exponent field and no fraction; 0.0 for the field 0.
fn power_of_two(field: i64) -> f64 {
    f64::from_bits((field as u64) << 52)
}

/// The double nearest to k + 0.5 nW, for whole k of any size.
fn near_half(random: &mut Random) -> f64 {
    let limit = 10_i64.pow(random.between(0, 9) as u32);
    let k = random.between(0, limit - 1);
    (2 * k + 1) as f64 / 2_000_000.0
}

/// Exactly k + 0.5 nW. A double is that only as an odd number of 128ths of a milliwatt.
fn exact_half(random: &mut Random) -> f64 {
    (2 * random.between(0, 63_999) + 1) as f64 / 128.0
}

/// The power drawn, or a double next to it on either side, from 0 to 1,000 mW.
fn beside(random: &mut Random, draw: fn(&mut Random) -> f64) -> f64 {
    let bits = draw(random).to_bits() as i64 + random.between(-1, 1);
    f64::from_bits(bits.clamp(0, THOUSAND) as u64)
}

/// The next double after an edge, away from zero or towards it.
fn edge_neighbour(random: &mut Random) -> f64 {
    let bits = random.pick(&EDGES).to_bits();
    f64::from_bits(bits.wrapping_add(random.pick(&[1, u64::MAX])))
}

/// A NaN: quiet or signalling, of either sign, with any payload.
fn not_a_number(random: &mut Random) -> f64 {
    const ONES: u64 = 0x7ff0_0000_0000_0000;
    let bits = match random.below(4) {
        0 => ONES | 1,
        1 => ONES | 1 << 51,
        2 => u64::MAX,
        _ => ONES | random.bits() | 1 << random.below(52),
    };
    f64::from_bits(bits)
}

/// A call of either loop, seldom of none, on a cell of the pool, seldom on a bad cell; `clears` in a
/// hundred are clearings. Clearing and reading seldom take a cell that may not be in the pool. No
/// reading is added to such a cell.
pub fn call(random: &mut Random, pool: &[Cell], last: i64, clears: i64) -> Call {
    let loop_number = any_loop(random);
    call_of(random, loop_number, pool, last, clears)
}

/// The same of one loop.
pub fn call_of(
    random: &mut Random,
    loop_number: u64,
    pool: &[Cell],
    last: i64,
    clears: i64,
) -> Call {
    let adds = !random.percent(clears + 8);
    let (east, north) = cell(random, pool, last, !adds);
    let of = (loop_number, east, north);
    if adds {
        Call::Add(of, kind(random), power(random))
    } else if random.between(1, clears + 8) <= clears {
        Call::Clear(of)
    } else {
        Call::Read(of)
    }
}

fn cell(random: &mut Random, pool: &[Cell], last: i64, strangers: bool) -> Cell {
    let known = random.pick(pool);
    if random.percent(8) {
        bad_cell(random, known, last)
    } else if strangers && random.percent(5) {
        any_cell(random, last)
    } else {
        known
    }
}
