//! The calls for one point, raw and through the safe wrapper, against the second opinion.

use crate::calls::{self, Answer, Direction};
use crate::positions::Ground;
use crate::random::{inputs, seed, Random};
use crate::raw::{self, Places};
use crate::report::Report;
use crate::sets::{self, EUROPE};
use crate::steps::{Constants, Set};
use laea::{PlanePosition, Position, Refusal, Side, WholePlanePosition, WholePosition};

/// What stands in places before a call: any bits, often those of a NaN.
pub fn filling(random: &mut Random) -> u64 {
    let any = random.bits();
    random.pick(&[
        any,
        any,
        0x7ff8_0000_0000_0000,
        0x7ff0_0000_0000_0001,
        0xfff7_ffff_ffff_ffff,
        1 << 63,
        u64::MAX,
    ])
}

fn filled(random: &mut Random) -> Places<u64> {
    [(); 4].map(|()| filling(random))
}

/// The four places as they must be after a call: the middle two hold the answer, if there is one.
fn after(before: Places<u64>, answer: &Answer<u64>) -> Places<u64> {
    match answer {
        Ok((first, second)) => [before[0], *first, *second, before[3]],
        Err(_) => before,
    }
}

fn number<T>(answer: &Answer<T>) -> u8 {
    answer.as_ref().err().copied().unwrap_or(0)
}

fn safe<T, W>(answer: Result<T, Refusal>, pair: impl Fn(T) -> (W, W)) -> Answer<W> {
    answer.map(pair).map_err(Refusal::number)
}

fn check_whole(
    direction: Direction,
    set: &Set,
    pair: (i64, i64),
    random: &mut Random,
) -> Answer<i64> {
    let expected = calls::whole(direction, set, pair);
    let bits = expected.map(|(first, second)| (first as u64, second as u64));
    let before = filled(random);
    let mut places = before.map(|bits| bits as i64);
    let given = raw::whole(direction, set, pair, &mut places);
    assert_eq!(
        given,
        number(&expected),
        "{direction:?} {set:?} {pair:?}: expected {expected:?}, places {places:?}"
    );
    assert_eq!(
        places.map(|place| place as u64),
        after(before, &bits),
        "{direction:?} {set:?} {pair:?}: expected {expected:?}"
    );
    let wrapped = match direction {
        Direction::Forward => {
            let position = WholePosition {
                latitude: pair.0,
                longitude: pair.1,
            };
            safe(raw::lent(set).forward_whole(position), |plane| {
                (plane.easting, plane.northing)
            })
        }
        Direction::Inverse => {
            let position = WholePlanePosition {
                easting: pair.0,
                northing: pair.1,
            };
            safe(raw::lent(set).inverse_whole(position), |place| {
                (place.latitude, place.longitude)
            })
        }
    };
    assert_eq!(wrapped, expected, "wrapper, {direction:?} {set:?} {pair:?}");
    expected
}

fn check_floats(
    direction: Direction,
    set: &Set,
    pair: (f64, f64),
    random: &mut Random,
) -> Answer<u64> {
    let answer = calls::single(direction, set, pair);
    let expected = answer.map(|(first, second)| (first.to_bits(), second.to_bits()));
    let before = filled(random);
    let mut places = before.map(f64::from_bits);
    let given = raw::single(direction, set, pair, &mut places);
    let told = (pair.0.to_bits(), pair.1.to_bits());
    assert_eq!(
        given,
        number(&expected),
        "{direction:?} {set:?} {pair:?} bits {told:x?}: expected {answer:?}, places {places:?}"
    );
    assert_eq!(
        places.map(f64::to_bits),
        after(before, &expected),
        "{direction:?} {set:?} {pair:?} bits {told:x?}: expected {answer:?}, places {places:?}"
    );
    let wrapped = match direction {
        Direction::Forward => {
            let position = Position {
                latitude: pair.0,
                longitude: pair.1,
            };
            safe(raw::lent(set).forward(position), |plane| {
                (plane.first.to_bits(), plane.second.to_bits())
            })
        }
        Direction::Inverse => {
            let position = PlanePosition {
                first: pair.0,
                second: pair.1,
            };
            safe(raw::lent(set).inverse(position), |place| {
                (place.latitude.to_bits(), place.longitude.to_bits())
            })
        }
    };
    assert_eq!(
        wrapped, expected,
        "wrapper, {direction:?} {set:?} {pair:?} bits {told:x?}"
    );
    expected
}

fn check_cell(side: i64, pair: (i64, i64), random: &mut Random) -> Answer<i64> {
    let expected = calls::cell(side, pair.0, pair.1);
    let bits = expected.map(|(east, north)| (east as u64, north as u64));
    let before = filled(random);
    let mut places = before.map(|bits| bits as i64);
    let given = raw::cell(side, pair, &mut places);
    assert_eq!(
        given,
        number(&expected),
        "cell {side} {pair:?}: expected {expected:?}, places {places:?}"
    );
    assert_eq!(
        places.map(|place| place as u64),
        after(before, &bits),
        "cell {side} {pair:?}: expected {expected:?}"
    );
    let position = WholePlanePosition {
        easting: pair.0,
        northing: pair.1,
    };
    match Side::from_centimetres(side) {
        Some(side) => {
            let wrapped = safe(laea::cell(side, position), |cell| (cell.east, cell.north));
            assert_eq!(wrapped, expected, "wrapper, cell {side:?} {pair:?}");
        }
        None => assert_eq!(expected, Err(calls::RANGE), "no side for {side}"),
    }
    expected
}

/// The nearness that decides refusal 4 of a whole-unit call; nothing where it is not reached.
fn nearness(direction: Direction, set: &Set, pair: (i64, i64), number: u8) -> Option<i128> {
    if number != 0 && number != calls::FAR {
        return None;
    }
    let constants = Constants::of(set);
    match direction {
        Direction::Forward => Some(constants.forward_nearness(pair.0.into(), pair.1.into())),
        Direction::Inverse => constants.inverse_nearness(pair.0.into(), pair.1.into()),
    }
}

fn compare_whole(name: &'static str, direction: Direction) {
    let seed = seed();
    let mut random = Random::new(seed);
    let mut report = Report::new(name, seed);
    let mut positions = Vec::new();
    while report.inputs < inputs() {
        let set = sets::any(&mut random);
        let ground = Ground::of(&set);
        for _ in 0..4 {
            ground.whole(direction, &mut random, &mut positions);
        }
        for pair in positions.drain(..) {
            let answer = check_whole(direction, &set, pair, &mut random);
            report.inputs += 1;
            report.calls += 2;
            report.answered(number(&answer));
            report.nearness(nearness(direction, &set, pair, number(&answer)));
        }
    }
    assert!(
        report.lowest > 0 && report.below > 0,
        "both sides of the limit of refusal 4"
    );
    report.end(&[&sets::NUMBERS[..], &[0, 3, 4]].concat());
}

fn compare_floats(name: &'static str, direction: Direction) {
    let seed = seed();
    let mut random = Random::new(seed);
    let mut report = Report::new(name, seed);
    let mut positions = Vec::new();
    while report.inputs < inputs() {
        let set = sets::any(&mut random);
        let ground = Ground::of(&set);
        for _ in 0..4 {
            ground.floats(direction, &mut random, &mut positions);
        }
        for pair in positions.drain(..) {
            let answer = check_floats(direction, &set, pair, &mut random);
            report.inputs += 1;
            report.calls += 2;
            report.answered(number(&answer));
        }
    }
    report.end(&[&sets::NUMBERS[..], &[0, 2, 3, 4]].concat());
}

#[test]
fn forward_whole() {
    compare_whole("laea1_forward_whole", Direction::Forward);
}

#[test]
fn inverse_whole() {
    compare_whole("laea1_inverse_whole", Direction::Inverse);
}

#[test]
fn forward() {
    compare_floats("laea1_forward", Direction::Forward);
}

#[test]
fn inverse() {
    compare_floats("laea1_inverse", Direction::Inverse);
}

#[test]
fn cell() {
    let seed = seed();
    let mut random = Random::new(seed);
    let mut report = Report::new("laea1_cell", seed);
    while report.inputs < inputs() {
        let side = side(&mut random);
        let mut pair = (0, 0);
        for place in [&mut pair.0, &mut pair.1] {
            *place = cell_coordinate(&mut random, side);
        }
        let answer = check_cell(side, pair, &mut random);
        report.inputs += 1;
        // The wrapper cannot be called with another side.
        report.calls += 1 + u64::from(Side::from_centimetres(side).is_some());
        report.answered(number(&answer));
    }
    report.end(&[0, 3]);
}

pub fn side(random: &mut Random) -> i64 {
    let any = random.any_size();
    let good = random.pick(&[10_000, 100_000, 1_000_000]);
    let bad = random.pick(&[
        0,
        -1,
        1,
        9_999,
        10_001,
        1_000,
        99_999,
        100_001,
        999_999,
        1_000_001,
        10_000_000,
        -10_000,
        i64::MIN,
        i64::MAX,
        any,
    ]);
    if random.percent(80) {
        good
    } else {
        bad
    }
}

fn cell_coordinate(random: &mut Random, side: i64) -> i64 {
    let any = random.between(-5_000_000_000, 5_000_000_000);
    let limit = random.pick(&[5_000_000_000, -5_000_000_000]) + random.between(-1, 1);
    let edge = if side > 0 {
        (any / side)
            .saturating_mul(side)
            .saturating_add(random.between(-1, 1))
    } else {
        any
    };
    let far = random.any_size();
    let extreme = random.pick(&[0, 1, -1, i64::MIN, i64::MAX, far]);
    let small = random.between(-1_000_100, 1_000_100);
    // The edges about 0 are too rare among all edges.
    let zero = side
        .saturating_mul(random.between(-2, 2))
        .saturating_add(random.between(-1, 1));
    random.pick(&[
        any, any, any, edge, edge, edge, zero, zero, limit, small, extreme,
    ])
}

/// The limits by name, each with its neighbours, for the named set of Europe.
#[test]
fn limits() {
    let mut random = Random::new(1);
    let up = |value: f64| f64::from_bits(value.to_bits() + 1);
    let forward = |pair, random: &mut Random| {
        number(&check_floats(Direction::Forward, &EUROPE, pair, random))
    };
    let inverse = |pair, random: &mut Random| {
        number(&check_floats(Direction::Inverse, &EUROPE, pair, random))
    };
    for sign in [1.0, -1.0] {
        assert_eq!(forward((90.0, sign * 180.0), &mut random), 0);
        assert_eq!(forward((sign * up(90.0), 0.0), &mut random), calls::RANGE);
        assert_eq!(forward((0.0, sign * up(180.0)), &mut random), calls::RANGE);
        assert_eq!(
            forward((sign * f64::INFINITY, 500.0), &mut random),
            calls::NOT_FINITE
        );
        assert_eq!(
            forward((500.0, sign * f64::NAN), &mut random),
            calls::NOT_FINITE
        );
        assert_eq!(inverse((sign * 50_000_000.0, 0.0), &mut random), calls::FAR);
        assert_eq!(
            inverse((sign * up(50_000_000.0), 0.0), &mut random),
            calls::RANGE
        );
        assert_eq!(
            inverse((0.0, sign * up(50_000_000.0)), &mut random),
            calls::RANGE
        );
    }
    let at = |pair| {
        calls::single(Direction::Forward, &EUROPE, pair).map(|(e, n)| (e.to_bits(), n.to_bits()))
    };
    assert_eq!(at((-0.0, -0.0)), at((0.0, 0.0)));
    assert_eq!(at((60.0, -180.0)), at((60.0, 180.0)));
}

/// Coordinates about 0 and about the limits, each with its cell number or its refusal. `last` is
/// the cell that begins at the upper limit.
fn cell_rows(side: i64, last: i64) -> [(i64, Result<i64, u8>); 16] {
    let limit = 5_000_000_000;
    [
        (i64::MIN, Err(3)),
        (-limit - 1, Err(3)),
        (-limit, Ok(-last)),
        (-limit + 1, Ok(-last)),
        (-side - 1, Ok(-2)),
        (-side, Ok(-1)),
        (-side + 1, Ok(-1)),
        (-1, Ok(-1)),
        (0, Ok(0)),
        (1, Ok(0)),
        (side - 1, Ok(0)),
        (side, Ok(1)),
        (limit - 1, Ok(last - 1)),
        (limit, Ok(last)),
        (limit + 1, Err(3)),
        (i64::MAX, Err(3)),
    ]
}

/// Every pair of these coordinates, for each side.
#[test]
fn cells_around_zero() {
    let mut random = Random::new(1);
    for (side, last) in [(10_000, 500_000), (100_000, 50_000), (1_000_000, 5_000)] {
        for (easting, east) in cell_rows(side, last) {
            for (northing, north) in cell_rows(side, last) {
                let expected = east.and_then(|east| Ok((east, north?)));
                let answer = check_cell(side, (easting, northing), &mut random);
                assert_eq!(answer, expected, "cell {side} {easting} {northing}");
            }
        }
    }
}
