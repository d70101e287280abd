//! The call that tests a set alone, the type that carries one, and the versions.

use crate::calls::Direction;
use crate::random::{inputs, seed, Random};
use crate::raw;
use crate::report::Report;
use crate::sets::{self, EUROPE, FIELDS, NUMBERS};
use crate::steps::Set;
use laea::Refusal;

/// Calls in `check`: the set's own, raw and wrapped, and three in each direction.
const CALLS: u64 = 8;

/// The refusal's number of a set, raw and through the safe wrapper. Every call with that set is
/// refused by it, whatever else is wrong with the call's position; and accepted at the centre.
fn check(set: &Set) -> u8 {
    let expected = set.refusal().unwrap_or(0);
    assert_eq!(raw::set_refusal(set), expected, "{set:?}");
    let wrapped = raw::lent(set).refusal();
    assert_eq!(wrapped.map_or(0, Refusal::number), expected, "{set:?}");
    for direction in [Direction::Forward, Direction::Inverse] {
        let (whole, floats) = match (set.accepted(), direction) {
            (false, _) => ((i64::MIN, i64::MAX), (f64::NAN, f64::INFINITY)),
            (true, Direction::Forward) => {
                let degrees = |mas: i64| mas as f64 / 3_600_000.0;
                let centre = (set.lat0, set.lon0);
                (centre, (degrees(centre.0), degrees(centre.1)))
            }
            (true, Direction::Inverse) => {
                let origin = (set.fe, set.fn_);
                (origin, (origin.0 as f64 / 100.0, origin.1 as f64 / 100.0))
            }
        };
        let told = || format!("{direction:?} {set:?}");
        let given = raw::whole(direction, set, whole, &mut [7; 4]);
        assert_eq!(given, expected, "{}", told());
        let given = raw::single(direction, set, floats, &mut [7.0; 4]);
        assert_eq!(given, expected, "{}", told());
        let given = raw::null_lists(direction, set, &mut [], &mut [7; 3]);
        assert_eq!(given, expected, "{}", told());
    }
    expected
}

#[test]
fn set_refusal() {
    let seed = seed();
    let mut random = Random::new(seed);
    let mut report = Report::new("laea1_set_refusal", seed);
    while report.inputs < inputs() {
        let set = if random.percent(50) {
            sets::accepted(&mut random)
        } else {
            sets::refused(&mut random)
        };
        report.answered(check(&set));
        report.inputs += 1;
        report.calls += CALLS;
    }
    report.end(&[&NUMBERS[..], &[0]].concat());
}

/// Europe with these fields at these values.
fn with<const N: usize>(values: [(usize, i64); N]) -> Set {
    let mut set = EUROPE;
    for (field, value) in values {
        *FIELDS[field](&mut set) = value;
    }
    set
}

/// Each limit of a field and the value past it, with whether it is past.
fn edges(field: usize) -> Vec<(i64, bool)> {
    let at = sets::limits(field).into_iter().map(|value| (value, false));
    let past = sets::past_limits(field)
        .into_iter()
        .map(|value| (value, true));
    at.chain(past).collect()
}

/// Each field alone, at each of its limits, one past it and at the ends of its type.
#[test]
fn limits_of_the_set() {
    for (field, number) in NUMBERS.into_iter().enumerate() {
        let ends = [(i64::MIN, true), (i64::MAX, true)];
        for (value, past) in edges(field).into_iter().chain(ends) {
            let expected = if past { number } else { 0 };
            assert_eq!(check(&with([(field, value)])), expected);
        }
    }
}

/// All pairs of two fields, each at its limits and one past them: the first that is past is told.
#[test]
fn pairs_of_fields() {
    let mut pairs = 0;
    for (first, number) in NUMBERS.into_iter().enumerate() {
        for (second, other) in NUMBERS.into_iter().enumerate().skip(first + 1) {
            for (value, past) in edges(first) {
                for (next, next_past) in edges(second) {
                    let expected = match (past, next_past) {
                        (true, _) => number,
                        (false, true) => other,
                        (false, false) => 0,
                    };
                    let set = with([(first, value), (second, next)]);
                    assert_eq!(check(&set), expected);
                }
            }
            pairs += 1;
        }
    }
    assert_eq!(pairs, 15);
}

/// All six fields past their limits: the first is told.
#[test]
fn all_fields() {
    for at in 0..2 {
        let values = [0, 1, 2, 3, 4, 5].map(|field| (field, sets::past_limits(field)[at]));
        assert_eq!(check(&with(values)), 11);
    }
}

/// The named sets: Europe's is the paper's, and the sphere's is accepted and is a sphere.
#[test]
fn named_sets() {
    assert_eq!(laea::Set::ETRS_LAEA, raw::lent(&EUROPE));
    assert_eq!(laea::Set::ETRS_LAEA.refusal(), None);
    assert_eq!(laea::Set::SPHERE.refusal(), None);
    assert_eq!(laea::Set::SPHERE.e2, 0);
}

/// Six numbers of 64 bits, none apart from the next: what C passes.
#[test]
fn layout_of_the_set() {
    assert_eq!(std::mem::size_of::<laea::Set>(), 6 * 8);
    assert_eq!(std::mem::align_of::<laea::Set>(), 8);
}

/// The archive, the crate's constant and the package have one version.
#[test]
fn versions() {
    let part = |text: &str| text.parse::<u32>().expect("a number");
    let package = part(env!("CARGO_PKG_VERSION_MAJOR")) * 10_000
        + part(env!("CARGO_PKG_VERSION_MINOR")) * 100
        + part(env!("CARGO_PKG_VERSION_PATCH"));
    assert_eq!(raw::version(), package);
    assert_eq!(laea::VERSION, package);
    assert_eq!(laea::archive_version(), package);
}
