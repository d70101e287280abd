//! The papers' own examples, held against the second opinion alone.

use crate::calls::{cell, exact_near, single, whole, Direction, FAR, RANGE};
use crate::sets::EUROPE;
use crate::steps::{angle, near, sine, Set, DEGREE};

#[test]
fn marked_p() {
    assert_eq!((near(5, 2), near(-5, 2)), (3, -3));
    assert_eq!((sine(1), sine(-108_000_000)), (5, -500_000_000));
    assert_eq!(
        (angle(7, 7), angle(0, 1), angle(0, 0)),
        (162_000_000, 324_000_000, 0)
    );
    assert_eq!(
        (
            exact_near(1.0 / 256.0, DEGREE),
            exact_near(-1.0 / 256.0, DEGREE)
        ),
        (14_063, -14_063)
    );
    assert_eq!(exact_near(0.125, 100), 13);
    let sphere = Set {
        a: 600_000_000,
        e2: 0,
        lat0: 0,
        lon0: 0,
        fe: 0,
        fn_: 0,
    };
    assert_eq!(
        whole(Direction::Forward, &sphere, (0, 324_000_000)),
        Ok((848_528_138, 0))
    );
}

#[test]
fn example_of_document_001() {
    let (e, n) = single(Direction::Forward, &EUROPE, (50.0, 5.0)).unwrap();
    assert!((e - 3_962_799.45).abs() < 1.0 && (n - 2_999_718.85).abs() < 1.0);
    let (lat, lon) = single(Direction::Inverse, &EUROPE, (3_962_799.45, 2_999_718.85)).unwrap();
    assert!((lat - 50.0).abs() < 0.00001 && (lon - 5.0).abs() < 0.00001);
    assert_eq!(cell(100_000, 396_279_945, 299_971_885), Ok((3962, 2999)));
}

/// "so −1 cm lies in cell −1"
#[test]
fn example_of_request_b() {
    for side in [10_000, 100_000, 1_000_000] {
        assert_eq!(cell(side, -1, 0), Ok((-1, 0)));
        assert_eq!(cell(side, 0, -1), Ok((0, -1)));
    }
}

#[test]
fn example_of_the_program() {
    let forward = |lat, lon| whole(Direction::Forward, &EUROPE, (lat, lon));
    assert_eq!(
        forward(187_200_000, 36_000_000),
        Ok((432_100_000, 321_000_000))
    );
    assert_eq!(forward(-187_200_000, -612_000_000), Err(FAR));
    assert_eq!(forward(324_000_001, 0), Err(RANGE));
    assert_eq!(
        whole(Direction::Inverse, &EUROPE, (432_100_000, 321_000_000)),
        Ok((187_200_000, 36_000_000))
    );
}
