//! Random and hostile parameter sets.

use crate::random::Random;
use crate::steps::Set;

pub const EUROPE: Set = Set {
    a: 637_813_700,
    e2: 6_694_380,
    lat0: 187_200_000,
    lon0: 36_000_000,
    fe: 432_100_000,
    fn_: 321_000_000,
};

/// An accepted set of any aspect, on the sphere or an ellipsoid, often at its limits.
pub fn accepted(random: &mut Random) -> Set {
    if random.percent(10) {
        return EUROPE;
    }
    let any = Set {
        a: random.between(100_000_000, 1_000_000_000),
        e2: random.between(0, 10_000_000),
        lat0: random.between(-306_000_000, 306_000_000),
        lon0: random.between(-647_999_999, 648_000_000),
        fe: random.between(-1_000_000_000, 1_000_000_000),
        fn_: random.between(-1_000_000_000, 1_000_000_000),
    };
    let set = Set {
        a: random.pick(&[
            100_000_000,
            1_000_000_000,
            637_813_700,
            600_000_000,
            any.a,
            any.a,
            any.a,
        ]),
        e2: random.pick(&[
            0, 0, 1, 2, 9_999_999, 10_000_000, 6_694_380, any.e2, any.e2, any.e2,
        ]),
        lat0: latitude(random, any.lat0),
        lon0: random.pick(&[
            0,
            1,
            -1,
            648_000_000,
            647_999_999,
            -647_999_999,
            324_000_000,
            any.lon0,
            any.lon0,
            any.lon0,
        ]),
        fe: random.pick(&[
            0,
            0,
            1,
            -1_000_000_000,
            1_000_000_000,
            999_999_999,
            any.fe,
            any.fe,
        ]),
        fn_: random.pick(&[
            0,
            0,
            1,
            -1_000_000_000,
            1_000_000_000,
            999_999_999,
            any.fn_,
            any.fn_,
        ]),
    };
    assert!(set.accepted());
    set
}

/// A latitude of the centre: a pole, the Equator, a limit, or any.
fn latitude(random: &mut Random, any: i64) -> i64 {
    match random.below(8) {
        0 => 324_000_000,
        1 => -324_000_000,
        2 => random.pick(&[0, 0, 1, -1, 30_000, -60_000]),
        3 => random.pick(&[306_000_000, -306_000_000, 305_999_999, -305_999_999]),
        4 => any / 60_000 * 60_000,
        _ => any,
    }
}

/// The refusal numbers of the fields, in the table's order.
pub const NUMBERS: [u8; 6] = [11, 12, 13, 14, 15, 16];

/// The fields, in the table's order.
pub const FIELDS: [fn(&mut Set) -> &mut i64; 6] = [
    |set| &mut set.a,
    |set| &mut set.e2,
    |set| &mut set.lat0,
    |set| &mut set.lon0,
    |set| &mut set.fe,
    |set| &mut set.fn_,
];

/// What each field accepts: the least and the most of each span.
const SPANS: [&[(i64, i64)]; 6] = [
    &[(100_000_000, 1_000_000_000)],
    &[(0, 10_000_000)],
    &[
        (-324_000_000, -324_000_000),
        (-306_000_000, 306_000_000),
        (324_000_000, 324_000_000),
    ],
    &[(-647_999_999, 648_000_000)],
    &[(-1_000_000_000, 1_000_000_000)],
    &[(-1_000_000_000, 1_000_000_000)],
];

/// The limits of a field.
pub fn limits(field: usize) -> Vec<i64> {
    let ends = SPANS[field].iter().map(|&(least, most)| [least, most]);
    ends.flatten().collect()
}

/// One past each limit of a field.
pub fn past_limits(field: usize) -> Vec<i64> {
    let ends = SPANS[field]
        .iter()
        .map(|&(least, most)| [least - 1, most + 1]);
    ends.flatten().collect()
}

/// A value outside the table: one past a limit, an extreme one, the same size with the other sign,
/// or any.
fn outside(field: usize, own: i64, random: &mut Random) -> i64 {
    let accepts = |value| {
        let mut spans = SPANS[field].iter();
        spans.any(|&(least, most)| (least..=most).contains(&value))
    };
    let past = past_limits(field);
    loop {
        let far = random.any_size();
        let next = random.pick(&past);
        let extreme = random.pick(&[i64::MIN, i64::MAX, 0, -1, 315_000_000, -315_000_000, -own]);
        let value = random.pick(&[next, next, extreme, far]);
        if !accepts(value) {
            return value;
        }
    }
}

/// A set with one field, two or more outside the table.
pub fn refused(random: &mut Random) -> Set {
    let mut set = accepted(random);
    let (one, two) = (1 << random.below(6), 1 << random.below(6));
    let any = 1 + random.below(63);
    let wrong = random.pick(&[one, one, one, one | two, one | two, any]);
    for (field, of) in FIELDS.into_iter().enumerate() {
        if wrong >> field & 1 == 1 {
            let own = *of(&mut set);
            *of(&mut set) = outside(field, own, random);
        }
    }
    assert_eq!(
        set.refusal(),
        Some(NUMBERS[wrong.trailing_zeros() as usize])
    );
    set
}

/// Mostly an accepted set.
pub fn any(random: &mut Random) -> Set {
    if random.percent(8) {
        refused(random)
    } else {
        accepted(random)
    }
}
