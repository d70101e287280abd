//! Random and hostile positions for a set, in whole units and in doubles. Each call of a function
//! here adds a few related ones to a list.

use crate::calls::Direction;
use crate::random::Random;
use crate::sets::EUROPE;
use crate::steps::{Constants, Set, DEGREE};

const LATITUDE: i64 = 324_000_000;
const LONGITUDE: i64 = 648_000_000;
const PLANE: i64 = 5_000_000_000;

/// The sine's exact fraction ends in a half at the odd multiples of this in the first minute, and at
/// no other angle up to 90°.
const HALF: i64 = 3_750;

/// Positions around one set. A refused set has no map, so Europe's stands in for its geometry.
pub struct Ground {
    set: Set,
    constants: Constants,
}

impl Ground {
    pub fn of(set: &Set) -> Ground {
        let set = if set.accepted() { *set } else { EUROPE };
        Ground {
            set,
            constants: Constants::of(&set),
        }
    }

    pub fn whole(&self, direction: Direction, random: &mut Random, into: &mut Vec<(i64, i64)>) {
        match direction {
            Direction::Forward => self.geodetic(random, into),
            Direction::Inverse => self.plane(random, into),
        }
    }

    fn geodetic(&self, random: &mut Random, into: &mut Vec<(i64, i64)>) {
        let any = (
            random.between(-LATITUDE, LATITUDE),
            random.between(-LONGITUDE, LONGITUDE),
        );
        match random.below(16) {
            0 => into.push((
                hostile_whole(random, LATITUDE),
                hostile_whole(random, LONGITUDE),
            )),
            1 => into.push((hostile_whole(random, LATITUDE), any.1)),
            2 => into.push((any.0, hostile_whole(random, LONGITUDE))),
            3 => into.push((random.any_size(), random.any_size())),
            4 => self.forward_edge(random, into),
            5 => into.push((
                (self.set.lat0 + random.between(-3, 3)).clamp(-LATITUDE, LATITUDE),
                wrapped(self.set.lon0 + random.between(-3, 3)),
            )),
            6 => into.push((self.set.lat0, self.set.lon0)),
            7 => into.push((
                random.pick(&[LATITUDE, -LATITUDE, LATITUDE - 1, 1 - LATITUDE, 0]),
                any.1,
            )),
            8 => into.push((
                (any.0 / 60_000 * 60_000 + random.between(-1, 1)).clamp(-LATITUDE, LATITUDE),
                wrapped(any.1 / 60_000 * 60_000 + random.between(-1, 1)),
            )),
            9 => {
                let quarter = random.pick(&[0, 324_000_000, -324_000_000, 648_000_000]);
                let close = random.between(-1, 1);
                let half = HALF * (2 * random.between(-8, 7) + 1);
                let off = random.pick(&[close, half]);
                into.push((any.0, wrapped(self.set.lon0 + quarter + off)));
            }
            10 => into.push((
                random.between(120_000_000, 260_000_000),
                random.between(-60_000_000, 150_000_000),
            )),
            _ => into.push(any),
        }
    }

    /// Along a meridian the nearness is followed from an accepted latitude to a refused one, until
    /// two neighbours remain; these and some further ones are the inputs.
    fn forward_edge(&self, random: &mut Random, into: &mut Vec<(i64, i64)>) {
        let turn = if random.percent(50) { LONGITUDE } else { 0 };
        let lon = wrapped(self.set.lon0 + turn + random.between(-60_000_000, 60_000_000));
        let near = |lat: i64| self.constants.forward_nearness(lat.into(), lon.into()) >= 20_000_000;
        let anti =
            (-self.set.lat0 + random.between(-20_000_000, 20_000_000)).clamp(-LATITUDE, LATITUDE);
        let end = random.pick(&[-LATITUDE, LATITUDE]);
        if near(anti) || !near(end) {
            return into.push((anti, lon));
        }
        let (mut far, mut close) = (anti, end);
        while (far - close).abs() > 1 {
            let middle = (far + close) / 2;
            if near(middle) {
                close = middle;
            } else {
                far = middle;
            }
        }
        for lat in close.min(far) - 3..=close.max(far) + 3 {
            into.push((lat.clamp(-LATITUDE, LATITUDE), lon));
        }
    }

    fn plane(&self, random: &mut Random, into: &mut Vec<(i64, i64)>) {
        let (rd, rn) = (self.constants.rd as i64, self.constants.rn as i64);
        let (fe, fn_) = (self.set.fe, self.set.fn_);
        let any = (
            fe + random.between(-2 * rd, 2 * rd),
            fn_ + random.between(-2 * rn, 2 * rn),
        );
        match random.below(16) {
            0 => into.push((hostile_whole(random, PLANE), hostile_whole(random, PLANE))),
            1 => into.push((hostile_whole(random, PLANE), any.1)),
            2 => into.push((any.0, hostile_whole(random, PLANE))),
            3 => into.push((random.any_size(), random.any_size())),
            4 => self.inverse_edge(random, into),
            5 => into.push((fe + random.between(-3, 3), fn_ + random.between(-3, 3))),
            6 => into.push((fe, fn_)),
            7 => {
                let sign = random.pick(&[-1, 1]);
                let (off, aside) = (random.between(-2, 2), random.between(-2, 2) * 20_000_000);
                into.push((fe + sign * 2 * rd + off, fn_ + aside));
                into.push((fe + aside, fn_ + sign * 2 * rn + off));
            }
            8 => into.push((fe + random.between(-1, 1), any.1)),
            9 => into.push((any.0, fn_ + random.between(-1, 1))),
            10 | 11 => self.image(random, into),
            12 => into.push((random.between(-PLANE, PLANE), random.between(-PLANE, PLANE))),
            _ => into.push(any),
        }
    }

    /// The image of a geodetic position, and a neighbour.
    fn image(&self, random: &mut Random, into: &mut Vec<(i64, i64)>) {
        let pole = random.pick(&[LATITUDE, -LATITUDE]);
        let lat = if random.percent(20) {
            pole
        } else {
            random.between(-LATITUDE, LATITUDE)
        };
        let lon = random.between(-LONGITUDE, LONGITUDE);
        if let Some((e, n)) = self.constants.forward(lat.into(), lon.into()) {
            into.push((e as i64, n as i64));
            into.push((
                e as i64 + random.between(-2, 2),
                n as i64 + random.between(-2, 2),
            ));
        }
    }

    /// Along a ray from the false origin the nearness is followed until two neighbours remain.
    fn inverse_edge(&self, random: &mut Random, into: &mut Vec<(i64, i64)>) {
        let turn = random.between(0, 1_000_000) as f64 * (std::f64::consts::TAU / 1_000_000.0);
        let ray = (
            turn.cos() * self.constants.rd as f64,
            turn.sin() * self.constants.rn as f64,
        );
        let place = |steps: i64| {
            let part = steps as f64 / 1.0e9;
            (
                self.set.fe + (ray.0 * part).round() as i64,
                self.set.fn_ + (ray.1 * part).round() as i64,
            )
        };
        let near = |steps: i64| {
            let (e, n) = place(steps);
            self.constants
                .inverse_nearness(e.into(), n.into())
                .is_some_and(|g| g >= 20_000_000)
        };
        let (mut close, mut far) = (1_000_000_000, 2_100_000_000);
        while far - close > 1 {
            let middle = (far + close) / 2;
            if near(middle) {
                close = middle;
            } else {
                far = middle;
            }
        }
        let (e, n) = place(close);
        for off in -2..=2 {
            into.push((e + off, n));
            into.push((e, n + off));
        }
    }

    /// Positions in degrees or metres: whole ones turned into doubles, moved a little, or hostile.
    pub fn floats(&self, direction: Direction, random: &mut Random, into: &mut Vec<(f64, f64)>) {
        let (scale, limits) = match direction {
            Direction::Forward => (DEGREE as f64, (90.0, 180.0)),
            Direction::Inverse => (100.0, (50_000_000.0, 50_000_000.0)),
        };
        match random.below(12) {
            0 => into.push((
                hostile_float(random, limits.0),
                hostile_float(random, limits.1),
            )),
            1 => into.push((f64::from_bits(random.bits()), f64::from_bits(random.bits()))),
            kind => {
                let mut whole = Vec::new();
                self.whole(direction, random, &mut whole);
                for pair in whole {
                    let first = moved(random, pair.0, scale);
                    let second = moved(random, pair.1, scale);
                    into.push(match kind {
                        2 => (hostile_float(random, limits.0), second),
                        3 => (first, hostile_float(random, limits.1)),
                        _ => (first, second),
                    });
                }
            }
        }
    }
}

/// A longitude brought above −180° and to at most 180°.
fn wrapped(lon: i64) -> i64 {
    let turn = lon.rem_euclid(2 * LONGITUDE);
    if turn > LONGITUDE {
        turn - 2 * LONGITUDE
    } else {
        turn
    }
}

fn hostile_whole(random: &mut Random, limit: i64) -> i64 {
    let any = random.any_size();
    let choices = [
        limit,
        limit - 1,
        limit + 1,
        -limit,
        1 - limit,
        -1 - limit,
        0,
        1,
        -1,
        i64::MIN,
        i64::MIN + 1,
        i64::MAX,
        i64::MAX - 1,
        1 << 32,
        -(1 << 32),
        limit + (1 << 32),
        any,
    ];
    random.pick(&choices)
}

/// The double of a whole number of units: as it is, a neighbour, at or beside the half between two
/// units, anywhere near, or cut to few bits so that halves come out exactly.
fn moved(random: &mut Random, whole: i64, scale: f64) -> f64 {
    let value = whole as f64 / scale;
    let half = (whole as f64 + random.pick(&[0.5, -0.5])) / scale;
    match random.below(8) {
        0 | 1 => value,
        2 => neighbour(value, random.between(-2, 2)),
        3 => neighbour(half, random.between(-2, 2)),
        4 => half,
        5 => (whole as f64 + random.between(-1000, 1000) as f64 / 1000.0) / scale,
        6 => (value * 256.0).round() / 256.0,
        _ => (value * 8192.0).round() / 8192.0,
    }
}

/// The double some places further from zero (or nearer, for a negative count).
fn neighbour(value: f64, places: i64) -> f64 {
    f64::from_bits(value.to_bits().wrapping_add(places as u64))
}

fn hostile_float(random: &mut Random, limit: f64) -> f64 {
    let payload = random.bits() & ((1 << 51) - 1);
    let sign = random.bits() & (1 << 63);
    let choices = [
        0,
        1,
        (1 << 52) - 1,
        1 << 52,
        f64::MAX.to_bits(),
        f64::MAX.to_bits() - 1,
        f64::INFINITY.to_bits(),
        f64::INFINITY.to_bits(),
        // Quiet NaN, plain and with a payload; signalling NaN with the least one, the greatest one, any.
        0x7ff8_0000_0000_0000,
        0x7ff8_0000_0000_0000 | payload,
        0x7fff_ffff_ffff_ffff,
        0x7ff0_0000_0000_0001,
        0x7ff7_ffff_ffff_ffff,
        0x7ff0_0000_0000_0000 | payload.max(1),
        limit.to_bits(),
        limit.to_bits() - 1,
        limit.to_bits() + 1,
        limit.to_bits() + 2,
        (limit / 2.0).to_bits(),
        (1.0f64 / 256.0).to_bits(),
        0.125f64.to_bits(),
        (2.0f64 * limit).to_bits(),
        1.0e300f64.to_bits(),
        9.3e18f64.to_bits(),
        payload,
    ];
    f64::from_bits(random.pick(&choices) | sign)
}
