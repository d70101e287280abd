//! The whole-number steps, in the order in which the description of the rules gives them.
//! Every number is an i128: the products stay far below its limits, and sums are tested.

use crate::table::table;

pub const U: i128 = 1_000_000_000;
pub const DEGREE: i128 = 3_600_000;
const MINUTE: i128 = 60_000;
const RIGHT: i128 = 90 * DEGREE;
const FULL: i128 = 360 * DEGREE;
const LEAST_NEARNESS: i128 = 20_000_000;
const MAS_TO_THE_RADIAN: i128 = 206_264_806;

/// "near(n/d): nearest whole number, halves away from zero."
pub fn near(n: i128, d: i128) -> i128 {
    assert!(d > 0);
    n.signum() * ((2 * n.abs() + d) / (2 * d))
}

/// "root(n): greatest whole number whose square is at most n", bit by bit from above.
pub fn root(n: i128) -> i128 {
    assert!(n >= 0);
    let mut r = 0i128;
    for bit in (0..48).rev() {
        let more = r + (1 << bit);
        if more * more <= n {
            r = more;
        }
    }
    r
}

/// Sine of any angle in mas, in billionths. "For r above 0, sine becomes the smaller of T[k+1] and
/// T[k] + near of one exact fraction", by request g).
pub fn sine(theta: i128) -> i128 {
    let turn = theta.rem_euclid(FULL);
    if turn > 2 * RIGHT {
        return -sine(FULL - turn);
    }
    let first = if turn > RIGHT { 2 * RIGHT - turn } else { turn };
    let (k, r) = ((first / MINUTE) as usize, first % MINUTE);
    let t = table();
    if r == 0 {
        return t[k];
    }
    t[k + 1].min(t[k] + rise(t[k], t[k + 1], r))
}

/// "near of one exact fraction: (T[k+1] − T[k])·f + T[k]·84,616·f·(1 − f)/(2·10^12), with
/// f = r/60,000", both parts brought over 60,000²·2·10^12.
fn rise(t: i128, next: i128, r: i128) -> i128 {
    let divisor = 2 * 10i128.pow(12);
    let straight = (next - t) * r * MINUTE * divisor;
    let bow = t * 84_616 * r * (MINUTE - r);
    near(straight + bow, MINUTE * MINUTE * divisor)
}

pub fn cosine(theta: i128) -> i128 {
    sine(RIGHT - theta)
}

/// The greatest whole number from `low` to `high` that passes; the test passes at `low`, and
/// where it passes it passes for all lower ones. The ends of the found span are tested again.
fn greatest(low: i128, high: i128, passes: impl Fn(i128) -> bool) -> i128 {
    let (mut found, mut beyond) = (low, high + 1);
    while beyond - found > 1 {
        let middle = found + (beyond - found) / 2;
        if passes(middle) {
            found = middle;
        } else {
            beyond = middle;
        }
    }
    assert!(passes(found) && (found == high || !passes(found + 1)));
    found
}

/// "angle(p, q), p and q not negative: the greatest whole θ from 0 to 90° for which
/// sine(θ) · p is not above cosine(θ) · q; angle(0, 0) = 0 by exception."
pub fn angle(p: i128, q: i128) -> i128 {
    assert!(p >= 0 && q >= 0);
    if p == 0 && q == 0 {
        return 0;
    }
    greatest(0, RIGHT, |theta| sine(theta) * p <= cosine(theta) * q)
}

/// The parameter set as it is given: a, e2, φ0, lon0, FE, FN.
#[derive(Clone, Copy, Debug, PartialEq, Eq)]
pub struct Set {
    pub a: i64,
    pub e2: i64,
    pub lat0: i64,
    pub lon0: i64,
    pub fe: i64,
    pub fn_: i64,
}

impl Set {
    /// The refusal's number of a set outside its table, "the first that applies in this order".
    pub fn refusal(&self) -> Option<u8> {
        let fields = [
            (11, (100_000_000..=1_000_000_000).contains(&self.a)),
            (12, (0..=10_000_000).contains(&self.e2)),
            (
                13,
                (-306_000_000..=306_000_000).contains(&self.lat0)
                    || self.lat0 == 324_000_000
                    || self.lat0 == -324_000_000,
            ),
            (14, self.lon0 > -648_000_000 && self.lon0 <= 648_000_000),
            (15, (-1_000_000_000..=1_000_000_000).contains(&self.fe)),
            (16, (-1_000_000_000..=1_000_000_000).contains(&self.fn_)),
        ];
        fields
            .into_iter()
            .find(|&(_, within)| !within)
            .map(|(number, _)| number)
    }

    /// "Accepted, of a set or an answer: without a refusal number."
    pub fn accepted(&self) -> bool {
        self.refusal().is_none()
    }
}

/// The constants of an accepted set.
#[derive(Clone, Copy, Debug)]
pub struct Constants {
    lat0: i128,
    lon0: i128,
    fe: i128,
    fn_: i128,
    k2: i128,
    k4: i128,
    k6: i128,
    s0: i128,
    c0: i128,
    pub rd: i128,
    pub rn: i128,
}

/// Authalic latitude (Snyder 3-14) of a geodetic one, the three factors in mas, one rounding.
fn authalic(phi: i128, k2: i128, k4: i128, k6: i128) -> i128 {
    phi - near(
        k2 * sine(2 * phi) - k4 * sine(4 * phi) + k6 * sine(6 * phi),
        U,
    )
}

impl Constants {
    pub fn of(set: &Set) -> Constants {
        assert!(set.accepted());
        let (a, e2, lat0) = (i128::from(set.a), i128::from(set.e2), i128::from(set.lat0));
        let e4 = near(e2 * e2, U);
        let e6 = near(e4 * e2, U);
        let w = U - near(e2, 3) - near(e4, 15) - near(e6, 35);
        let j = root(w * U);
        let rq = near(a * j, U);
        let mas = |k: i128| near(k * MAS_TO_THE_RADIAN, U);
        let k2 = mas(near(e2, 3) + near(31 * e4, 180) + near(59 * e6, 560));
        let k4 = mas(near(17 * e4, 360) + near(61 * e6, 1260));
        let k6 = mas(near(383 * e6, 45360));
        let beta0 = authalic(lat0, k2, k4, k6);
        let (s0, c0) = (sine(beta0), cosine(beta0));
        let d = if lat0.abs() == RIGHT {
            U
        } else {
            let s = sine(lat0);
            let v = U - near(e2 * near(s * s, U), U);
            let m = near(cosine(lat0) * U, root(v * U));
            near(m * U, near(j * c0, U))
        };
        Constants {
            lat0,
            lon0: set.lon0.into(),
            fe: set.fe.into(),
            fn_: set.fn_.into(),
            k2,
            k4,
            k6,
            s0,
            c0,
            rd: near(rq * d, U),
            rn: near(rq * U, d),
        }
    }

    pub fn beta(&self, phi: i128) -> i128 {
        authalic(phi, self.k2, self.k4, self.k6)
    }

    /// u, w and the nearness G of a position.
    fn forward_parts(&self, phi: i128, lon: i128) -> (i128, i128, i128) {
        let delta = lon - self.lon0;
        let beta = self.beta(phi);
        let (b, c) = (sine(beta), cosine(beta));
        let u = near(c * sine(delta), U);
        let v = near(c * cosine(delta), U);
        let w = near(self.c0 * b - self.s0 * v, U);
        let g = U + near(self.s0 * b + self.c0 * v, U);
        (u, w, g)
    }

    pub fn forward_nearness(&self, phi: i128, lon: i128) -> i128 {
        self.forward_parts(phi, lon).2
    }

    /// Easting and northing, or nothing where refused 4.
    pub fn forward(&self, phi: i128, lon: i128) -> Option<(i128, i128)> {
        let (u, w, g) = self.forward_parts(phi, lon);
        if g < LEAST_NEARNESS {
            return None;
        }
        let h = root(g * 500_000_000);
        Some((
            self.fe + near(self.rd * u, h),
            self.fn_ + near(self.rn * w, h),
        ))
    }

    /// X, Y, K and the nearness G of a position on the plane other than the false origin;
    /// nothing where it lies beyond ±2·RD or ±2·RN.
    fn inverse_parts(&self, easting: i128, northing: i128) -> Option<(i128, i128, i128, i128)> {
        let (de, dn) = (easting - self.fe, northing - self.fn_);
        if de.abs() > 2 * self.rd || dn.abs() > 2 * self.rn {
            return None;
        }
        let x = near(de * U, self.rd);
        let y = near(dn * U, self.rn);
        let k = near(x * x + y * y, 2 * U);
        Some((x, y, k, 2 * U - k))
    }

    pub fn inverse_nearness(&self, easting: i128, northing: i128) -> Option<i128> {
        self.inverse_parts(easting, northing).map(|parts| parts.3)
    }

    /// Latitude and longitude, or nothing where refused 4.
    pub fn inverse(&self, easting: i128, northing: i128) -> Option<(i128, i128)> {
        if easting == self.fe && northing == self.fn_ {
            return Some((self.lat0, self.lon0));
        }
        let (x, y, k, g) = self.inverse_parts(easting, northing)?;
        if g < LEAST_NEARNESS {
            return None;
        }
        let h = root(g * 500_000_000);
        let up = U - k;
        let east = near(x * h, U);
        let north = near(y * h, U);
        let z = near(up * self.s0 + north * self.c0, U);
        let f = near(up * self.c0 - north * self.s0, U);
        let beta_size = angle(root(east * east + f * f), z.abs());
        let beta = if z < 0 { -beta_size } else { beta_size };
        let phi = greatest(-RIGHT, RIGHT, |phi| self.beta(phi) <= beta);
        Some((phi, self.longitude(east, f)))
    }

    fn longitude(&self, east: i128, f: i128) -> i128 {
        let mut size = angle(f.abs(), east.abs());
        if f < 0 {
            size = 2 * RIGHT - size;
        }
        let mut lon = self.lon0 + if east < 0 { -size } else { size };
        while lon <= -2 * RIGHT {
            lon += FULL;
        }
        while lon > 2 * RIGHT {
            lon -= FULL;
        }
        lon
    }
}
