//! The parameter set.

use crate::archive;
use crate::Refusal;

/// The parameter set of one projection: ellipsoid, natural origin and false origin.
///
/// Angles are whole milliarcseconds (mas, 3,600,000 to the degree), lengths whole centimetres. Any
/// numbers can be put in: a call with a field outside its range is refused with the number of the
/// first such field, and [`refusal`](Set::refusal) tells beforehand.
///
/// Name the fields that matter and take the others from a named set. The source then stays right
/// when a later version adds a field:
///
/// ```
/// use laea::{Set, WholePlanePosition, WholePosition};
///
/// let sphere = Set { a: 600_000_000, ..Set::SPHERE };
/// let quarter = WholePosition { latitude: 0, longitude: 324_000_000 };
/// let plane = WholePlanePosition { easting: 848_528_138, northing: 0 };
/// assert_eq!(sphere.forward_whole(quarter), Ok(plane));
/// ```
#[derive(Clone, Copy, Debug, PartialEq, Eq, Hash)]
#[repr(C)]
pub struct Set {
    /// Semi-major axis in cm, 100,000,000 to 1,000,000,000.
    pub a: i64,
    /// Eccentricity squared in billionths, 0 (the sphere) to 10,000,000.
    pub e2: i64,
    /// Latitude of natural origin in mas: −306,000,000 to 306,000,000 (85°), or exactly
    /// ±324,000,000 (a pole).
    pub lat0: i64,
    /// Longitude of natural origin in mas: above −648,000,000, at most 648,000,000 (180°).
    pub lon0: i64,
    /// False easting in cm, −1,000,000,000 to 1,000,000,000.
    pub false_easting: i64,
    /// False northing in cm, −1,000,000,000 to 1,000,000,000.
    pub false_northing: i64,
}

impl Set {
    /// ETRS-LAEA (EPSG 3035), the equal-area map of Europe: GRS 1980, centre 52° N 10° E, false
    /// origin 4,321,000 m east and 3,210,000 m north.
    pub const ETRS_LAEA: Set = Set {
        a: 637_813_700,
        e2: 6_694_380,
        lat0: 187_200_000,
        lon0: 36_000_000,
        false_easting: 432_100_000,
        false_northing: 321_000_000,
    };

    /// A sphere of 6,371 km with its centre where the Equator meets the meridian of Greenwich, and
    /// no false origin: a set to start from.
    pub const SPHERE: Set = Set {
        a: 637_100_000,
        e2: 0,
        lat0: 0,
        lon0: 0,
        false_easting: 0,
        false_northing: 0,
    };

    /// The refusal that every call with this set gives, or nothing for an accepted set.
    ///
    /// ```
    /// use laea::{Refusal, Set};
    ///
    /// assert_eq!(Set::ETRS_LAEA.refusal(), None);
    /// let flat = Set { e2: 10_000_001, ..Set::ETRS_LAEA };
    /// assert_eq!(flat.refusal(), Some(Refusal::BadE2));
    /// let flat_and_small = Set { a: 0, ..flat };
    /// assert_eq!(flat_and_small.refusal(), Some(Refusal::BadA));
    /// ```
    pub fn refusal(&self) -> Option<Refusal> {
        // SAFETY: the call takes every value of its argument and writes nothing.
        Refusal::from_number(unsafe { archive::laea1_set_refusal(*self) })
    }
}
