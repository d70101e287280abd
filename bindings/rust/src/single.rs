//! The calls for one point.

use crate::archive;
use crate::refusal::answer;
use crate::{PlanePosition, Position, Refusal, Set, WholePlanePosition, WholePosition};

impl Set {
    /// The position on the plane, in metres, of a position in degrees.
    ///
    /// ```
    /// use laea::{PlanePosition, Position, Set};
    ///
    /// let centre = Position { latitude: 52.0, longitude: 10.0 };
    /// let false_origin = PlanePosition { first: 4_321_000.0, second: 3_210_000.0 };
    /// assert_eq!(Set::ETRS_LAEA.forward(centre), Ok(false_origin));
    /// ```
    pub fn forward(&self, position: Position) -> Result<PlanePosition, Refusal> {
        let mut out = [0.0; 2];
        // SAFETY: `out` is two places that the archive may write.
        let number = unsafe {
            archive::laea1_forward(*self, position.latitude, position.longitude, &mut out)
        };
        let [first, second] = answer(number, out)?;
        Ok(PlanePosition { first, second })
    }

    /// The position in degrees of a position on the plane, in metres.
    ///
    /// ```
    /// use laea::{PlanePosition, Position, Refusal, Set};
    ///
    /// let false_origin = PlanePosition { first: 4_321_000.0, second: 3_210_000.0 };
    /// let centre = Position { latitude: 52.0, longitude: 10.0 };
    /// assert_eq!(Set::ETRS_LAEA.inverse(false_origin), Ok(centre));
    ///
    /// let far = PlanePosition { first: 40_000_000.0, second: 0.0 };
    /// assert_eq!(Set::ETRS_LAEA.inverse(far), Err(Refusal::TooFar));
    /// ```
    pub fn inverse(&self, position: PlanePosition) -> Result<Position, Refusal> {
        let mut out = [0.0; 2];
        // SAFETY: `out` is two places that the archive may write.
        let number =
            unsafe { archive::laea1_inverse(*self, position.first, position.second, &mut out) };
        let [latitude, longitude] = answer(number, out)?;
        Ok(Position {
            latitude,
            longitude,
        })
    }

    /// Easting and northing, in whole centimetres, of a position in whole milliarcseconds.
    ///
    /// ```
    /// use laea::{Refusal, Set, WholePlanePosition, WholePosition};
    ///
    /// let europe = Set::ETRS_LAEA;
    /// let centre = WholePosition { latitude: 187_200_000, longitude: 36_000_000 };
    /// let false_origin = WholePlanePosition { easting: 432_100_000, northing: 321_000_000 };
    /// assert_eq!(europe.forward_whole(centre), Ok(false_origin));
    ///
    /// let opposite = WholePosition { latitude: -187_200_000, longitude: -612_000_000 };
    /// assert_eq!(europe.forward_whole(opposite), Err(Refusal::TooFar));
    /// ```
    pub fn forward_whole(&self, position: WholePosition) -> Result<WholePlanePosition, Refusal> {
        let mut out = [0; 2];
        // SAFETY: `out` is two places that the archive may write.
        let number = unsafe {
            archive::laea1_forward_whole(*self, position.latitude, position.longitude, &mut out)
        };
        let [easting, northing] = answer(number, out)?;
        Ok(WholePlanePosition { easting, northing })
    }

    /// Latitude and longitude, in whole milliarcseconds, of a position in whole centimetres.
    ///
    /// ```
    /// use laea::{Set, WholePlanePosition, WholePosition};
    ///
    /// let false_origin = WholePlanePosition { easting: 432_100_000, northing: 321_000_000 };
    /// let centre = WholePosition { latitude: 187_200_000, longitude: 36_000_000 };
    /// assert_eq!(Set::ETRS_LAEA.inverse_whole(false_origin), Ok(centre));
    /// ```
    pub fn inverse_whole(&self, position: WholePlanePosition) -> Result<WholePosition, Refusal> {
        let mut out = [0; 2];
        // SAFETY: `out` is two places that the archive may write.
        let number = unsafe {
            archive::laea1_inverse_whole(*self, position.easting, position.northing, &mut out)
        };
        let [latitude, longitude] = answer(number, out)?;
        Ok(WholePosition {
            latitude,
            longitude,
        })
    }
}
