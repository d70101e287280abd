//! The positions that the calls take and give, each a type of its own, so that a position on the
//! globe cannot be taken for one on the plane, nor whole units for degrees and metres.

/// A geodetic position, in degrees.
#[derive(Clone, Copy, Debug, PartialEq)]
pub struct Position {
    /// Geodetic latitude, −90 to 90, north positive.
    pub latitude: f64,
    /// Longitude, −180 to 180, east positive.
    pub longitude: f64,
}

/// A position on the plane, in metres.
#[derive(Clone, Copy, Debug, PartialEq)]
pub struct PlanePosition {
    /// The easting, −50,000,000 to 50,000,000.
    pub first: f64,
    /// The northing, −50,000,000 to 50,000,000.
    pub second: f64,
}

/// A geodetic position, in whole milliarcseconds, 3,600,000 to the degree.
#[derive(Clone, Copy, Debug, PartialEq, Eq, Hash)]
pub struct WholePosition {
    /// Geodetic latitude, −324,000,000 to 324,000,000, north positive.
    pub latitude: i64,
    /// Longitude, −648,000,000 to 648,000,000, east positive.
    pub longitude: i64,
}

/// A position on the plane, in whole centimetres.
#[derive(Clone, Copy, Debug, PartialEq, Eq, Hash)]
pub struct WholePlanePosition {
    /// Easting, −5,000,000,000 to 5,000,000,000.
    pub easting: i64,
    /// Northing, −5,000,000,000 to 5,000,000,000.
    pub northing: i64,
}
