//! Cells of the plane.

use crate::archive;
use crate::refusal::answer;
use crate::{Refusal, WholePlanePosition};

/// The side of a cell. No other sides are accepted.
#[derive(Clone, Copy, Debug, PartialEq, Eq, PartialOrd, Ord, Hash)]
pub enum Side {
    /// 100 m.
    HundredMetres,
    /// 1 km.
    OneKilometre,
    /// 10 km.
    TenKilometres,
}

impl Side {
    /// The side in centimetres: 10,000, 100,000 or 1,000,000.
    pub const fn centimetres(self) -> i64 {
        match self {
            Side::HundredMetres => 10_000,
            Side::OneKilometre => 100_000,
            Side::TenKilometres => 1_000_000,
        }
    }

    /// The side of so many centimetres, if there is one.
    ///
    /// ```
    /// use laea::Side;
    ///
    /// assert_eq!(Side::from_centimetres(100_000), Some(Side::OneKilometre));
    /// assert_eq!(Side::from_centimetres(50_000), None);
    /// ```
    pub const fn from_centimetres(centimetres: i64) -> Option<Side> {
        match centimetres {
            10_000 => Some(Side::HundredMetres),
            100_000 => Some(Side::OneKilometre),
            1_000_000 => Some(Side::TenKilometres),
            _ => None,
        }
    }
}

/// The numbers of the cell that a position lies in.
#[derive(Clone, Copy, Debug, PartialEq, Eq, Hash)]
pub struct Cell {
    /// The greatest whole number whose product with the side is not above the easting.
    pub east: i64,
    /// The greatest whole number whose product with the side is not above the northing.
    pub north: i64,
}

/// The cell that a position lies in: −1 cm lies in cell −1. Its numbers are from −n to n, where n is
/// 5,000,000,000 cm divided by the side. A position beyond ±5,000,000,000 cm is refused with
/// [`Refusal::OutOfLimits`].
///
/// ```
/// use laea::{cell, Cell, Side, WholePlanePosition};
///
/// let place = WholePlanePosition { easting: 396_279_945, northing: 299_971_885 };
/// assert_eq!(cell(Side::OneKilometre, place), Ok(Cell { east: 3962, north: 2999 }));
///
/// let south_west = WholePlanePosition { easting: -1, northing: -100_001 };
/// assert_eq!(cell(Side::OneKilometre, south_west), Ok(Cell { east: -1, north: -2 }));
/// ```
pub fn cell(side: Side, position: WholePlanePosition) -> Result<Cell, Refusal> {
    let mut out = [0; 2];
    // SAFETY: `out` is two places that the archive may write.
    let number = unsafe {
        archive::laea1_cell(
            side.centimetres(),
            position.easting,
            position.northing,
            &mut out,
        )
    };
    let [east, north] = answer(number, out)?;
    Ok(Cell { east, north })
}
