//! Lambert Azimuthal Equal-Area (EPSG method 9820) on whole numbers, both ways.
//!
//! A geodetic position becomes easting and northing, and back, for oblique, equatorial and polar
//! centres, on the sphere and on the ellipsoid. The work is done by the archive `liblaea_c.a`,
//! whose functions are written and proved in Rattle; this crate gives them Rust's types and adds
//! nothing to the answers. Every input is answered: with finite numbers, or with a [`Refusal`].
//! [`cell`] tells the map cell that a position lies in, [`GridCode`] writes and reads a cell's code,
//! and [`Tally`] sums the power received in each cell, for two control loops.
//!
//! ```
//! use laea::{Position, Set};
//!
//! let europe = Set::ETRS_LAEA;
//! let place = Position { latitude: 50.0, longitude: 5.0 };
//! let plane = europe.forward(place)?;
//! assert!((plane.first - 3_962_799.45).abs() < 1.0);
//! assert!((plane.second - 2_999_718.85).abs() < 1.0);
//!
//! let back = europe.inverse(plane)?;
//! assert!((back.latitude - place.latitude).abs() < 0.0001);
//! assert!((back.longitude - place.longitude).abs() < 0.0001);
//! # Ok::<(), laea::Refusal>(())
//! ```
//!
//! # Units
//!
//! Inside, angles are whole milliarcseconds (mas, 3,600,000 to the degree) and lengths whole
//! centimetres. The calls on `f64` take degrees and metres, round their exact values to these
//! units, halves away from zero, and give back the whole answer divided once by 3,600,000 or 100.
//! Powers are put in as milliwatts in `f64`, and rounded to whole nanowatts and summed as these.
//!
//! # Accuracy
//!
//! Each answer is that of the papers' whole-number steps, to the last unit. These steps count sines
//! in billionths and angles in milliarcseconds, and what they round adds up: of ETRS-LAEA an answer
//! lies up to 0.09 m from the exact projection in Europe, 0.19 m in the half of the globe around the
//! centre and 0.93 m where it is farthest, as far as was found by measuring against PROJ; the README
//! of the repository says more.
//!
//! # Calls
//!
//! The calls keep no state, allocate nothing, do not panic and may be made from several threads at
//! once; each takes less than 32 KB of stack, one on a tally less than 96 KB. A call for one point
//! copies the table of sines, about 0.5 µs, and a call for lists copies it once: use lists for more
//! than a few points.
//!
//! The crate needs no `std`. The archive is for x86-64 Linux.

#![no_std]
#![deny(missing_docs)]
#![forbid(unsafe_op_in_unsafe_fn)]

mod archive;
mod cells;
mod codes;
mod lists;
mod positions;
mod refusal;
mod set;
mod single;
mod tally;

pub use cells::{cell, Cell, Side};
pub use codes::{GridCode, CODE_MOST};
pub use lists::LIST_MOST;
pub use positions::{PlanePosition, Position, WholePlanePosition, WholePosition};
pub use refusal::Refusal;
pub use set::Set;
pub use tally::{CellSums, Reading, Tally, READINGS_MOST, SHARED_SLOTS, SLOT_COUNT, SURE_SLOTS};

/// The examples of the README are run with the tests.
#[cfg(doctest)]
#[doc = include_str!("../README.md")]
struct Readme;

/// The version of this crate as one number: 800 is 0.8.0.
pub const VERSION: u32 = 800;

/// The version of the archive that is linked, as one number like [`VERSION`].
///
/// ```
/// assert_eq!(laea::archive_version(), laea::VERSION);
/// ```
pub fn archive_version() -> u32 {
    // SAFETY: the call has no arguments and writes nothing.
    unsafe { archive::laea1_version() }
}
