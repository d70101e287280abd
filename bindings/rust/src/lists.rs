//! The calls for lists of points.

use crate::archive;
use crate::refusal::answer;
use crate::{Refusal, Set};

/// The greatest length of the lists that [`Set::forward_list`] and [`Set::inverse_list`] accept.
pub const LIST_MOST: usize = 4096;

impl Set {
    /// Positions on the plane, in metres, of positions in degrees; gives the count of accepted
    /// points.
    ///
    /// All five lists must have one length, at most [`LIST_MOST`]. Of each position on the plane
    /// the easting goes to `leading` and the northing to `trailing`. An accepted point gets its
    /// answer and the mark 0, a refused one 0.0, 0.0 and its refusal's number, of which
    /// [`Refusal::from_number`] makes the refusal. Where the call itself is refused, with
    /// [`Refusal::UnequalLists`], [`Refusal::LongLists`] or the refusal of the set, nothing is written.
    ///
    /// ```
    /// use laea::{Refusal, Set};
    ///
    /// let latitudes = [52.0, 91.0];
    /// let longitudes = [10.0, 10.0];
    /// let (mut eastings, mut northings, mut marks) = ([7.0; 2], [7.0; 2], [7; 2]);
    /// let accepted = Set::ETRS_LAEA.forward_list(
    ///     &latitudes,
    ///     &longitudes,
    ///     &mut eastings,
    ///     &mut northings,
    ///     &mut marks,
    /// )?;
    /// assert_eq!(accepted, 1);
    /// assert_eq!(eastings, [4_321_000.0, 0.0]);
    /// assert_eq!(northings, [3_210_000.0, 0.0]);
    /// assert_eq!(marks.map(Refusal::from_number), [None, Some(Refusal::OutOfLimits)]);
    ///
    /// let unequal = Set::ETRS_LAEA.forward_list(
    ///     &latitudes,
    ///     &longitudes[..1],
    ///     &mut eastings,
    ///     &mut northings,
    ///     &mut marks,
    /// );
    /// assert_eq!(unequal, Err(Refusal::UnequalLists));
    /// # Ok::<(), laea::Refusal>(())
    /// ```
    pub fn forward_list(
        &self,
        latitudes: &[f64],
        longitudes: &[f64],
        leading: &mut [f64],
        trailing: &mut [f64],
        marks: &mut [u8],
    ) -> Result<usize, Refusal> {
        let mut count = 0;
        // SAFETY: each pointer and length is of a slice; those written to are lent for that alone,
        // as `count` is.
        let number = unsafe {
            archive::laea1_forward_list(
                *self,
                latitudes.as_ptr(),
                latitudes.len(),
                longitudes.as_ptr(),
                longitudes.len(),
                leading.as_mut_ptr(),
                leading.len(),
                trailing.as_mut_ptr(),
                trailing.len(),
                marks.as_mut_ptr(),
                marks.len(),
                &mut count,
            )
        };
        answer(number, count as usize)
    }

    /// Positions in degrees of positions on the plane, in metres; gives the count of accepted
    /// points. Lengths, marks and refusals are as in [`forward_list`](Set::forward_list).
    ///
    /// ```
    /// use laea::{Refusal, Set};
    ///
    /// let eastings = [4_321_000.0, f64::INFINITY, 40_000_000.0];
    /// let northings = [3_210_000.0, 0.0, 0.0];
    /// let (mut latitudes, mut longitudes, mut marks) = ([7.0; 3], [7.0; 3], [7; 3]);
    /// let accepted = Set::ETRS_LAEA.inverse_list(
    ///     &eastings,
    ///     &northings,
    ///     &mut latitudes,
    ///     &mut longitudes,
    ///     &mut marks,
    /// )?;
    /// assert_eq!(accepted, 1);
    /// assert_eq!(latitudes, [52.0, 0.0, 0.0]);
    /// assert_eq!(longitudes, [10.0, 0.0, 0.0]);
    /// let [first, second, third] = marks.map(Refusal::from_number);
    /// assert_eq!(first, None);
    /// assert_eq!(second, Some(Refusal::NotFinite));
    /// assert_eq!(third, Some(Refusal::TooFar));
    /// # Ok::<(), laea::Refusal>(())
    /// ```
    pub fn inverse_list(
        &self,
        leading: &[f64],
        trailing: &[f64],
        latitudes: &mut [f64],
        longitudes: &mut [f64],
        marks: &mut [u8],
    ) -> Result<usize, Refusal> {
        let mut count = 0;
        // SAFETY: each pointer and length is of a slice; those written to are lent for that alone,
        // as `count` is.
        let number = unsafe {
            archive::laea1_inverse_list(
                *self,
                leading.as_ptr(),
                leading.len(),
                trailing.as_ptr(),
                trailing.len(),
                latitudes.as_mut_ptr(),
                latitudes.len(),
                longitudes.as_mut_ptr(),
                longitudes.len(),
                marks.as_mut_ptr(),
                marks.len(),
                &mut count,
            )
        };
        answer(number, count as usize)
    }
}
