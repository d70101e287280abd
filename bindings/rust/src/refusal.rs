//! Why a call, or one point of a list, was refused.

use core::error::Error;
use core::fmt;

/// Why a call, or one point of a list, was refused.
///
/// The names are those of `include/laea.h`. The first that applies is told: of a single point 11 to
/// 16, 2, 3, 4 in this order; of a list call 5, 6, 11 to 16, and then of each point 2, 3, 4; of a
/// code to be written 3, 32, 33, and of a text to be read as one 31; of a reading to be added to a
/// tally 45, 3, 41, 42, 43, 44, and of its other calls 45, 3. Both coordinates are tested for 2 before
/// either is for 3, and both cell numbers for 3 before either is for 32.
///
/// ```
/// use laea::{Position, Refusal, Set};
///
/// let nowhere = Position { latitude: f64::NAN, longitude: 200.0 };
/// let refusal = Set::ETRS_LAEA.forward(nowhere).unwrap_err();
/// assert_eq!(refusal, Refusal::NotFinite);
/// assert_eq!(refusal.number(), 2);
/// assert_eq!(refusal.to_string(), "a coordinate is NaN or infinite (refusal 2)");
/// ```
#[derive(Clone, Copy, Debug, PartialEq, Eq, Hash)]
#[non_exhaustive]
pub enum Refusal {
    /// 2: a coordinate is NaN or infinite.
    NotFinite,
    /// 3: a latitude beyond ±90°, a longitude beyond ±180°, an easting or a northing beyond
    /// ±50,000,000 m, a cell number beyond ±5,000,000,000 cm divided by the side.
    OutOfLimits,
    /// 4: too far from the centre of the projection.
    TooFar,
    /// 5: the lists of a call are not of one length.
    UnequalLists,
    /// 6: the lists are longer than [`LIST_MOST`](crate::LIST_MOST).
    LongLists,
    /// 11: [`Set::a`](crate::Set::a) is outside its range.
    BadA,
    /// 12: [`Set::e2`](crate::Set::e2) is outside its range.
    BadE2,
    /// 13: [`Set::lat0`](crate::Set::lat0) is outside its range.
    BadLat0,
    /// 14: [`Set::lon0`](crate::Set::lon0) is outside its range.
    BadLon0,
    /// 15: [`Set::false_easting`](crate::Set::false_easting) is outside its range.
    BadFalseEasting,
    /// 16: [`Set::false_northing`](crate::Set::false_northing) is outside its range.
    BadFalseNorthing,
    /// 31: the text that is read is not the code of a cell.
    NotACode,
    /// 32: a cell number is negative: such a cell has no code.
    NegativeCell,
    /// 33: fewer bytes are lent than this code has.
    LittleRoom,
    /// 41: the power of a reading is NaN or infinite.
    PowerNotFinite,
    /// 42: the power of a reading is below 0 or above 1,000 mW.
    PowerOutOfLimits,
    /// 43: the cell has [`READINGS_MOST`](crate::READINGS_MOST) readings, of both kinds together.
    FullCell,
    /// 44: the cell has no slot in the tally, and its loop gets no new one: it holds
    /// [`SURE_SLOTS`](crate::SURE_SLOTS) or more, and the slots that the two loops hold beyond that
    /// number are [`SHARED_SLOTS`](crate::SHARED_SLOTS) or more together.
    NoNewSlot,
    /// 45: the loop number is not 1 or 2.
    BadLoop,
    /// A number that this version of the crate has no name for.
    Unknown(u8),
}

impl Refusal {
    /// The refusal of a number: of a mark that a list call wrote, or of a number that came from
    /// elsewhere. Nothing for 0, which is no refusal.
    ///
    /// ```
    /// use laea::Refusal;
    ///
    /// assert_eq!(Refusal::from_number(0), None);
    /// assert_eq!(Refusal::from_number(4), Some(Refusal::TooFar));
    /// assert_eq!(Refusal::from_number(200), Some(Refusal::Unknown(200)));
    /// ```
    pub const fn from_number(number: u8) -> Option<Refusal> {
        Some(match number {
            0 => return None,
            2 => Refusal::NotFinite,
            3 => Refusal::OutOfLimits,
            4 => Refusal::TooFar,
            5 => Refusal::UnequalLists,
            6 => Refusal::LongLists,
            11 => Refusal::BadA,
            12 => Refusal::BadE2,
            13 => Refusal::BadLat0,
            14 => Refusal::BadLon0,
            15 => Refusal::BadFalseEasting,
            16 => Refusal::BadFalseNorthing,
            31 => Refusal::NotACode,
            32 => Refusal::NegativeCell,
            33 => Refusal::LittleRoom,
            41 => Refusal::PowerNotFinite,
            42 => Refusal::PowerOutOfLimits,
            43 => Refusal::FullCell,
            44 => Refusal::NoNewSlot,
            45 => Refusal::BadLoop,
            unknown => Refusal::Unknown(unknown),
        })
    }

    /// The refusal's number.
    pub const fn number(self) -> u8 {
        match self {
            Refusal::NotFinite => 2,
            Refusal::OutOfLimits => 3,
            Refusal::TooFar => 4,
            Refusal::UnequalLists => 5,
            Refusal::LongLists => 6,
            Refusal::BadA => 11,
            Refusal::BadE2 => 12,
            Refusal::BadLat0 => 13,
            Refusal::BadLon0 => 14,
            Refusal::BadFalseEasting => 15,
            Refusal::BadFalseNorthing => 16,
            Refusal::NotACode => 31,
            Refusal::NegativeCell => 32,
            Refusal::LittleRoom => 33,
            Refusal::PowerNotFinite => 41,
            Refusal::PowerOutOfLimits => 42,
            Refusal::FullCell => 43,
            Refusal::NoNewSlot => 44,
            Refusal::BadLoop => 45,
            Refusal::Unknown(number) => number,
        }
    }

    /// What the refusal means, in the words of `include/laea.h`.
    pub const fn text(self) -> &'static str {
        match self {
            Refusal::NotFinite => "a coordinate is NaN or infinite",
            Refusal::OutOfLimits => {
                "a coordinate, a cell's side or a cell number is beyond its limits"
            }
            Refusal::TooFar => "too far from the centre of the projection",
            Refusal::UnequalLists => "the lists are not of one length",
            Refusal::LongLists => "the lists are longer than 4,096",
            Refusal::BadA => {
                "the set's semi-major axis is not from 100,000,000 to 1,000,000,000 cm"
            }
            Refusal::BadE2 => {
                "the set's eccentricity squared is not from 0 to 10,000,000 billionths"
            }
            Refusal::BadLat0 => {
                "the set's lat0 is beyond 306,000,000 mas (85 degrees) and not a pole"
            }
            Refusal::BadLon0 => {
                "the set's lon0 is not above -648,000,000 and at most 648,000,000 mas"
            }
            Refusal::BadFalseEasting => "the set's false easting is beyond 1,000,000,000 cm",
            Refusal::BadFalseNorthing => "the set's false northing is beyond 1,000,000,000 cm",
            Refusal::NotACode => "the text is not the code of a cell",
            Refusal::NegativeCell => "a cell number is negative: such a cell has no code",
            Refusal::LittleRoom => "fewer bytes are lent than the code has",
            Refusal::PowerNotFinite => "the power is NaN or infinite",
            Refusal::PowerOutOfLimits => "the power is below 0 or above 1,000 mW",
            Refusal::FullCell => "the cell has 1,000,000 readings",
            Refusal::NoNewSlot => "the cell has no slot, and its loop gets no new one",
            Refusal::BadLoop => "the loop number is not 1 or 2",
            Refusal::Unknown(_) => "unknown refusal number",
        }
    }
}

impl fmt::Display for Refusal {
    fn fmt(&self, f: &mut fmt::Formatter<'_>) -> fmt::Result {
        write!(f, "{} (refusal {})", self.text(), self.number())
    }
}

impl Error for Refusal {}

/// What a call wrote, or the refusal whose number it gave.
pub(crate) fn answer<T>(number: u8, written: T) -> Result<T, Refusal> {
    match Refusal::from_number(number) {
        None => Ok(written),
        Some(refusal) => Err(refusal),
    }
}

#[cfg(test)]
mod tests {
    extern crate std;

    use super::{answer, Refusal};
    use std::string::ToString;

    /// Whatever number an archive gives, it is told, and nothing panics.
    #[test]
    fn every_number() {
        assert_eq!(answer(0, "written"), Ok("written"));
        for number in 1..=u8::MAX {
            let refusal = answer(number, ()).unwrap_err();
            assert_eq!(Refusal::from_number(number), Some(refusal));
            assert_eq!(refusal.number(), number);
            let known = matches!(number, 2..=6 | 11..=16 | 31..=33 | 41..=45);
            assert_eq!(refusal == Refusal::Unknown(number), !known);
            assert!(refusal
                .to_string()
                .ends_with(&std::format!("(refusal {number})")));
        }
    }
}
