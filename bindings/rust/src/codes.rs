//! The codes of cells.

use crate::archive;
use crate::refusal::answer;
use crate::{Cell, Refusal, Side};
use core::fmt;
use core::str::{self, FromStr};

/// The most bytes that a code has. Those of 100 m cells have up to 18, of 1 km cells 15 and of 10 km
/// cells 14.
pub const CODE_MOST: usize = 18;

/// A cell with its code in the INSPIRE geographical grid systems: the side (`100m`, `1km` or
/// `10km`), `N` and the number north, `E` and the number east, without leading zeros.
///
/// It prints as its code and is parsed from it. No two texts name one cell, and a text with anything
/// before or after the code names none.
///
/// ```
/// use laea::{cell, GridCode, Refusal, Set, Side, WholePosition};
///
/// let place = WholePosition { latitude: 180_000_000, longitude: 18_000_000 };
/// let plane = Set::ETRS_LAEA.forward_whole(place)?;
/// let code = GridCode::new(Side::OneKilometre, cell(Side::OneKilometre, plane)?)?;
/// assert_eq!(code.to_string(), "1kmN2999E3962");
///
/// assert_eq!("1kmN2999E3962".parse::<GridCode>(), Ok(code));
/// assert_eq!("1kmN02999E3962".parse::<GridCode>(), Err(Refusal::NotACode));
/// # Ok::<(), laea::Refusal>(())
/// ```
#[derive(Clone, Copy, PartialEq, Eq, Hash)]
pub struct GridCode {
    side: Side,
    cell: Cell,
    /// The code, and zeros after it.
    text: [u8; CODE_MOST],
    length: usize,
}

impl GridCode {
    /// The code of a cell whose numbers are from 0 to n, where n is 5,000,000,000 cm divided by the
    /// side. Where a number is below −n or above n the cell is refused with
    /// [`Refusal::OutOfLimits`], else where one is below 0 with [`Refusal::NegativeCell`].
    ///
    /// ```
    /// use laea::{Cell, GridCode, Refusal, Side};
    ///
    /// let code = |east, north| GridCode::new(Side::TenKilometres, Cell { east, north });
    /// assert_eq!(code(396, 299)?.as_str(), "10kmN299E396");
    /// assert_eq!(code(-1, 299), Err(Refusal::NegativeCell));
    /// assert_eq!(code(-1, 5001), Err(Refusal::OutOfLimits));
    /// # Ok::<(), laea::Refusal>(())
    /// ```
    pub fn new(side: Side, cell: Cell) -> Result<GridCode, Refusal> {
        let mut text = [0; CODE_MOST];
        let length = write_code(side, cell, &mut text)?;
        // What an archive of another version may write is tested here, once for `as_str`.
        match text_of(&text, length) {
            Some(_) => Ok(GridCode {
                side,
                cell,
                text,
                length,
            }),
            None => Err(Refusal::NotACode),
        }
    }

    /// The cell of a code in bytes that hold nothing else. All others are refused with
    /// [`Refusal::NotACode`].
    ///
    /// ```
    /// use laea::{Cell, GridCode, Refusal, Side};
    ///
    /// let code = GridCode::from_bytes(b"100mN0E500000")?;
    /// assert_eq!(code.side(), Side::HundredMetres);
    /// assert_eq!(code.cell(), Cell { east: 500_000, north: 0 });
    ///
    /// assert_eq!(GridCode::from_bytes(b"100mN0E500001"), Err(Refusal::NotACode));
    /// assert_eq!(GridCode::from_bytes(b"100mN0E500000\0"), Err(Refusal::NotACode));
    /// # Ok::<(), laea::Refusal>(())
    /// ```
    pub fn from_bytes(text: &[u8]) -> Result<GridCode, Refusal> {
        let mut out = [0; 3];
        // SAFETY: pointer and length are of a slice, and `out` is three places that the archive may
        // write.
        let number = unsafe { archive::laea1_read_code(text.as_ptr(), text.len(), &mut out) };
        let [side, east, north] = answer(number, out)?;
        let side = Side::from_centimetres(side).ok_or(Refusal::NotACode)?;
        // A text that is read is the one that is written of its cell.
        GridCode::new(side, Cell { east, north })
    }

    /// The cell's side.
    pub const fn side(&self) -> Side {
        self.side
    }

    /// The cell's numbers, neither of them negative.
    pub const fn cell(&self) -> Cell {
        self.cell
    }

    /// The code.
    ///
    /// ```
    /// use laea::{Cell, GridCode, Side};
    ///
    /// let code = GridCode::new(Side::HundredMetres, Cell { east: 0, north: 7 })?;
    /// assert_eq!(code.as_str(), "100mN7E0");
    /// # Ok::<(), laea::Refusal>(())
    /// ```
    pub fn as_str(&self) -> &str {
        text_of(&self.text, self.length).unwrap_or_default()
    }

    /// Writes the code into the first of these bytes and gives its length; the others stay as they
    /// are. Where the code has more bytes than are lent, nothing is written and the call is refused
    /// with [`Refusal::LittleRoom`]; [`CODE_MOST`] bytes are enough for every code.
    ///
    /// ```
    /// use laea::{GridCode, Refusal};
    ///
    /// let code: GridCode = "1kmN2999E3962".parse()?;
    /// let mut line = *b"cell .............;";
    /// assert_eq!(code.write(&mut line[5..]), Ok(13));
    /// assert_eq!(&line, b"cell 1kmN2999E3962;");
    ///
    /// let mut short = [b'.'; 12];
    /// assert_eq!(code.write(&mut short), Err(Refusal::LittleRoom));
    /// assert_eq!(short, [b'.'; 12]);
    /// # Ok::<(), laea::Refusal>(())
    /// ```
    pub fn write(&self, out: &mut [u8]) -> Result<usize, Refusal> {
        write_code(self.side, self.cell, out)
    }
}

impl fmt::Display for GridCode {
    fn fmt(&self, f: &mut fmt::Formatter<'_>) -> fmt::Result {
        f.pad(self.as_str())
    }
}

impl fmt::Debug for GridCode {
    fn fmt(&self, f: &mut fmt::Formatter<'_>) -> fmt::Result {
        f.debug_tuple("GridCode").field(&self.as_str()).finish()
    }
}

impl FromStr for GridCode {
    type Err = Refusal;

    fn from_str(text: &str) -> Result<GridCode, Refusal> {
        GridCode::from_bytes(text.as_bytes())
    }
}

impl AsRef<str> for GridCode {
    fn as_ref(&self) -> &str {
        self.as_str()
    }
}

fn write_code(side: Side, cell: Cell, out: &mut [u8]) -> Result<usize, Refusal> {
    let mut length = 0;
    // SAFETY: pointer and length are of a slice that is lent to be written, as `length` is.
    let number = unsafe {
        archive::laea1_write_code(
            side.centimetres(),
            cell.east,
            cell.north,
            out.as_mut_ptr(),
            out.len(),
            &mut length,
        )
    };
    answer(number, length as usize)
}

/// The first bytes as text, if there are so many and they are text.
fn text_of(bytes: &[u8], length: usize) -> Option<&str> {
    bytes
        .get(..length)
        .and_then(|text| str::from_utf8(text).ok())
}

#[cfg(test)]
mod tests {
    extern crate std;

    use super::{text_of, GridCode, CODE_MOST};
    use crate::{Cell, Refusal, Side};
    use std::format;
    use std::string::ToString;

    /// Every cell at the edges has its code, which reads back, or its refusal.
    #[test]
    fn edges() {
        for (side, name, top, most) in [
            (Side::HundredMetres, "100m", 500_000, CODE_MOST),
            (Side::OneKilometre, "1km", 50_000, 15),
            (Side::TenKilometres, "10km", 5_000, 14),
        ] {
            let numbers = [-top - 1, -top, -1, 0, 10, top, top + 1];
            for (east, north) in numbers.iter().flat_map(|n| numbers.map(|m| (*n, m))) {
                let cell = Cell { east, north };
                let code = GridCode::new(side, cell);
                if east.abs() > top || north.abs() > top {
                    assert_eq!(code, Err(Refusal::OutOfLimits));
                } else if east < 0 || north < 0 {
                    assert_eq!(code, Err(Refusal::NegativeCell));
                } else {
                    let code = code.unwrap();
                    assert_eq!((code.side(), code.cell()), (side, cell));
                    assert_eq!(code.as_str(), format!("{name}N{north}E{east}"));
                    assert_eq!(code.as_str().parse(), Ok(code));
                    assert!(code.as_str().len() <= most);
                }
            }
        }
    }

    #[test]
    fn texts_that_are_no_code() {
        for text in [
            "",
            "1km",
            "1kmN1E",
            "1kmNE1",
            "1kmE1N1",
            "1kmN1E1 ",
            " 1kmN1E1",
            "1kmN1E1\n",
            "1kmN01E1",
            "1kmN1E00",
            "1kmN+1E1",
            "1kmN-1E1",
            "1KMN1E1",
            "1kmN\u{ff11}E1",
            "2kmN1E1",
            "10kmN5001E0",
            "1kmN18446744073709551617E1",
        ] {
            assert_eq!(text.parse::<GridCode>(), Err(Refusal::NotACode), "{text:?}");
        }
        assert_eq!(GridCode::from_bytes(b"1kmN\xff1E1"), Err(Refusal::NotACode));
    }

    /// With each number of bytes lent, the code stands in the first or none is changed.
    #[test]
    fn room() {
        let code: GridCode = "1kmN2999E3962".parse().unwrap();
        for lent in 0..=20 {
            let mut bytes = [0xee; 20];
            let written = code.write(&mut bytes[..lent]);
            let expected = if lent < 13 {
                Err(Refusal::LittleRoom)
            } else {
                Ok(13)
            };
            assert_eq!(written, expected);
            let (first, rest) = bytes.split_at(written.unwrap_or(0));
            assert!(code.as_str().as_bytes().starts_with(first));
            assert!(rest.iter().all(|byte| *byte == 0xee));
        }
    }

    #[test]
    fn printed() {
        let code: GridCode = "1kmN2999E3962".parse().unwrap();
        assert_eq!(code.to_string(), "1kmN2999E3962");
        assert_eq!(
            format!("{code:>15}|{code:<15}|{code:.3}"),
            "  1kmN2999E3962|1kmN2999E3962  |1km"
        );
        assert_eq!(format!("{code:?}"), "GridCode(\"1kmN2999E3962\")");
        assert_eq!(AsRef::<str>::as_ref(&code), code.as_str());
    }

    /// Whatever length and bytes an archive gives, nothing panics.
    #[test]
    fn odd_answers() {
        assert_eq!(text_of(b"1km", 3), Some("1km"));
        assert_eq!(text_of(b"1km", 4), None);
        assert_eq!(text_of(b"1km", usize::MAX), None);
        assert_eq!(text_of(b"\xff", 1), None);
    }
}
