//! A tally of the power received in each cell, for two control loops.

use crate::archive;
use crate::refusal::answer;
use crate::{Cell, Refusal, Side};
use core::fmt;

/// How many slots a [`Tally`] has, each for one cell of one loop.
pub const SLOT_COUNT: usize = 256;

/// How many slots of a [`Tally`] each loop is sure of.
pub const SURE_SLOTS: usize = 96;

/// How many slots of a [`Tally`] the two loops can hold together beyond those that each is sure of.
pub const SHARED_SLOTS: usize = 64;

/// The most readings of both kinds together that a [`Tally`] takes of a cell.
pub const READINGS_MOST: u64 = 1_000_000;

/// What a receiver told. Powers are in milliwatts, 0 to 1,000.
#[derive(Clone, Copy, Debug, PartialEq)]
pub enum Reading {
    /// The power received.
    Power(f64),
    /// The receiver was overloaded; the last good power. It is tested as the other is, but not
    /// summed.
    Overloaded(f64),
}

/// What a tally holds of a cell; all 0 for a cell without readings.
#[derive(Clone, Copy, Debug, Default, PartialEq, Eq, Hash)]
pub struct CellSums {
    /// The sum of the power readings, in nanowatts; at most 1,000,000,000,000,000.
    pub sum: u64,
    /// How many power readings there are. Where this is 0, there is no mean.
    pub count: u64,
    /// How many overload readings there are. They are not in `count`.
    pub overloads: u64,
}

/// A tally of the power received in each cell, for two control loops, 1 and 2: for up to
/// [`SLOT_COUNT`] cells of one side the sum of the power readings, their count, and the count of the
/// overload readings, since the cell was last cleared.
///
/// ```
/// use laea::{cell, CellSums, Reading, Set, Side, Tally, WholePosition};
///
/// let mut tally = Tally::new(Side::OneKilometre);
/// let place = WholePosition { latitude: 180_000_000, longitude: 18_000_000 };
/// let here = cell(tally.side(), Set::ETRS_LAEA.forward_whole(place)?)?;
/// tally.add(1, here, Reading::Power(0.25))?;
/// tally.add(1, here, Reading::Power(0.75))?;
/// tally.add(1, here, Reading::Overloaded(12.5))?;
///
/// let sums = tally.read(1, here)?;
/// assert_eq!(sums, CellSums { sum: 1_000_000, count: 2, overloads: 1 });
/// // The mean in whole nanowatts, if there is one.
/// assert_eq!(sums.sum.checked_div(sums.count), Some(500_000));
/// # Ok::<(), laea::Refusal>(())
/// ```
///
/// # Loops
///
/// A cell of one loop is not a cell of the other: each call takes a loop number and is about the cells
/// of that loop. What a loop reads of its cells depends on its own accepted calls alone, in their
/// order; whether it is refused with [`Refusal::NoNewSlot`] depends on those and on how many slots the
/// other holds. A number other than 1 or 2 is refused with [`Refusal::BadLoop`] before anything else is
/// tested.
///
/// ```
/// use laea::{Cell, CellSums, Reading, Refusal, Side, Tally};
///
/// let mut tally = Tally::new(Side::OneKilometre);
/// let here = Cell { east: 3962, north: 2999 };
/// tally.add(1, here, Reading::Power(0.25))?;
/// assert_eq!(tally.read(2, here), Ok(CellSums::default()));
///
/// let beyond = Cell { east: i64::MAX, north: 0 };
/// assert_eq!(tally.add(3, beyond, Reading::Power(f64::NAN)), Err(Refusal::BadLoop));
/// assert_eq!(tally.read(0, beyond), Err(Refusal::BadLoop));
/// # Ok::<(), laea::Refusal>(())
/// ```
///
/// # Slots
///
/// The loops share the slots. A loop gets a new slot exactly where it holds fewer than [`SURE_SLOTS`],
/// or where the slots that the two hold beyond that number are fewer than [`SHARED_SLOTS`] together.
/// So one loop can hold 160, and the other is then still sure of its 96:
///
/// ```
/// use laea::{Cell, Reading, Refusal, Side, Tally, SHARED_SLOTS, SURE_SLOTS};
///
/// let mut tally = Tally::new(Side::OneKilometre);
/// let cells = |east: usize| Cell { east: east as i64, north: 0 };
/// let one = Reading::Power(1.0);
/// for east in 0..SURE_SLOTS + SHARED_SLOTS {
///     tally.add(1, cells(east), one)?;
/// }
/// assert_eq!(tally.add(1, cells(160), one), Err(Refusal::NoNewSlot));
///
/// for east in 0..SURE_SLOTS {
///     tally.add(2, cells(east), one)?;
/// }
/// assert_eq!(tally.add(2, cells(96), one), Err(Refusal::NoNewSlot));
/// # Ok::<(), laea::Refusal>(())
/// ```
///
/// # Size and time
///
/// It has 12 KB, which each call copies: adding takes one to three microseconds, reading less than
/// one.
#[derive(Clone)]
pub struct Tally {
    side: Side,
    /// As the archive has it, of the same side.
    whole: archive::Tally,
}

impl Tally {
    /// An empty tally for cells of this side.
    ///
    /// ```
    /// use laea::{Cell, CellSums, Side, Tally};
    ///
    /// let tally = Tally::new(Side::TenKilometres);
    /// assert_eq!(tally.side(), Side::TenKilometres);
    /// assert_eq!(tally.read(1, Cell { east: 396, north: 299 }), Ok(CellSums::default()));
    /// ```
    pub fn new(side: Side) -> Tally {
        // SAFETY: the call takes every number and writes nothing but its result.
        let made = unsafe { archive::laea2_tally_new(side.centimetres()) };
        // Every side of `Side` is accepted; and a refused call, too, gives an empty tally.
        Tally {
            side,
            whole: made.tally,
        }
    }

    /// The side of the cells.
    pub const fn side(&self) -> Side {
        self.side
    }

    /// Adds a reading to a cell of a loop. It goes into the cell's slot; a cell without one gets the
    /// first that is free, where its loop gets a new slot (see [Slots](Tally#slots)).
    ///
    /// The first of these that applies is told, and then the tally stays as it is:
    /// [`Refusal::BadLoop`] for a loop number other than 1 or 2, [`Refusal::OutOfLimits`] for a cell
    /// that [`cell`](crate::cell) cannot give for the side, [`Refusal::PowerNotFinite`],
    /// [`Refusal::PowerOutOfLimits`], [`Refusal::FullCell`] where the cell has [`READINGS_MOST`]
    /// readings, [`Refusal::NoNewSlot`]. The limits of a power are tested before it is rounded to the
    /// nearest nanowatt.
    ///
    /// ```
    /// use laea::{Cell, CellSums, Reading, Refusal, Side, Tally};
    ///
    /// let mut tally = Tally::new(Side::TenKilometres);
    /// let here = Cell { east: 396, north: 299 };
    /// assert_eq!(tally.add(2, here, Reading::Power(1_000.0)), Ok(()));
    /// let loud = Reading::Overloaded(1_000.5);
    /// assert_eq!(tally.add(2, here, loud), Err(Refusal::PowerOutOfLimits));
    /// let lost = Reading::Power(f64::NAN);
    /// assert_eq!(tally.add(2, here, lost), Err(Refusal::PowerNotFinite));
    /// let beyond = Cell { east: 5001, north: 0 };
    /// assert_eq!(tally.add(2, beyond, lost), Err(Refusal::OutOfLimits));
    /// assert_eq!(tally.add(257, beyond, lost), Err(Refusal::BadLoop));
    ///
    /// let sums = CellSums { sum: 1_000_000_000, count: 1, overloads: 0 };
    /// assert_eq!(tally.read(2, here), Ok(sums));
    /// ```
    pub fn add(&mut self, loop_number: u64, cell: Cell, reading: Reading) -> Result<(), Refusal> {
        let (Reading::Power(milliwatts) | Reading::Overloaded(milliwatts)) = reading;
        let call = match reading {
            Reading::Power(_) => archive::laea2_tally_add_power,
            Reading::Overloaded(_) => archive::laea2_tally_add_overload,
        };
        // SAFETY: the call takes every value of its arguments and writes nothing but its result.
        let next = unsafe { call(self.whole, loop_number, cell.east, cell.north, milliwatts) };
        self.become_next(&next)
    }

    /// Clears a cell of a loop: all that the tally holds of it is forgotten, and its slot is free, for
    /// either loop. A cell without readings is cleared without a change. Refused with
    /// [`Refusal::BadLoop`] for a loop number other than 1 or 2, else with [`Refusal::OutOfLimits`]
    /// for a cell that [`cell`](crate::cell) cannot give.
    ///
    /// ```
    /// use laea::{Cell, CellSums, Reading, Refusal, Side, Tally};
    ///
    /// let mut tally = Tally::new(Side::HundredMetres);
    /// let cells = |east| Cell { east, north: -1 };
    /// for east in 0..160 {
    ///     tally.add(1, cells(east), Reading::Power(1.0))?;
    /// }
    /// let another = cells(-7);
    /// assert_eq!(tally.add(1, another, Reading::Power(2.0)), Err(Refusal::NoNewSlot));
    ///
    /// tally.clear(1, cells(8))?;
    /// assert_eq!(tally.add(1, another, Reading::Power(2.0)), Ok(()));
    /// assert_eq!(tally.read(1, cells(8)), Ok(CellSums::default()));
    /// # Ok::<(), laea::Refusal>(())
    /// ```
    pub fn clear(&mut self, loop_number: u64, cell: Cell) -> Result<(), Refusal> {
        // SAFETY: the call takes every value of its arguments and writes nothing but its result.
        let next =
            unsafe { archive::laea2_tally_clear(self.whole, loop_number, cell.east, cell.north) };
        self.become_next(&next)
    }

    /// What the tally holds of a cell of a loop since it was last cleared; zeros for a cell without
    /// readings. Refused with [`Refusal::BadLoop`] for a loop number other than 1 or 2, else with
    /// [`Refusal::OutOfLimits`] for a cell that [`cell`](crate::cell) cannot give.
    ///
    /// ```
    /// use laea::{Cell, CellSums, Refusal, Side, Tally};
    ///
    /// let tally = Tally::new(Side::OneKilometre);
    /// let last = Cell { east: -50_000, north: 50_000 };
    /// assert_eq!(tally.read(1, last), Ok(CellSums::default()));
    /// assert_eq!(tally.read(0, last), Err(Refusal::BadLoop));
    /// let beyond = Cell { east: -50_000, north: 50_001 };
    /// assert_eq!(tally.read(1, beyond), Err(Refusal::OutOfLimits));
    /// ```
    pub fn read(&self, loop_number: u64, cell: Cell) -> Result<CellSums, Refusal> {
        let mut out = [0; 3];
        let Cell { east, north } = cell;
        // SAFETY: `out` is three places that the archive may write.
        let number =
            unsafe { archive::laea2_tally_read(self.whole, loop_number, east, north, &mut out) };
        let [sum, count, overloads] = answer(number, out)?;
        Ok(CellSums {
            sum,
            count,
            overloads,
        })
    }

    /// A refused call gives the tally that was put in, which need not be copied back.
    fn become_next(&mut self, next: &archive::TallyResult) -> Result<(), Refusal> {
        answer(next.refusal, ())?;
        self.whole = next.tally;
        Ok(())
    }
}

/// The side and how many slots each loop holds, loop 1 first: the slots would fill pages.
impl fmt::Debug for Tally {
    fn fmt(&self, f: &mut fmt::Formatter<'_>) -> fmt::Result {
        let slots = self.whole.slots.iter();
        let held = [1, 2].map(|loop_number| {
            let own = |slot: &&archive::Slot| slot.cell.loop_number == loop_number;
            slots.clone().filter(own).count()
        });
        f.debug_struct("Tally")
            .field("side", &self.side)
            .field("held", &held)
            .finish_non_exhaustive()
    }
}

#[cfg(test)]
mod tests {
    extern crate std;

    use super::{CellSums, Reading, Tally, READINGS_MOST, SHARED_SLOTS, SLOT_COUNT, SURE_SLOTS};
    use crate::{Cell, Refusal, Side};
    use std::format;

    const HERE: Cell = Cell {
        east: 3962,
        north: 2999,
    };

    /// Numbers that no loop has; cut to fewer bits some of them are 1 or 2.
    const NO_LOOPS: [u64; 9] = [
        0,
        3,
        255,
        257,
        258,
        (1 << 32) + 1,
        1 << 63,
        (1 << 63) + 2,
        u64::MAX,
    ];

    fn sums(sum: u64, count: u64, overloads: u64) -> Result<CellSums, Refusal> {
        Ok(CellSums {
            sum,
            count,
            overloads,
        })
    }

    /// The cells from number 0 on.
    fn cell(at: usize) -> Cell {
        Cell {
            east: at as i64,
            north: 0,
        }
    }

    /// Every cell at the edges is taken or refused, by each call and for each loop.
    #[test]
    fn edges() {
        for (side, top) in [
            (Side::HundredMetres, 500_000),
            (Side::OneKilometre, 50_000),
            (Side::TenKilometres, 5_000),
        ] {
            let mut tally = Tally::new(side);
            assert_eq!(tally.side(), side);
            let numbers = [i64::MIN, -top - 1, -top, 0, top, top + 1, i64::MAX];
            for (east, north) in numbers.iter().flat_map(|n| numbers.map(|m| (*n, m))) {
                let cell = Cell { east, north };
                let inside = [east, north].iter().all(|n| (-top..=top).contains(n));
                for loop_number in [1, 2] {
                    if inside {
                        taken(&mut tally, loop_number, cell);
                    } else {
                        refused(&mut tally, loop_number, cell, Refusal::OutOfLimits);
                    }
                }
            }
        }
    }

    fn taken(tally: &mut Tally, loop_number: u64, cell: Cell) {
        let reading = Reading::Power(1.0);
        assert_eq!(tally.add(loop_number, cell, reading), Ok(()));
        assert_eq!(tally.read(loop_number, cell), sums(1_000_000, 1, 0));
        assert_eq!(tally.clear(loop_number, cell), Ok(()));
        assert_eq!(tally.read(loop_number, cell), sums(0, 0, 0));
    }

    fn refused(tally: &mut Tally, loop_number: u64, cell: Cell, refusal: Refusal) {
        let refused = Err(refusal);
        for reading in [Reading::Power(f64::NAN), Reading::Overloaded(1.0)] {
            assert_eq!(tally.add(loop_number, cell, reading), refused);
        }
        assert_eq!(tally.clear(loop_number, cell), refused);
        assert_eq!(tally.read(loop_number, cell).map(drop), refused);
    }

    /// Every call refuses a number that no loop has, before it looks at anything else, and the loops'
    /// cells stay as they are.
    #[test]
    fn other_loops() {
        let mut tally = Tally::new(Side::OneKilometre);
        for loop_number in [1, 2] {
            assert_eq!(tally.add(loop_number, HERE, Reading::Power(0.5)), Ok(()));
        }
        let beyond = Cell {
            east: i64::MIN,
            north: 0,
        };
        for loop_number in NO_LOOPS {
            for cell in [HERE, beyond] {
                refused(&mut tally, loop_number, cell, Refusal::BadLoop);
            }
        }
        for loop_number in [1, 2] {
            assert_eq!(tally.read(loop_number, HERE), sums(500_000, 1, 0));
        }
    }

    /// A cell of one loop is not a cell of the other.
    #[test]
    fn own_cells() {
        for (own, other) in [(1, 2), (2, 1)] {
            let mut tally = Tally::new(Side::OneKilometre);
            assert_eq!(tally.add(own, HERE, Reading::Power(0.5)), Ok(()));
            assert_eq!(tally.read(other, HERE), sums(0, 0, 0));
            assert_eq!(tally.clear(other, HERE), Ok(()));
            assert_eq!(tally.read(own, HERE), sums(500_000, 1, 0));
            assert_eq!(tally.add(other, HERE, Reading::Overloaded(7.0)), Ok(()));
            assert_eq!(tally.read(own, HERE), sums(500_000, 1, 0));
            assert_eq!(tally.clear(own, HERE), Ok(()));
            assert_eq!(tally.read(other, HERE), sums(0, 0, 1));
        }
    }

    /// Powers at their limits, of both kinds; a refused one changes nothing.
    #[test]
    fn powers() {
        let mut tally = Tally::new(Side::OneKilometre);
        for power in [-0.0, 0.0, 5e-324, 5e-7, 1_000.0] {
            assert_eq!(tally.add(1, HERE, Reading::Power(power)), Ok(()));
            assert_eq!(tally.add(1, HERE, Reading::Overloaded(power)), Ok(()));
        }
        for (power, refusal) in [
            (f64::NAN, Refusal::PowerNotFinite),
            (f64::INFINITY, Refusal::PowerNotFinite),
            (f64::NEG_INFINITY, Refusal::PowerNotFinite),
            (-5e-324, Refusal::PowerOutOfLimits),
            (1_000.0000000000001, Refusal::PowerOutOfLimits),
            (f64::MAX, Refusal::PowerOutOfLimits),
        ] {
            assert_eq!(tally.add(1, HERE, Reading::Power(power)), Err(refusal));
            assert_eq!(tally.add(1, HERE, Reading::Overloaded(power)), Err(refusal));
        }
        // 5e-7 as a double is a little less than half a nanowatt.
        assert_eq!(tally.read(1, HERE), sums(1_000_000_000, 5, 5));
    }

    /// A cell with `READINGS_MOST` readings takes no further one, of either kind, until it is cleared;
    /// that of the other loop does.
    #[test]
    fn full() {
        let mut tally = Tally::new(Side::OneKilometre);
        for at in 0..READINGS_MOST {
            let reading = if at % 4 == 0 {
                Reading::Overloaded(1.0)
            } else {
                Reading::Power(0.5)
            };
            assert_eq!(tally.add(1, HERE, reading), Ok(()));
        }
        for reading in [Reading::Power(0.5), Reading::Overloaded(0.5)] {
            assert_eq!(tally.add(1, HERE, reading), Err(Refusal::FullCell));
            assert_eq!(tally.add(2, HERE, reading), Ok(()));
        }
        assert_eq!(
            tally.read(1, HERE),
            sums(750_000 * 500_000, 750_000, READINGS_MOST / 4)
        );
        assert_eq!(tally.clear(1, HERE), Ok(()));
        assert_eq!(tally.add(1, HERE, Reading::Power(0.5)), Ok(()));
        assert_eq!(tally.read(1, HERE), sums(500_000, 1, 0));
        assert_eq!(tally.read(2, HERE), sums(500_000, 1, 1));
    }

    /// A copy has slots of its own.
    #[test]
    fn copied() {
        let mut tally = Tally::new(Side::OneKilometre);
        let empty = tally.clone();
        assert_eq!(tally.add(1, HERE, Reading::Power(0.5)), Ok(()));
        let copy = tally.clone();
        assert_eq!(tally.clear(1, HERE), Ok(()));
        assert_eq!(empty.read(1, HERE), sums(0, 0, 0));
        assert_eq!(copy.read(1, HERE), sums(500_000, 1, 0));
        assert_eq!(tally.read(1, HERE), sums(0, 0, 0));
    }

    /// However many slots one loop takes first, the other gets its own and what is left of the shared.
    #[test]
    fn shares() {
        let one = Reading::Overloaded(0.0);
        for (own, other) in [(1, 2), (2, 1)] {
            for first in 0..=SURE_SLOTS + SHARED_SLOTS {
                let mut tally = Tally::new(Side::OneKilometre);
                for at in 0..first {
                    assert_eq!(tally.add(own, cell(at), one), Ok(()));
                }
                let left = SLOT_COUNT - first.max(SURE_SLOTS);
                for at in 0..left {
                    assert_eq!(tally.add(other, cell(at), one), Ok(()));
                }
                assert_eq!(tally.add(other, cell(left), one), Err(Refusal::NoNewSlot));
                // A cell that has a slot needs no new one.
                assert_eq!(tally.add(other, cell(0), one), Ok(()));
                // The first loop is still sure of its own.
                let sure = if first < SURE_SLOTS {
                    Ok(())
                } else {
                    Err(Refusal::NoNewSlot)
                };
                assert_eq!(tally.add(own, cell(first), one), sure);
            }
        }
    }

    #[test]
    fn printed() {
        let mut tally = Tally::new(Side::OneKilometre);
        let text = |held: [usize; 2]| format!("Tally {{ side: OneKilometre, held: {held:?}, .. }}");
        assert_eq!(format!("{tally:?}"), text([0, 0]));
        for at in 0..SURE_SLOTS {
            assert_eq!(tally.add(2, cell(at), Reading::Overloaded(0.0)), Ok(()));
            assert_eq!(format!("{tally:?}"), text([at, at + 1]));
            assert_eq!(tally.add(1, cell(at), Reading::Overloaded(0.0)), Ok(()));
            assert_eq!(format!("{tally:?}"), text([at + 1, at + 1]));
        }
    }
}
