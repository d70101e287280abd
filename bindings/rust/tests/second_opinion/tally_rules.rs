//! Requests e), "Power per cell", and f), "Two amplifiers, one tally", as a model: a map from the
//! loops' cells to wide sums.

use std::collections::BTreeMap;

/// No refusal.
pub const ACCEPTED: u8 = 0;
/// A side or a cell number that the cell rule cannot give.
pub const BAD_CELL: u8 = 3;
/// The power is NaN or infinite.
pub const NOT_FINITE: u8 = 41;
/// The power is below 0 or above 1,000 mW.
pub const OUT_OF_RANGE: u8 = 42;
/// The cell has as many readings as it may have.
pub const CELL_FULL: u8 = 43;
/// The cell has no slot, and its loop gets no new one.
pub const NO_SLOT: u8 = 44;
/// A loop number other than 1 or 2.
pub const BAD_LOOP: u8 = 45;

/// The sides of cells, in cm.
pub const SIDES: [i64; 3] = [10_000, 100_000, 1_000_000];
/// The farthest easting or northing, in cm, on either side of 0.
pub const FARTHEST: i64 = 5_000_000_000;
/// The readings of both kinds that one cell may have.
pub const MOST_READINGS: u64 = 1_000_000;
/// The loops that share a tally.
pub const LOOPS: [u64; 2] = [1, 2];
/// "Two control loops now share the 256 slots."
pub const ALL_SLOTS: usize = 256;
/// "Each loop is sure of 96 slots."
pub const SURE: usize = 96;
/// As many slots beyond 96 the two hold together when neither gets a further one.
pub const SHARED: usize = 64;

const SIGN: u64 = 1 << 63;
/// Bits of infinity; those of every NaN without its sign are above it.
const INFINITY: u64 = 0x7ff0_0000_0000_0000;
/// Bits of 1000.0; doubles from 0.0 up stand in the order of their bits.
const THOUSAND: u64 = 0x408f_4000_0000_0000;

/// A loop number and a cell's numbers east and north, as a call takes them. "A cell of one loop is not a
/// cell of the other."
pub type LoopCell = (u64, i64, i64);

/// What a reading is: a power, or the mark of an overload.
#[derive(Clone, Copy, Debug, PartialEq, Eq)]
pub enum Kind {
    Power,
    Overload,
}

/// What a cell reads as: nanowatts, power readings and overload readings.
#[derive(Clone, Copy, Debug, Default, PartialEq, Eq)]
pub struct Sums {
    pub sum: u64,
    pub count: u64,
    pub overloads: u64,
}

/// The sums of a cell, wider than they can grow.
#[derive(Clone, Copy, Default)]
struct Wide {
    sum: u128,
    count: u128,
    overloads: u128,
}

/// A tally: its side, and the loops' cells with a reading since they were last cleared.
pub struct Model {
    side: i64,
    cells: BTreeMap<LoopCell, Wide>,
}

impl Model {
    /// An empty tally of this side, and 3 where no cell has such a side.
    pub fn new(side: i64) -> (Model, u8) {
        let model = Model {
            side,
            cells: BTreeMap::new(),
        };
        let number = if SIDES.contains(&side) {
            ACCEPTED
        } else {
            BAD_CELL
        };
        (model, number)
    }

    /// Adds a reading, or says why not and stays as it is.
    pub fn add(&mut self, of: LoopCell, kind: Kind, milliwatts: f64) -> u8 {
        let number = self.add_refusal(of, milliwatts);
        if number == ACCEPTED {
            let wide = self.cells.entry(of).or_default();
            match kind {
                Kind::Power => {
                    wide.sum += u128::from(nanowatts(milliwatts));
                    wide.count += 1;
                }
                Kind::Overload => wide.overloads += 1,
            }
        }
        number
    }

    /// Forgets the readings of a cell; an absent one changes nothing.
    pub fn clear(&mut self, of: LoopCell) -> u8 {
        let number = self.named_refusal(of);
        if number == ACCEPTED {
            self.cells.remove(&of);
        }
        number
    }

    /// The sums of a cell, zeros for an absent one.
    pub fn read(&self, of: LoopCell) -> Result<Sums, u8> {
        match self.named_refusal(of) {
            ACCEPTED => {}
            number => return Err(number),
        }
        let wide = self.wide(of);
        let narrow = |value: u128| u64::try_from(value).expect("a sum of at most 64 bits");
        Ok(Sums {
            sum: narrow(wide.sum),
            count: narrow(wide.count),
            overloads: narrow(wide.overloads),
        })
    }

    /// How many cells of a loop have a reading, and with it a slot.
    pub fn held(&self, loop_number: u64) -> usize {
        let own = |of: &&LoopCell| of.0 == loop_number;
        self.cells.keys().filter(own).count()
    }

    /// Whether a cell has a reading.
    pub fn has(&self, of: LoopCell) -> bool {
        self.cells.contains_key(&of)
    }

    fn wide(&self, of: LoopCell) -> Wide {
        self.cells.get(&of).copied().unwrap_or_default()
    }

    /// The first refusal that applies to a reading.
    fn add_refusal(&self, of: LoopCell, milliwatts: f64) -> u8 {
        let number = self.named_refusal(of);
        if number != ACCEPTED {
            return number;
        }
        let number = power_refusal(milliwatts);
        if number != ACCEPTED {
            return number;
        }
        let wide = self.wide(of);
        if wide.count + wide.overloads >= u128::from(MOST_READINGS) {
            return CELL_FULL;
        }
        if !self.has(of) && !gets_new_slot(of.0, |loop_number| self.held(loop_number)) {
            return NO_SLOT;
        }
        ACCEPTED
    }

    /// 45 for a loop number other than 1 or 2, "tested first"; 3 "in every call, for a side or cell
    /// number that the cell rule cannot give".
    fn named_refusal(&self, (loop_number, east, north): LoopCell) -> u8 {
        if !LOOPS.contains(&loop_number) {
            BAD_LOOP
        } else if !self.is_cell(east, north) {
            BAD_CELL
        } else {
            ACCEPTED
        }
    }

    /// True where the cell rule gives both numbers for this side. The sides divide the
    /// farthest position, so that the south or west edge of the cell decides.
    fn is_cell(&self, east: i64, north: i64) -> bool {
        let inside = |number: i64| {
            let edge = i128::from(number) * i128::from(self.side);
            -i128::from(FARTHEST) <= edge && edge <= i128::from(FARTHEST)
        };
        SIDES.contains(&self.side) && inside(east) && inside(north)
    }
}

/// "A loop gets a new slot exactly when it holds fewer than 96, or when the slots held beyond 96 by the
/// two together are fewer than 64." The function tells how many slots a loop holds.
pub fn gets_new_slot(loop_number: u64, held: impl Fn(u64) -> usize) -> bool {
    let beyond = LOOPS.map(|each| held(each).saturating_sub(SURE));
    held(loop_number) < SURE || beyond[0] + beyond[1] < SHARED
}

/// 41, 42 or 0 for a power, from the bits of the double; -0.0 is 0.
fn power_refusal(milliwatts: f64) -> u8 {
    let bits = milliwatts.to_bits();
    let size = bits & !SIGN;
    let negative = bits != size && size != 0;
    if size >= INFINITY {
        NOT_FINITE
    } else if negative || size > THOUSAND {
        OUT_OF_RANGE
    } else {
        ACCEPTED
    }
}

/// near(value · 1,000,000) of the double's exact value, for a power from 0 to 1,000 mW.
///
/// The double is m / 2^s with whole m below 2^53, and s is at least 43 for a double of at
/// most 1,000. So p = m · 1,000,000 is below 2^73, and near(p / 2^s) is p plus half of 2^s,
/// divided by 2^s with the fraction dropped. From s = 74 on p is below that half: 0.
pub fn nanowatts(milliwatts: f64) -> u64 {
    assert_eq!(power_refusal(milliwatts), ACCEPTED, "power {milliwatts}");
    let size = milliwatts.to_bits() & !SIGN;
    let exponent = size >> 52;
    let fraction = size & ((1 << 52) - 1);
    let (m, s) = if exponent == 0 {
        (fraction, 1074)
    } else {
        (fraction | 1 << 52, 1075 - exponent)
    };
    if s >= 74 {
        return 0;
    }
    let p = u128::from(m) * 1_000_000;
    let half = 1_u128 << (s - 1);
    u64::try_from((p + half) >> s).expect("at most 1,000,000,000 nW")
}
