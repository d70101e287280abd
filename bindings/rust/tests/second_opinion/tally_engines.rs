//! The tally's calls, raw and through the safe wrapper, against the second opinion.

use crate::archive;
use crate::random::{inputs, seed, Random};
use crate::raw;
use crate::single::filling;
use crate::tallies::{self, Engine};
use crate::tally_calls::good_power;
use crate::tally_rules::{nanowatts, Kind, LoopCell, Sums};
use laea::{Cell, Reading, Refusal, Side, Tally};
use std::cell::RefCell;

/// The archive's functions. The tally that a call gives is the next one's, also where it is refused.
struct Archive {
    tally: archive::Tally,
    /// What stands in the places of a reading before the call.
    random: RefCell<Random>,
}

impl Archive {
    fn next(&mut self, result: archive::TallyResult) -> u8 {
        self.tally = result.tally;
        result.refusal
    }
}

impl Engine for Archive {
    fn make(side: i64) -> (Archive, u8) {
        let made = raw::tally_new(side);
        let engine = Archive {
            tally: made.tally,
            random: RefCell::new(Random::new(side as u64)),
        };
        (engine, made.refusal)
    }

    fn add(&mut self, of: LoopCell, kind: Kind, milliwatts: f64) -> u8 {
        self.next(raw::tally_add(&self.tally, of, kind, milliwatts))
    }

    fn clear(&mut self, of: LoopCell) -> u8 {
        self.next(raw::tally_clear(&self.tally, of))
    }

    fn read(&self, of: LoopCell) -> Result<Sums, u8> {
        let before = [(); 5].map(|()| filling(&mut self.random.borrow_mut()));
        let mut places = before;
        let number = raw::tally_read(&self.tally, of, &mut places);
        let told = || format!("reading {of:?}: number {number}, before {before:?}");
        if number != 0 {
            assert_eq!(places, before, "{}", told());
            return Err(number);
        }
        let [left, sum, count, overloads, right] = places;
        assert_eq!([left, right], [before[0], before[4]], "{}", told());
        Ok(Sums {
            sum,
            count,
            overloads,
        })
    }
}

/// The safe wrapper, which has no tally of another side than the three.
struct Wrapper(Tally);

fn number<T>(answer: Result<T, Refusal>) -> u8 {
    answer.err().map_or(0, Refusal::number)
}

impl Engine for Wrapper {
    fn make(side: i64) -> (Wrapper, u8) {
        let side = Side::from_centimetres(side).expect("a side that cells have");
        let tally = Tally::new(side);
        assert_eq!(tally.side(), side);
        (Wrapper(tally), 0)
    }

    fn add(&mut self, (loop_number, east, north): LoopCell, kind: Kind, milliwatts: f64) -> u8 {
        let reading = match kind {
            Kind::Power => Reading::Power(milliwatts),
            Kind::Overload => Reading::Overloaded(milliwatts),
        };
        number(self.0.add(loop_number, Cell { east, north }, reading))
    }

    fn clear(&mut self, (loop_number, east, north): LoopCell) -> u8 {
        number(self.0.clear(loop_number, Cell { east, north }))
    }

    fn read(&self, (loop_number, east, north): LoopCell) -> Result<Sums, u8> {
        match self.0.read(loop_number, Cell { east, north }) {
            Ok(sums) => Ok(Sums {
                sum: sums.sum,
                count: sums.count,
                overloads: sums.overloads,
            }),
            Err(refusal) => Err(refusal.number()),
        }
    }
}

#[test]
fn few_cells() {
    tallies::few_cells::<Archive>("laea2_tally, few cells", seed(), inputs());
}

#[test]
fn few_cells_wrapped() {
    tallies::few_cells::<Wrapper>("wrapped tally, few cells", seed(), inputs());
}

#[test]
fn many_cells() {
    tallies::many_cells::<Archive>("laea2_tally, many cells", seed(), inputs());
}

#[test]
fn many_cells_wrapped() {
    tallies::many_cells::<Wrapper>("wrapped tally, many cells", seed(), inputs());
}

#[test]
fn full_cell() {
    tallies::full_cell::<Archive>("laea2_tally, full cell", seed());
}

#[test]
fn full_cell_wrapped() {
    tallies::full_cell::<Wrapper>("wrapped tally, full cell", seed());
}

#[test]
fn bad_sides() {
    tallies::bad_sides::<Archive>("laea2_tally, sides that no cell has", seed(), inputs());
}

#[test]
fn rounding() {
    tallies::rounding::<Archive>("laea2_tally, rounding", seed(), inputs());
}

#[test]
fn rounding_wrapped() {
    tallies::rounding::<Wrapper>("wrapped tally, rounding", seed(), inputs());
}

/// Whole nanowatts by the digits of a power's exact value, of which at most 1,074 are behind the
/// point.
fn by_digits(milliwatts: f64) -> u64 {
    let text = format!("{:.1074}", milliwatts.abs());
    let (whole, behind) = text.split_once('.').expect("a point");
    let (first, rest) = behind.split_at(6);
    let dropped: u64 = format!("{whole}{first}").parse().expect("digits");
    dropped + u64::from(rest.starts_with(|digit| digit >= '5'))
}

/// The second opinion's own rounding, which the archive is held to.
#[test]
fn rounding_by_digits() {
    for (power, expected) in [
        (-0.0, 0),
        (5e-324, 0),
        // Less than half a nanowatt as doubles, and one that is more.
        (4.999999999999999e-7, 0),
        (5e-7, 0),
        (5.000000000000001e-7, 1),
        // A half exactly.
        (1.0 / 128.0, 7_813),
        (999.9999999, 1_000_000_000),
        (1_000.0, 1_000_000_000),
    ] {
        assert_eq!(nanowatts(power), expected, "{power:e}");
        assert_eq!(by_digits(power), expected, "{power:e}");
    }
    let seed = seed();
    println!("rounding by digits: seed {seed}");
    let mut random = Random::new(seed);
    for _ in 0..100_000 {
        let power = good_power(&mut random);
        assert_eq!(nanowatts(power), by_digits(power), "{power:e}");
    }
}
