//! An engine of the tally against the model in `tally_rules`, call by call.

use std::fmt::Debug;

use crate::random::Random;
use crate::report::Report;
use crate::tally_calls::{
    any_cell, any_loop, bad_cell, bad_loop, bad_side, call, good_power, kind, last_number, pool,
    power, Call, Cell, BAD_SIDES,
};
use crate::tally_edges::{Asked, Walk, Walked};
use crate::tally_rules::{
    nanowatts, Kind, LoopCell, Model, Sums, ACCEPTED, ALL_SLOTS, BAD_CELL, BAD_LOOP, CELL_FULL,
    LOOPS, MOST_READINGS, NOT_FINITE, NO_SLOT, OUT_OF_RANGE, SIDES,
};

const ALL_NUMBERS: [u8; 7] = [
    ACCEPTED,
    BAD_CELL,
    NOT_FINITE,
    OUT_OF_RANGE,
    CELL_FULL,
    NO_SLOT,
    BAD_LOOP,
];

/// A tally as the tests drive it: 0 for an accepted call, else the refusal number.
pub trait Engine: Sized {
    fn make(side: i64) -> (Self, u8);
    fn add(&mut self, of: LoopCell, kind: Kind, milliwatts: f64) -> u8;
    fn clear(&mut self, of: LoopCell) -> u8;
    fn read(&self, of: LoopCell) -> Result<Sums, u8>;
}

/// An engine and the model side by side.
struct Bench<E> {
    name: &'static str,
    seed: u64,
    report: Report,
    engine: E,
    model: Model,
    /// Those that a walk compares.
    cells: Vec<Cell>,
}

impl<E: Engine> Bench<E> {
    /// Two empty tallies of an accepted side.
    fn new(name: &'static str, seed: u64) -> Bench<E> {
        let (engine, number) = E::make(SIDES[0]);
        assert_eq!(number, ACCEPTED, "{name}: side {}", SIDES[0]);
        let (model, _) = Model::new(SIDES[0]);
        Bench {
            name,
            seed,
            report: Report::new(name, seed),
            engine,
            model,
            cells: Vec::new(),
        }
    }

    /// Makes both tallies anew.
    fn make(&mut self, side: i64) {
        let (engine, given) = E::make(side);
        let (model, expected) = Model::new(side);
        self.engine = engine;
        self.model = model;
        self.report.calls += 1;
        self.same(given, expected, || format!("side {side}"));
        self.report.answered(given);
    }

    /// Makes a call on both, compares the answers and gives the number. Adding and clearing
    /// answer with a number alone, 0 too, and it stands under `Err`.
    fn call(&mut self, call: Call) -> u8 {
        self.report.inputs += 1;
        self.report.calls += 1;
        let (given, expected) = match call {
            Call::Add(of, kind, milliwatts) => (
                Err(self.engine.add(of, kind, milliwatts)),
                Err(self.model.add(of, kind, milliwatts)),
            ),
            Call::Clear(of) => (Err(self.engine.clear(of)), Err(self.model.clear(of))),
            Call::Read(of) => (self.engine.read(of), self.model.read(of)),
        };
        self.same(given, expected, || format!("{call:?}"));
        let number = given.err().unwrap_or(ACCEPTED);
        self.report.answered(number);
        number
    }

    /// Adds a reading of which the number is known beforehand.
    fn add(&mut self, of: LoopCell, kind: Kind, milliwatts: f64, expected: u8) {
        let call = Call::Add(of, kind, milliwatts);
        let given = self.call(call);
        self.same(given, expected, || format!("{call:?}"));
    }

    /// Clears a cell, which then reads as zeros.
    fn clear(&mut self, of: LoopCell) {
        let given = self.call(Call::Clear(of));
        self.same(given, ACCEPTED, || format!("clearing {of:?}"));
        self.reads(of, Sums::default());
    }

    /// Reads a cell of which the sums are known beforehand.
    fn reads(&mut self, of: LoopCell, expected: Sums) {
        self.report.calls += 1;
        let given = self.engine.read(of);
        self.same(given, Ok(expected), || format!("reading {of:?}"));
    }

    /// Reads these cells, good or bad, of both loops from both and compares.
    fn compare(&mut self, cells: &[Cell]) {
        for &(east, north) in cells {
            for loop_number in LOOPS {
                let of = (loop_number, east, north);
                self.report.calls += 1;
                let given = self.engine.read(of);
                let expected = self.model.read(of);
                self.same(given, expected, || format!("state of {of:?}"));
            }
        }
    }

    fn same<T: PartialEq + Debug>(&self, given: T, expected: T, what: impl Fn() -> String) {
        assert!(
            given == expected,
            "{}, seed {}, input {}, {}: engine {given:?}, expected {expected:?}",
            self.name,
            self.seed,
            self.report.inputs,
            what()
        );
    }
}

/// After each call its cell is compared, in both loops, and all cells after each hundred.
impl<E: Engine> Walked for Bench<E> {
    fn held(&self, loop_number: u64) -> usize {
        self.model.held(loop_number)
    }

    fn has(&self, of: LoopCell) -> bool {
        self.model.has(of)
    }

    fn call(&mut self, call: Call) -> u8 {
        let number = Bench::call(self, call);
        let (_, east, north) = call.of();
        self.compare(&[(east, north)]);
        if self.report.inputs % 100 == 0 {
            let cells = std::mem::take(&mut self.cells);
            self.compare(&cells);
            self.cells = cells;
        }
        number
    }
}

/// Three cells in each tally, all read for both loops after each call. From some 1,000 inputs on
/// each expected number comes.
pub fn few_cells<E: Engine>(name: &'static str, seed: u64, inputs: u64) {
    let mut random = Random::new(seed);
    let mut bench = Bench::<E>::new(name, seed);
    while bench.report.inputs < inputs {
        let side = random.pick(&SIDES);
        let last = last_number(side);
        let cells = pool(&mut random, last, 2, 3);
        let clears = random.pick(&[1, 5, 20, 40]);
        bench.make(side);
        bench.compare(&cells);
        let end = inputs.min(bench.report.inputs + random.between(100, 4_000) as u64);
        while bench.report.inputs < end {
            bench.call(call(&mut random, &cells, last, clears));
            bench.compare(&cells);
        }
    }
    let numbers = [ACCEPTED, BAD_CELL, NOT_FINITE, OUT_OF_RANGE, BAD_LOOP];
    bench.report.end(&numbers);
}

/// 300 cells in each tally, walked over every edge of the rule for new slots. One walk meets each
/// edge and each expected number.
pub fn many_cells<E: Engine>(name: &'static str, seed: u64, inputs: u64) {
    let mut random = Random::new(seed);
    let mut bench = Bench::<E>::new(name, seed);
    let mut asked = Asked::default();
    loop {
        let side = random.pick(&SIDES);
        let last = last_number(side);
        let cells = pool(&mut random, last, 30, 300);
        bench.make(side);
        bench.cells.clone_from(&cells);
        Walk {
            on: &mut bench,
            asked: &mut asked,
            random: &mut random,
            cells: &cells,
            last,
        }
        .run();
        bench.compare(&cells);
        refill(&mut bench, &mut random, &cells);
        if bench.report.inputs >= inputs {
            break;
        }
    }
    let numbers = [
        ACCEPTED,
        BAD_CELL,
        NOT_FINITE,
        OUT_OF_RANGE,
        NO_SLOT,
        BAD_LOOP,
    ];
    bench.report.end(&numbers);
    asked.end(name);
}

/// Clears each cell, then gives each one reading in each loop: one loop after the other, and 160 and
/// 96 cells get a slot; or in turns, and 128 of each do.
fn refill<E: Engine>(bench: &mut Bench<E>, random: &mut Random, cells: &[Cell]) {
    for loop_number in LOOPS {
        for &(east, north) in cells {
            bench.clear((loop_number, east, north));
        }
        assert_eq!(bench.model.held(loop_number), 0, "slots after clearing");
    }
    let first = random.pick(&LOOPS);
    let loops = [first, 3 - first];
    let all = |loop_number| cells.iter().map(move |&cell| (loop_number, cell));
    let (order, most): (Vec<(u64, Cell)>, _) = if random.percent(50) {
        (loops.into_iter().flat_map(all).collect(), [160, 96])
    } else {
        let turns = cells
            .iter()
            .flat_map(|&cell| loops.map(|each| (each, cell)));
        (turns.collect(), [128, 128])
    };
    let mut tried = [0, 0];
    for (loop_number, (east, north)) in order {
        let at = usize::from(loop_number != first);
        let number = if tried[at] < most[at] {
            ACCEPTED
        } else {
            NO_SLOT
        };
        tried[at] += 1;
        let milliwatts = good_power(random);
        bench.add((loop_number, east, north), kind(random), milliwatts, number);
    }
    bench.compare(cells);
}

/// Draws a reading.
type Draw = fn(&mut Random) -> (Kind, f64);

/// One cell of a tally without a free slot is filled three times over: with both kinds,
/// with overloads alone and with powers of 1,000 mW alone.
pub fn full_cell<E: Engine>(name: &'static str, seed: u64) {
    let mut random = Random::new(seed);
    let mut bench = Bench::<E>::new(name, seed);
    let side = random.pick(&SIDES);
    let cells = pool(&mut random, last_number(side), 30, 161);
    bench.make(side);
    let held = hold_all(&mut bench, &mut random, &cells);
    let at = random.below(2);
    let (east, north) = random.pick(&cells[..held[at]]);
    let cell = (LOOPS[at], east, north);
    let stranger = (LOOPS[at], cells[160].0, cells[160].1);
    let overloaded = Sums {
        overloads: MOST_READINGS,
        ..Sums::default()
    };
    let loud = Sums {
        sum: 1_000_000_000_000_000,
        count: MOST_READINGS,
        overloads: 0,
    };
    let fills: [(Draw, Option<Sums>); 3] = [
        (|random| (kind(random), power(random)), None),
        (|random| (Kind::Overload, power(random)), Some(overloaded)),
        (|_| (Kind::Power, 1_000.0), Some(loud)),
    ];
    for (draw, sums) in fills {
        swap(&mut bench, cell, stranger);
        fill(&mut bench, &mut random, cell, draw);
        if let Some(sums) = sums {
            bench.reads(cell, sums);
        }
        refuse_more(&mut bench, &mut random, cell, last_number(side));
        bench.compare(&cells);
    }
    bench.report.end(&ALL_NUMBERS);
}

/// Gives each loop slots for the first cells until none is free; tells how many each holds.
fn hold_all<E: Engine>(bench: &mut Bench<E>, random: &mut Random, cells: &[Cell]) -> [usize; 2] {
    let held = random.pick(&[[160, 96], [128, 128], [96, 160]]);
    assert_eq!(held[0] + held[1], ALL_SLOTS);
    for (loop_number, held) in LOOPS.into_iter().zip(held) {
        for &(east, north) in &cells[..held] {
            bench.add((loop_number, east, north), kind(random), 0.0, ACCEPTED);
        }
    }
    held
}

/// Clears a cell, lends its slot to a stranger of the same loop and gets it back.
fn swap<E: Engine>(bench: &mut Bench<E>, cell: LoopCell, stranger: LoopCell) {
    bench.add(stranger, Kind::Power, 1.0, NO_SLOT);
    bench.add(stranger, Kind::Overload, 1_001.0, OUT_OF_RANGE);
    bench.add(stranger, Kind::Power, f64::NAN, NOT_FINITE);
    bench.clear(cell);
    bench.add(stranger, Kind::Overload, 1.0, ACCEPTED);
    bench.add(cell, Kind::Overload, 1.0, NO_SLOT);
    bench.compare(&[cell, stranger].map(|(_, east, north)| (east, north)));
    bench.clear(stranger);
}

/// Adds readings to an empty cell until a million are accepted; reads it now and then, and
/// after each of the last.
fn fill<E: Engine>(bench: &mut Bench<E>, random: &mut Random, of: LoopCell, draw: Draw) {
    let mut readings = 0;
    while readings < MOST_READINGS {
        let (kind, milliwatts) = draw(random);
        let number = bench.call(Call::Add(of, kind, milliwatts));
        readings += u64::from(number == ACCEPTED);
        if readings % 1_000 == 0 || readings > MOST_READINGS - 100 {
            bench.compare(&[(of.1, of.2)]);
        }
    }
}

/// Tries to add to a full cell.
fn refuse_more<E: Engine>(bench: &mut Bench<E>, random: &mut Random, of: LoopCell, last: i64) {
    let cell = (of.1, of.2);
    for _ in 0..100 {
        let bad = bad_cell(random, cell, last);
        let beyond = (of.0, bad.0, bad.1);
        for kind in [Kind::Power, Kind::Overload] {
            bench.add(of, kind, good_power(random), CELL_FULL);
            bench.add(of, kind, f64::NAN, NOT_FINITE);
            bench.add(of, kind, f64::NEG_INFINITY, NOT_FINITE);
            bench.add(of, kind, -5e-324, OUT_OF_RANGE);
            bench.add(beyond, kind, good_power(random), BAD_CELL);
            bench.add(beyond, kind, f64::NAN, BAD_CELL);
            let loop_number = bad_loop(random);
            for (east, north) in [cell, bad] {
                let of = (loop_number, east, north);
                bench.add(of, kind, good_power(random), BAD_LOOP);
                bench.add(of, kind, f64::NAN, BAD_LOOP);
            }
            bench.compare(&[cell, bad]);
        }
    }
}

/// Tallies of sides that no cell has: the making is refused 3, and each call after it 3, or 45 where
/// no loop has the number.
pub fn bad_sides<E: Engine>(name: &'static str, seed: u64, inputs: u64) {
    let mut random = Random::new(seed);
    let mut bench = Bench::<E>::new(name, seed);
    for side in BAD_SIDES {
        bad_side_calls(&mut bench, &mut random, side);
    }
    while bench.report.inputs < inputs {
        let side = bad_side(&mut random);
        bad_side_calls(&mut bench, &mut random, side);
    }
    bench.report.end(&[BAD_CELL, BAD_LOOP]);
}

fn bad_side_calls<E: Engine>(bench: &mut Bench<E>, random: &mut Random, side: i64) {
    let last = last_number(random.pick(&SIDES));
    let good = any_cell(random, last);
    let cells = [(0, 0), good, bad_cell(random, good, last)];
    bench.make(side);
    bench.compare(&cells);
    for (east, north) in cells {
        let of = (any_loop(random), east, north);
        bench.call(Call::Add(of, kind(random), good_power(random)));
        bench.call(Call::Add(of, kind(random), power(random)));
        bench.call(Call::Read(of));
        bench.call(Call::Clear(of));
    }
    bench.compare(&cells);
}

/// One cell of one tally: each power is added to it while it is empty, and read back.
/// From some 1,000 inputs on each expected number comes.
pub fn rounding<E: Engine>(name: &'static str, seed: u64, inputs: u64) {
    let mut random = Random::new(seed);
    let mut bench = Bench::<E>::new(name, seed);
    let side = random.pick(&SIDES);
    let (east, north) = any_cell(&mut random, last_number(side));
    let of = (random.pick(&LOOPS), east, north);
    bench.make(side);
    for _ in 0..inputs {
        let milliwatts = power(&mut random);
        let kind = kind(&mut random);
        let number = bench.call(Call::Add(of, kind, milliwatts));
        bench.reads(of, alone(number, kind, milliwatts));
        bench.call(Call::Clear(of));
    }
    bench.report.inputs = inputs;
    bench.report.end(&[ACCEPTED, NOT_FINITE, OUT_OF_RANGE]);
}

/// What an empty cell reads as after one reading that got this number.
fn alone(number: u8, kind: Kind, milliwatts: f64) -> Sums {
    match (number, kind) {
        (ACCEPTED, Kind::Power) => Sums {
            sum: nanowatts(milliwatts),
            count: 1,
            overloads: 0,
        },
        (ACCEPTED, Kind::Overload) => Sums {
            overloads: 1,
            ..Sums::default()
        },
        _ => Sums::default(),
    }
}
