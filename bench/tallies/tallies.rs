//! Time per call of a tally: of the archive's functions, which take it and give the next by value; of
//! the crate's `Tally`, which calls these; and of a plain struct that is changed in its place.
//!
//! Each contestant makes the same calls, on cells drawn evenly from those in use, of both loops; or it
//! fills an empty tally, where each call is for a new cell. A round runs every contestant once, one after
//! the other, each on a tally of its own that was filled beforehand; the rounds follow each other, so that
//! a slow spell of the machine meets all alike. Only the calls are timed. The time is the processor time
//! of the thread, which other programs on the machine lengthen less than they do the time of day. The
//! median over all rounds is printed.

/// The crate's own declarations of the archive's functions, so that they stand in one place.
#[allow(dead_code)]
#[path = "../../bindings/rust/src/archive.rs"]
mod archive;
mod plain;
#[allow(dead_code)]
#[path = "../../bindings/rust/tests/second_opinion/random.rs"]
mod random;

use laea::{Cell, Reading, Side};
/// What the declarations name.
use laea::{Set, SLOT_COUNT};
use plain::LoopCell;
use random::Random;
use std::hint::black_box;
use std::process::exit;

/// Calls of each contestant in a round.
const CALLS: usize = 1_000;
const SIDE: Side = Side::OneKilometre;
const NAMES: [&str; 3] = [
    "laea2_tally_*, by value",
    "laea::Tally, in its place",
    "a plain struct, in its place",
];

/// A loop's cell and a power in milliwatts.
type Call = (LoopCell, f64);

trait Contestant: Clone {
    fn new() -> Self;
    /// The refusal's number, or 0.
    fn add(&mut self, call: Call) -> u8;
    /// The sum in nanowatts, the count and the overload count, or the refusal's number.
    fn read(&self, cell: LoopCell) -> Result<[u64; 3], u8>;
}

impl Contestant for archive::Tally {
    fn new() -> Self {
        // SAFETY: the call takes every number and writes nothing but its result.
        unsafe { archive::laea2_tally_new(SIDE.centimetres()) }.tally
    }

    fn add(&mut self, ((loop_number, east, north), milliwatts): Call) -> u8 {
        // SAFETY: the call takes every value of its arguments and writes nothing but its result.
        let next =
            unsafe { archive::laea2_tally_add_power(*self, loop_number, east, north, milliwatts) };
        *self = next.tally;
        next.refusal
    }

    fn read(&self, (loop_number, east, north): LoopCell) -> Result<[u64; 3], u8> {
        let mut out = [0; 3];
        // SAFETY: `out` is three places that the archive may write.
        match unsafe { archive::laea2_tally_read(*self, loop_number, east, north, &mut out) } {
            0 => Ok(out),
            number => Err(number),
        }
    }
}

impl Contestant for laea::Tally {
    fn new() -> Self {
        laea::Tally::new(SIDE)
    }

    fn add(&mut self, ((loop_number, east, north), milliwatts): Call) -> u8 {
        let reading = Reading::Power(milliwatts);
        let answer = self.add(loop_number, Cell { east, north }, reading);
        answer.err().map_or(0, |refusal| refusal.number())
    }

    fn read(&self, (loop_number, east, north): LoopCell) -> Result<[u64; 3], u8> {
        match self.read(loop_number, Cell { east, north }) {
            Ok(sums) => Ok([sums.sum, sums.count, sums.overloads]),
            Err(refusal) => Err(refusal.number()),
        }
    }
}

impl Contestant for plain::Tally {
    fn new() -> Self {
        plain::Tally::new(SIDE.centimetres())
    }

    fn add(&mut self, (cell, milliwatts): Call) -> u8 {
        self.add(cell, milliwatts).err().unwrap_or(0)
    }

    fn read(&self, cell: LoopCell) -> Result<[u64; 3], u8> {
        self.read(cell)
    }
}

fn stop(why: &str) -> ! {
    eprintln!("{why}");
    exit(2);
}

/// Processor time of the thread.
fn seconds() -> f64 {
    extern "C" {
        fn clock_gettime(clock: i32, time: *mut [i64; 2]) -> i32;
    }
    const THREAD: i32 = 3;
    let mut time = [0; 2];
    // SAFETY: a time is two numbers of 64 bits, which the call writes.
    if unsafe { clock_gettime(THREAD, &mut time) } != 0 {
        stop("there is no clock for the thread");
    }
    time[0] as f64 + time[1] as f64 / 1e9
}

/// Runs these calls; gives the nanoseconds of each.
fn timed(mut run: impl FnMut(Call), calls: &[Call]) -> f64 {
    let start = seconds();
    for &call in calls {
        run(call);
    }
    (seconds() - start) / calls.len() as f64 * 1e9
}

/// A tally with one reading in each of these cells.
fn filled<T: Contestant>(cells: &[LoopCell]) -> T {
    let mut tally = T::new();
    for &cell in cells {
        if tally.add((cell, 1.0)) != 0 {
            stop("a reading is refused");
        }
    }
    tally
}

fn time_adds<T: Contestant>(start: &T, calls: &[Call]) -> f64 {
    let mut tally = start.clone();
    let time = timed(
        |call| {
            black_box(tally.add(black_box(call)));
        },
        calls,
    );
    black_box(&tally);
    time
}

fn time_reads<T: Contestant>(tally: &T, calls: &[Call]) -> f64 {
    timed(
        |(cell, _)| {
            let _ = black_box(black_box(tally).read(black_box(cell)));
        },
        calls,
    )
}

/// What the cells hold after these calls.
fn sums<T: Contestant>(start: &T, cells: &[LoopCell], calls: &[Call]) -> Vec<[u64; 3]> {
    let mut tally = start.clone();
    if calls.iter().any(|&call| tally.add(call) != 0) {
        stop("a reading is refused");
    }
    let read = |cell: &LoopCell| tally.read(*cell).unwrap_or_else(|_| stop("refused"));
    cells.iter().map(read).collect()
}

fn median(times: &mut [f64]) -> f64 {
    times.sort_by(f64::total_cmp);
    times[times.len() / 2]
}

fn print(what: &str, times: &mut [Vec<f64>; 3]) {
    println!("\n{what}");
    let medians = times.each_mut().map(|times| median(times));
    for (name, time) in NAMES.into_iter().zip(medians) {
        let ratio = time / medians[2];
        println!("  {name:<40} {time:9.1} ns a call   {ratio:6.2}");
    }
}

/// Cells of both loops in turns, so that 256 of them get a slot.
fn cells(count: usize) -> Vec<LoopCell> {
    let cell = |at: i64| (1 + at as u64 % 2, 3_900 + at, 2_999);
    (0..count as i64).map(cell).collect()
}

/// The contestants, each with one reading in each of some cells.
struct All {
    by_value: archive::Tally,
    wrapped: laea::Tally,
    plain: plain::Tally,
}

impl All {
    fn new(cells: &[LoopCell]) -> All {
        All {
            by_value: filled(cells),
            wrapped: filled(cells),
            plain: filled(cells),
        }
    }

    /// What is timed must be the same work.
    fn agree(&self, cells: &[LoopCell], calls: &[Call]) {
        let expected = sums(&self.plain, cells, calls);
        let by_value = sums(&self.by_value, cells, calls);
        if by_value != expected || sums(&self.wrapped, cells, calls) != expected {
            stop("the contestants do not agree");
        }
    }

    fn time_adds(&self, calls: &[Call], times: &mut [Vec<f64>; 3]) {
        times[0].push(time_adds(&self.by_value, calls));
        times[1].push(time_adds(&self.wrapped, calls));
        times[2].push(time_adds(&self.plain, calls));
    }

    fn time_reads(&self, calls: &[Call], times: &mut [Vec<f64>; 3]) {
        times[0].push(time_reads(&self.by_value, calls));
        times[1].push(time_reads(&self.wrapped, calls));
        times[2].push(time_reads(&self.plain, calls));
    }
}

/// Calls on cells that have a slot.
fn run(count: usize, rounds: usize, random: &mut Random) {
    let cells = cells(count);
    let all = All::new(&cells);
    let mut adds = [(); 3].map(|()| Vec::new());
    let mut reads = [(); 3].map(|()| Vec::new());
    for _ in 0..rounds {
        let calls: Vec<Call> = (0..CALLS)
            .map(|_| {
                let power = random.between(0, 1_000_000_000) as f64 / 1e6;
                (random.pick(&cells), power)
            })
            .collect();
        all.agree(&cells, &calls);
        all.time_adds(&calls, &mut adds);
        all.time_reads(&calls, &mut reads);
    }
    print(&format!("Add a power, cells in use: {count}"), &mut adds);
    print(&format!("Read, cells in use: {count}"), &mut reads);
}

/// An empty tally is filled: each call is for a new cell, and all slots are in use at the end.
fn run_new(rounds: usize) {
    let cells = cells(SLOT_COUNT);
    let calls: Vec<Call> = cells.iter().map(|&cell| (cell, 1.0)).collect();
    let all = All::new(&[]);
    all.agree(&cells, &calls);
    let mut adds = [(); 3].map(|()| Vec::new());
    for _ in 0..rounds {
        all.time_adds(&calls, &mut adds);
    }
    print(
        "Add a power to a new cell, cells in use: 0 to 255",
        &mut adds,
    );
}

fn main() {
    let rounds = match std::env::args().nth(1) {
        Some(text) => text.parse().unwrap_or(0),
        None => 201,
    };
    if !(1..=10_000).contains(&rounds) {
        stop("the argument is the number of rounds, 1 to 10000");
    }
    println!("Tallies of {SLOT_COUNT} slots; {CALLS} calls of each line in a round, {SLOT_COUNT} for new cells.");
    println!("Median processor time of {rounds} rounds; each round runs every line once.");
    println!("The last column is the time over that of the plain struct.");
    let mut random = Random::new(20240229);
    for count in [1, 128, 256] {
        run(count, rounds, &mut random);
    }
    run_new(rounds);
}
