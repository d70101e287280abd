//! The bytes of a tally before and after each call: which slot changes and how, that all others stay,
//! and that tallies which no calls gave are answered too.

use crate::archive::{self, Slot, Tally, TallyResult};
use crate::random::{inputs, seed, Random};
use crate::raw;
use crate::report::Report;
use crate::single::filling;
use crate::tally_calls::{
    any_cell, any_loop, bad_cell, bad_side, call, last_number, pool, power, Call, Cell, BAD_SIDES,
};
use crate::tally_edges::{Asked, Walk, Walked};
use crate::tally_rules::{
    gets_new_slot, nanowatts, Kind, LoopCell, Model, ACCEPTED, ALL_SLOTS, BAD_CELL, BAD_LOOP,
    CELL_FULL, LOOPS, MOST_READINGS, NOT_FINITE, NO_SLOT, OUT_OF_RANGE, SIDES,
};
use std::array::from_fn;
use std::mem::{align_of, offset_of, size_of};

const FREE: Slot = Slot {
    cell: archive::LoopCell {
        loop_number: 0,
        east: 0,
        north: 0,
    },
    sum: 0,
    count: 0,
    overloads: 0,
};

/// What a call does: one slot changes, or none, or the call is refused.
type Change = Result<Option<(usize, Slot)>, u8>;

fn is_of(slot: &Slot, of: LoopCell) -> bool {
    (slot.cell.loop_number, slot.cell.east, slot.cell.north) == of
}

/// The cell's slot is the first that has its loop and its numbers.
pub fn slot_of(tally: &Tally, of: LoopCell) -> Option<usize> {
    tally.slots.iter().position(|slot| is_of(slot, of))
}

/// A loop holds the slots with its number.
pub fn held(tally: &Tally, loop_number: u64) -> usize {
    let own = |slot: &&Slot| slot.cell.loop_number == loop_number;
    tally.slots.iter().filter(own).count()
}

/// A slot with loop number 0 is free.
fn free_slot(tally: &Tally) -> Option<usize> {
    let free = |slot: &Slot| slot.cell.loop_number == 0;
    tally.slots.iter().position(free)
}

/// The slot that a loop gets for a new cell: the first free one, where the rule grants it one.
fn new_slot(tally: &Tally, loop_number: u64) -> Option<usize> {
    let granted = gets_new_slot(loop_number, |each| held(tally, each));
    granted.then(|| free_slot(tally)).flatten()
}

fn readings(slot: &Slot) -> u128 {
    u128::from(slot.count) + u128::from(slot.overloads)
}

/// A reading goes into the cell's slot, or into the first free one, whatever that holds.
fn added(tally: &Tally, of: LoopCell, kind: Kind, milliwatts: f64) -> Change {
    // 45, 3, 41 and 42 are those of an empty tally.
    let (mut empty, _) = Model::new(tally.side);
    let number = empty.add(of, kind, milliwatts);
    if number != ACCEPTED {
        return Err(number);
    }
    let own = slot_of(tally, of);
    let mut slot = own.map_or(FREE, |at| tally.slots[at]);
    if readings(&slot) >= u128::from(MOST_READINGS) {
        return Err(CELL_FULL);
    }
    let at = own.or_else(|| new_slot(tally, of.0)).ok_or(NO_SLOT)?;
    slot.cell = archive::LoopCell {
        loop_number: of.0,
        east: of.1,
        north: of.2,
    };
    match kind {
        Kind::Power => {
            slot.sum = slot.sum.saturating_add(nanowatts(milliwatts));
            slot.count += 1;
        }
        Kind::Overload => slot.overloads += 1,
    }
    Ok(Some((at, slot)))
}

fn cleared(tally: &Tally, of: LoopCell) -> Change {
    let (mut empty, _) = Model::new(tally.side);
    match empty.clear(of) {
        ACCEPTED => Ok(slot_of(tally, of).map(|at| (at, FREE))),
        number => Err(number),
    }
}

fn read(tally: &Tally, of: LoopCell) -> Result<[u64; 3], u8> {
    let (empty, _) = Model::new(tally.side);
    empty.read(of)?;
    let slot = slot_of(tally, of).map_or(FREE, |at| tally.slots[at]);
    Ok([slot.sum, slot.count, slot.overloads])
}

fn number<T>(answer: &Result<T, u8>) -> u8 {
    answer.as_ref().err().copied().unwrap_or(ACCEPTED)
}

/// The slots that differ, with their indices; the whole tallies would fill pages.
fn differing(given: &Tally, expected: &Tally) -> Vec<(usize, Slot, Slot)> {
    let pairs = given.slots.into_iter().zip(expected.slots).enumerate();
    pairs
        .filter(|(_, (given, expected))| given != expected)
        .map(|(at, (given, expected))| (at, given, expected))
        .collect()
}

/// One test's tally, random numbers and counts.
struct Run {
    name: &'static str,
    tally: Tally,
    random: Random,
    report: Report,
}

impl Run {
    fn new(name: &'static str, seed: u64) -> Run {
        let report = Report::new(name, seed);
        Run {
            name,
            tally: raw::tally_new(SIDES[0]).tally,
            random: Random::new(seed),
            report,
        }
    }

    /// Makes a tally, also of a side that is refused: it has the side asked, and every slot is free.
    fn make(&mut self, side: i64) {
        let made = raw::tally_new(side);
        let (_, expected) = Model::new(side);
        self.report.calls += 1;
        assert_eq!(made.refusal, expected, "{}, side {side}", self.name);
        assert_eq!(made.tally.side, side, "{}", self.name);
        let empty = made.tally.slots.iter().all(|slot| *slot == FREE);
        assert!(empty, "{}, side {side}: a slot is held", self.name);
        self.tally = made.tally;
    }

    /// Makes a call; gives what it had to do and did.
    fn call(&mut self, call: Call) -> Change {
        let change = match call {
            Call::Add(of, kind, milliwatts) => {
                let change = added(&self.tally, of, kind, milliwatts);
                let given = raw::tally_add(&self.tally, of, kind, milliwatts);
                self.next(call, &change, &given);
                change
            }
            Call::Clear(of) => {
                let change = cleared(&self.tally, of);
                let given = raw::tally_clear(&self.tally, of);
                self.next(call, &change, &given);
                change
            }
            Call::Read(of) => self.read(of),
        };
        self.report.inputs += 1;
        self.report.calls += 1;
        self.report.answered(number(&change));
        change
    }

    /// Each bit of the tally that a call gave, of the slots that it had to leave too.
    fn next(&mut self, call: Call, change: &Change, given: &TallyResult) {
        let mut expected = self.tally;
        if let Ok(Some((at, slot))) = change {
            expected.slots[*at] = *slot;
        }
        assert_eq!(
            given.refusal,
            number(change),
            "{}, {call:?} on side {}: expected {change:?}",
            self.name,
            self.tally.side
        );
        assert!(
            given.tally == expected,
            "{}, {call:?}: side {} of {}, slots that differ {:?}",
            self.name,
            given.tally.side,
            expected.side,
            differing(&given.tally, &expected)
        );
        self.tally = given.tally;
    }

    /// A cell's sum and counts, between two places that stay; all five where the call is refused.
    fn read(&mut self, of: LoopCell) -> Change {
        let expected = read(&self.tally, of);
        let before = [(); 5].map(|()| filling(&mut self.random));
        let mut after = before;
        if let Ok(sums) = expected {
            after[1..4].copy_from_slice(&sums);
        }
        let mut places = before;
        let given = raw::tally_read(&self.tally, of, &mut places);
        let told = format!("{}, {of:?}: expected {expected:?}", self.name);
        assert_eq!(given, number(&expected), "{told}");
        assert_eq!(places, after, "{told}");
        expected.map(|_| None)
    }

    fn add(&mut self, of: LoopCell) -> Change {
        self.call(Call::Add(of, Kind::Power, 1.0))
    }
}

impl Walked for Run {
    fn held(&self, loop_number: u64) -> usize {
        held(&self.tally, loop_number)
    }

    fn has(&self, of: LoopCell) -> bool {
        slot_of(&self.tally, of).is_some()
    }

    fn call(&mut self, call: Call) -> u8 {
        number(&Run::call(self, call))
    }
}

/// Numbers of 64 bits, none apart from the next: what C passes.
#[test]
fn layout_of_the_tally() {
    assert_eq!(size_of::<archive::LoopCell>(), 24);
    assert_eq!(size_of::<Slot>(), 48);
    assert_eq!(size_of::<Tally>(), 12_296);
    assert_eq!(offset_of!(Tally, slots), 8);
    assert_eq!(offset_of!(TallyResult, refusal), 12_296);
    assert_eq!(size_of::<TallyResult>(), 12_304);
    assert_eq!(align_of::<TallyResult>(), 8);
}

#[test]
fn made_tallies() {
    let mut run = Run::new("laea2_tally_new", seed());
    for side in SIDES.into_iter().chain(BAD_SIDES) {
        run.make(side);
    }
    while run.report.inputs < inputs() {
        let side = if run.random.percent(20) {
            run.random.pick(&SIDES)
        } else {
            bad_side(&mut run.random)
        };
        run.make(side);
        run.report.inputs += 1;
        run.report.answered(number(&read(&run.tally, (1, 0, 0))));
    }
    run.report.end(&[ACCEPTED, BAD_CELL]);
}

/// Tallies that calls gave, with more cells than slots: every bit after every call.
#[test]
fn slots_of_histories() {
    let (name, seed) = ("laea2_tally, slots of histories", seed());
    let mut run = Run::new(name, seed);
    let mut random = Random::new(seed);
    let mut asked = Asked::default();
    loop {
        let side = random.pick(&SIDES);
        let last = last_number(side);
        let cells = pool(&mut random, last, 30, 300);
        run.make(side);
        Walk {
            on: &mut run,
            asked: &mut asked,
            random: &mut random,
            cells: &cells,
            last,
        }
        .run();
        if run.report.inputs >= inputs() {
            break;
        }
    }
    run.report.end(&ALL_BUT_43);
    asked.end(name);
}

/// Where the readings of cells go, slot by slot.
#[test]
fn first_free_slot() {
    let mut run = Run::new("first free slot", 1);
    let slot = |change: Change| change.expect("accepted").map(|(at, _)| at);
    run.make(SIDES[1]);
    for at in 0..256 {
        let of = (if at < 160 { 1 } else { 2 }, at, -at);
        assert_eq!(slot(run.add(of)), Some(at as usize));
    }
    for loop_number in LOOPS {
        assert_eq!(run.add((loop_number, -1, 0)), Err(NO_SLOT));
    }
    for (loop_number, at) in [(2, 200), (1, 0), (2, 255), (1, 7)] {
        let of = (loop_number, at, -at);
        // A cell that has no slot is cleared without a change: that of the other loop, and one cleared.
        assert_eq!(run.call(Call::Clear((3 - loop_number, at, -at))), Ok(None));
        let change = run.call(Call::Clear(of));
        assert_eq!(change, Ok(Some((at as usize, FREE))));
        assert_eq!(run.call(Call::Clear(of)), Ok(None));
    }
    // A cell that has a slot stays in it, though slots before it are free.
    assert_eq!(slot(run.add((1, 100, -100))), Some(100));
    // A loop gets the first free slot, whichever loop had it before.
    for (loop_number, east, at) in [
        (2, -1, 0),
        (1, -1, 7),
        (1, -2, 200),
        (2, -1, 0),
        (2, -2, 255),
    ] {
        assert_eq!(slot(run.add((loop_number, east, 0))), Some(at));
    }
    for loop_number in LOOPS {
        assert_eq!(run.add((loop_number, -5, 0)), Err(NO_SLOT));
    }
    run.report.end(&[ACCEPTED, NO_SLOT]);
}

/// How many readings of each kind a slot says it has: few, about the limit, or so many that their
/// sum has more than 64 bits.
fn counts(random: &mut Random) -> (u64, u64) {
    let few = random.between(0, 3) as u64;
    let most = MOST_READINGS + few - 1;
    let pair = match random.below(8) {
        0 | 1 => (few, random.between(0, 999_000) as u64),
        2 | 3 => {
            let count = random.between(0, most as i64) as u64;
            (count, most - count)
        }
        4 => (most, 0),
        5 => (u64::MAX - few, random.between(0, 9) as u64),
        6 => (1 << 63, 1 << 63),
        // Few again when cut to fewer bits.
        _ => (few | 1 << random.between(20, 63), few),
    };
    if random.percent(50) {
        (pair.1, pair.0)
    } else {
        pair
    }
}

fn sum(random: &mut Random) -> u64 {
    let any = random.bits();
    let close = u64::MAX - random.between(0, 2_000_000_000) as u64;
    random.pick(&[0, 1_000_000_000_000_000, any, close, close, u64::MAX])
}

/// A slot of one of these cells, or of any bits.
fn hostile_slot(random: &mut Random, loop_number: u64, cells: &[Cell]) -> Slot {
    let mut slot = Slot {
        cell: archive::LoopCell {
            loop_number,
            east: random.bits() as i64,
            north: random.bits() as i64,
        },
        sum: sum(random),
        count: random.bits(),
        overloads: random.bits(),
    };
    if random.percent(80) {
        (slot.cell.east, slot.cell.north) = random.pick(cells);
        (slot.count, slot.overloads) = counts(random);
    }
    slot
}

/// How many slots the loops hold: any numbers, often at an edge of the rule for new slots.
const HELD: [usize; 16] = [
    0, 1, 50, 94, 95, 96, 97, 127, 128, 129, 158, 159, 160, 161, 200, 256,
];

/// The loop numbers of a tally's slots, in any order: some of each loop, some that are free, and the
/// rest of numbers that no loop has.
fn loop_numbers(random: &mut Random) -> [u64; ALL_SLOTS] {
    let first = random.pick(&LOOPS);
    let free = random.pick(&[0, 0, 1, 2, 256]);
    let wishes = [
        (first, random.pick(&HELD)),
        (3 - first, random.pick(&HELD)),
        (0, free),
    ];
    let known = wishes
        .into_iter()
        .flat_map(|(number, times)| std::iter::repeat(number).take(times));
    let mut numbers = [0; ALL_SLOTS];
    for (place, number) in numbers
        .iter_mut()
        .zip(known.map(Some).chain(std::iter::repeat(None)))
    {
        let any = random.bits() | 4;
        let others = [3, 3, 7, 7, 257, (1 << 32) + 2, (1 << 63) + 1, any];
        *place = number.unwrap_or(random.pick(&others));
    }
    for at in 1..ALL_SLOTS {
        numbers.swap(at, random.below(at + 1));
    }
    numbers
}

/// A tally that no calls gave: the same few cells again and again.
fn hostile_tally(random: &mut Random, side: i64, cells: &[Cell]) -> Tally {
    let numbers = loop_numbers(random);
    // Some cells have no slot but behind the others, and some none.
    let first = random.below(ALL_SLOTS + 200);
    let few = 1 + random.below(cells.len());
    Tally {
        side,
        slots: from_fn(|at| {
            let known = if at < first { few } else { cells.len() };
            hostile_slot(random, numbers[at], &cells[..known])
        }),
    }
}

/// Draws a call on a cell.
type Draw = fn(&mut Random, LoopCell) -> Call;

/// Calls on tallies that no calls gave, a few on each, one after the other. From some 10,000 inputs on
/// each case and each expected number comes.
fn hostile_calls(name: &'static str, draw: Draw, numbers: &[u8]) -> Tried {
    let mut run = Run::new(name, seed());
    let mut tried = Tried::default();
    while run.report.inputs < inputs() {
        let good = run.random.pick(&SIDES);
        let bad = bad_side(&mut run.random);
        let last = last_number(good);
        let cells = pool(&mut run.random, last, 4, 12);
        let side = if run.random.percent(95) { good } else { bad };
        run.tally = hostile_tally(&mut run.random, side, &cells);
        for _ in 0..8 {
            let known = run.random.pick(&cells);
            let (east, north) = match run.random.below(20) {
                0 => bad_cell(&mut run.random, known, last),
                1..=3 => any_cell(&mut run.random, last),
                _ => known,
            };
            let of = (any_loop(&mut run.random), east, north);
            let before = run.tally;
            let call = draw(&mut run.random, of);
            let change = run.call(call);
            tried.count(&before, of, change);
        }
    }
    run.report.end(numbers);
    println!("    {tried:?}");
    tried
}

/// How often the cases came that only such tallies have.
#[derive(Debug, Default)]
struct Tried {
    /// The cell had several slots.
    twice: u64,
    /// The cell had none, and a slot of the other loop or of no loop had its numbers.
    elsewhere: u64,
    /// A free slot that was not all zeros was used.
    dirty: u64,
    /// The sum would have passed 64 bits.
    capped: u64,
    /// The cell was full, and the sum of its counts passed 64 bits.
    wide: u64,
    /// The rule granted a slot to a loop that held fewer than 96, and none was free.
    none_free_below: u64,
    /// The same of a loop that held 96 or more.
    none_free_above: u64,
    /// The rule granted no slot, though one was free.
    not_granted: u64,
}

impl Tried {
    fn count(&mut self, before: &Tally, of: LoopCell, change: Change) {
        let own = slot_of(before, of);
        let same = |slot: &&Slot| is_of(slot, of) && LOOPS.contains(&of.0);
        self.twice += u64::from(before.slots.iter().filter(same).count() > 1);
        let numbers = |slot: &Slot| (slot.cell.east, slot.cell.north) == (of.1, of.2);
        let elsewhere = own.is_none() && before.slots.iter().any(numbers);
        self.elsewhere += u64::from(elsewhere && LOOPS.contains(&of.0));
        if let Ok(Some((at, slot))) = change {
            let old = before.slots[at];
            self.dirty += u64::from(own.is_none() && old != FREE);
            self.capped += u64::from(own.is_some() && slot.sum == u64::MAX && old.sum < slot.sum);
        }
        let wide = own.is_some_and(|at| readings(&before.slots[at]) > u128::from(u64::MAX));
        self.wide += u64::from(change == Err(CELL_FULL) && wide);
        if change == Err(NO_SLOT) {
            let granted = gets_new_slot(of.0, |each| held(before, each));
            let below = held(before, of.0) < 96;
            self.none_free_below += u64::from(granted && below);
            self.none_free_above += u64::from(granted && !below);
            self.not_granted += u64::from(free_slot(before).is_some());
        }
    }

    /// Whether each case of an add came but that of a sum, which an overload does not change.
    fn all_of_adds(&self) -> bool {
        let ways_to_44 = [self.none_free_below, self.none_free_above, self.not_granted];
        let others = [self.twice, self.elsewhere, self.dirty, self.wide];
        !ways_to_44.contains(&0) && !others.contains(&0)
    }
}

const ADDING: [u8; 7] = [
    ACCEPTED,
    BAD_CELL,
    NOT_FINITE,
    OUT_OF_RANGE,
    CELL_FULL,
    NO_SLOT,
    BAD_LOOP,
];

const ALL_BUT_43: [u8; 6] = [
    ACCEPTED,
    BAD_CELL,
    NOT_FINITE,
    OUT_OF_RANGE,
    NO_SLOT,
    BAD_LOOP,
];

#[test]
fn hostile_powers() {
    let draw: Draw = |random, of| Call::Add(of, Kind::Power, power(random));
    let tried = hostile_calls("laea2_tally_add_power, any tally", draw, &ADDING);
    assert!(tried.all_of_adds() && tried.capped > 0);
}

#[test]
fn hostile_overloads() {
    let draw: Draw = |random, of| Call::Add(of, Kind::Overload, power(random));
    let tried = hostile_calls("laea2_tally_add_overload, any tally", draw, &ADDING);
    assert!(tried.all_of_adds());
}

#[test]
fn hostile_clears() {
    let numbers = [ACCEPTED, BAD_CELL, BAD_LOOP];
    let draw: Draw = |_, of| Call::Clear(of);
    let tried = hostile_calls("laea2_tally_clear, any tally", draw, &numbers);
    assert!(tried.twice > 0 && tried.elsewhere > 0);
}

#[test]
fn hostile_reads() {
    let numbers = [ACCEPTED, BAD_CELL, BAD_LOOP];
    let draw: Draw = |_, of| Call::Read(of);
    let tried = hostile_calls("laea2_tally_read, any tally", draw, &numbers);
    assert!(tried.twice > 0 && tried.elsewhere > 0);
}

/// Any bits at all, of good sides and of others, with small loop numbers in some tallies.
#[test]
fn any_bits() {
    let mut run = Run::new("laea2_tally, any bits", seed());
    while run.report.inputs < inputs() {
        let random = &mut run.random;
        let good = random.pick(&SIDES);
        let any = random.bits() as i64;
        let last = last_number(good);
        let small = random.pick(&[0, 10, 100]);
        run.tally = Tally {
            side: random.pick(&[good, good, good, any]),
            slots: from_fn(|_| Slot {
                cell: archive::LoopCell {
                    loop_number: if random.percent(small) {
                        random.pick(&[0, 1, 2, 3, 7])
                    } else {
                        random.bits()
                    },
                    east: random.bits() as i64,
                    north: random.bits() as i64,
                },
                sum: random.bits(),
                count: random.bits(),
                overloads: random.bits(),
            }),
        };
        let cells = pool(&mut run.random, last, 3, 5);
        for _ in 0..8 {
            let call = call(&mut run.random, &cells, last, 20);
            let _ = run.call(call);
        }
    }
    run.report.end(&ALL_BUT_43);
}
