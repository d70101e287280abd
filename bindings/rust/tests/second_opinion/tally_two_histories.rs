//! "In tallies of one side, what a loop reads of its own cells depends on its own accepted calls, in
//! their order, alone, its refusal 44 on those and on how many slots the other holds."
//!
//! Two tallies get the same calls of one loop and different calls of the other. A call of the first
//! loop is tried on both. What a refusal gives is kept, and what an acceptance gives where both accept
//! the call, so that the loop's accepted calls are the same in both.

use crate::archive::{Tally, TallyResult};
use crate::random::{inputs, seed, Random};
use crate::raw;
use crate::report::Report;
use crate::tally_calls::{bad_loop, call_of, good_power, kind, last_number, pool, Call, Cell};
use crate::tally_edges::drawn;
use crate::tally_rules::{
    LoopCell, ACCEPTED, BAD_CELL, LOOPS, NOT_FINITE, NO_SLOT, OUT_OF_RANGE, SIDES,
};
use crate::tally_states::{held, slot_of};

/// How many slots a loop is led to hold. At 256 it asks for more than it gets.
const WISHES: [usize; 12] = [0, 40, 94, 95, 96, 97, 120, 128, 158, 159, 160, 256];

/// How many slots the first loop is led to hold, and the other in each tally, in the first calls on a
/// pair: the first loop is refused 44 in one of them, then in both while the other loop holds equally
/// many slots, then in both while it does not.
const FIRST_WISHES: [(usize, [usize; 2]); 3] = [(128, [256, 0]), (128, [256, 256]), (256, [0, 40])];

/// The answer to a call; that to a reading has the tally as it is.
fn answer(tally: &Tally, call: Call) -> TallyResult {
    match call {
        Call::Add(of, kind, milliwatts) => raw::tally_add(tally, of, kind, milliwatts),
        Call::Clear(of) => raw::tally_clear(tally, of),
        Call::Read(of) => TallyResult {
            tally: *tally,
            refusal: read(tally, of).0,
        },
    }
}

/// The number of a reading and what it wrote.
fn read(tally: &Tally, of: LoopCell) -> (u8, [u64; 5]) {
    let mut places = [7; 5];
    (raw::tally_read(tally, of, &mut places), places)
}

/// How often the two tallies answered a call of the first loop in each way.
#[derive(Debug, Default)]
struct Met {
    accepted: u64,
    /// 44 in both, while the other loop held equally many slots in both.
    both_44_equal: u64,
    /// 44 in both, while it did not.
    both_44_unequal: u64,
    /// 44 in one alone.
    one_44: u64,
    /// Another refusal, in both.
    refused: u64,
}

impl Met {
    /// Whether each way was met.
    fn all(&self) -> bool {
        let of_44 = [self.both_44_equal, self.both_44_unequal, self.one_44];
        self.accepted > 0 && self.refused > 0 && !of_44.contains(&0)
    }
}

struct Pair {
    tallies: [Tally; 2],
    /// The first loop.
    own: u64,
    /// More than a loop can have slots for.
    cells: Vec<Cell>,
    /// The greatest cell number.
    last: i64,
    random: Random,
    report: Report,
    met: Met,
}

impl Pair {
    fn make(&mut self) {
        let side = self.random.pick(&SIDES);
        self.tallies = [raw::tally_new(side).tally; 2];
        self.own = self.random.pick(&LOOPS);
        self.last = last_number(side);
        self.cells = pool(&mut self.random, self.last, 30, 300);
    }

    /// A call of a loop on one of the tallies, most often one that brings the number of the loop's
    /// slots nearer to the one wished.
    fn draw(&mut self, at: usize, loop_number: u64, wish: usize) -> Call {
        let (random, cells, tally) = (&mut self.random, &self.cells, &self.tallies[at]);
        let held = held(tally, loop_number);
        let has = |of| slot_of(tally, of).is_some();
        if random.percent(25) {
            call_of(random, loop_number, cells, self.last, 8)
        } else if held > 0 && held + random.below(2) > wish {
            Call::Clear(drawn(random, cells, loop_number, has))
        } else {
            let of = drawn(random, cells, loop_number, |of| !has(of));
            Call::Add(of, kind(random), good_power(random))
        }
    }

    /// A few calls on one of the tallies, of the other loop and of numbers that no loop has.
    fn other_calls(&mut self, at: usize, wish: usize) {
        for _ in 0..self.random.below(4) {
            let call = if self.random.percent(5) {
                let loop_number = bad_loop(&mut self.random);
                call_of(&mut self.random, loop_number, &self.cells, self.last, 20)
            } else {
                self.draw(at, 3 - self.own, wish)
            };
            self.tallies[at] = answer(&self.tallies[at], call).tally;
            self.report.calls += 1;
        }
    }

    /// A call of the first loop, tried on both; where one alone accepts it, that one stays as it was.
    fn own_call(&mut self, call: Call) {
        let answers = self.tallies.each_ref().map(|tally| answer(tally, call));
        let numbers = answers.map(|answer| answer.refusal);
        let others = self
            .tallies
            .each_ref()
            .map(|tally| held(tally, 3 - self.own));
        self.report.inputs += 1;
        self.report.calls += 2;
        self.report.answered(numbers[0]);
        let told = || format!("{call:?}: {numbers:?}, the other loop holds {others:?}");
        match numbers {
            [ACCEPTED, ACCEPTED] => self.met.accepted += 1,
            [NO_SLOT, NO_SLOT] if others[0] == others[1] => self.met.both_44_equal += 1,
            [NO_SLOT, NO_SLOT] => self.met.both_44_unequal += 1,
            [NO_SLOT, ACCEPTED] | [ACCEPTED, NO_SLOT] => {
                assert_ne!(others[0], others[1], "{}", told());
                self.met.one_44 += 1;
            }
            [first, second] => {
                assert_eq!(first, second, "{}", told());
                self.met.refused += 1;
            }
        }
        for (tally, answer) in self.tallies.iter_mut().zip(answers) {
            if answer.refusal != ACCEPTED || numbers == [ACCEPTED; 2] {
                *tally = answer.tally;
            }
        }
    }

    /// The first loop reads the same in both.
    fn compare(&mut self, (east, north): Cell) {
        let of = (self.own, east, north);
        let [first, second] = self.tallies.each_ref().map(|tally| read(tally, of));
        assert_eq!(first, second, "{of:?}");
        self.report.calls += 2;
    }

    /// Calls of both loops, led to numbers of slots: those of the first loop, and those of the other in
    /// each tally.
    fn calls(&mut self, own: usize, others: [usize; 2]) {
        for _ in 0..500 {
            for (at, wish) in others.into_iter().enumerate() {
                self.other_calls(at, wish);
            }
            let at = self.random.below(2);
            let call = self.draw(at, self.own, own);
            self.own_call(call);
            let (_, east, north) = call.of();
            self.compare((east, north));
        }
        for at in 0..self.cells.len() {
            self.compare(self.cells[at]);
        }
    }
}

#[test]
fn two_histories() {
    let seed = seed();
    let mut pair = Pair {
        tallies: [raw::tally_new(SIDES[0]).tally; 2],
        own: 1,
        cells: Vec::new(),
        last: 0,
        random: Random::new(seed),
        report: Report::new("laea2_tally, two histories", seed),
        met: Met::default(),
    };
    while pair.report.inputs < inputs() {
        pair.make();
        for (own, others) in FIRST_WISHES {
            pair.calls(own, others);
        }
        for _ in 0..17 {
            let [own, first, second] = [(); 3].map(|()| pair.random.pick(&WISHES));
            pair.calls(own, [first, second]);
        }
    }
    println!("    {:?}", pair.met);
    assert!(pair.met.all(), "{:?}", pair.met);
    pair.report
        .end(&[ACCEPTED, BAD_CELL, NOT_FINITE, OUT_OF_RANGE, NO_SLOT]);
}
