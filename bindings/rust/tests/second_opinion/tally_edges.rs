//! Histories that lead the loops to the numbers of slots at which the rule for new slots changes its
//! answer, and keep them about there for a while.

use crate::random::Random;
use crate::tally_calls::{call, good_power, kind, Call, Cell};
use crate::tally_rules::{LoopCell, ACCEPTED, LOOPS, NO_SLOT};
use std::collections::{BTreeMap, BTreeSet};

/// How many slots one loop and the other hold, and what each is answered that asks for a new one there,
/// worked out by hand from the rule. The same holds with the loops exchanged.
const EDGES: [([usize; 2], [u8; 2]); 20] = [
    // About what each loop is sure of.
    ([0, 0], [ACCEPTED, ACCEPTED]),
    ([95, 95], [ACCEPTED, ACCEPTED]),
    ([96, 95], [ACCEPTED, ACCEPTED]),
    ([96, 96], [ACCEPTED, ACCEPTED]),
    ([97, 95], [ACCEPTED, ACCEPTED]),
    ([97, 96], [ACCEPTED, ACCEPTED]),
    ([97, 97], [ACCEPTED, ACCEPTED]),
    // One holds all that both share, or all but one: slots are free that it does not get.
    ([159, 0], [ACCEPTED, ACCEPTED]),
    ([160, 0], [NO_SLOT, ACCEPTED]),
    ([159, 95], [ACCEPTED, ACCEPTED]),
    ([160, 94], [NO_SLOT, ACCEPTED]),
    ([160, 95], [NO_SLOT, ACCEPTED]),
    // The last slot, and none left.
    ([159, 96], [ACCEPTED, ACCEPTED]),
    ([160, 96], [NO_SLOT, NO_SLOT]),
    ([158, 97], [ACCEPTED, ACCEPTED]),
    ([159, 97], [NO_SLOT, NO_SLOT]),
    ([128, 127], [ACCEPTED, ACCEPTED]),
    ([128, 128], [NO_SLOT, NO_SLOT]),
    ([129, 126], [ACCEPTED, ACCEPTED]),
    ([129, 127], [NO_SLOT, NO_SLOT]),
];

/// Calls about one edge.
const STAY: usize = 100;

/// What a walk makes its calls on.
pub trait Walked {
    /// How many slots a loop holds.
    fn held(&self, loop_number: u64) -> usize;
    /// Whether a cell has a slot.
    fn has(&self, of: LoopCell) -> bool;
    /// Makes a call, compares what it does with what it must do, and gives its number.
    fn call(&mut self, call: Call) -> u8;
}

/// How often loops asked for a new slot: by how many the loop held and the other, and by the answer.
#[derive(Default)]
pub struct Asked(BTreeMap<(usize, usize, u8), u64>);

impl Asked {
    /// Makes a call, and counts it where it asks for a new slot and nothing else stands against it.
    fn call(&mut self, on: &mut impl Walked, call: Call) -> u8 {
        let (loop_number, ..) = call.of();
        let asks = matches!(call, Call::Add(..)) && LOOPS.contains(&loop_number);
        let key =
            (asks && !on.has(call.of())).then(|| (on.held(loop_number), on.held(3 - loop_number)));
        let number = on.call(call);
        if let (Some((own, other)), ACCEPTED | NO_SLOT) = (key, number) {
            *self.0.entry((own, other, number)).or_default() += 1;
        }
        number
    }

    /// Prints how often each edge was met with its answer; each must have been.
    pub fn end(&self, name: &str) {
        let met = |number| {
            let rows = rows().into_iter().filter(move |row| row.2 == number);
            let told = rows.map(|row| {
                let times = self.0.get(&row).copied().unwrap_or_default();
                assert!(times > 0, "{name}: a loop never asked at {row:?}");
                format!("{}/{} {times}", row.0, row.1)
            });
            told.collect::<Vec<_>>().join(", ")
        };
        println!("    a new slot asked for, by the slots held by the loop / by the other:");
        println!("    accepted: {}", met(ACCEPTED));
        println!("    44: {}", met(NO_SLOT));
        let asks: u64 = self.0.values().sum();
        println!("    {asks} times in all, at {} such pairs", self.0.len());
    }
}

/// The edges as one loop meets them, each once: how many slots it holds, how many the other does, and
/// the answer that is due.
fn rows() -> BTreeSet<(usize, usize, u8)> {
    let row = |(held, due): ([usize; 2], [u8; 2])| {
        [(held[0], held[1], due[0]), (held[1], held[0], due[1])]
    };
    EDGES.into_iter().flat_map(row).collect()
}

/// Calls on cells, more than a loop can have slots for.
pub struct Walk<'a, W> {
    pub on: &'a mut W,
    pub asked: &'a mut Asked,
    pub random: &'a mut Random,
    pub cells: &'a [Cell],
    /// The greatest cell number.
    pub last: i64,
}

impl<W: Walked> Walk<'_, W> {
    /// To every edge, both ways round, in a random order.
    pub fn run(&mut self) {
        let mut edges: Vec<_> = EDGES
            .into_iter()
            .flat_map(|(held, due)| [(held, due), ([held[1], held[0]], [due[1], due[0]])])
            .collect();
        while !edges.is_empty() {
            let (held, due) = edges.swap_remove(self.random.below(edges.len()));
            self.go(held);
            self.ask(due);
            self.stay(held);
        }
    }

    /// Leads both loops to these numbers of slots: first down, since the rule may not grant the way up
    /// while the other loop holds more than it will.
    fn go(&mut self, held: [usize; 2]) {
        for (loop_number, target) in LOOPS.into_iter().zip(held) {
            while self.on.held(loop_number) > target {
                let call = self.clear_one(loop_number);
                self.asked.call(self.on, call);
            }
        }
        while self.held() != held {
            let at = self.random.below(2);
            if self.on.held(LOOPS[at]) < held[at] {
                let call = self.add_one(LOOPS[at]);
                let number = self.asked.call(self.on, call);
                assert_eq!(number, ACCEPTED, "{call:?}, on the way to {held:?}");
            }
        }
    }

    /// Each loop asks for one slot more, and gives back what it got.
    fn ask(&mut self, due: [u8; 2]) {
        for (loop_number, due) in LOOPS.into_iter().zip(due) {
            let call = self.add_one(loop_number);
            let held = self.held();
            let number = self.asked.call(self.on, call);
            assert_eq!(number, due, "{call:?}, with {held:?} slots held");
            if number == ACCEPTED {
                self.asked.call(self.on, Call::Clear(call.of()));
            }
        }
    }

    /// Calls of all kinds, more than half of which keep the loops about these numbers of slots.
    fn stay(&mut self, held: [usize; 2]) {
        for _ in 0..STAY {
            let at = self.random.below(2);
            let own = self.on.held(LOOPS[at]);
            let next = if self.random.percent(40) {
                call(self.random, self.cells, self.last, 8)
            } else if own > 0 && own + self.random.below(2) > held[at] {
                self.clear_one(LOOPS[at])
            } else {
                self.add_one(LOOPS[at])
            };
            self.asked.call(self.on, next);
        }
    }

    fn held(&self) -> [usize; 2] {
        LOOPS.map(|loop_number| self.on.held(loop_number))
    }

    /// A reading with an accepted power, for a cell that has no slot.
    fn add_one(&mut self, loop_number: u64) -> Call {
        let absent = |of| !self.on.has(of);
        let of = drawn(self.random, self.cells, loop_number, absent);
        Call::Add(of, kind(self.random), good_power(self.random))
    }

    /// The clearing of a cell that has a slot.
    fn clear_one(&mut self, loop_number: u64) -> Call {
        let present = |of| self.on.has(of);
        Call::Clear(drawn(self.random, self.cells, loop_number, present))
    }
}

/// One of the loop's cells that pass the test; there must be one.
pub fn drawn(
    random: &mut Random,
    cells: &[Cell],
    loop_number: u64,
    test: impl Fn(LoopCell) -> bool,
) -> LoopCell {
    loop {
        let (east, north) = random.pick(cells);
        if test((loop_number, east, north)) {
            return (loop_number, east, north);
        }
    }
}
