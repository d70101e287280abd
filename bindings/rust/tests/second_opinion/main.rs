//! A second opinion on the archive: the rules of the papers written a second time, plainly and
//! slowly, without sight of the Rattle code, and every call of the archive held to it on random and hostile
//! input, bit for bit. For tallies `tally_rules` is a model by the papers' rules, on a map without slots.
//! What it says of the two loops, their slots and refusals 44 and 45, was written without sight of the code, from
//! request f), the interface and a restatement of the rule; of the rest, cells and readings, that is not
//! claimed. `tally_states` writes the definitions again for tallies that no call gave, which the papers do
//! not settle.
//!
//! `LAEA_INPUTS` sets the number of inputs for each call (1,000,000 without it), `LAEA_SEED` the
//! seed (the clock without it). Each run prints its seed and its counts: use `--nocapture`.

/// The crate's own declarations of the archive's functions, so that they stand in one place.
#[path = "../../src/archive.rs"]
mod archive;
mod big;
mod calls;
mod code_rules;
mod code_texts;
mod codes;
mod lists;
mod marked;
mod positions;
mod random;
mod raw;
mod report;
mod set;
mod sets;
mod single;
mod steps;
mod table;
mod tallies;
mod tally_calls;
mod tally_edges;
mod tally_engines;
mod tally_rules;
mod tally_states;
mod tally_two_histories;

/// What the declarations name.
use laea::{Set, SLOT_COUNT};
