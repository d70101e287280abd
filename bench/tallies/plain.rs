//! The tally as one would write it in plain Rust: changed in its place, and nothing proved.

/// A loop number, and a cell's numbers east and north.
pub type LoopCell = (u64, i64, i64);

#[derive(Clone, Copy)]
struct Slot {
    cell: LoopCell,
    sum: u64,
    count: u64,
    overloads: u64,
}

#[derive(Clone)]
pub struct Tally {
    side: i64,
    slots: [Option<Slot>; 256],
}

impl Tally {
    pub fn new(side: i64) -> Tally {
        Tally {
            side,
            slots: [None; 256],
        }
    }

    /// Adds a power reading, or gives the refusal's number.
    pub fn add(&mut self, cell: LoopCell, milliwatts: f64) -> Result<(), u8> {
        self.test(cell)?;
        if !milliwatts.is_finite() {
            return Err(41);
        }
        if !(0.0..=1_000.0).contains(&milliwatts) {
            return Err(42);
        }
        let slot = match self.slot_of(cell) {
            Some(at) => &mut self.slots[at],
            None => {
                self.test_share(cell.0)?;
                let free = self.slots.iter_mut().find(|slot| slot.is_none());
                free.ok_or(44)?
            }
        };
        let slot = slot.get_or_insert(Slot {
            cell,
            sum: 0,
            count: 0,
            overloads: 0,
        });
        if slot.count + slot.overloads >= 1_000_000 {
            return Err(43);
        }
        // The product is rounded too, which at a half nanowatt may give the other number.
        slot.sum += (milliwatts * 1_000_000.0).round() as u64;
        slot.count += 1;
        Ok(())
    }

    /// A cell's sum, count and overload count, or the refusal's number.
    pub fn read(&self, cell: LoopCell) -> Result<[u64; 3], u8> {
        self.test(cell)?;
        let slot = self.slot_of(cell).and_then(|at| self.slots[at]);
        Ok(slot.map_or([0; 3], |slot| [slot.sum, slot.count, slot.overloads]))
    }

    fn test(&self, (loop_number, east, north): LoopCell) -> Result<(), u8> {
        if ![1, 2].contains(&loop_number) {
            return Err(45);
        }
        let last = match self.side {
            10_000 => 500_000,
            100_000 => 50_000,
            1_000_000 => 5_000,
            _ => return Err(3),
        };
        let numbers = -last..=last;
        if numbers.contains(&east) && numbers.contains(&north) {
            Ok(())
        } else {
            Err(3)
        }
    }

    /// Whether a loop gets a new slot.
    fn test_share(&self, loop_number: u64) -> Result<(), u8> {
        let mut held = [0_usize; 2];
        for slot in self.slots.iter().flatten() {
            held[slot.cell.0 as usize - 1] += 1;
        }
        let beyond: usize = held.iter().map(|held| held.saturating_sub(96)).sum();
        if held[loop_number as usize - 1] < 96 || beyond < 64 {
            Ok(())
        } else {
            Err(44)
        }
    }

    fn slot_of(&self, cell: LoopCell) -> Option<usize> {
        let own = |slot: &Option<Slot>| slot.is_some_and(|slot| slot.cell == cell);
        self.slots.iter().position(own)
    }
}
