//! What a run counted, printed at its end.

use std::time::Instant;

pub struct Report {
    name: &'static str,
    seed: u64,
    started: Instant,
    pub calls: u64,
    pub inputs: u64,
    pub lowest: u64,
    pub below: u64,
    answers: [u64; 256],
}

impl Report {
    pub fn new(name: &'static str, seed: u64) -> Report {
        println!("{name}: seed {seed}");
        Report {
            name,
            seed,
            started: Instant::now(),
            calls: 0,
            inputs: 0,
            lowest: 0,
            below: 0,
            answers: [0; 256],
        }
    }

    /// Counts an answer by its refusal number, 0 for an accepted one.
    pub fn answered(&mut self, number: u8) {
        self.answers[usize::from(number)] += 1;
    }

    /// Counts a nearness on either side of the limit of refusal 4.
    pub fn nearness(&mut self, nearness: Option<i128>) {
        self.lowest += u64::from(nearness == Some(20_000_000));
        self.below += u64::from(nearness == Some(19_999_999));
    }

    /// Prints the counts; every number in `expected` must have been given, and no other.
    pub fn end(self, expected: &[u8]) {
        let answers: Vec<String> = (1..=255)
            .filter(|&n| self.answers[n] > 0)
            .map(|n| format!("{n}: {}", self.answers[n]))
            .collect();
        let seconds = self.started.elapsed().as_secs_f64();
        println!(
            "{}: {} inputs in {} calls compared in {seconds:.1} s, no difference",
            self.name, self.inputs, self.calls
        );
        println!(
            "    accepted {}; refused {}",
            self.answers[0],
            answers.join(", ")
        );
        if self.lowest > 0 {
            println!(
                "    nearness 20,000,000: {} times; 19,999,999: {} times",
                self.lowest, self.below
            );
        }
        for number in 0..=u8::MAX {
            let given = self.answers[usize::from(number)] > 0;
            assert_eq!(
                given,
                expected.contains(&number),
                "{}, seed {}: number {number}",
                self.name,
                self.seed
            );
        }
    }
}
