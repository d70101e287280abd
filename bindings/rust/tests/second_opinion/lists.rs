//! The list calls, raw and through the safe wrapper, against the second opinion: what they write,
//! what they leave untouched, and their count.

use crate::calls::{self, Direction, Lists};
use crate::positions::Ground;
use crate::random::{inputs, seed, Random};
use crate::raw::{self, Count};
use crate::report::Report;
use crate::sets;
use crate::single::filling;
use crate::steps::Set;
use laea::Refusal;
use std::ops::Range;

/// Elements before and after each lent list; they must stay as they are.
const MARGIN: usize = 5;

/// Lists that stand in longer ones, with a margin at both ends.
#[derive(Clone)]
struct Lent {
    lists: Lists,
    lengths: [usize; 5],
}

impl Lent {
    fn new(lists: &Lists, random: &mut Random) -> Lent {
        let lengths = [
            lists.inputs[0].len(),
            lists.inputs[1].len(),
            lists.outputs[0].len(),
            lists.outputs[1].len(),
            lists.marks.len(),
        ];
        let wide = |list: &[f64], random: &mut Random| {
            let mut margin = [0.0; MARGIN];
            margin.fill_with(|| f64::from_bits(filling(random)));
            [&margin[..], list, &margin[..]].concat()
        };
        let lists = Lists {
            inputs: [
                wide(&lists.inputs[0], random),
                wide(&lists.inputs[1], random),
            ],
            outputs: [
                wide(&lists.outputs[0], random),
                wide(&lists.outputs[1], random),
            ],
            marks: [&[0xa5; MARGIN][..], &lists.marks, &[0x5a; MARGIN][..]].concat(),
        };
        Lent { lists, lengths }
    }

    /// Where each lent list stands.
    fn spans(&self) -> [Range<usize>; 5] {
        self.lengths.map(|length| MARGIN..MARGIN + length)
    }

    fn call(&mut self, direction: Direction, set: &Set) -> Result<usize, u8> {
        let [in_first, in_second, out_first, out_second, marks] = self.spans();
        let set = raw::lent(set);
        let call = match direction {
            Direction::Forward => laea::Set::forward_list,
            Direction::Inverse => laea::Set::inverse_list,
        };
        let [first, second] = &mut self.lists.outputs;
        let answer = call(
            &set,
            &self.lists.inputs[0][in_first],
            &self.lists.inputs[1][in_second],
            &mut first[out_first],
            &mut second[out_second],
            &mut self.lists.marks[marks],
        );
        answer.map_err(Refusal::number)
    }

    /// The refusal's number, 0 for none; the count stays as it is where the call is refused.
    fn call_raw(&mut self, direction: Direction, set: &Set, count: &mut Count) -> u8 {
        let spans = self.spans();
        raw::list(direction, set, &mut self.lists, spans, count)
    }

    /// The lists as they must be after the call: margins and inputs as before, the rest as given.
    fn expect(&mut self, expected: &Lists) {
        for (wide, list) in self.lists.outputs.iter_mut().zip(&expected.outputs) {
            wide[MARGIN..MARGIN + list.len()].copy_from_slice(list);
        }
        self.lists.marks[MARGIN..MARGIN + expected.marks.len()].copy_from_slice(&expected.marks);
    }
}

fn same(given: &Lists, expected: &Lists) -> bool {
    let bits = |list: &[f64]| list.iter().map(|value| value.to_bits()).collect::<Vec<_>>();
    (0..2).all(|at| bits(&given.inputs[at]) == bits(&expected.inputs[at]))
        && (0..2).all(|at| bits(&given.outputs[at]) == bits(&expected.outputs[at]))
        && given.marks == expected.marks
}

/// The first point at which the lists differ, told with both answers.
fn difference(set: &Set, given: &Lists, expected: &Lists) -> String {
    let at = (0..expected.marks.len()).find(|&at| {
        let pair = |lists: &Lists| {
            [0, 1].map(|list: usize| lists.outputs[list].get(at).map(|value| value.to_bits()))
        };
        given.marks[at] != expected.marks[at] || pair(given) != pair(expected)
    });
    let told = |lists: &Lists, at: usize| {
        let value = |list: &[f64]| list.get(at).map(|value| (*value, value.to_bits()));
        format!(
            "{:x?} {:x?} mark {}",
            value(&lists.outputs[0]),
            value(&lists.outputs[1]),
            lists.marks[at]
        )
    };
    match at {
        None => format!("{set:?}: inputs or a longer list changed"),
        Some(at) => format!(
            "{set:?}, element {} with its margin, input {:?} {:?}: given {}, expected {}",
            at,
            expected.inputs[0].get(at),
            expected.inputs[1].get(at),
            told(given, at),
            told(expected, at)
        ),
    }
}

/// One call: the archive's lists and answer against those of the second opinion.
fn check(
    direction: Direction,
    set: &Set,
    lists: Lists,
    random: &mut Random,
) -> (Result<usize, u8>, Lists) {
    let mut lent = Lent::new(&lists, random);
    let mut lent_raw = lent.clone();
    let mut wanted = lent.clone();
    let mut expected = lists;
    let answer = calls::list(direction, set, &mut expected);
    wanted.expect(&expected);
    let told = || format!("{direction:?} {set:?}, lengths {:?}", wanted.lengths);
    let alike = |given: &Lent| {
        assert!(
            same(&given.lists, &wanted.lists),
            "{direction:?}: {}",
            difference(set, &given.lists, &wanted.lists)
        );
    };
    let before = [(); 3].map(|()| filling(random));
    let mut count = before;
    let number = lent_raw.call_raw(direction, set, &mut count);
    assert_eq!(number, answer.err().unwrap_or(0), "{}", told());
    assert_eq!(count, counted(before, answer), "{}", told());
    alike(&lent_raw);
    assert_eq!(lent.call(direction, set), answer, "wrapper, {}", told());
    alike(&lent);
    (answer, expected)
}

/// The count's place and its neighbours as they must be after a call.
fn counted(before: Count, answer: Result<usize, u8>) -> Count {
    match answer {
        Ok(count) => [before[0], count as u64, before[2]],
        Err(_) => before,
    }
}

/// Five lengths: mostly equal, of every class, else with one or more that differ.
fn lengths(random: &mut Random) -> [usize; 5] {
    let small = random.below(33);
    let large = random.below(4097);
    let common = match random.below(1000) {
        0..=49 => 0,
        50..=99 => 1,
        100..=983 => small,
        984..=991 => random.pick(&[4097, 4098, 5000, 8192]),
        992..=993 => large,
        994..=996 => 4095,
        _ => 4096,
    };
    let mut lengths = [common; 5];
    if random.percent(25) {
        let other = random.pick(&[
            0,
            1,
            2,
            common + 1,
            common.saturating_sub(1),
            4095,
            4096,
            4097,
            small,
        ]);
        lengths[random.below(5)] = other;
        if random.percent(30) {
            lengths[random.below(5)] = other;
        }
    }
    lengths
}

fn lists(direction: Direction, set: &Set, lengths: [usize; 5], random: &mut Random) -> Lists {
    let ground = Ground::of(set);
    let longest = lengths.into_iter().max().unwrap_or(0);
    let mut points = Vec::new();
    while points.len() < longest {
        ground.floats(direction, random, &mut points);
    }
    let output = |length: usize, random: &mut Random| {
        (0..length)
            .map(|_| f64::from_bits(filling(random)))
            .collect()
    };
    Lists {
        inputs: [
            points[..lengths[0]].iter().map(|point| point.0).collect(),
            points[..lengths[1]].iter().map(|point| point.1).collect(),
        ],
        outputs: [output(lengths[2], random), output(lengths[3], random)],
        marks: (0..lengths[4]).map(|_| random.bits() as u8).collect(),
    }
}

fn compare(name: &'static str, direction: Direction) {
    let seed = seed();
    let mut random = Random::new(seed);
    let mut report = Report::new(name, seed);
    while report.inputs < inputs() || report.calls < inputs() / 50 {
        let set = sets::any(&mut random);
        let lists = lists(direction, &set, lengths(&mut random), &mut random);
        let (answer, after) = check(direction, &set, lists, &mut random);
        report.calls += 2;
        match answer {
            Err(number) => report.answered(number),
            Ok(_) => {
                report.inputs += after.marks.len() as u64;
                after.marks.iter().for_each(|&mark| report.answered(mark));
            }
        }
    }
    report.end(&[&sets::NUMBERS[..], &[0, 2, 3, 4, 5, 6]].concat());
}

#[test]
fn forward_list() {
    compare("laea1_forward_list", Direction::Forward);
}

#[test]
fn inverse_list() {
    compare("laea1_inverse_list", Direction::Inverse);
}

/// Every class of length and every place of an unequal one, with an accepted and a refused set.
#[test]
fn every_class_of_length() {
    let mut random = Random::new(2);
    for direction in [Direction::Forward, Direction::Inverse] {
        for set in [sets::EUROPE, sets::refused(&mut random)] {
            for common in [0, 1, 2, 3, 7, 8, 9, 31, 33, 4095, 4096, 4097, 4098, 9000] {
                let checked = |lengths, random: &mut Random| {
                    let lists = lists(direction, &set, lengths, random);
                    check(direction, &set, lists, random).0
                };
                let expected = if common > 4096 {
                    Some(calls::LONG)
                } else {
                    set.refusal()
                };
                assert_eq!(checked([common; 5], &mut random).err(), expected);
                for at in 0..5 {
                    for other in [0, 1, common.saturating_sub(1), common + 1, 4096, 4097] {
                        let mut lengths = [common; 5];
                        lengths[at] = other;
                        let expected = if other == common {
                            expected
                        } else {
                            Some(calls::UNEQUAL)
                        };
                        assert_eq!(checked(lengths, &mut random).err(), expected);
                    }
                }
            }
        }
    }
}

/// Null pointers with length 0, which C callers have.
#[test]
fn null_pointers() {
    let mut random = Random::new(3);
    let refused = sets::refused(&mut random);
    for direction in [Direction::Forward, Direction::Inverse] {
        let mut count = [7; 3];
        let mut null_lists = |set: &Set, marks: &mut [u8]| {
            let number = raw::null_lists(direction, set, marks, &mut count);
            (number, std::mem::replace(&mut count, [7; 3]))
        };
        let mut marks = [0xa5; 3];
        assert_eq!(null_lists(&sets::EUROPE, &mut []), (0, [7, 0, 7]));
        let number = refused.refusal().expect("a refused set");
        assert_eq!(null_lists(&refused, &mut []), (number, [7; 3]));
        let unequal = null_lists(&sets::EUROPE, &mut marks);
        assert_eq!(unequal, (calls::UNEQUAL, [7; 3]));
        assert_eq!(marks, [0xa5; 3]);
    }
}

/// One list lent as both inputs.
#[test]
fn one_list_for_both_inputs() {
    let values: Vec<f64> = (0..4096).map(|at| f64::from(at) / 40.0 - 30.0).collect();
    for direction in [Direction::Forward, Direction::Inverse] {
        let mut expected = Lists {
            inputs: [values.clone(), values.clone()],
            outputs: [vec![1.0; 4096], vec![1.0; 4096]],
            marks: vec![9; 4096],
        };
        let mut given = expected.clone();
        let answer = calls::list(direction, &sets::EUROPE, &mut expected);
        let [first, second] = &mut given.outputs;
        let europe = laea::Set::ETRS_LAEA;
        let count = match direction {
            Direction::Forward => {
                europe.forward_list(&values, &values, first, second, &mut given.marks)
            }
            Direction::Inverse => {
                europe.inverse_list(&values, &values, first, second, &mut given.marks)
            }
        };
        assert_eq!(count.map_err(Refusal::number), answer);
        assert!(same(&given, &expected));
    }
}
