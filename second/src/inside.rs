//! Compares another side's answers to the calls with this program's, in process:
//! on random plates, with buffers of any length, and on damaged calls.

use std::collections::BTreeMap;
use std::fmt::{Display, Formatter, Result as Written};

use crate::call::{Call, Difference};
use crate::calls::{Calls, CERTIFICATE_ROOM, LONGEST_BUDGET_ROOM, PAIR_ROOM, SEARCH_ROOM};
use crate::lent::Lent;
use crate::plane::{pair_count, pairs, Plane};
use crate::plates::{list_of, quick_marks};
use crate::random::Random;
use crate::refusal::{marks_of_list, FARTHEST, MOST_MARKS};
use crate::search::{search, CERTAIN};

/// The longest result buffer.
const LONGEST_RESULT: usize = 12;

type Compared = Result<(), Box<Difference>>;

/// What was gone through.
#[derive(Default)]
pub struct Tally {
    plates: usize,
    searches: usize,
    requests: usize,
    others: usize,
    /// How many calls returned each status number.
    returned: BTreeMap<u32, usize>,
}

impl Display for Tally {
    fn fmt(&self, out: &mut Formatter) -> Written {
        write!(
            out,
            "{} plates, {} searches, {} certificate requests, {} other calls",
            self.plates, self.searches, self.requests, self.others
        )
    }
}

impl Tally {
    /// How often each number refused a call.
    pub fn refused(&self) -> String {
        let refused: Vec<String> =
            self.returned.range(1..).map(|(number, times)| format!("{number}: {times}")).collect();
        refused.join(", ")
    }
}

/// Compares every pair number and budget, then random plates.
pub fn compare_inside(other: &dyn Calls, seed: u64, plates: usize, tally: &mut Tally) -> Compared {
    let mut inside = Inside { other, random: Random::new(seed), tally };
    inside.every_number()?;
    for _ in 0..plates {
        inside.plate()?;
    }
    Ok(())
}

/// What an ample search of a plate gives; nothing if its list is refused.
#[derive(Default)]
struct Ample {
    examinations: u32,
    statuses: Vec<u8>,
}

struct Inside<'a> {
    other: &'a dyn Calls,
    random: Random,
    tally: &'a mut Tally,
}

impl Inside<'_> {
    fn compare(&mut self, call: Call) -> Compared {
        let number = call.compare(self.other)?;
        *self.tally.returned.entry(number).or_default() += 1;
        *match call {
            Call::Search { .. } => &mut self.tally.searches,
            Call::Certificate { .. } => &mut self.tally.requests,
            _ => &mut self.tally.others,
        } += 1;
        Ok(())
    }

    /// Every pair and number of marks up to a little above the greatest.
    fn every_number(&mut self) -> Compared {
        for a in 0..MOST_MARKS + 3 {
            self.longest_budget(a)?;
            for b in 0..MOST_MARKS + 3 {
                self.pair(a, b)?;
            }
        }
        Ok(())
    }

    fn plate(&mut self) -> Compared {
        let list = list_of(&quick_marks(&mut self.random));
        let ample = ample(&list);
        for _ in 0..2 {
            let status = self.any_status(&list);
            self.search(&list, &status, ample.examinations)?;
        }
        for _ in 0..3 {
            let status = self.request_status(&list, &ample);
            let pair = self.any_pair(&status);
            self.request(&list, &status, pair)?;
        }
        self.damaged_calls(list, &ample)?;
        self.other_calls()?;
        self.tally.plates += 1;
        Ok(())
    }

    /// A damaged search and a damaged request.
    fn damaged_calls(&mut self, list: Vec<i32>, ample: &Ample) -> Compared {
        let (mut damaged, mut status) = (list.clone(), self.any_status(&list));
        damage(&mut damaged, &mut status, &mut self.random);
        self.search(&damaged, &status, ample.examinations)?;
        let (mut damaged, mut status) = (list, ample.statuses.clone());
        damage(&mut damaged, &mut status, &mut self.random);
        let pair = self.any_pair(&status);
        self.request(&damaged, &status, pair)
    }

    /// The calls that take no plate.
    fn other_calls(&mut self) -> Compared {
        let (a, b, n) = (self.any_mark(), self.any_mark(), self.any_mark());
        self.pair(a, b)?;
        self.longest_budget(n)?;
        self.compare(Call::Version)
    }

    fn search(&mut self, list: &[i32], status: &[u8], end: u32) -> Compared {
        let call = Call::Search {
            list: lent_list(list, &mut self.random),
            status: lent_status(status, &mut self.random),
            budget: any_budget(end, &mut self.random),
            result: lent_result(SEARCH_ROOM, &mut self.random),
        };
        self.compare(call)
    }

    fn request(&mut self, list: &[i32], status: &[u8], pair: (usize, usize)) -> Compared {
        let call = Call::Certificate {
            list: lent_list(list, &mut self.random),
            status: lent_status(status, &mut self.random),
            pair,
            result: lent_result(CERTIFICATE_ROOM, &mut self.random),
        };
        self.compare(call)
    }

    fn pair(&mut self, a: usize, b: usize) -> Compared {
        let result = lent_result(PAIR_ROOM, &mut self.random);
        self.compare(Call::Pair { a, b, result })
    }

    fn longest_budget(&mut self, n: usize) -> Compared {
        let result = lent_result(LONGEST_BUDGET_ROOM, &mut self.random);
        self.compare(Call::LongestBudget { n, result })
    }

    /// Any bytes, one a pair.
    fn any_status(&mut self, list: &[i32]) -> Vec<u8> {
        (0..status_length(list)).map(|_| self.random.word() as u8).collect()
    }

    /// Status bytes for a request: those of a search, as they are or with some
    /// altered, or random ones; now and then some are above 2.
    fn request_status(&mut self, list: &[i32], ample: &Ample) -> Vec<u8> {
        let mut status = ample.statuses.clone();
        if status.is_empty() || self.random.one_in(3) {
            let bytes = 1 + usize::from(CERTAIN);
            status = (0..status_length(list)).map(|_| self.random.below(bytes) as u8).collect();
        }
        let (changes, most) = self.random.pick(&[(0, 0), (0, 0), (0, 0), (3, 2), (9, 2), (1, 255), (3, 4)]);
        if !status.is_empty() {
            for _ in 0..changes {
                let place = self.random.below(status.len());
                status[place] = self.random.below(most + 1) as u8;
            }
        }
        status
    }

    /// Mostly a pair of the plate, and of these often one that is not
    /// impossible.
    fn any_pair(&mut self, status: &[u8]) -> (usize, usize) {
        let remaining: Vec<usize> = (0..status.len()).filter(|&place| status[place] != 0).collect();
        let place = match self.random.below(8) {
            0..=3 if !remaining.is_empty() => self.random.pick(&remaining),
            0..=6 if !status.is_empty() => self.random.below(status.len()),
            _ => return (self.any_mark(), self.any_mark()),
        };
        // A damaged buffer can have more places than a plate has pairs.
        pairs(2 * MOST_MARKS).nth(place).unwrap_or_default()
    }

    /// Any number in the place of a mark's.
    fn any_mark(&mut self) -> usize {
        match self.random.below(4) {
            0 => self.random.below(5),
            1 => self.random.below(MOST_MARKS + 2),
            2 => self.random.pick(&[MOST_MARKS - 1, MOST_MARKS, 255, 256, 1 << 16, 1 << 31]),
            _ => {
                self.random.pick(&[1 << 32, usize::MAX, usize::MAX - 1, usize::MAX / 2, isize::MIN as usize])
            }
        }
    }
}

fn ample(list: &[i32]) -> Ample {
    let outcome = marks_of_list(list).and_then(|marks| search(&Plane::new(&marks), u32::MAX));
    outcome.map_or_else(
        |_| Ample::default(),
        |outcome| Ample { examinations: outcome.examinations, statuses: outcome.statuses },
    )
}

/// One byte a pair, if the marks are not too many.
fn status_length(list: &[i32]) -> usize {
    pair_count((list.len() / 2).min(MOST_MARKS))
}

fn lent_list(list: &[i32], random: &mut Random) -> Lent<i32> {
    Lent::new(list, random, |word| word as i32)
}

fn lent_status(status: &[u8], random: &mut Random) -> Lent<u8> {
    Lent::new(status, random, |word| word as u8)
}

/// A result buffer of any length; most have room.
fn lent_result(room: usize, random: &mut Random) -> Lent<u64> {
    let least = if random.one_in(8) { 0 } else { room };
    let length = least + random.below(LONGEST_RESULT + 1 - least);
    let values: Vec<u64> = (0..length).map(|_| random.word()).collect();
    Lent::new(&values, random, |word| word)
}

/// A budget of any kind; some lie right round the end of the search.
fn any_budget(end: u32, random: &mut Random) -> u32 {
    match random.below(4) {
        0 => random.pick(&[end.saturating_sub(1), end, end + 1]),
        1 => random.below(end as usize + 1) as u32,
        2 => random.pick(&[0, 1, 1_000, 999_999_999, i32::MAX as u32, 1 << 31, u32::MAX - 1, u32::MAX]),
        _ => random.word() as u32,
    }
}

/// Puts one to three faults into what a call is lent.
fn damage(list: &mut Vec<i32>, status: &mut Vec<u8>, random: &mut Random) {
    for _ in 0..1 + random.below(3) {
        if random.one_in(2) {
            damage_list(list, random);
        } else {
            damage_status(status, random);
        }
    }
}

fn damage_list(list: &mut Vec<i32>, random: &mut Random) {
    let beyond = [FARTHEST + 1, -FARTHEST - 1, 1 << 16, i32::MIN, i32::MAX];
    match random.below(8) {
        0 => list.push(random.between(-9, 9) as i32),
        1 => drop(list.pop()),
        2 => list.clear(),
        3 => list.resize(2 * MOST_MARKS + random.pick(&[0, 1, 2, 3, 100, 9_999]), 5),
        4 | 5 if !list.is_empty() => {
            let place = random.below(list.len());
            list[place] = random.pick(&beyond);
        }
        _ => repeat_mark(list, random),
    }
}

/// Puts a mark of the list in the place of another.
fn repeat_mark(list: &mut [i32], random: &mut Random) {
    if list.len() >= 2 {
        let (from, to) = (random.below(list.len() / 2), random.below(list.len() / 2));
        list.copy_within(2 * from..2 * from + 2, 2 * to);
    }
}

fn damage_status(status: &mut Vec<u8>, random: &mut Random) {
    match random.below(6) {
        0 => status.push(random.below(3) as u8),
        1 => drop(status.pop()),
        2 => status.clear(),
        3 => status.resize(random.below(2 * pair_count(MOST_MARKS)), 1),
        _ if !status.is_empty() => {
            let place = random.below(status.len());
            status[place] = random.pick(&[0, 1, 2, 3, 4, 128, 255]);
        }
        _ => (),
    }
}

#[cfg(test)]
mod tests {
    use super::*;
    use crate::calls::Own;

    #[test]
    fn equal_sides_show_no_difference_and_every_refusal_is_met() {
        let mut tally = Tally::default();
        let compared = compare_inside(&Own, 1, 300, &mut tally);
        compared.map_err(|difference| difference.to_string()).unwrap();
        let met: Vec<u32> = tally.returned.keys().copied().collect();
        assert_eq!(met, [0, 1, 2, 3, 4, 5, 6, 7, 100, 101]);
        assert_eq!(tally.plates, 300);
    }

    type Search = fn(&[i32], &mut [u8], u32, &mut [u64]) -> u32;
    type Request = fn(&[i32], &[u8], (usize, usize), &mut [u64]) -> u32;

    /// The own side, with one fault in a call.
    struct Faulty {
        search: Search,
        certificate: Request,
    }

    const NONE: Faulty = Faulty {
        search: |list, status, budget, result| Own.search(Some(list), Some(status), budget, Some(result)),
        certificate: |list, status, pair, result| {
            Own.certificate(Some(list), Some(status), pair, Some(result))
        },
    };

    impl Calls for Faulty {
        fn search(
            &self,
            list: Option<&[i32]>,
            status: Option<&mut [u8]>,
            budget: u32,
            result: Option<&mut [u64]>,
        ) -> u32 {
            let (list, status) = (list.unwrap_or_default(), status.unwrap_or_default());
            (self.search)(list, status, budget, result.unwrap_or_default())
        }

        fn certificate(
            &self,
            list: Option<&[i32]>,
            status: Option<&[u8]>,
            pair: (usize, usize),
            result: Option<&mut [u64]>,
        ) -> u32 {
            let (list, status) = (list.unwrap_or_default(), status.unwrap_or_default());
            (self.certificate)(list, status, pair, result.unwrap_or_default())
        }

        fn pair(&self, a: usize, b: usize, result: Option<&mut [u64]>) -> u32 {
            Own.pair(a, b, result)
        }

        fn longest_budget(&self, n: usize, result: Option<&mut [u64]>) -> u32 {
            Own.longest_budget(n, result)
        }

        fn version(&self) -> u32 {
            Own.version()
        }
    }

    /// What is told of a faulty side.
    fn told(faulty: Faulty) -> String {
        let compared = compare_inside(&faulty, 1, 2_000, &mut Tally::default());
        compared.expect_err("the fault is found").to_string()
    }

    #[test]
    fn a_side_that_writes_to_a_short_result_is_found_out() {
        let search = |list: &[i32], status: &mut [u8], budget, result: &mut [u64]| {
            result.iter_mut().take(1).for_each(|number| *number = 0);
            Own.search(Some(list), Some(status), budget, Some(result))
        };
        assert!(told(Faulty { search, ..NONE }).contains("other:\n  returned: 100\n  result: 0\n"));
    }

    #[test]
    fn a_side_that_clears_the_status_too_early_is_found_out_and_made_small() {
        let search = |list: &[i32], status: &mut [u8], budget, result: &mut [u64]| {
            if list.len().is_multiple_of(2) {
                status.fill(0);
            }
            Own.search(Some(list), Some(status), budget, Some(result))
        };
        let told = told(Faulty { search, ..NONE });
        assert!(["  list (0", "  list (4)"].iter().any(|list| told.contains(list)), "{told}");
    }

    #[test]
    fn a_side_that_forgets_the_zeros_of_a_refusal_is_found_out() {
        let certificate = |list: &[i32], status: &[u8], pair, result: &mut [u64]| {
            let kept = result.get(6).copied();
            let number = Own.certificate(Some(list), Some(status), pair, Some(result));
            if let (7, Some(kept)) = (number, kept) {
                result[6] = kept;
            }
            number
        };
        assert!(told(Faulty { certificate, ..NONE }).contains("returned: 7"));
    }

    #[test]
    fn a_side_that_never_pauses_is_found_out_and_made_small() {
        let search = |list: &[i32], status: &mut [u8], _, result: &mut [u64]| {
            Own.search(Some(list), Some(status), u32::MAX, Some(result))
        };
        let told = told(Faulty { search, ..NONE });
        assert!(["  list (8)", "  list (10)"].iter().any(|list| told.contains(list)), "{told}");
    }
}
