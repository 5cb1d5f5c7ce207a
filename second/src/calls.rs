//! The calls of include/skeleton.h, and this program's own answers to them.

use crate::driver::{request_certificate, search_list, Answer};
use crate::plane::{pair_count, pair_number};
use crate::refusal::{refuse, Refusal, MOST_MARKS};
use crate::search::End;

/// How many numbers the result of each call has.
pub const SEARCH_ROOM: usize = 2;
pub const CERTIFICATE_ROOM: usize = 7;
pub const PAIR_ROOM: usize = 1;
pub const LONGEST_BUDGET_ROOM: usize = 1;

/// The status numbers that the rules do not have.
const SHORT: u32 = 100;
const NO_PAIR: u32 = 101;

/// The version of the calls.
const VERSION: u32 = 1;

/// Whatever answers the calls. A list or buffer that is not given stands for a
/// null pointer of length 0.
pub trait Calls {
    fn search(
        &self,
        list: Option<&[i32]>,
        status: Option<&mut [u8]>,
        budget: u32,
        result: Option<&mut [u64]>,
    ) -> u32;

    fn certificate(
        &self,
        list: Option<&[i32]>,
        status: Option<&[u8]>,
        pair: (usize, usize),
        result: Option<&mut [u64]>,
    ) -> u32;

    fn pair(&self, a: usize, b: usize, result: Option<&mut [u64]>) -> u32;

    fn longest_budget(&self, n: usize, result: Option<&mut [u64]>) -> u32;

    fn version(&self) -> u32;
}

/// The own side.
pub struct Own;

impl Calls for Own {
    fn search(
        &self,
        list: Option<&[i32]>,
        status: Option<&mut [u8]>,
        budget: u32,
        result: Option<&mut [u64]>,
    ) -> u32 {
        write::<SEARCH_ROOM>(result, || {
            let (end, examinations) =
                search_list(list.unwrap_or_default(), status.unwrap_or_default(), budget)?;
            Ok([end_number(end), examinations.into()])
        })
    }

    fn certificate(
        &self,
        list: Option<&[i32]>,
        status: Option<&[u8]>,
        (a, b): (usize, usize),
        result: Option<&mut [u64]>,
    ) -> u32 {
        write::<CERTIFICATE_ROOM>(result, || {
            request_certificate(list.unwrap_or_default(), status.unwrap_or_default(), a, b)
                .map(certificate_numbers)
        })
    }

    fn pair(&self, a: usize, b: usize, result: Option<&mut [u64]>) -> u32 {
        write::<PAIR_ROOM>(result, || {
            if a < b && b < MOST_MARKS {
                Ok([pair_number(a, b) as u64])
            } else {
                refuse(NO_PAIR, 0)
            }
        })
    }

    fn longest_budget(&self, n: usize, result: Option<&mut [u64]>) -> u32 {
        write::<LONGEST_BUDGET_ROOM>(result, || {
            if n <= MOST_MARKS {
                Ok([longest_budget(n).into()])
            } else {
                refuse(2, n)
            }
        })
    }

    fn version(&self) -> u32 {
        VERSION
    }
}

/// Writes the numbers of an answer, or those of a refusal, to the front of a
/// result buffer. If that has no room the answer is not even worked out.
fn write<const ROOM: usize>(
    result: Option<&mut [u64]>,
    answer: impl FnOnce() -> Result<[u64; ROOM], Refusal>,
) -> u32 {
    let Some(front) = result.and_then(|result| result.first_chunk_mut::<ROOM>()) else { return SHORT };
    match answer() {
        Ok(numbers) => {
            *front = numbers;
            0
        }
        Err(refusal) => {
            *front = [0; ROOM];
            front[0] = refusal.detail as u64;
            refusal.number
        }
    }
}

fn end_number(end: End) -> u64 {
    match end {
        End::Done => 0,
        End::Paused => 1,
    }
}

fn certificate_numbers(answer: Answer) -> [u64; CERTIFICATE_ROOM] {
    match answer {
        Answer::Hull => [0, 0, 0, 0, 0, 0, 0],
        Answer::NotEmpty => [1, 0, 0, 0, 0, 0, 0],
        Answer::First(first) => {
            let [pr, qr, ps, qs] = first.sides;
            [2, first.r, first.s, pr, qr, ps, qs].map(|number| number as u64)
        }
        Answer::None => [3, 0, 0, 0, 0, 0, 0],
    }
}

/// The longest budget that a plate of at most 128 marks can need: m(m+1)/2
/// with every pair an inner edge.
fn longest_budget(n: usize) -> u32 {
    let pairs = pair_count(n) as u32;
    pairs * (pairs + 1) / 2
}

#[cfg(test)]
mod tests {
    use super::*;

    const KITE: [i32; 8] = [-3, 0, 0, -1, 3, 0, 0, 1];

    #[test]
    fn a_search_writes_two_numbers_and_keeps_the_rest() {
        let (mut status, mut result) = ([77; 6], [9; 4]);
        assert_eq!(Own.search(Some(&KITE), Some(&mut status), 2, Some(&mut result)), 0);
        assert_eq!((status, result), ([2, 0, 2, 2, 2, 2], [1, 2, 9, 9]));
    }

    #[test]
    fn a_refusal_writes_its_detail_and_zeros() {
        let (mut status, mut result) = ([77; 5], [9; 3]);
        assert_eq!(Own.search(Some(&KITE), Some(&mut status), 2, Some(&mut result)), 5);
        assert_eq!((status, result), ([77; 5], [6, 0, 9]));
    }

    #[test]
    fn a_short_result_comes_before_all_others_and_nothing_is_written() {
        let (mut status, mut result) = ([77; 6], [9; 1]);
        assert_eq!(Own.search(Some(&KITE), Some(&mut status), 2, Some(&mut result)), SHORT);
        assert_eq!(Own.search(Some(&[1]), None, 2, None), SHORT);
        assert_eq!((status, result), ([77; 6], [9; 1]));
    }

    #[test]
    fn null_is_an_empty_list_or_buffer() {
        let mut result = [9; 2];
        assert_eq!(Own.search(None, None, 0, Some(&mut result)), 0);
        assert_eq!(result, [0, 0]);
        assert_eq!(Own.search(Some(&KITE), None, 0, Some(&mut result)), 5);
        assert_eq!(result, [6, 0]);
    }

    #[test]
    fn a_certificate_is_seven_numbers() {
        let mut result = [9; 8];
        assert_eq!(Own.certificate(Some(&KITE), Some(&[1; 6]), (1, 3), Some(&mut result)), 0);
        assert_eq!(result, [2, 0, 2, 0, 3, 2, 5, 9]);
        assert_eq!(Own.certificate(Some(&KITE), Some(&[1; 6]), (0, 2), Some(&mut result)), 0);
        assert_eq!(result, [3, 0, 0, 0, 0, 0, 0, 9]);
    }

    #[test]
    fn pairs_and_budgets_end_at_128_marks() {
        let mut result = [9];
        assert_eq!(Own.pair(126, 127, Some(&mut result)), 0);
        assert_eq!(result, [8127]);
        assert_eq!(Own.pair(0, 128, Some(&mut result)), NO_PAIR);
        assert_eq!(Own.longest_budget(128, Some(&mut result)), 0);
        assert_eq!(result, [33_036_256]);
        assert_eq!(Own.longest_budget(129, Some(&mut result)), 2);
        assert_eq!(result, [129]);
    }
}
