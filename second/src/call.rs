//! One call with all that is lent to it, and what a side answers.

use std::fmt::{Display, Formatter, Result as Written};
use std::hint::black_box;

use crate::calls::{Calls, Own};
use crate::lent::Lent;
use crate::plane::pair_count;
use crate::shrink::shrink;

#[derive(Clone, Debug, PartialEq, Eq)]
pub enum Call {
    Search { list: Lent<i32>, status: Lent<u8>, budget: u32, result: Lent<u64> },
    Certificate { list: Lent<i32>, status: Lent<u8>, pair: (usize, usize), result: Lent<u64> },
    Pair { a: usize, b: usize, result: Lent<u64> },
    LongestBudget { n: usize, result: Lent<u64> },
    Version,
}

/// The status number that a call returned, and the call with its buffers as
/// they were left.
#[derive(Debug, PartialEq, Eq)]
pub struct Answer {
    pub number: u32,
    left: Call,
}

impl Call {
    /// What a side answers.
    pub fn answer(&self, side: &dyn Calls) -> Answer {
        let mut left = self.clone();
        let number = match &mut left {
            Call::Search { list, status, budget, result } => {
                side.search(list.lend(), status.lend_mut(), *budget, result.lend_mut())
            }
            Call::Certificate { list, status, pair, result } => {
                side.certificate(list.lend(), status.lend(), *pair, result.lend_mut())
            }
            Call::Pair { a, b, result } => side.pair(*a, *b, result.lend_mut()),
            Call::LongestBudget { n, result } => side.longest_budget(*n, result.lend_mut()),
            Call::Version => side.version(),
        };
        // A write to what was lent for reading only has to be seen.
        Answer { number, left: black_box(left) }
    }

    /// Compares a side with this program's, and gives the number that both
    /// return; a difference is made small first.
    pub fn compare(&self, other: &dyn Calls) -> Result<u32, Box<Difference>> {
        let own = self.answer(&Own);
        if self.answer(other) == own {
            return Ok(own.number);
        }
        let call = self.made_small(|call| call.answer(other) != call.answer(&Own));
        Err(Box::new(Difference { own: call.answer(&Own), other: call.answer(other), call }))
    }

    /// Drops marks, then digits, for as long as something stays true.
    fn made_small(&self, stays: impl Fn(&Call) -> bool) -> Call {
        let text = shrink(&self.text(), |text| self.with_text(text).is_some_and(|call| stays(&call)));
        self.with_text(&text).unwrap_or_else(|| self.clone())
    }

    /// Budget or pair on the first line, then the list, a mark a line. Calls
    /// without a list have no text.
    fn text(&self) -> Vec<u8> {
        let (first, list) = match self {
            Call::Search { list, budget, .. } => (budget.to_string(), list),
            Call::Certificate { list, pair: (a, b), .. } => (format!("{a} {b}"), list),
            _ => return Vec::new(),
        };
        let lines = list.values().chunks(2).map(|mark| format!("{}\n", spaced(mark)));
        format!("{first}\n{}", lines.collect::<String>()).into_bytes()
    }

    /// The same call with what a text says, if that can be.
    fn with_text(&self, text: &[u8]) -> Option<Call> {
        let numbers = numbers(text)?;
        let mut call = self.clone();
        match &mut call {
            Call::Search { list, status, budget, .. } => {
                let (&first, rest) = numbers.split_first()?;
                *budget = first.try_into().ok()?;
                replace_list(list, status, rest)?;
            }
            Call::Certificate { list, status, pair, .. } => {
                let (&[a, b], rest) = numbers.split_first_chunk()?;
                *pair = (a.try_into().ok()?, b.try_into().ok()?);
                replace_list(list, status, rest)?;
            }
            _ => return None,
        }
        Some(call)
    }

    fn list_and_status(&self) -> Option<(&Lent<i32>, &Lent<u8>)> {
        match self {
            Call::Search { list, status, .. } | Call::Certificate { list, status, .. } => {
                Some((list, status))
            }
            _ => None,
        }
    }

    fn result(&self) -> Option<&Lent<u64>> {
        match self {
            Call::Search { result, .. }
            | Call::Certificate { result, .. }
            | Call::Pair { result, .. }
            | Call::LongestBudget { result, .. } => Some(result),
            Call::Version => None,
        }
    }
}

/// Puts another list in the place of one. The status buffer stays as much too
/// long or too short as it was.
fn replace_list(list: &mut Lent<i32>, status: &mut Lent<u8>, numbers: &[i128]) -> Option<()> {
    let numbers: Vec<i32> = numbers.iter().map(|&number| number.try_into().ok()).collect::<Option<_>>()?;
    let length = status.values().len() + pair_count(numbers.len() / 2);
    let mut bytes = status.values().to_vec();
    bytes.resize(length.saturating_sub(pair_count(list.values().len() / 2)), 0);
    *status = status.with_values(&bytes);
    *list = list.with_values(&numbers);
    Some(())
}

fn spaced<T: Display>(numbers: &[T]) -> String {
    numbers.iter().map(T::to_string).collect::<Vec<_>>().join(" ")
}

/// The numbers of a text, if it has nothing else.
fn numbers(text: &[u8]) -> Option<Vec<i128>> {
    std::str::from_utf8(text).ok()?.split_whitespace().map(|number| number.parse().ok()).collect()
}

/// A call to which the two sides answer differently, made small.
#[derive(Debug)]
pub struct Difference {
    call: Call,
    own: Answer,
    other: Answer,
}

impl Display for Difference {
    fn fmt(&self, out: &mut Formatter) -> Written {
        write!(out, "{}", self.call)?;
        writeln!(out, "own:")?;
        self.own.write(&self.call, out)?;
        writeln!(out, "other:")?;
        self.other.write(&self.call, out)
    }
}

impl Display for Call {
    fn fmt(&self, out: &mut Formatter) -> Written {
        match self {
            Call::Search { budget, .. } => writeln!(out, "skeleton_search, budget {budget}")?,
            Call::Certificate { pair: (a, b), .. } => writeln!(out, "skeleton_certificate, pair {a} {b}")?,
            Call::Pair { a, b, .. } => writeln!(out, "skeleton_pair, {a} {b}")?,
            Call::LongestBudget { n, .. } => writeln!(out, "skeleton_longest_budget, {n}")?,
            Call::Version => writeln!(out, "skeleton_version")?,
        }
        if let Some((list, status)) = self.list_and_status() {
            write_lent(out, "list", list)?;
            write_lent(out, "status", status)?;
        }
        self.result().map_or(Ok(()), |result| write_lent(out, "result", result))
    }
}

fn write_lent<T: Copy + PartialEq + Display>(out: &mut Formatter, name: &str, lent: &Lent<T>) -> Written {
    let null = if lent.is_null() { ", null" } else { "" };
    writeln!(out, "  {name} ({}{null}): {}", lent.values().len(), spaced(lent.values()))
}

impl Answer {
    /// Writes what a call returned and what it did to each buffer.
    fn write(&self, call: &Call, out: &mut Formatter) -> Written {
        writeln!(out, "  returned: {}", self.number)?;
        let lists = (call.list_and_status(), self.left.list_and_status());
        if let (Some((list, status)), Some((left_list, left_status))) = lists {
            write_left(out, "list", list, left_list)?;
            write_left(out, "status", status, left_status)?;
        }
        match (call.result(), self.left.result()) {
            (Some(result), Some(left)) => write_left(out, "result", result, left),
            _ => Ok(()),
        }
    }
}

fn write_left<T: Copy + PartialEq + Display>(
    out: &mut Formatter,
    name: &str,
    given: &Lent<T>,
    left: &Lent<T>,
) -> Written {
    if left.values() != given.values() {
        writeln!(out, "  {name}: {}", spaced(left.values()))?;
    }
    if !left.is_same_beside(given) {
        writeln!(out, "  {name}: written beside it")?;
    }
    Ok(())
}

#[cfg(test)]
mod tests {
    use super::*;
    use crate::random::Random;

    fn search(list: &[i32], status: &[u8], budget: u32) -> Call {
        let mut random = Random::new(1);
        Call::Search {
            list: Lent::new(list, &mut random, |word| word as i32),
            status: Lent::new(status, &mut random, |word| word as u8),
            budget,
            result: Lent::new(&[7; 3], &mut random, |word| word),
        }
    }

    #[test]
    fn a_shorter_list_takes_a_shorter_status_buffer() {
        let call = search(&[-3, 0, 0, -1, 3, 0, 0, 1], &[77; 7], 12);
        let shorter = search(&[5, 6, 7, 8], &[77; 2], 9);
        assert_eq!(call.with_text(b"9\n5 6\n7 8\n"), Some(shorter));
    }

    #[test]
    fn a_call_is_read_from_its_own_text() {
        for list in [&[][..], &[1], &[-3, 0, i32::MIN, i32::MAX, 5]] {
            let call = search(list, &[1, 2], u32::MAX);
            assert_eq!(call.with_text(&call.text()).as_ref(), Some(&call));
        }
        let call = search(&[], &[], 0);
        assert_eq!(call.with_text(b"-1\n"), None);
        assert_eq!(call.with_text(b"1\n5 -\n"), None);
        assert_eq!(call.with_text(b"1\n2147483648\n"), None);
    }

    #[test]
    fn a_difference_is_told_in_full() {
        let call = search(&[0, 0, 5, 0], &[9], 3);
        let own = call.answer(&Own);
        let mut other = call.answer(&Own);
        other.number = 8;
        let told = Difference { call, own, other }.to_string();
        let expected =
            "skeleton_search, budget 3\n  list (4): 0 0 5 0\n  status (1): 9\n  result (3): 7 7 7\n\
                        own:\n  returned: 0\n  status: 2\n  result: 0 0 7\n\
                        other:\n  returned: 8\n  status: 2\n  result: 0 0 7\n";
        assert_eq!(told, expected);
    }
}
