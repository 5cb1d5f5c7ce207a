//! How many pairs of uniform plates become certain, stay possible or turn out
//! impossible, on average.

use crate::plane::Plane;
use crate::plates::{marks, Kind};
use crate::random::Random;
use crate::refusal::Refusal;
use crate::search::search;

/// Averages over plates of one size.
#[derive(Debug)]
pub struct Averages {
    pub impossible: f64,
    pub possible: f64,
    pub certain: f64,
    pub examinations: f64,
}

/// Averages over `plates` plates of `n` uniform marks under an ample budget.
pub fn averages(n: usize, plates: usize, random: &mut Random) -> Result<Averages, Refusal> {
    let mut counts = [0u64; 3];
    let mut examinations = 0u64;
    for _ in 0..plates {
        let outcome = search(&Plane::new(&marks(Kind::Uniform, n, random)), u32::MAX)?;
        examinations += u64::from(outcome.examinations);
        for &byte in &outcome.statuses {
            counts[usize::from(byte)] += 1;
        }
    }
    let [impossible, possible, certain] = counts.map(|count| count as f64 / plates as f64);
    Ok(Averages { impossible, possible, certain, examinations: examinations as f64 / plates as f64 })
}

#[cfg(test)]
mod tests {
    use super::*;

    #[test]
    fn three_marks_are_always_certain() {
        let averages = averages(3, 5, &mut Random::new(1)).unwrap();
        assert_eq!((averages.certain, averages.possible, averages.impossible), (3.0, 0.0, 0.0));
    }
}
