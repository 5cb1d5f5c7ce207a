//! Lists and buffers to be lent to a call, with numbers beside them that the
//! call must leave alone.

use crate::random::Random;

/// The most numbers on either side.
const MOST_BESIDE: usize = 40;

/// A list or buffer in the middle of a longer one.
#[derive(Clone, Debug, PartialEq, Eq)]
pub struct Lent<T> {
    before: usize,
    length: usize,
    is_null: bool,
    all: Vec<T>,
}

impl<T: Copy + PartialEq> Lent<T> {
    /// Lends the values. Beside them lies nothing or something random, and in
    /// the place of an empty list stands a null pointer now and then.
    pub fn new(values: &[T], random: &mut Random, of_word: fn(u64) -> T) -> Lent<T> {
        let mut beside = || -> Vec<T> {
            let length = random.pick(&[0, 0, 1, MOST_BESIDE]);
            (0..length).map(|_| of_word(random.word())).collect()
        };
        let (before, behind) = (beside(), beside());
        Lent {
            before: before.len(),
            length: values.len(),
            is_null: values.is_empty() && random.one_in(2),
            all: [&before, values, &behind].concat(),
        }
    }

    /// Other values with the same numbers beside them.
    pub fn with_values(&self, values: &[T]) -> Lent<T> {
        let end = self.before + self.length;
        Lent {
            before: self.before,
            length: values.len(),
            is_null: self.is_null && values.is_empty(),
            all: [&self.all[..self.before], values, &self.all[end..]].concat(),
        }
    }

    pub fn values(&self) -> &[T] {
        &self.all[self.before..][..self.length]
    }

    /// What a call gets; nothing stands for a null pointer.
    pub fn lend(&self) -> Option<&[T]> {
        (!self.is_null).then(|| self.values())
    }

    /// What a call gets that may write.
    pub fn lend_mut(&mut self) -> Option<&mut [T]> {
        (!self.is_null).then(|| &mut self.all[self.before..][..self.length])
    }

    /// Whether the numbers beside the values are those of another.
    pub fn is_same_beside(&self, other: &Lent<T>) -> bool {
        self.with_values(&[]).all == other.with_values(&[]).all
    }

    pub fn is_null(&self) -> bool {
        self.is_null
    }
}

#[cfg(test)]
mod tests {
    use super::*;

    fn lent(values: &[u8], seed: u64) -> Lent<u8> {
        Lent::new(values, &mut Random::new(seed), |word| word as u8)
    }

    #[test]
    fn what_is_lent_are_the_values() {
        for seed in 0..50 {
            let mut lent = lent(&[1, 2, 3], seed);
            assert_eq!(lent.lend(), Some([1, 2, 3].as_slice()));
            assert_eq!(lent.lend_mut(), Some([1, 2, 3].as_mut_slice()));
            assert_eq!(lent.with_values(&[4]).lend(), Some([4].as_slice()));
        }
    }

    #[test]
    fn an_empty_list_is_null_or_not() {
        let nulls = (0..100).filter(|&seed| lent(&[], seed).lend().is_none()).count();
        assert!((20..80).contains(&nulls), "{nulls}");
    }

    #[test]
    fn a_number_beside_the_values_counts() {
        let lent = (0..).map(|seed| lent(&[1, 2], seed)).find(|lent| lent.before > 0).unwrap();
        let mut touched = lent.clone();
        touched.all[lent.before - 1] ^= 1;
        assert!(touched != lent && !touched.is_same_beside(&lent));
        assert!(lent.with_values(&[5, 5]).is_same_beside(&lent));
    }
}
