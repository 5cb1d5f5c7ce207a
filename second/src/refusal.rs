//! The numbers the controller shows, and the checks of a lent list of marks.

use crate::plane::{pair_count, Mark};

/// The most marks a plate may have.
pub const MOST_MARKS: usize = 128;
/// The largest coordinate on either side of zero.
pub const FARTHEST: i32 = 10_000;

/// A refusal: its number and its detail.
#[derive(Clone, Copy, Debug, PartialEq, Eq)]
pub struct Refusal {
    pub number: u32,
    pub detail: usize,
}

/// The refusal of a given number and detail, as an error.
pub fn refuse<T>(number: u32, detail: usize) -> Result<T, Refusal> {
    Err(Refusal { number, detail })
}

/// Refusals 1 to 4, lowest first; the marks if none applies.
pub fn marks_of_list(list: &[i32]) -> Result<Vec<Mark>, Refusal> {
    if list.len() % 2 == 1 {
        return refuse(1, list.len());
    }
    let n = list.len() / 2;
    if n > MOST_MARKS {
        return refuse(2, n);
    }
    let is_outside = |&number: &i32| !(-FARTHEST..=FARTHEST).contains(&number);
    if let Some(index) = list.iter().position(is_outside) {
        return refuse(3, index);
    }
    let marks: Vec<Mark> =
        list.chunks(2).map(|mark| Mark { x: i64::from(mark[0]), y: i64::from(mark[1]) }).collect();
    match (0..n).find(|&later| marks[..later].contains(&marks[later])) {
        Some(later) => refuse(4, later),
        None => Ok(marks),
    }
}

/// Refusal 5: the status buffer must hold one byte for each pair of `n` marks.
pub fn check_buffer_length(n: usize, length: usize) -> Result<(), Refusal> {
    if length == pair_count(n) {
        Ok(())
    } else {
        refuse(5, pair_count(n))
    }
}

#[cfg(test)]
mod tests {
    use super::*;

    fn number_and_detail(list: &[i32]) -> Option<(u32, usize)> {
        marks_of_list(list).err().map(|refusal| (refusal.number, refusal.detail))
    }

    /// A list of `n` different marks.
    fn row(n: i32) -> Vec<i32> {
        (0..n).flat_map(|x| [x, 0]).collect()
    }

    #[test]
    fn an_odd_list_is_1_with_its_length() {
        assert_eq!(number_and_detail(&[5]), Some((1, 1)));
        assert_eq!(number_and_detail(&[0; 301]), Some((1, 301)));
    }

    #[test]
    fn the_129th_mark_is_one_too_many() {
        assert_eq!(number_and_detail(&row(128)), None);
        assert_eq!(number_and_detail(&row(129)), Some((2, 129)));
    }

    #[test]
    fn the_range_ends_at_ten_thousand_on_either_side() {
        assert_eq!(number_and_detail(&[10_000, -10_000]), None);
        assert_eq!(number_and_detail(&[10_001, 0]), Some((3, 0)));
        assert_eq!(number_and_detail(&[0, 0, 1, -10_001, 10_001, 3]), Some((3, 3)));
        assert_eq!(number_and_detail(&[i32::MIN, i32::MAX]), Some((3, 0)));
    }

    #[test]
    fn equal_marks_name_the_smallest_later_one() {
        assert_eq!(number_and_detail(&[1, 1, 1, 1]), Some((4, 1)));
        assert_eq!(number_and_detail(&[1, 2, 2, 1, 3, 3, 2, 1, 1, 2]), Some((4, 3)));
    }

    #[test]
    fn the_lowest_number_is_given() {
        assert_eq!(number_and_detail(&[20_000; 3]), Some((1, 3)));
        assert_eq!(number_and_detail(&[20_000; 258]), Some((2, 129)));
        assert_eq!(number_and_detail(&[0, 0, 0, 0, 0, 20_000]), Some((3, 5)));
    }

    #[test]
    fn the_buffer_has_exactly_one_byte_a_pair() {
        assert_eq!(check_buffer_length(0, 0), Ok(()));
        assert_eq!(check_buffer_length(4, 6), Ok(()));
        assert_eq!(check_buffer_length(4, 7), refuse(5, 6));
        assert_eq!(check_buffer_length(4, 5), refuse(5, 6));
    }
}
