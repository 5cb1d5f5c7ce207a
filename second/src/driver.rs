//! The two calls of the driver part over lent buffers: the search and the
//! certificate request, each with its refusals.

use crate::certificate::{first_certificate, Certificate};
use crate::edges::EdgeSet;
use crate::plane::{pair_number, Plane};
use crate::refusal::{check_buffer_length, marks_of_list, refuse, Refusal};
use crate::search::{search, End};

/// What every status byte holds after refusal 8.
const SPOILT: u8 = 255;

/// The answers of the certificate request.
#[derive(Clone, Copy, Debug, PartialEq, Eq)]
pub enum Answer {
    Hull,
    NotEmpty,
    First(Certificate),
    None,
}

/// Searches the listed marks and writes the statuses. After refusals 1 to 7
/// the buffer is as it was; after 8 every byte of it is 255.
pub fn search_list(list: &[i32], statuses: &mut [u8], budget: u32) -> Result<(End, u32), Refusal> {
    let marks = marks_of_list(list)?;
    check_buffer_length(marks.len(), statuses.len())?;
    match search(&Plane::new(&marks), budget) {
        Ok(outcome) => {
            statuses.copy_from_slice(&outcome.statuses);
            Ok((outcome.end, outcome.examinations))
        }
        Err(refusal) => {
            statuses.fill(SPOILT);
            Err(refusal)
        }
    }
}

/// Asks for the first certificate of the pair (a, b) in the set of the empty
/// edges whose status byte is not 0.
pub fn request_certificate(list: &[i32], statuses: &[u8], a: usize, b: usize) -> Result<Answer, Refusal> {
    let marks = marks_of_list(list)?;
    check_buffer_length(marks.len(), statuses.len())?;
    if let Some(index) = statuses.iter().position(|&byte| byte > 2) {
        return refuse(6, index);
    }
    if !(a < b && b < marks.len()) {
        return refuse(7, 0);
    }
    Ok(answer(&Plane::new(&marks), statuses, a, b))
}

fn answer(plane: &Plane, statuses: &[u8], a: usize, b: usize) -> Answer {
    if !plane.is_empty_edge(a, b) {
        return Answer::NotEmpty;
    }
    if plane.is_hull_edge(a, b) {
        return Answer::Hull;
    }
    let set = EdgeSet::new(plane.len(), |c, d| statuses[pair_number(c, d)] != 0 && plane.is_empty_edge(c, d));
    match first_certificate(plane, &set, a, b) {
        Some(certificate) => Answer::First(certificate),
        None => Answer::None,
    }
}

#[cfg(test)]
mod tests {
    use super::*;

    const KITE: [i32; 8] = [-3, 0, 0, -1, 3, 0, 0, 1];

    #[test]
    fn a_refusal_leaves_the_buffer_as_it_was() {
        let lists: [&[i32]; 4] = [&[1], &[0; 258], &[10_001, 0], &[1, 1, 1, 1]];
        for (list, number) in lists.iter().zip(1..) {
            let mut statuses = [77; 1];
            let refusal = search_list(list, &mut statuses, 9).unwrap_err();
            assert_eq!(refusal.number, number);
            assert_eq!(statuses, [77; 1]);
        }
        let mut statuses = [77; 5];
        assert_eq!(search_list(&KITE, &mut statuses, 9), refuse(5, 6));
        assert_eq!(statuses, [77; 5]);
    }

    #[test]
    fn a_search_writes_every_status() {
        let mut statuses = [77; 6];
        assert_eq!(search_list(&KITE, &mut statuses, u32::MAX), Ok((End::Done, 3)));
        assert_eq!(statuses, [2, 0, 2, 2, 2, 2]);
    }

    #[test]
    fn the_request_tells_hull_not_empty_first_and_none() {
        let all = [2; 6];
        assert_eq!(request_certificate(&KITE, &all, 0, 1), Ok(Answer::Hull));
        assert_eq!(request_certificate(&KITE, &all, 0, 2), Ok(Answer::None));
        let first = Certificate { r: 0, s: 2, sides: [0, 3, 2, 5] };
        assert_eq!(request_certificate(&KITE, &all, 1, 3), Ok(Answer::First(first)));
        let row = [0, 0, 1, 0, 2, 0];
        assert_eq!(request_certificate(&row, &[0; 3], 0, 2), Ok(Answer::NotEmpty));
    }

    #[test]
    fn the_byte_of_the_pair_itself_plays_no_part() {
        let mut statuses = [1; 6];
        let with = request_certificate(&KITE, &statuses, 1, 3);
        statuses[pair_number(1, 3)] = 0;
        assert_eq!(request_certificate(&KITE, &statuses, 1, 3), with);
    }

    #[test]
    fn a_byte_of_0_takes_a_side_away() {
        assert_eq!(request_certificate(&KITE, &[2, 2, 2, 2, 2, 0], 1, 3), Ok(Answer::None));
    }

    #[test]
    fn the_request_refuses_bytes_above_2_and_bad_pairs() {
        let spoilt = [2, 2, 3, 2, 255, 2];
        assert_eq!(request_certificate(&KITE, &spoilt, 9, 9), refuse(6, 2));
        assert_eq!(request_certificate(&KITE, &[2; 6], 1, 1), refuse(7, 0));
        assert_eq!(request_certificate(&KITE, &[2; 6], 2, 1), refuse(7, 0));
        assert_eq!(request_certificate(&KITE, &[2; 6], 1, 4), refuse(7, 0));
        assert_eq!(request_certificate(&[], &[], 0, 1), refuse(7, 0));
        assert_eq!(request_certificate(&KITE, &[9; 7], 1, 1), refuse(5, 6));
    }
}
