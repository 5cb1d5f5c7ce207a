//! Tests: the plates worked by hand and the edges named beside them.

use crate::driver::search_list;
use crate::plane::pair_count;
use crate::refusal::refuse;
use crate::search::End::{self, Done, Paused};
use crate::text::list;

const AMPLE: u32 = u32::MAX;
const KITE: &[i32] = &[-3, 0, 0, -1, 3, 0, 0, 1];
const FIVE: &[i32] = &[0, 0, 1, -2, 8, -3, 9, 3, 1, 2];

/// Marks, budget, end, examinations, statuses.
type Worked = (&'static [i32], u32, End, u32, &'static [u8]);

const WORKED: &[Worked] = &[
    (&[], AMPLE, Done, 0, &[]),
    (&[7, -7], AMPLE, Done, 0, &[]),
    (&[0, 0, 5, 0], AMPLE, Done, 0, &[2]),
    (&[0, 0, 1, 0, 2, 0], AMPLE, Done, 0, &[2, 0, 2]),
    (&[0, 0, 2, 0, 2, 2, 0, 2], AMPLE, Done, 2, &[2, 1, 2, 2, 1, 2]),
    (KITE, AMPLE, Done, 3, &[2, 0, 2, 2, 2, 2]),
    (KITE, 0, Paused, 0, &[2, 1, 2, 2, 1, 2]),
    (KITE, 2, Paused, 2, &[2, 0, 2, 2, 2, 2]),
    (&[0, 0, 6, 0, 0, 6, 1, 1], AMPLE, Done, 3, &[2; 6]),
    (&[0, 0, 4, 0, 0, 4, 2, 0], AMPLE, Done, 1, &[0, 2, 2, 2, 2, 2]),
    (&[0, 0, 4, 0, 4, 4, 0, 4, 2, 2], AMPLE, Done, 4, &[2, 0, 2, 2, 0, 2, 2, 2, 2, 2]),
    (FIVE, AMPLE, Done, 10, &[2, 0, 2, 0, 0, 2, 2, 2, 2, 2]),
    (FIVE, 5, Paused, 5, &[2, 1, 2, 0, 0, 2, 2, 1, 2, 2]),
];

#[test]
fn every_worked_plate_gives_its_result() {
    for &(marks, budget, end, examinations, statuses) in WORKED {
        let mut buffer = vec![77; pair_count(marks.len() / 2)];
        let result = search_list(marks, &mut buffer, budget);
        assert_eq!(result, Ok((end, examinations)), "{marks:?} under {budget}");
        assert_eq!(buffer, statuses, "{marks:?} under {budget}");
    }
}

#[test]
fn a_budget_of_exactly_the_examinations_is_done() {
    for &(marks, _, end, examinations, statuses) in WORKED {
        if end == Done {
            let mut buffer = vec![77; statuses.len()];
            assert_eq!(search_list(marks, &mut buffer, examinations), Ok((Done, examinations)));
            assert_eq!(buffer, statuses);
        }
    }
}

#[test]
fn one_less_than_the_examinations_pauses() {
    for &(marks, _, end, examinations, statuses) in WORKED {
        if end == Done && examinations > 0 {
            let mut buffer = vec![77; statuses.len()];
            let result = search_list(marks, &mut buffer, examinations - 1);
            assert_eq!(result, Ok((Paused, examinations - 1)));
        }
    }
}

#[test]
fn a_list_of_one_number_is_1() {
    assert_eq!(search_list(&[0], &mut [], AMPLE), refuse(1, 1));
}

#[test]
fn a_text_of_128_marks_passes_and_of_129_is_2() {
    let row = |n: usize| -> Vec<u8> {
        let marks: String = (0..n).map(|x| format!("{x} 0\n")).collect();
        format!("-\n{marks}").into_bytes()
    };
    assert!(list(&row(128)).starts_with(b"done 0\n0 1 certain\n1 2 certain\n"));
    assert_eq!(list(&row(129)), b"refused 2 129\n");
}

#[test]
fn the_range_and_equal_marks_in_a_text() {
    assert_eq!(list(b"-\n10000 0\n"), b"done 0\n");
    assert_eq!(list(b"-\n10001 0\n"), b"refused 3 0\n");
    assert_eq!(list(b"-\n1 1\n1 1\n"), b"refused 4 1\n");
}

#[test]
fn the_dash_stands_for_a_thousand() {
    // A parabola has one inner edge for nearly every pair: far above 1,000.
    let marks: String = (-50..50).map(|t| format!("{t} {}\n", t * t)).collect();
    let dash = list(format!("-\n{marks}").as_bytes());
    assert_eq!(dash, list(format!("1000\n{marks}").as_bytes()));
    assert!(dash.starts_with(b"paused 1000\n"));
}
