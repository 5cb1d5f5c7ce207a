//! Rules 7 and 8: the first certificate of an inner edge in a set of edges.

use crate::edges::{members, EdgeSet};
use crate::plane::{pair_number, Plane};

/// The two apexes and the pair numbers of the sides pr, qr, ps, qs.
#[derive(Clone, Copy, Debug, PartialEq, Eq)]
pub struct Certificate {
    pub r: usize,
    pub s: usize,
    pub sides: [usize; 4],
}

/// The certificate in the set with the smallest r, then the smallest s; p is
/// less than q.
pub fn first_certificate(plane: &Plane, set: &EdgeSet, p: usize, q: usize) -> Option<Certificate> {
    let left = left_apexes(plane, set, p, q);
    let right = left_apexes(plane, set, q, p);
    for &r in &left {
        for &s in &right {
            if is_short_enough(plane, p, q, r, s) {
                return Some(certificate(p, q, r, s));
            }
        }
    }
    None
}

/// The marks strictly left of `p` to `q` that form an empty triangle with it
/// whose two other sides belong to the set, in increasing order. Those right
/// of `p` to `q` are found left of `q` to `p`.
fn left_apexes(plane: &Plane, set: &EdgeSet, p: usize, q: usize) -> Vec<usize> {
    let candidates = plane.left(p, q) & set.joined(p) & set.joined(q);
    members(candidates).filter(|&apex| plane.is_empty_triangle(p, q, apex)).collect()
}

/// The last condition of rule 7. As r is left and s right of p to q, the two
/// segments cross strictly exactly if p and q are strictly on opposite sides
/// of the line rs. A straight angle at p or q puts that mark on the line.
fn is_short_enough(plane: &Plane, p: usize, q: usize, r: usize, s: usize) -> bool {
    plane.weight(p, q) <= plane.weight(r, s) || !plane.are_opposite(r, s, p, q)
}

fn certificate(p: usize, q: usize, r: usize, s: usize) -> Certificate {
    let sides = [pair_number(p, r), pair_number(q, r), pair_number(p, s), pair_number(q, s)];
    Certificate { r, s, sides }
}

#[cfg(test)]
mod tests {
    use super::*;
    use crate::plane::Mark;

    fn plane(marks: &[(i64, i64)]) -> Plane {
        let marks: Vec<Mark> = marks.iter().map(|&(x, y)| Mark { x, y }).collect();
        Plane::new(&marks)
    }

    /// All pairs but one.
    fn all_but(n: usize, left_out: (usize, usize)) -> EdgeSet {
        EdgeSet::new(n, |a, b| (a, b) != left_out)
    }

    fn all(n: usize) -> EdgeSet {
        EdgeSet::new(n, |_, _| true)
    }

    #[test]
    fn the_short_diagonal_of_the_kite_has_a_certificate() {
        let plane = plane(&[(-3, 0), (0, -1), (3, 0), (0, 1)]);
        let all = all(4);
        let expected = Certificate { r: 0, s: 2, sides: [0, 3, 2, 5] };
        assert_eq!(first_certificate(&plane, &all, 1, 3), Some(expected));
        assert_eq!(first_certificate(&plane, &all, 0, 2), None);
    }

    #[test]
    fn equal_diagonals_both_have_one() {
        let plane = plane(&[(0, 0), (2, 0), (2, 2), (0, 2)]);
        let all = all(4);
        assert!(first_certificate(&plane, &all, 0, 2).is_some());
        assert!(first_certificate(&plane, &all, 1, 3).is_some());
    }

    #[test]
    fn a_straight_angle_is_no_crossing() {
        let plane = plane(&[(0, 0), (4, 0), (0, 4), (2, 0)]);
        let expected = Certificate { r: 1, s: 0, sides: [2, 4, 1, 3] };
        assert_eq!(first_certificate(&plane, &all(4), 2, 3), Some(expected));
    }

    #[test]
    fn a_side_outside_the_set_is_of_no_use() {
        let plane = plane(&[(-3, 0), (0, -1), (3, 0), (0, 1)]);
        for side in [(0, 1), (0, 3), (1, 2), (2, 3)] {
            assert_eq!(first_certificate(&plane, &all_but(4, side), 1, 3), None);
        }
    }

    #[test]
    fn the_edge_itself_need_not_belong_to_the_set() {
        let plane = plane(&[(-3, 0), (0, -1), (3, 0), (0, 1)]);
        assert!(first_certificate(&plane, &all_but(4, (1, 3)), 1, 3).is_some());
    }

    #[test]
    fn the_smallest_r_goes_before_the_smallest_s() {
        // Marks 2 and 4 lie left of 0 to 1, marks 3 and 5 right; all fit.
        let plane = plane(&[(0, 0), (2, 0), (0, 9), (0, -9), (2, 9), (2, -9)]);
        let first = first_certificate(&plane, &all(6), 0, 1).unwrap();
        assert_eq!((first.r, first.s), (2, 3));
        let first = first_certificate(&plane, &all_but(6, (1, 3)), 0, 1).unwrap();
        assert_eq!((first.r, first.s), (2, 5));
    }

    #[test]
    fn a_triangle_with_a_mark_inside_is_no_help() {
        // Mark 4 is inside the triangle 0 1 2, so 2 cannot be an apex.
        let plane = plane(&[(0, 0), (6, 0), (3, 9), (3, -9), (3, 1)]);
        let first = first_certificate(&plane, &all(5), 0, 1).unwrap();
        assert_eq!((first.r, first.s), (4, 3));
    }
}
