//! Plane rules 1 to 6: sides, weights, empty edges, crossings, hull edges and
//! empty triangles, all in whole 64-bit numbers.

use crate::edges::MarkSet;

/// One measured mark.
#[derive(Clone, Copy, Debug, PartialEq, Eq, Hash)]
pub struct Mark {
    pub x: i64,
    pub y: i64,
}

/// Rule 1: 1 if `r` is left of `p` to `q`, -1 if right, 0 if on the line.
pub fn side(p: Mark, q: Mark, r: Mark) -> i8 {
    let turn = (q.x - p.x) * (r.y - p.y) - (q.y - p.y) * (r.x - p.x);
    turn.signum() as i8
}

/// Rule 2: the squared length of a pair.
pub fn weight(p: Mark, q: Mark) -> i64 {
    let dx = q.x - p.x;
    let dy = q.y - p.y;
    dx * dx + dy * dy
}

/// Whether `r`, a third mark, lies on the segment from `p` to `q`.
pub fn lies_on_segment(p: Mark, q: Mark, r: Mark) -> bool {
    // On the line, and seen from r the two ends lie in opposite directions.
    let opposite = (p.x - r.x) * (q.x - r.x) + (p.y - r.y) * (q.y - r.y) < 0;
    side(p, q, r) == 0 && opposite
}

/// The number of the pair of two different marks, given in either order.
pub fn pair_number(a: usize, b: usize) -> usize {
    let (small, large) = if a < b { (a, b) } else { (b, a) };
    large * (large - 1) / 2 + small
}

/// How many pairs `n` marks have.
pub fn pair_count(n: usize) -> usize {
    n * n.saturating_sub(1) / 2
}

/// All pairs of `n` marks in pair order.
pub fn pairs(n: usize) -> impl Iterator<Item = (usize, usize)> {
    (0..n).flat_map(|b| (0..b).map(move |a| (a, b)))
}

/// The marks of one plate. The marks strictly left of every ordered pair are
/// worked out beforehand, since the search asks for the same sides again and
/// again; right of p to q is left of q to p.
pub struct Plane {
    marks: Vec<Mark>,
    left: Vec<MarkSet>,
    empty: Vec<bool>,
}

impl Plane {
    /// Takes at most 128 marks, no two of which are equal.
    pub fn new(marks: &[Mark]) -> Plane {
        assert!(marks.len() <= MarkSet::BITS as usize, "a plate has at most 128 marks");
        Plane { marks: marks.to_vec(), left: all_left(marks), empty: all_empty_edges(marks) }
    }

    /// The number of marks.
    pub fn len(&self) -> usize {
        self.marks.len()
    }

    /// Whether the plate has no mark.
    pub fn is_empty(&self) -> bool {
        self.marks.is_empty()
    }

    /// All pairs of the plate in pair order.
    pub fn pairs(&self) -> impl Iterator<Item = (usize, usize)> {
        pairs(self.len())
    }

    /// The marks strictly left of `p` to `q`.
    pub fn left(&self, p: usize, q: usize) -> MarkSet {
        self.left[p * self.len() + q]
    }

    /// Whether `r` is strictly left of `p` to `q`.
    fn is_left(&self, p: usize, q: usize, r: usize) -> bool {
        self.left(p, q) >> r & 1 == 1
    }

    /// Whether `r` and `s` are strictly on opposite sides of the line `pq`.
    pub fn are_opposite(&self, p: usize, q: usize, r: usize, s: usize) -> bool {
        self.is_left(p, q, r) && self.is_left(q, p, s) || self.is_left(p, q, s) && self.is_left(q, p, r)
    }

    /// Rule 2 by mark numbers.
    pub fn weight(&self, p: usize, q: usize) -> i64 {
        weight(self.marks[p], self.marks[q])
    }

    /// Rule 3.
    pub fn is_empty_edge(&self, a: usize, b: usize) -> bool {
        self.empty[pair_number(a, b)]
    }

    /// Whether the segments `ab` and `cd` have their ends strictly on opposite
    /// sides of each other's line; for two empty edges this is rule 4.
    pub fn cross(&self, (a, b): (usize, usize), (c, d): (usize, usize)) -> bool {
        self.are_opposite(a, b, c, d) && self.are_opposite(c, d, a, b)
    }

    /// Rule 5.
    pub fn is_hull_edge(&self, a: usize, b: usize) -> bool {
        self.is_empty_edge(a, b) && (self.left(a, b) == 0 || self.left(b, a) == 0)
    }

    /// An empty edge that is no hull edge.
    pub fn is_inner_edge(&self, a: usize, b: usize) -> bool {
        self.is_empty_edge(a, b) && !self.is_hull_edge(a, b)
    }

    /// Rule 6 for three marks that turn left; no other three are accepted. A
    /// mark strictly inside is left of all three sides, walked round.
    pub fn is_empty_triangle(&self, p: usize, q: usize, r: usize) -> bool {
        self.is_left(p, q, r)
            && self.is_empty_edge(p, q)
            && self.is_empty_edge(q, r)
            && self.is_empty_edge(r, p)
            && self.left(p, q) & self.left(q, r) & self.left(r, p) == 0
    }
}

/// For every ordered pair p, q the marks strictly left of it.
fn all_left(marks: &[Mark]) -> Vec<MarkSet> {
    let mut left = Vec::with_capacity(marks.len().pow(2));
    for &p in marks {
        for &q in marks {
            let is_left = |&m: &usize| side(p, q, marks[m]) == 1;
            left.push((0..marks.len()).filter(is_left).fold(0, |set, m| set | 1 << m));
        }
    }
    left
}

/// Rule 3 for every pair, in pair order.
fn all_empty_edges(marks: &[Mark]) -> Vec<bool> {
    pairs(marks.len())
        .map(|(a, b)| {
            (0..marks.len())
                .filter(|&m| m != a && m != b)
                .all(|m| !lies_on_segment(marks[a], marks[b], marks[m]))
        })
        .collect()
}

#[cfg(test)]
mod tests {
    use super::*;

    fn plane(marks: &[(i64, i64)]) -> Plane {
        let marks: Vec<Mark> = marks.iter().map(|&(x, y)| Mark { x, y }).collect();
        Plane::new(&marks)
    }

    #[test]
    fn pairs_are_numbered_by_the_larger_mark_first() {
        let numbers: Vec<usize> = pairs(5).map(|(a, b)| pair_number(a, b)).collect();
        assert_eq!(numbers, (0..10).collect::<Vec<_>>());
        assert_eq!(pair_number(0, 3), 3);
        assert_eq!(pair_number(3, 0), 3);
        assert_eq!(pair_count(0), 0);
        assert_eq!(pair_count(1), 0);
        assert_eq!(pair_count(128), 8128);
        assert_eq!(pair_number(126, 127), 8127);
    }

    #[test]
    fn left_is_plus_right_is_minus_and_the_line_is_zero() {
        let (p, q) = (Mark { x: 0, y: 0 }, Mark { x: 2, y: 0 });
        assert_eq!(side(p, q, Mark { x: 1, y: 1 }), 1);
        assert_eq!(side(p, q, Mark { x: 1, y: -1 }), -1);
        assert_eq!(side(p, q, Mark { x: 9, y: 0 }), 0);
    }

    #[test]
    fn the_largest_weight_is_that_of_opposite_corners() {
        let corner = Mark { x: -10_000, y: -10_000 };
        assert_eq!(weight(corner, Mark { x: 10_000, y: 10_000 }), 800_000_000);
    }

    #[test]
    fn the_side_is_exact_at_the_extremes() {
        let p = Mark { x: -10_000, y: -10_000 };
        let q = Mark { x: 10_000, y: 9_999 };
        assert_eq!(side(p, q, Mark { x: 0, y: 0 }), 1);
        assert_eq!(side(p, q, Mark { x: 0, y: -1 }), -1);
    }

    #[test]
    fn a_mark_on_the_segment_ends_emptiness_and_one_beyond_it_does_not() {
        let plane = plane(&[(0, 0), (1, 0), (2, 0)]);
        assert!(plane.is_empty_edge(0, 1));
        assert!(!plane.is_empty_edge(0, 2));
        assert!(plane.is_empty_edge(1, 2));
    }

    #[test]
    fn a_shared_end_or_a_touching_end_is_no_crossing() {
        let plane = plane(&[(0, 0), (4, 4), (0, 4), (4, 0), (2, 2)]);
        assert!(plane.cross((0, 1), (2, 3)));
        assert!(!plane.cross((0, 1), (0, 3)));
        assert!(!plane.cross((0, 1), (2, 4)));
    }

    #[test]
    fn a_mark_on_the_rim_leaves_two_hull_edges() {
        let plane = plane(&[(0, 0), (4, 0), (0, 4), (2, 0)]);
        assert!(!plane.is_hull_edge(0, 1));
        assert!(plane.is_hull_edge(0, 3));
        assert!(plane.is_hull_edge(1, 3));
        assert!(plane.is_inner_edge(2, 3));
    }

    #[test]
    fn on_one_line_every_empty_edge_is_a_hull_edge() {
        let plane = plane(&[(0, 0), (6, 3), (2, 1), (4, 2)]);
        for (a, b) in plane.pairs() {
            assert_eq!(plane.is_hull_edge(a, b), plane.is_empty_edge(a, b));
        }
    }

    #[test]
    fn a_mark_inside_ends_the_emptiness_of_a_triangle() {
        let plane = plane(&[(0, 0), (6, 0), (0, 6), (1, 1)]);
        assert!(!plane.is_empty_triangle(0, 1, 2));
        assert!(plane.is_empty_triangle(0, 1, 3));
        assert!(plane.is_empty_triangle(1, 3, 0));
        assert!(!plane.is_empty_triangle(1, 0, 3), "this way round turns right");
    }

    #[test]
    fn a_straight_or_interrupted_triangle_is_not_empty() {
        let plane = plane(&[(0, 0), (2, 0), (4, 0), (0, 4)]);
        assert!(!plane.is_empty_triangle(0, 1, 2));
        assert!(!plane.is_empty_triangle(0, 2, 3));
        assert!(plane.is_empty_triangle(0, 1, 3));
    }
}
