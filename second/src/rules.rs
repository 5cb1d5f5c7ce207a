//! Rule 9 by brute force: all triangulations of a small plate, the locally
//! minimal ones, and the largest set in which each inner edge has a
//! certificate. Sets of edges are bit masks; bit k stands for pair number k.
//!
//! Everything is worked out anew from sides and weights alone, so that it can
//! bear witness for the search.

use crate::plane::{lies_on_segment, pair_count, pair_number, pairs, side, weight, Mark};

/// A set of edges.
pub type Set = u32;

/// The most marks whose subsets of edges can be gone through one by one.
pub const MOST_SMALL: usize = 7;

/// The edges of a small plate.
pub struct Rules {
    marks: Vec<Mark>,
    pub hull: Set,
    pub inner: Set,
    /// For each pair the empty edges that cross it; nothing for a pair that is
    /// no empty edge.
    crossers: Vec<Set>,
    /// For each inner edge the sides of each certificate that any set can have.
    certificates: Vec<Vec<Set>>,
}

impl Rules {
    pub fn new(marks: &[Mark]) -> Rules {
        assert!(marks.len() <= MOST_SMALL, "brute force is for small plates");
        let mut rules = Rules {
            marks: marks.to_vec(),
            hull: 0,
            inner: 0,
            crossers: vec![0; pair_count(marks.len())],
            certificates: vec![Vec::new(); pair_count(marks.len())],
        };
        rules.sort_edges();
        rules.find_crossers();
        rules.find_certificates();
        rules
    }

    /// All empty edges.
    pub fn empty(&self) -> Set {
        self.hull | self.inner
    }

    fn mark_numbers(&self) -> std::ops::Range<usize> {
        0..self.marks.len()
    }

    fn pairs(&self) -> impl Iterator<Item = (usize, usize)> {
        pairs(self.marks.len())
    }

    fn side(&self, p: usize, q: usize, r: usize) -> i8 {
        side(self.marks[p], self.marks[q], self.marks[r])
    }

    /// Rules 3 and 5.
    fn sort_edges(&mut self) {
        for (a, b) in self.pairs() {
            let is_between = |m| lies_on_segment(self.marks[a], self.marks[b], self.marks[m]);
            let is_empty = self.mark_numbers().all(|m| m == a || m == b || !is_between(m));
            let has_left = self.mark_numbers().any(|m| self.side(a, b, m) > 0);
            let has_right = self.mark_numbers().any(|m| self.side(a, b, m) < 0);
            if is_empty && has_left && has_right {
                self.inner |= bit(pair_number(a, b));
            } else if is_empty {
                self.hull |= bit(pair_number(a, b));
            }
        }
    }

    /// Rule 4.
    fn find_crossers(&mut self) {
        for (a, b) in self.pairs() {
            for (c, d) in self.pairs() {
                let (one, two) = (pair_number(a, b), pair_number(c, d));
                let are_empty = has(self.empty(), one) && has(self.empty(), two);
                if are_empty && self.cross(a, b, c, d) {
                    self.crossers[one] |= bit(two);
                }
            }
        }
    }

    fn cross(&self, a: usize, b: usize, c: usize, d: usize) -> bool {
        let opposite = |one: i8, two: i8| one + two == 0 && one != 0;
        opposite(self.side(a, b, c), self.side(a, b, d)) && opposite(self.side(c, d, a), self.side(c, d, b))
    }

    /// Rule 6, by areas: a mark is in or on a triangle if the three triangles
    /// it forms with the sides have the area of the whole, and strictly inside
    /// if none of them is flat.
    fn is_empty_triangle(&self, p: usize, q: usize, r: usize) -> bool {
        let whole = self.double_area(p, q, r);
        let is_inside = |m| {
            let parts = [self.double_area(p, q, m), self.double_area(q, r, m), self.double_area(r, p, m)];
            parts.iter().sum::<i64>() == whole && parts.iter().all(|&part| part > 0)
        };
        let sides = [pair_number(p, q), pair_number(q, r), pair_number(p, r)];
        whole > 0 && sides.iter().all(|&side| has(self.empty(), side)) && !self.mark_numbers().any(is_inside)
    }

    fn double_area(&self, p: usize, q: usize, r: usize) -> i64 {
        let (p, q, r) = (self.marks[p], self.marks[q], self.marks[r]);
        (p.x * q.y - q.x * p.y + q.x * r.y - r.x * q.y + r.x * p.y - p.x * r.y).abs()
    }

    /// Rule 7.
    fn find_certificates(&mut self) {
        for (p, q) in self.pairs() {
            if has(self.inner, pair_number(p, q)) {
                self.certificates[pair_number(p, q)] = self.certificates_of(p, q);
            }
        }
    }

    fn certificates_of(&self, p: usize, q: usize) -> Vec<Set> {
        let mut found = Vec::new();
        for r in self.mark_numbers().filter(|&r| self.side(p, q, r) > 0) {
            for s in self.mark_numbers().filter(|&s| self.side(p, q, s) < 0) {
                let is_short = weight(self.marks[p], self.marks[q]) <= weight(self.marks[r], self.marks[s]);
                if (is_short || !self.cross(p, q, r, s))
                    && self.is_empty_triangle(p, q, r)
                    && self.is_empty_triangle(p, q, s)
                {
                    let sides = [(p, r), (q, r), (p, s), (q, s)];
                    found.push(sides.iter().fold(0, |set, &(a, b)| set | bit(pair_number(a, b))));
                }
            }
        }
        found
    }

    /// Whether each inner edge of the set has a certificate in the set.
    fn is_certified(&self, set: Set) -> bool {
        bits(set & self.inner).all(|edge| self.certificates[edge].iter().any(|&sides| sides & !set == 0))
    }

    /// Whether no edge of the set crosses this one.
    pub fn is_uncrossed(&self, edge: usize, set: Set) -> bool {
        self.crossers[edge] & set == 0
    }

    /// Rule 9: no two edges cross, and each empty edge left out crosses one.
    fn is_triangulation(&self, set: Set) -> bool {
        bits(self.empty()).all(|edge| has(set, edge) == self.is_uncrossed(edge, set))
    }

    /// All triangulations. An edge that nothing crosses cannot be left out, so
    /// only the others need be tried both ways.
    pub fn triangulations(&self) -> Vec<Set> {
        let crossed =
            bits(self.empty()).filter(|&edge| self.crossers[edge] != 0).fold(0, |set, edge| set | bit(edge));
        subsets(crossed)
            .map(|subset| subset | (self.empty() & !crossed))
            .filter(|&set| self.is_triangulation(set))
            .collect()
    }

    /// All locally minimal triangulations.
    pub fn locally_minimal(&self) -> Vec<Set> {
        self.triangulations().into_iter().filter(|&set| self.is_certified(set)).collect()
    }

    /// The largest set that holds the hull edges and in which each inner edge
    /// has a certificate: the one that holds all others, if there is such.
    pub fn largest_certified(&self) -> Option<Set> {
        let union = subsets(self.inner)
            .map(|subset| subset | self.hull)
            .filter(|&set| self.is_certified(set))
            .fold(self.hull, |union, set| union | set);
        self.is_certified(union).then_some(union)
    }
}

fn bit(pair: usize) -> Set {
    1 << pair
}

/// Whether the pair belongs to the set.
pub fn has(set: Set, pair: usize) -> bool {
    set & bit(pair) != 0
}

/// The pair numbers of a set in increasing order.
fn bits(set: Set) -> impl Iterator<Item = usize> {
    (0..Set::BITS as usize).filter(move |&pair| has(set, pair))
}

/// All subsets, from the set itself down to nothing.
fn subsets(set: Set) -> impl Iterator<Item = Set> {
    std::iter::successors(Some(set), move |&last| (last != 0).then(|| (last - 1) & set))
}

#[cfg(test)]
mod tests {
    use super::*;

    fn rules(marks: &[(i64, i64)]) -> Rules {
        let marks: Vec<Mark> = marks.iter().map(|&(x, y)| Mark { x, y }).collect();
        Rules::new(&marks)
    }

    #[test]
    fn the_square_has_two_triangulations_and_both_are_locally_minimal() {
        let rules = rules(&[(0, 0), (2, 0), (2, 2), (0, 2)]);
        assert_eq!(rules.triangulations().len(), 2);
        assert_eq!(rules.locally_minimal().len(), 2);
        assert_eq!(rules.largest_certified(), Some(0b111111));
    }

    #[test]
    fn the_kite_has_one_locally_minimal_triangulation() {
        let rules = rules(&[(-3, 0), (0, -1), (3, 0), (0, 1)]);
        assert_eq!(rules.triangulations().len(), 2);
        assert_eq!(rules.locally_minimal(), [0b111101]);
        assert_eq!(rules.largest_certified(), Some(0b111101));
    }

    #[test]
    fn convex_plates_have_as_many_triangulations_as_catalan_says() {
        for (n, count) in [(3, 1), (4, 2), (5, 5), (6, 14), (7, 42)] {
            let marks: Vec<(i64, i64)> = (0..n).map(|t| (t, t * t)).collect();
            assert_eq!(rules(&marks).triangulations().len(), count, "{n} marks");
        }
    }

    #[test]
    fn on_a_line_there_is_one_triangulation() {
        let rules = rules(&[(0, 0), (1, 0), (2, 0)]);
        assert_eq!(rules.triangulations(), [0b101]);
        assert_eq!(rules.locally_minimal(), [0b101]);
    }

    #[test]
    fn no_mark_and_one_mark_have_the_empty_triangulation() {
        assert_eq!(rules(&[]).locally_minimal(), [0]);
        assert_eq!(rules(&[(1, 1)]).locally_minimal(), [0]);
    }

    #[test]
    fn subsets_are_complete() {
        let mut all: Vec<Set> = subsets(0b1011).collect();
        all.sort_unstable();
        assert_eq!(all, [0, 1, 2, 3, 8, 9, 10, 11]);
    }
}
