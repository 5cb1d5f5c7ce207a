//! Tests: the rules and the search once more, taken word by word over bare
//! marks without any table, against the search that looks things up.

use crate::plane::{lies_on_segment, pair_number, pairs, side, weight, Mark, Plane};
use crate::plates::{marks, KINDS};
use crate::random::Random;
use crate::search::{search, End, Outcome};

struct Literal {
    marks: Vec<Mark>,
    remaining: Vec<bool>,
}

impl Literal {
    fn side(&self, p: usize, q: usize, r: usize) -> i8 {
        side(self.marks[p], self.marks[q], self.marks[r])
    }

    fn numbers(&self) -> std::ops::Range<usize> {
        0..self.marks.len()
    }

    fn is_empty_edge(&self, a: usize, b: usize) -> bool {
        self.numbers().all(|m| !lies_on_segment(self.marks[a], self.marks[b], self.marks[m]))
    }

    fn is_inner_edge(&self, a: usize, b: usize) -> bool {
        let has = |wanted| self.numbers().any(|m| self.side(a, b, m) == wanted);
        self.is_empty_edge(a, b) && has(1) && has(-1)
    }

    fn cross(&self, a: usize, b: usize, c: usize, d: usize) -> bool {
        self.side(a, b, c) * self.side(a, b, d) == -1 && self.side(c, d, a) * self.side(c, d, b) == -1
    }

    fn is_empty_triangle(&self, p: usize, q: usize, r: usize) -> bool {
        let is_inside = |m| {
            let sides = [self.side(p, q, m), self.side(q, r, m), self.side(r, p, m)];
            sides == [1; 3] || sides == [-1; 3]
        };
        self.side(p, q, r) != 0
            && self.is_empty_edge(p, q)
            && self.is_empty_edge(q, r)
            && self.is_empty_edge(p, r)
            && !self.numbers().any(is_inside)
    }

    fn remains(&self, a: usize, b: usize) -> bool {
        self.remaining[pair_number(a, b)]
    }

    fn is_certificate(&self, p: usize, q: usize, r: usize, s: usize) -> bool {
        let is_short = weight(self.marks[p], self.marks[q]) <= weight(self.marks[r], self.marks[s]);
        [(p, r), (q, r), (p, s), (q, s)].iter().all(|&(a, b)| self.remains(a, b))
            && self.is_empty_triangle(p, q, r)
            && self.is_empty_triangle(p, q, s)
            && (is_short || !self.cross(p, q, r, s))
    }

    fn has_certificate(&self, p: usize, q: usize) -> bool {
        let left = || self.numbers().filter(|&r| self.side(p, q, r) == 1);
        let right = || self.numbers().filter(|&s| self.side(p, q, s) == -1);
        left().any(|r| right().any(|s| self.is_certificate(p, q, r, s)))
    }

    fn is_crossed(&self, p: usize, q: usize) -> bool {
        pairs(self.marks.len()).any(|(a, b)| self.remains(a, b) && self.cross(p, q, a, b))
    }

    fn statuses(&self) -> Vec<u8> {
        let status = |(a, b)| match (self.remains(a, b), self.is_crossed(a, b)) {
            (false, _) => 0,
            (true, true) => 1,
            (true, false) => 2,
        };
        pairs(self.marks.len()).map(status).collect()
    }
}

fn literal_search(marks: &[Mark], budget: u32) -> Outcome {
    let n = marks.len();
    let mut literal = Literal { marks: marks.to_vec(), remaining: Vec::new() };
    literal.remaining = pairs(n).map(|(a, b)| literal.is_empty_edge(a, b)).collect();
    let mut examinations = 0;
    loop {
        let before = literal.remaining.clone();
        for (p, q) in pairs(n) {
            if !literal.remains(p, q) || !literal.is_inner_edge(p, q) {
                continue;
            }
            if examinations == budget {
                return Outcome { end: End::Paused, examinations, statuses: literal.statuses() };
            }
            examinations += 1;
            if !literal.has_certificate(p, q) {
                assert!(literal.is_crossed(p, q), "refusal 8");
                literal.remaining[pair_number(p, q)] = false;
            }
        }
        if literal.remaining == before {
            return Outcome { end: End::Done, examinations, statuses: literal.statuses() };
        }
    }
}

#[test]
fn the_search_is_what_the_words_say() {
    let mut random = Random::new(17);
    for (name, kind) in KINDS {
        for n in [4, 5, 6, 8, 10, 13, 16, 20] {
            let marks = marks(kind, n, &mut random);
            let done = literal_search(&marks, u32::MAX);
            let budgets = [u32::MAX, 0, done.examinations / 3, done.examinations / 2];
            for budget in budgets {
                let literal = literal_search(&marks, budget);
                assert_eq!(search(&Plane::new(&marks), budget), Ok(literal), "{name} {marks:?} {budget}");
            }
        }
    }
}
