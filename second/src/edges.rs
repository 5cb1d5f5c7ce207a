//! Sets of marks and sets of edges.

use crate::plane::pairs;

/// A set of marks: bit m stands for mark m. A plate has at most 128 marks.
pub type MarkSet = u128;

/// The marks of a set in increasing order.
pub fn members(set: MarkSet) -> impl Iterator<Item = usize> {
    let mut rest = set;
    std::iter::from_fn(move || {
        if rest == 0 {
            return None;
        }
        let lowest = rest.trailing_zeros();
        rest ^= 1 << lowest;
        Some(lowest as usize)
    })
}

/// A set of edges, kept as the marks that each mark is joined to.
#[derive(Clone, Debug, PartialEq, Eq)]
pub struct EdgeSet {
    joined: Vec<MarkSet>,
}

impl EdgeSet {
    /// The pairs of `n` marks that belong to the set.
    pub fn new(n: usize, belongs: impl Fn(usize, usize) -> bool) -> EdgeSet {
        let mut set = EdgeSet { joined: vec![0; n] };
        for (a, b) in pairs(n).filter(|&(a, b)| belongs(a, b)) {
            set.joined[a] |= 1 << b;
            set.joined[b] |= 1 << a;
        }
        set
    }

    /// The marks that `a` is joined to.
    pub fn joined(&self, a: usize) -> MarkSet {
        self.joined[a]
    }

    pub fn has(&self, a: usize, b: usize) -> bool {
        self.joined[a] >> b & 1 == 1
    }

    pub fn remove(&mut self, a: usize, b: usize) {
        self.joined[a] &= !(1 << b);
        self.joined[b] &= !(1 << a);
    }

    /// The edges of the set in pair order.
    pub fn edges(&self) -> impl Iterator<Item = (usize, usize)> + '_ {
        let below = |b: usize| self.joined[b] & ((1 << b) - 1);
        (0..self.joined.len()).flat_map(move |b| members(below(b)).map(move |a| (a, b)))
    }
}

#[cfg(test)]
mod tests {
    use super::*;

    #[test]
    fn members_come_in_increasing_order() {
        assert_eq!(members(0).count(), 0);
        assert_eq!(members(1 | 1 << 5 | 1 << 127).collect::<Vec<_>>(), [0, 5, 127]);
    }

    #[test]
    fn edges_come_in_pair_order() {
        let all = EdgeSet::new(128, |_, _| true);
        assert!(all.edges().eq(pairs(128)));
        assert_eq!(EdgeSet::new(0, |_, _| true).edges().count(), 0);
    }

    #[test]
    fn a_removed_edge_is_gone_from_both_ends() {
        let mut set = EdgeSet::new(4, |_, _| true);
        set.remove(1, 3);
        assert!(!set.has(1, 3) && !set.has(3, 1));
        assert_eq!(members(set.joined(3)).collect::<Vec<_>>(), [0, 2]);
        assert_eq!(set.edges().collect::<Vec<_>>(), [(0, 1), (0, 2), (1, 2), (0, 3), (2, 3)]);
    }
}
