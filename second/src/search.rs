//! The search, step by step, and the statuses it leaves.

use crate::certificate::first_certificate;
use crate::edges::EdgeSet;
use crate::plane::{pair_number, Plane};
use crate::refusal::{refuse, Refusal};

/// Status bytes.
pub const IMPOSSIBLE: u8 = 0;
pub const POSSIBLE: u8 = 1;
pub const CERTAIN: u8 = 2;

/// How a search that was not refused came to a stop.
#[derive(Clone, Copy, Debug, PartialEq, Eq)]
pub enum End {
    Done,
    Paused,
}

/// The result of a search: its end, the examinations made and the statuses in
/// pair order.
#[derive(Clone, Debug, PartialEq, Eq)]
pub struct Outcome {
    pub end: End,
    pub examinations: u32,
    pub statuses: Vec<u8>,
}

/// Searches under a budget. The only refusal is 8, with the pair number.
pub fn search(plane: &Plane, budget: u32) -> Result<Outcome, Refusal> {
    let mut remaining = EdgeSet::new(plane.len(), |a, b| plane.is_empty_edge(a, b));
    let inner: Vec<(usize, usize)> = plane.pairs().filter(|&(a, b)| plane.is_inner_edge(a, b)).collect();
    let mut examinations = 0;
    loop {
        let mut has_struck = false;
        for &(p, q) in &inner {
            if !remaining.has(p, q) {
                continue;
            }
            if examinations == budget {
                return Ok(outcome(plane, &remaining, End::Paused, examinations));
            }
            examinations += 1;
            if first_certificate(plane, &remaining, p, q).is_some() {
                continue;
            }
            if !is_crossed(plane, &remaining, p, q) {
                return refuse(8, pair_number(p, q));
            }
            remaining.remove(p, q);
            has_struck = true;
        }
        if !has_struck {
            return Ok(outcome(plane, &remaining, End::Done, examinations));
        }
    }
}

/// Whether some remaining edge crosses the edge `pq`.
fn is_crossed(plane: &Plane, remaining: &EdgeSet, p: usize, q: usize) -> bool {
    remaining.edges().any(|edge| plane.cross((p, q), edge))
}

fn outcome(plane: &Plane, remaining: &EdgeSet, end: End, examinations: u32) -> Outcome {
    let statuses = plane.pairs().map(|(a, b)| status(plane, remaining, a, b)).collect();
    Outcome { end, examinations, statuses }
}

fn status(plane: &Plane, remaining: &EdgeSet, a: usize, b: usize) -> u8 {
    if !remaining.has(a, b) {
        IMPOSSIBLE
    } else if is_crossed(plane, remaining, a, b) {
        POSSIBLE
    } else {
        CERTAIN
    }
}
