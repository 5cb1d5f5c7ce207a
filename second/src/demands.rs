//! Demands 2 and 3 of the product on small plates, checked against the brute
//! force of rule 9 under every budget.

use std::fmt::{Display, Formatter, Result as Written};

use crate::compare::compare_text;
use crate::other::Other;
use crate::plane::{Mark, Plane};
use crate::plates::{marks, sets_on_small_grid, KINDS};
use crate::random::Random;
use crate::rules::{has, Rules, Set, MOST_SMALL};
use crate::search::{search, End, Outcome, CERTAIN, IMPOSSIBLE};
use crate::text::plate_text;

/// What was gone through.
#[derive(Default)]
pub struct Tally {
    plates: usize,
    searches: usize,
    triangulations: usize,
    locally_minimal: usize,
    texts: usize,
}

impl Display for Tally {
    fn fmt(&self, out: &mut Formatter) -> Written {
        write!(
            out,
            "{} plates, {} searches, {} triangulations, {} locally minimal, {} texts",
            self.plates, self.searches, self.triangulations, self.locally_minimal, self.texts
        )
    }
}

/// Checks every set of up to five marks on a grid of three by three and then
/// random plates; with another side its answers are compared too.
pub fn check_demands(
    other: Option<&dyn Other>,
    seed: u64,
    plates: usize,
    tally: &mut Tally,
) -> Result<(), String> {
    for set in sets_on_small_grid(5) {
        check_plate(&set, other, tally)?;
    }
    let mut random = Random::new(seed);
    for _ in 0..plates {
        let (_, kind) = random.pick(&KINDS);
        let n = random.below(MOST_SMALL + 1);
        check_plate(&marks(kind, n, &mut random), other, tally)?;
    }
    Ok(())
}

fn check_plate(marks: &[Mark], other: Option<&dyn Other>, tally: &mut Tally) -> Result<(), String> {
    let plate = Plate::new(marks);
    plate.check(other, tally).map_err(|reason| {
        let text = plate_text("-", marks);
        format!("{reason}\n{}", String::from_utf8_lossy(&text))
    })?;
    tally.plates += 1;
    tally.triangulations += plate.rules.triangulations().len();
    tally.locally_minimal += plate.locally_minimal.len();
    Ok(())
}

/// A small plate with everything the demands speak of.
struct Plate {
    marks: Vec<Mark>,
    plane: Plane,
    rules: Rules,
    locally_minimal: Vec<Set>,
}

impl Plate {
    fn new(marks: &[Mark]) -> Plate {
        let rules = Rules::new(marks);
        Plate {
            marks: marks.to_vec(),
            plane: Plane::new(marks),
            locally_minimal: rules.locally_minimal(),
            rules,
        }
    }

    /// Within how many examinations a search must end.
    fn most_examinations(&self) -> u32 {
        let inner = self.rules.inner.count_ones();
        inner * (inner + 1) / 2
    }

    fn check(&self, other: Option<&dyn Other>, tally: &mut Tally) -> Result<(), String> {
        let most = self.most_examinations();
        let ample = self.search(most)?;
        ensure(ample.end == End::Done, "the budget m(m+1)/2 pauses")?;
        self.check_done(&ample)?;
        let mut before: Option<Outcome> = None;
        for budget in self.budgets(ample.examinations) {
            let outcome = self.search(budget)?;
            tally.searches += 1;
            self.check_end(&outcome, budget, &ample)?;
            self.check_bytes(&outcome)?;
            self.check_certainty(&outcome)?;
            if let Some(before) = &before {
                check_kept(before, &outcome)?;
            }
            before = Some(outcome);
            if let Some(other) = other {
                self.compare(other, budget)?;
                tally.texts += 1;
            }
        }
        Ok(())
    }

    /// Every budget up to one above the end, and ample ones.
    fn budgets(&self, end: u32) -> Vec<u32> {
        let ample = [self.most_examinations(), 999_999_999];
        let mut budgets: Vec<u32> = (0..=end + 1).chain(ample).collect();
        budgets.sort_unstable();
        budgets.dedup();
        budgets
    }

    /// A refusal 8 would break demand 3 unseen, so it counts as a failure.
    fn search(&self, budget: u32) -> Result<Outcome, String> {
        search(&self.plane, budget).map_err(|refusal| format!("budget {budget} gives {refusal:?}"))
    }

    /// Demand 2: the done set is the largest certified one.
    fn check_done(&self, done: &Outcome) -> Result<(), String> {
        let largest = self.rules.largest_certified();
        ensure(largest.is_some(), "there is no largest certified set")?;
        ensure(largest == Some(remaining(done)), "the done set is not the largest certified set")
    }

    /// A search pauses exactly when its budget is short of the end.
    fn check_end(&self, outcome: &Outcome, budget: u32, ample: &Outcome) -> Result<(), String> {
        let is_short = budget < ample.examinations;
        ensure((outcome.end == End::Paused) == is_short, "the search pauses at the wrong time")?;
        ensure(outcome.examinations == budget.min(ample.examinations), "E is wrong")?;
        ensure(is_short || outcome == ample, "a larger budget alters the end")
    }

    /// Byte 0 for what is no empty edge; byte 2 exactly for what remains and
    /// is not crossed.
    fn check_bytes(&self, outcome: &Outcome) -> Result<(), String> {
        let remaining = remaining(outcome);
        ensure(remaining & !self.rules.empty() == 0, "an edge that is not empty remains")?;
        ensure(self.rules.hull & !remaining == 0, "a hull edge was struck")?;
        for (pair, &byte) in outcome.statuses.iter().enumerate() {
            let is_certain = has(remaining, pair) && self.rules.is_uncrossed(pair, remaining);
            ensure(byte <= CERTAIN, "a status above 2")?;
            ensure((byte == CERTAIN) == is_certain, "byte 2 is not remaining and uncrossed")?;
        }
        Ok(())
    }

    /// Demand 3: certain edges are in every locally minimal triangulation,
    /// impossible ones in none.
    fn check_certainty(&self, outcome: &Outcome) -> Result<(), String> {
        ensure(!self.locally_minimal.is_empty(), "there is no locally minimal triangulation")?;
        for (pair, &byte) in outcome.statuses.iter().enumerate() {
            for &set in &self.locally_minimal {
                ensure(byte != CERTAIN || has(set, pair), "a certain edge is left out")?;
                ensure(byte != IMPOSSIBLE || !has(set, pair), "an impossible edge is kept")?;
            }
        }
        Ok(())
    }

    fn compare(&self, other: &dyn Other, budget: u32) -> Result<(), String> {
        compare_text(other, &plate_text(&budget.to_string(), &self.marks))
            .map_err(|difference| format!("the other side differs\n{difference}"))
    }
}

/// Demand 3: a larger budget never alters a certain or an impossible.
fn check_kept(smaller: &Outcome, larger: &Outcome) -> Result<(), String> {
    for (&before, &after) in smaller.statuses.iter().zip(&larger.statuses) {
        let is_settled = before == CERTAIN || before == IMPOSSIBLE;
        ensure(!is_settled || before == after, "a larger budget alters a settled status")?;
    }
    Ok(())
}

/// The pairs whose status is not impossible.
fn remaining(outcome: &Outcome) -> Set {
    let statuses = outcome.statuses.iter().enumerate();
    statuses.filter(|(_, &byte)| byte != IMPOSSIBLE).fold(0, |set, (pair, _)| set | 1 << pair)
}

fn ensure(holds: bool, reason: &str) -> Result<(), String> {
    if holds {
        Ok(())
    } else {
        Err(reason.to_string())
    }
}

#[cfg(test)]
mod tests {
    use super::*;

    #[test]
    fn the_demands_hold_on_the_small_grid_and_some_random_plates() {
        let mut tally = Tally::default();
        check_demands(None, 1, 20, &mut tally).unwrap();
        assert_eq!(tally.plates, 382 + 20);
        assert!(tally.locally_minimal >= tally.plates);
        assert_eq!(tally.texts, 0);
    }

    #[test]
    fn an_outcome_that_strikes_too_much_is_found_out() {
        let square = [(0, 0), (2, 0), (2, 2), (0, 2)].map(|(x, y)| Mark { x, y });
        let plate = Plate::new(&square);
        let mut outcome = plate.search(9).unwrap();
        assert!(plate.check_done(&outcome).is_ok());
        outcome.statuses = vec![2, 0, 2, 2, 2, 2];
        assert!(plate.check_done(&outcome).is_err());
        assert!(plate.check_bytes(&outcome).is_ok());
        assert!(plate.check_certainty(&outcome).is_err());
    }

    #[test]
    fn an_altered_status_is_found_out() {
        let outcome =
            |statuses: &[u8]| Outcome { end: End::Done, examinations: 0, statuses: statuses.to_vec() };
        assert!(check_kept(&outcome(&[0, 1, 1, 2]), &outcome(&[0, 0, 2, 2])).is_ok());
        assert!(check_kept(&outcome(&[0]), &outcome(&[1])).is_err());
        assert!(check_kept(&outcome(&[2]), &outcome(&[1])).is_err());
    }
}
