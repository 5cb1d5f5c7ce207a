//! Compares this program's lister with another side, byte by byte.

use std::fmt::{Display, Formatter, Result as Written};

use crate::damage::{damaged, known_faults};
use crate::other::Other;
use crate::plane::{Mark, Plane};
use crate::plates::{random_plate, sets_on_small_grid, small_plate};
use crate::random::Random;
use crate::search::search;
use crate::shrink::shrink;
use crate::text::{list, plate_text};

/// A text on which the two sides differ.
#[derive(Debug)]
pub struct Difference {
    text: Vec<u8>,
    /// The lengths of the pieces in which the text was given.
    pieces: Vec<usize>,
    own: Vec<u8>,
    other: Result<Vec<u8>, String>,
}

pub type Compared = Result<(), Box<Difference>>;

impl Display for Difference {
    fn fmt(&self, out: &mut Formatter) -> Written {
        write!(out, "the text, {} bytes", self.text.len())?;
        if self.pieces.len() > 1 {
            write!(out, " in pieces of {:?}", self.pieces)?;
        }
        writeln!(out, ":")?;
        write_lines(out, &self.text)?;
        writeln!(out, "own:")?;
        write_lines(out, &self.own)?;
        writeln!(out, "other:")?;
        match &self.other {
            Ok(answer) => write_lines(out, answer),
            Err(reason) => writeln!(out, "  no answer, {reason}"),
        }
    }
}

/// Every line on a line of its own with all its bytes to be seen.
fn write_lines(out: &mut Formatter, text: &[u8]) -> Written {
    for line in text.split_inclusive(|&byte| byte == b'\n') {
        writeln!(out, "  {}", line.escape_ascii())?;
    }
    Ok(())
}

/// Compares one text that is given in pieces.
pub fn compare_pieces(other: &dyn Other, pieces: &[&[u8]]) -> Compared {
    let text = pieces.concat();
    let (own, other) = (list(&text), other.answer_pieces(pieces));
    if other.as_ref() == Ok(&own) {
        return Ok(());
    }
    let pieces = pieces.iter().map(|piece| piece.len()).collect();
    Err(Box::new(Difference { text, pieces, own, other }))
}

/// Compares one text that is given whole; a difference is made small first.
pub fn compare_text(other: &dyn Other, text: &[u8]) -> Compared {
    compare_pieces(other, &[text]).map_err(|difference| {
        let small = shrink(text, |text| compare_pieces(other, &[text]).is_err());
        compare_pieces(other, &[&small]).err().unwrap_or(difference)
    })
}

/// What was compared.
#[derive(Default)]
pub struct Tally {
    pub plates: usize,
    pub texts: usize,
}

impl Display for Tally {
    fn fmt(&self, out: &mut Formatter) -> Written {
        write!(out, "{} plates, {} texts", self.plates, self.texts)
    }
}

/// Compares random plates, then the known faults and damaged texts.
pub fn compare_random(
    other: &dyn Other,
    seed: u64,
    plates: usize,
    texts: usize,
    tally: &mut Tally,
) -> Compared {
    let mut random = Random::new(seed);
    for _ in 0..plates {
        compare_text(other, &random_plate(&mut random))?;
        tally.plates += 1;
    }
    let mut faults = known_faults().into_iter();
    for _ in 0..texts {
        let text = faults.next().unwrap_or_else(|| damaged_plate(&mut random));
        compare_text(other, &text)?;
        tally.texts += 1;
    }
    Ok(())
}

fn damaged_plate(random: &mut Random) -> Vec<u8> {
    let good = if random.one_in(20) { random_plate(random) } else { small_plate(random) };
    damaged(&good, random)
}

/// Compares every set of up to five marks on a grid of three by three, in
/// three orders, under "-" and every budget up to one above the end of the
/// search.
pub fn compare_small(other: &dyn Other, tally: &mut Tally) -> Compared {
    for set in sets_on_small_grid(5) {
        for marks in orders(set) {
            for text in texts_of_every_budget(&marks) {
                compare_text(other, &text)?;
                tally.texts += 1;
            }
            tally.plates += 1;
        }
    }
    Ok(())
}

/// The order given, its reverse, and the odd places before the even ones.
fn orders(marks: Vec<Mark>) -> [Vec<Mark>; 3] {
    let reversed = marks.iter().rev().copied().collect();
    let odd = marks.iter().skip(1).step_by(2);
    let mixed = odd.chain(marks.iter().step_by(2)).copied().collect();
    [marks, reversed, mixed]
}

fn texts_of_every_budget(marks: &[Mark]) -> Vec<Vec<u8>> {
    let end = search(&Plane::new(marks), u32::MAX).map_or(0, |outcome| outcome.examinations);
    let budgets = (0..=end + 1).map(|budget| budget.to_string()).chain(["-".to_string()]);
    budgets.map(|budget| plate_text(&budget, marks)).collect()
}

#[cfg(test)]
mod tests {
    use super::*;

    /// A lister with one deliberate fault.
    struct Faulty(fn(&[u8]) -> Vec<u8>);

    impl Other for Faulty {
        fn answer_pieces(&self, pieces: &[&[u8]]) -> Result<Vec<u8>, String> {
            Ok((self.0)(&pieces.concat()))
        }
    }

    /// What is found in a lister, and what was compared until then.
    fn compared(lister: fn(&[u8]) -> Vec<u8>, plates: usize, texts: usize) -> (Compared, String) {
        let mut tally = Tally::default();
        let found = compare_random(&Faulty(lister), 1, plates, texts, &mut tally);
        (found, tally.to_string())
    }

    #[test]
    fn equal_listers_show_no_difference_and_are_compared_as_often_as_told() {
        for (plates, texts) in [(60, 400), (0, 3), (0, 0)] {
            let (found, tally) = compared(list, plates, texts);
            assert!(found.is_ok());
            assert_eq!(tally, format!("{plates} plates, {texts} texts"));
        }
    }

    #[test]
    fn the_small_grid_compares_equal_with_itself() {
        let mut tally = Tally::default();
        assert!(compare_small(&Faulty(list), &mut tally).is_ok());
        assert_eq!(tally.plates, 3 * 382);
        assert!(tally.texts > 3 * 382 * 3);
    }

    #[test]
    fn a_lister_that_takes_carriage_returns_is_found_out() {
        let lax = |text: &[u8]| {
            let kept: Vec<u8> = text.iter().copied().filter(|&byte| byte != b'\r').collect();
            list(&kept)
        };
        let (found, tally) = compared(lax, 0, 400);
        let difference = found.unwrap_err();
        assert_eq!(difference.text, b"-\r\n");
        assert_eq!(difference.own, b"refused 9 1\n");
        assert_eq!(difference.other, Ok(b"done 0\n".to_vec()));
        assert_ne!(tally, "0 plates, 400 texts");
    }

    #[test]
    fn a_lister_that_never_pauses_is_found_out_and_made_small() {
        let endless = |text: &[u8]| match text.iter().position(|&byte| byte == b'\n') {
            Some(place) if text[0].is_ascii_digit() => list(&[b"999999999", &text[place..]].concat()),
            _ => list(text),
        };
        let difference = compared(endless, 2_000, 0).0.unwrap_err();
        assert!(difference.text.len() <= 40, "{difference}");
    }
}
