//! Compares while the other side is fed its text in pieces: an answer must not
//! depend on how much of the text is there at a time.

use std::fmt::{Display, Formatter, Result as Written};

use crate::compare::{compare_pieces, Compared};
use crate::other::Other;
use crate::plates::{marks, Kind, KINDS};
use crate::random::Random;
use crate::refusal::MOST_MARKS;
use crate::text::{plate_text, MOST_BYTES};

/// 01's kite, the kite with a bad last line, and no text at all.
const SMALL: [&[u8]; 3] = [b"-\n-3 0\n0 -1\n3 0\n0 1\n", b"-\n-3 0\n0 -1\n3 0\n0 1\n2  2\n", b""];

/// What was compared.
#[derive(Default)]
pub struct Tally {
    texts: usize,
    pieces: usize,
}

impl Display for Tally {
    fn fmt(&self, out: &mut Formatter) -> Written {
        write!(out, "{} texts, {} pieces", self.texts, self.pieces)
    }
}

/// Compares small texts cut in two at every place, texts one byte at a time,
/// texts round the greatest length cut there, and then random large texts.
pub fn compare_in_pieces(other: &dyn Other, seed: u64, texts: usize, tally: &mut Tally) -> Compared {
    let mut feeding = Feeding { other, tally };
    let mut random = Random::new(seed);
    for text in SMALL {
        for cut in 0..=text.len() {
            feeding.compare(text, &[cut])?;
        }
        feeding.compare_bytes(text)?;
    }
    feeding.compare_bytes(&plate_text("200", &marks(Kind::Jittered, MOST_MARKS, &mut random)))?;
    for length in MOST_BYTES - 1..=MOST_BYTES + 2 {
        for cut in MOST_BYTES - 1..=length {
            feeding.compare(&long_text(length, &mut random), &[cut])?;
        }
    }
    for _ in 0..texts {
        let text = large_text(&mut random);
        let cuts = random_cuts(text.len(), &mut random);
        feeding.compare(&text, &cuts)?;
    }
    Ok(())
}

struct Feeding<'a> {
    other: &'a dyn Other,
    tally: &'a mut Tally,
}

impl Feeding<'_> {
    /// Compares a text cut at the places given, in increasing order.
    fn compare(&mut self, text: &[u8], cuts: &[usize]) -> Compared {
        let starts = [&[0], cuts].concat();
        let ends = [cuts, &[text.len()]].concat();
        let pieces: Vec<&[u8]> = starts.into_iter().zip(ends).map(|(start, end)| &text[start..end]).collect();
        compare_pieces(self.other, &pieces)?;
        self.tally.texts += 1;
        self.tally.pieces += pieces.len();
        Ok(())
    }

    /// Compares a text one byte at a time.
    fn compare_bytes(&mut self, text: &[u8]) -> Compared {
        let cuts: Vec<usize> = (1..text.len()).collect();
        self.compare(text, &cuts)
    }
}

/// A text of exactly so many bytes, with far too many marks and every line
/// good: behind the budget, whose length makes up the number, each line has
/// four bytes.
fn long_text(length: usize, random: &mut Random) -> Vec<u8> {
    let mut text = format!("{}\n", "1".repeat(1 + (length + 2) % 4));
    while text.len() < length {
        text += &format!("{} {}\n", random.below(10), random.below(10));
    }
    text.into_bytes()
}

/// A large plate, or a text that is nearly or more than too long.
fn large_text(random: &mut Random) -> Vec<u8> {
    let round_the_greatest = MOST_BYTES - 10 + random.below(20);
    match random.below(8) {
        0 => long_text(random.pick(&[MOST_BYTES, MOST_BYTES + 1]), random),
        1 => long_text(round_the_greatest, random),
        2 => long_text(random.pick(&[3_000, 5_000, 2 * MOST_BYTES, 20_000]), random),
        _ => {
            let (_, kind) = random.pick(&KINDS);
            let n = MOST_MARKS - random.below(60);
            plate_text(random.pick(&["-", "0", "77", "3000"]), &marks(kind, n, random))
        }
    }
}

/// One to seven places of a text, in increasing order; some lie where a text
/// becomes too long.
fn random_cuts(length: usize, random: &mut Random) -> Vec<usize> {
    let mut cuts: Vec<usize> = (0..1 + random.below(7))
        .map(|_| match random.below(4) {
            0 => length.min(MOST_BYTES - 1 + random.below(3)),
            _ => random.below(length + 1),
        })
        .collect();
    cuts.sort_unstable();
    cuts
}

#[cfg(test)]
mod tests {
    use super::*;
    use crate::text::{list, read};

    /// A lister that sees of the pieces what a function leaves.
    struct Seeing(fn(&[&[u8]]) -> Vec<u8>);

    impl Other for Seeing {
        fn answer_pieces(&self, pieces: &[&[u8]]) -> Result<Vec<u8>, String> {
            Ok(list(&(self.0)(pieces)))
        }
    }

    fn compared(seen: fn(&[&[u8]]) -> Vec<u8>) -> (Compared, Tally) {
        let mut tally = Tally::default();
        (compare_in_pieces(&Seeing(seen), 1, 100, &mut tally), tally)
    }

    #[test]
    fn a_lister_that_reads_to_the_end_shows_no_difference() {
        let (found, tally) = compared(|pieces| pieces.concat());
        assert!(found.is_ok());
        let small = SMALL.map(|text| text.len() + 2).iter().sum::<usize>();
        assert_eq!(tally.texts, small + 1 + (1 + 2 + 3 + 4) + 100);
        assert!(tally.pieces > 2 * tally.texts);
    }

    #[test]
    fn a_lister_that_reads_once_is_found_out() {
        let (found, tally) = compared(|pieces| pieces.first().copied().unwrap_or_default().to_vec());
        assert!(found.unwrap_err().to_string().starts_with("the text, 20 bytes in pieces of [0, 20]:\n"));
        assert_eq!(tally.texts, 0);
    }

    #[test]
    fn a_lister_that_stops_at_the_greatest_length_is_found_out() {
        let stopping = |pieces: &[&[u8]]| {
            let full = (1..=pieces.len()).map(|count| pieces[..count].concat());
            full.into_iter().find(|text| text.len() >= MOST_BYTES).unwrap_or_else(|| pieces.concat())
        };
        let told = compared(stopping).0.unwrap_err().to_string();
        assert!(told.starts_with("the text, 4097 bytes in pieces of [4096, 1]:\n"), "{told}");
    }

    #[test]
    fn a_long_text_is_good_and_as_long_as_asked() {
        let mut random = Random::new(4);
        for length in 2_000..=MOST_BYTES {
            let text = long_text(length, &mut random);
            assert_eq!(text.len(), length);
            assert!(read(&text).is_ok());
        }
    }

    #[test]
    fn cuts_go_up_and_stay_within_the_text() {
        let mut random = Random::new(5);
        for length in [0, 1, 20, MOST_BYTES, 9_000] {
            let cuts = random_cuts(length, &mut random);
            assert!(cuts.is_sorted() && cuts.last() <= Some(&length));
        }
    }
}
