//! Makes a text small while something about it stays true.

/// The most attempts; each may cost the start of a process.
const MOST_ATTEMPTS: usize = 4_000;

/// Drops lines, then bytes, for as long as `stays` holds of what is left.
pub fn shrink(text: &[u8], mut stays: impl FnMut(&[u8]) -> bool) -> Vec<u8> {
    let mut attempts = 0;
    let mut stays = |shorter: &[u8]| {
        attempts += 1;
        attempts <= MOST_ATTEMPTS && stays(shorter)
    };
    let mut text = text.to_vec();
    loop {
        let length = text.len();
        text = drop_pieces(&lines(&text), &mut stays);
        text = drop_pieces(&bytes(&text), &mut stays);
        if text.len() == length {
            return text;
        }
    }
}

fn lines(text: &[u8]) -> Vec<&[u8]> {
    text.split_inclusive(|&byte| byte == b'\n').collect()
}

fn bytes(text: &[u8]) -> Vec<&[u8]> {
    text.chunks(1).collect()
}

/// Drops runs of pieces, long runs first and single pieces last.
fn drop_pieces(pieces: &[&[u8]], stays: &mut impl FnMut(&[u8]) -> bool) -> Vec<u8> {
    let mut pieces = pieces.to_vec();
    let mut run = pieces.len();
    while run > 0 {
        let mut start = 0;
        while start < pieces.len() {
            let end = pieces.len().min(start + run);
            let shorter = [&pieces[..start], &pieces[end..]].concat();
            if stays(&shorter.concat()) {
                pieces = shorter;
            } else {
                start = end;
            }
        }
        run /= 2;
    }
    pieces.concat()
}

#[cfg(test)]
mod tests {
    use super::*;

    #[test]
    fn only_what_matters_is_left() {
        let text = b"-\n1 1\n2 2\n3 77 3\n4 4\n5 5\n";
        let small = shrink(text, |text| text.windows(2).any(|two| two == b"77"));
        assert_eq!(small, b"77");
    }

    #[test]
    fn a_text_about_its_length_shrinks_to_that_length() {
        let small = shrink(&[b'\n'; 9_000], |text| text.len() > 4_096);
        assert_eq!(small.len(), 4_097);
    }

    #[test]
    fn what_cannot_shrink_stays() {
        assert_eq!(shrink(b"abc", |text| text == b"abc"), b"abc");
        assert_eq!(shrink(b"", |_| true), b"");
    }
}
