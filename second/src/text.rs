//! The listing's text, in and out.

use std::fmt::Write;

use crate::driver::search_list;
use crate::plane::{pair_count, pair_number, pairs, Mark};
use crate::refusal::{refuse, Refusal};
use crate::search::{End, CERTAIN, IMPOSSIBLE};

/// The most bytes a text may have.
pub const MOST_BYTES: usize = 4096;
/// What "-" on line 1 stands for.
pub const USUAL_BUDGET: u32 = 1000;
/// The most digits of a budget and of a coordinate.
const BUDGET_DIGITS: usize = 9;
const COORDINATE_DIGITS: usize = 7;

/// What the listing program writes for the text it reads.
pub fn list(text: &[u8]) -> Vec<u8> {
    match listing(text) {
        Ok(listing) => listing.into_bytes(),
        Err(refusal) => format!("refused {} {}\n", refusal.number, refusal.detail).into_bytes(),
    }
}

fn listing(text: &[u8]) -> Result<String, Refusal> {
    let (budget, numbers) = read(text)?;
    let n = numbers.len() / 2;
    let mut statuses = vec![IMPOSSIBLE; pair_count(n)];
    let (end, examinations) = search_list(&numbers, &mut statuses, budget)?;
    Ok(written(n, end, examinations, &statuses))
}

/// The listing of a search that was not refused.
fn written(n: usize, end: End, examinations: u32, statuses: &[u8]) -> String {
    let word = match end {
        End::Done => "done",
        End::Paused => "paused",
    };
    let mut listing = format!("{word} {examinations}\n");
    for (a, b) in pairs(n) {
        let status = statuses[pair_number(a, b)];
        if status != IMPOSSIBLE {
            let word = if status == CERTAIN { "certain" } else { "possible" };
            writeln!(listing, "{a} {b} {word}").expect("writing to a string cannot fail");
        }
    }
    listing
}

/// The budget and the list of numbers of a text, or refusal 9.
pub fn read(text: &[u8]) -> Result<(u32, Vec<i32>), Refusal> {
    if text.len() > MOST_BYTES {
        return refuse(9, 0);
    }
    let mut lines = text.split_inclusive(|&byte| byte == b'\n').zip(1..);
    let Some(budget) = lines.next().and_then(|(line, _)| read_budget(whole(line)?)) else {
        return refuse(9, 1);
    };
    let mut numbers = Vec::new();
    for (line, number) in lines {
        match whole(line).and_then(read_mark) {
            Some(mark) => numbers.extend(mark),
            None => return refuse(9, number),
        }
    }
    Ok((budget, numbers))
}

/// A line without its line feed, which it must have.
fn whole(line: &[u8]) -> Option<&[u8]> {
    line.strip_suffix(b"\n")
}

fn read_budget(line: &[u8]) -> Option<u32> {
    if line == b"-" {
        Some(USUAL_BUDGET)
    } else {
        read_number(line, BUDGET_DIGITS)
    }
}

/// x, one space, y.
fn read_mark(line: &[u8]) -> Option<[i32; 2]> {
    let fields: Vec<&[u8]> = line.split(|&byte| byte == b' ').collect();
    match fields[..] {
        [x, y] => Some([read_coordinate(x)?, read_coordinate(y)?]),
        _ => None,
    }
}

fn read_coordinate(field: &[u8]) -> Option<i32> {
    let (is_negative, digits) = match field.strip_prefix(b"-") {
        Some(digits) => (true, digits),
        None => (false, field),
    };
    let value = read_number(digits, COORDINATE_DIGITS)? as i32;
    match (is_negative, value) {
        (true, 0) => None,
        (true, _) => Some(-value),
        (false, _) => Some(value),
    }
}

/// 0, or a digit 1 to 9 followed by digits, at most `most` digits in all.
fn read_number(digits: &[u8], most: usize) -> Option<u32> {
    let has_leading_zero = digits.len() > 1 && digits[0] == b'0';
    if digits.is_empty() || digits.len() > most || has_leading_zero {
        return None;
    }
    digits
        .iter()
        .try_fold(0, |value, digit| digit.is_ascii_digit().then(|| value * 10 + u32::from(digit - b'0')))
}

/// A plate as listing text; the budget is written as given.
pub fn plate_text(budget: &str, marks: &[Mark]) -> Vec<u8> {
    let mut text = format!("{budget}\n");
    for mark in marks {
        writeln!(text, "{} {}", mark.x, mark.y).expect("writing to a string cannot fail");
    }
    text.into_bytes()
}

#[cfg(test)]
mod tests {
    use super::*;

    fn refusal_9(text: &[u8]) -> Option<usize> {
        match read(text) {
            Err(Refusal { number: 9, detail }) => Some(detail),
            Err(refusal) => panic!("reading gives no other refusal than 9: {refusal:?}"),
            Ok(_) => None,
        }
    }

    #[test]
    fn the_kite_gives_exactly_its_listing() {
        let listing = "done 3\n0 1 certain\n1 2 certain\n0 3 certain\n1 3 certain\n2 3 certain\n";
        assert_eq!(list(b"-\n-3 0\n0 -1\n3 0\n0 1\n"), listing.as_bytes());
    }

    #[test]
    fn a_pause_and_possible_pairs_are_written() {
        let listing = "paused 0\n0 1 certain\n0 2 possible\n1 2 certain\n\
                       0 3 certain\n1 3 possible\n2 3 certain\n";
        assert_eq!(list(b"0\n-3 0\n0 -1\n3 0\n0 1\n"), listing.as_bytes());
    }

    #[test]
    fn a_refusal_is_one_line() {
        assert_eq!(list(b""), b"refused 9 1\n");
        assert_eq!(list(b"-\n1 1\n1 1\n"), b"refused 4 1\n");
        assert_eq!(list(b"-\n0 0\n0 10001\n"), b"refused 3 3\n");
        assert_eq!(list(b"-\n10000 -10000\n"), b"done 0\n");
    }

    #[test]
    fn bad_text_goes_before_all_other_refusals() {
        assert_eq!(list(b"-\n10001 0\n1 1\n1 1\nx\n"), b"refused 9 5\n");
    }

    #[test]
    fn too_many_marks_go_before_range_and_equality() {
        let text = [b"-\n".as_slice(), &b"99999 0\n".repeat(129)].concat();
        assert_eq!(list(&text), b"refused 2 129\n");
    }

    #[test]
    fn budgets() {
        assert_eq!(read(b"-\n"), Ok((1000, vec![])));
        assert_eq!(read(b"0\n"), Ok((0, vec![])));
        assert_eq!(read(b"999999999\n"), Ok((999_999_999, vec![])));
        for bad in ["", "\n", "-", "0", "00\n", "07\n", "-0\n", "-1\n", "+1\n", "--\n", " 1\n"] {
            assert_eq!(refusal_9(bad.as_bytes()), Some(1), "{bad:?}");
        }
        for bad in ["1 \n", "1000000000\n", "0000000001\n", "1\r\n", "1\t\n", "a\n", "1\0\n"] {
            assert_eq!(refusal_9(bad.as_bytes()), Some(1), "{bad:?}");
        }
    }

    #[test]
    fn coordinates() {
        assert_eq!(read(b"1\n0 -7\n-9999999 9999999\n"), Ok((1, vec![0, -7, -9_999_999, 9_999_999])));
        for bad in ["", "0", "0 ", " 0", "0  0", "0 0 ", " 0 0", "0 0 0", "0\t0", "0,0", "- 0"] {
            let text = format!("-\n5 5\n{bad}\n6 6\n");
            assert_eq!(refusal_9(text.as_bytes()), Some(3), "{bad:?}");
        }
        for bad in ["0 -", "-0 0", "0 -0", "00 0", "01 0", "0 -01", "+1 0", "10000000 0", "0 0\r"] {
            let text = format!("-\n5 5\n{bad}\n6 6\n");
            assert_eq!(refusal_9(text.as_bytes()), Some(3), "{bad:?}");
        }
        for bad in ["--1 0", "0 1-", "1.0 0", "1e3 0", "0 0\0", "\0", "-00 0", "-10000000 0"] {
            let text = format!("-\n5 5\n{bad}\n6 6\n");
            assert_eq!(refusal_9(text.as_bytes()), Some(3), "{bad:?}");
        }
    }

    #[test]
    fn the_last_line_needs_its_line_feed_too() {
        assert_eq!(refusal_9(b"-\n1 1"), Some(2));
        assert_eq!(refusal_9(b"-\n1 1\n\n"), Some(3));
        assert_eq!(refusal_9(b"-\n1 1\n2 2"), Some(3));
    }

    #[test]
    fn the_first_bad_line_counts() {
        assert_eq!(refusal_9(b"-\n1 1\nx\ny"), Some(3));
        assert_eq!(refusal_9(b"x\ny\n"), Some(1));
    }

    #[test]
    fn more_than_4096_bytes_go_before_any_bad_line() {
        let longest = [b"-\n".as_slice(), &b"0 0\n".repeat(1022), b"10 10\n"].concat();
        assert_eq!(longest.len(), 4096);
        assert_eq!(list(&longest), b"refused 2 1023\n");
        let longer = [b"-\n".as_slice(), &b"0 0\n".repeat(1022), b"10 100\n"].concat();
        assert_eq!(refusal_9(&longer), Some(0));
        assert_eq!(refusal_9(&[b'x'; 4096]), Some(1));
        assert_eq!(refusal_9(&[b'x'; 4097]), Some(0));
        assert_eq!(refusal_9(&[b'\n'; 1_000_000]), Some(0));
    }

    #[test]
    fn what_is_written_can_be_read() {
        let marks = [Mark { x: -10_000, y: 0 }, Mark { x: 7, y: 10_000 }];
        assert_eq!(read(&plate_text("12", &marks)), Ok((12, vec![-10_000, 0, 7, 10_000])));
    }
}
