//! Damaged texts: one of every fault the grammar can have, and random edits of
//! good texts.

use crate::random::Random;
use crate::text::MOST_BYTES;

/// Bytes that come close to being right.
const PALETTE: &[u8] = b"0123456789-- \n\n\r\t+.,x\0";

/// Line 1 alone, as it stands.
#[rustfmt::skip]
const BUDGETS: &[&str] = &[
    "", "\n", "\n\n\n", "\n-\n", "-", "-\n", "--\n", " -\n", "- \n", "-\r\n", "-\r", "-\0\n", "-\t\n", "\0", "\0\n",
    "0\n", "0", "00\n", "01\n", "007\n", "-0\n", "-1\n", "+1\n", "1 \n", " 1\n", "1 2\n", "1\t\n", "1\r\n", "x\n",
    "999999999\n", "1000000000\n", "0000000001\n", "4294967295\n", "4294967296\n", "18446744073709551616\n",
    "1.0\n", "1e3\n", "\u{feff}-\n", "\u{2212}\n", "\u{661}\n",
];

/// A line between two good marks.
#[rustfmt::skip]
const MARKS: &[&str] = &[
    "", " ", "  ", "0", "0 ", " 0", "0  0", " 0 0", "0 0 ", "0 0 0", "1 2 3", "0\t0", "0,0", "0 0\r", "0\r0", "\r",
    "-", "- -", "- 0", "0 -", "-0 0", "0 -0", "-00 0", "00 0", "0 00", "01 0", "0 01", "-01 0", "+1 0", "0 +1",
    "--1 0", "0 --1", "1- 0", "0 1-", "9999999 0", "0 -9999999", "10000000 0", "0 10000000", "-10000000 0",
    "00000000 0", "0000001 0", "4294967296 0", "99999999999999999999 0", "1.0 0", "1e3 0", "0x1 0", "x", "x\ny",
    "0 0\0", "\0", "0\x000", "0 0\u{b}", "\u{661} 0", "0\u{a0}0", "\n", "0 0\n\n1 1", "10000 -10000", "10001 0",
    "0 10001", "-10001 0", "0 -10001", "5 5", "6 6", "7 7", "5 5\n5 5", "10001 0\n5 5", "5 5\n10001 0",
];

/// One text of every known fault.
pub fn known_faults() -> Vec<Vec<u8>> {
    let mut texts: Vec<Vec<u8>> = BUDGETS.iter().map(|text| text.as_bytes().to_vec()).collect();
    for line in MARKS {
        texts.push(format!("-\n5 5\n{line}\n6 6\n").into_bytes());
        texts.push(format!("-\n{line}").into_bytes());
        texts.push(format!("-\n{line}\n").into_bytes());
    }
    texts.extend(long_texts());
    texts
}

/// Texts round the greatest length, and much longer ones.
fn long_texts() -> Vec<Vec<u8>> {
    let row = |n: usize| (0..n).map(|x| format!("{x} 0\n")).collect::<String>();
    let full = [b"-\n".as_slice(), &b"0 0\n".repeat(1022), b"10 10\n"].concat();
    let mut texts = vec![
        format!("-\n{}", row(128)).into_bytes(),
        format!("-\n{}", row(129)).into_bytes(),
        format!("-\n{}10001 0\n", row(128)).into_bytes(),
        format!("-\n{}0 0\n", row(127)).into_bytes(),
        full.clone(),
        [&full[..MOST_BYTES - 1], b"x"].concat(),
        full[..MOST_BYTES - 1].to_vec(),
        [&full[..], b"x"].concat(),
        [&full[..], b"\n"].concat(),
        [&full[..], b"1 1\n"].concat(),
        [b"x".as_slice(), &full[1..]].concat(),
        [b"x".as_slice(), &full[..]].concat(),
        format!("-\n{}", row(9_000)).into_bytes(),
    ];
    for byte in [b'0', b'\n', b'\0', b' ', b'-', 255] {
        for length in [MOST_BYTES - 1, MOST_BYTES, MOST_BYTES + 1, 1_000_000] {
            texts.push(vec![byte; length]);
        }
    }
    texts.push(b"0 0\n".repeat(250_000));
    texts
}

/// A text damaged at random, from a good one.
pub fn damaged(good: &[u8], random: &mut Random) -> Vec<u8> {
    match random.below(40) {
        0 => rubbish(random),
        1 => stretched(good, random),
        2 => with_line_ends(good, b"\r\n"),
        3 => with_line_ends(good, random.pick(&[b"\r".as_slice(), b" \n", b"\n\n", b"\0"])),
        _ => edited(good, random),
    }
}

/// Random bytes, either any or such as come close.
fn rubbish(random: &mut Random) -> Vec<u8> {
    let length = random.pick(&[1, 2, 3, 10, 100, MOST_BYTES, MOST_BYTES + 1]);
    let is_any = random.one_in(2);
    (0..length).map(|_| if is_any { random.below(256) as u8 } else { random.pick(PALETTE) }).collect()
}

/// The text made longer by repetition, to about the greatest length.
fn stretched(good: &[u8], random: &mut Random) -> Vec<u8> {
    let length = MOST_BYTES - 2 + random.below(5);
    good.iter().copied().cycle().take(if good.is_empty() { 0 } else { length }).collect()
}

fn with_line_ends(good: &[u8], line_end: &[u8]) -> Vec<u8> {
    let parts: Vec<&[u8]> = good.split(|&byte| byte == b'\n').collect();
    parts.join(line_end)
}

/// One edit mostly, several now and then.
fn edited(good: &[u8], random: &mut Random) -> Vec<u8> {
    let mut text = good.to_vec();
    let edits = if random.one_in(4) { 2 + random.below(5) } else { 1 };
    for _ in 0..edits {
        edit(&mut text, random);
    }
    text
}

fn edit(text: &mut Vec<u8>, random: &mut Random) {
    if text.is_empty() {
        text.push(near_byte(random));
        return;
    }
    let place = random.below(text.len());
    match random.below(9) {
        0 => text.insert(place, near_byte(random)),
        1 => drop(text.remove(place)),
        2 => text[place] = near_byte(random),
        3 => text.truncate(place),
        4 => text.swap(place, random.below(place + 1)),
        5 => text.push(near_byte(random)),
        6 => edit_lines(text, random),
        7 => replace_line(text, random),
        _ => drop(text.pop()),
    }
}

fn near_byte(random: &mut Random) -> u8 {
    if random.one_in(5) {
        random.below(256) as u8
    } else {
        random.pick(PALETTE)
    }
}

/// Doubles a line, drops one or swaps two.
fn edit_lines(text: &mut Vec<u8>, random: &mut Random) {
    let mut lines: Vec<&[u8]> = text.split_inclusive(|&byte| byte == b'\n').collect();
    let place = random.below(lines.len());
    match random.below(3) {
        0 => lines.insert(random.below(place + 1), lines[place]),
        1 => drop(lines.remove(place)),
        _ => lines.swap(place, random.below(place + 1)),
    }
    *text = lines.concat();
}

/// Puts a line with a known fault in the place of another.
fn replace_line(text: &mut Vec<u8>, random: &mut Random) {
    let faulty = format!("{}\n", random.pick(MARKS)).into_bytes();
    let mut lines: Vec<&[u8]> = text.split_inclusive(|&byte| byte == b'\n').collect();
    let place = random.below(lines.len());
    lines[place] = &faulty;
    *text = lines.concat();
}

#[cfg(test)]
mod tests {
    use super::*;
    use crate::text::read;

    #[test]
    fn the_known_faults_reach_every_length() {
        let texts = known_faults();
        for length in [0, 1, MOST_BYTES, MOST_BYTES + 1, 1_000_000] {
            assert!(texts.iter().any(|text| text.len() == length), "{length}");
        }
    }

    #[test]
    fn damage_leaves_good_and_bad_texts() {
        let mut random = Random::new(2);
        let good = b"-\n-3 0\n0 -1\n3 0\n0 1\n";
        let bad = (0..1000).filter(|_| read(&damaged(good, &mut random)).is_err()).count();
        assert!((500..950).contains(&bad), "{bad} of 1000 are bad");
    }

    #[test]
    fn an_empty_text_can_be_damaged_too() {
        let mut random = Random::new(3);
        for _ in 0..500 {
            damaged(b"", &mut random);
        }
    }
}
