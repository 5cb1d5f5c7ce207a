//! Random plates of many kinds, most of them rich in ties and straight lines.

use std::collections::HashSet;

use crate::plane::{Mark, Plane};
use crate::random::Random;
use crate::refusal::{marks_of_list, FARTHEST, MOST_MARKS};
use crate::search::search;
use crate::text::{plate_text, MOST_BYTES};

const FAR: i64 = FARTHEST as i64;

#[derive(Clone, Copy, Debug, PartialEq, Eq)]
pub enum Kind {
    Uniform,
    Grid,
    Jittered,
    Circle,
    Lines,
    Cluster,
    Tiny,
    Extreme,
    Parabola,
}

/// The kinds by name.
pub const KINDS: [(&str, Kind); 9] = [
    ("uniform", Kind::Uniform),
    ("grid", Kind::Grid),
    ("jittered", Kind::Jittered),
    ("circle", Kind::Circle),
    ("lines", Kind::Lines),
    ("cluster", Kind::Cluster),
    ("tiny", Kind::Tiny),
    ("extreme", Kind::Extreme),
    ("parabola", Kind::Parabola),
];

/// The kind of a name.
pub fn kind_named(name: &str) -> Option<Kind> {
    KINDS.iter().find(|(known, _)| *known == name).map(|&(_, kind)| kind)
}

/// `n` different marks within the range. Where a kind has fewer marks to give,
/// uniform ones make up the number.
pub fn marks(kind: Kind, n: usize, random: &mut Random) -> Vec<Mark> {
    let candidates = match kind {
        Kind::Uniform => Vec::new(),
        Kind::Grid => grid(n, random),
        Kind::Jittered => jittered(n, random),
        Kind::Circle => circle(n, random),
        Kind::Lines => lines(n, random),
        Kind::Cluster => cluster(n, random),
        Kind::Tiny => tiny(n, random),
        Kind::Extreme => extreme(n, random),
        Kind::Parabola => parabola(random),
    };
    let mut marks = first_different(&candidates, n);
    fill_up(&mut marks, n, random);
    if random.one_in(2) {
        random.shuffle(&mut marks);
    }
    marks
}

/// The first `n` different candidates within the range.
fn first_different(candidates: &[Mark], n: usize) -> Vec<Mark> {
    let mut seen = HashSet::new();
    let is_within = |mark: &&Mark| mark.x.abs() <= FAR && mark.y.abs() <= FAR;
    let different = candidates.iter().filter(is_within).filter(|mark| seen.insert(**mark));
    different.copied().take(n).collect()
}

fn fill_up(marks: &mut Vec<Mark>, n: usize, random: &mut Random) {
    let mut seen: HashSet<Mark> = marks.iter().copied().collect();
    while marks.len() < n {
        let mark = anywhere(random);
        if seen.insert(mark) {
            marks.push(mark);
        }
    }
}

fn anywhere(random: &mut Random) -> Mark {
    Mark { x: random.between(-FAR, FAR), y: random.between(-FAR, FAR) }
}

/// The cells of `columns` by `rows`, row by row.
fn cells(columns: usize, rows: usize) -> Vec<Mark> {
    let row = |y| (0..columns).map(move |x| Mark { x: x as i64, y: y as i64 });
    (0..rows).flat_map(row).collect()
}

/// About as many columns as rows, with room for `n` marks.
fn columns_for(n: usize) -> usize {
    (1..).find(|side| side * side >= n).unwrap_or(1)
}

/// A grid of equal steps, filled from the first row.
fn grid(n: usize, random: &mut Random) -> Vec<Mark> {
    let columns = 1 + random.below(columns_for(n) + 2);
    let rows = n.div_ceil(columns).max(1);
    let longest = (2 * FAR) / columns.max(rows) as i64;
    let step = if random.one_in(2) { random.between(1, 9) } else { random.between(1, longest.max(1)) };
    let x = random.between(-FAR, (FAR - step * (columns as i64 - 1)).max(-FAR));
    let y = random.between(-FAR, (FAR - step * (rows as i64 - 1)).max(-FAR));
    cells(columns, rows).iter().map(|cell| Mark { x: x + step * cell.x, y: y + step * cell.y }).collect()
}

/// A grid whose marks are moved by less than half a step.
fn jittered(n: usize, random: &mut Random) -> Vec<Mark> {
    let columns = columns_for(n);
    let step = (2 * FAR) / (columns as i64 + 1);
    let most = random.pick(&[1, step / 9, step / 3]);
    cells(columns, columns)
        .iter()
        .map(|cell| Mark {
            x: (cell.x + 1) * step - FAR + random.between(-most, most),
            y: (cell.y + 1) * step - FAR + random.between(-most, most),
        })
        .collect()
}

/// Squared radii that are sums of two squares in 12 to 256 ways.
const SQUARED_RADII: [i64; 12] =
    [25, 65, 325, 1_105, 5_525, 27_625, 32_045, 160_225, 801_125, 1_185_665, 5_928_325, 29_641_625];

/// Marks exactly on circles round one centre, which may be a mark itself.
fn circle(n: usize, random: &mut Random) -> Vec<Mark> {
    let centre = Mark { x: random.between(-4_000, 4_000), y: random.between(-4_000, 4_000) };
    let mut marks = Vec::new();
    while marks.len() < n {
        let mut ring = ring(random.pick(&SQUARED_RADII));
        random.shuffle(&mut ring);
        marks.append(&mut ring);
    }
    if random.one_in(2) {
        marks.insert(0, Mark { x: 0, y: 0 });
    }
    marks.iter().map(|mark| Mark { x: centre.x + mark.x, y: centre.y + mark.y }).collect()
}

/// All marks with x² + y² equal to the squared radius.
fn ring(squared_radius: i64) -> Vec<Mark> {
    let radius = squared_radius.isqrt();
    let mut marks = Vec::new();
    for x in -radius..=radius {
        let rest = squared_radius - x * x;
        let y = rest.isqrt();
        if y * y == rest {
            marks.extend([Mark { x, y }, Mark { x, y: -y }]);
        }
    }
    marks
}

/// One to three straight lines, and now and then a mark beside them.
fn lines(n: usize, random: &mut Random) -> Vec<Mark> {
    let count = 1 + random.below(3);
    let mut marks = Vec::new();
    if random.one_in(2) {
        marks.push(anywhere(random));
    }
    for _ in 0..count {
        let start = Mark { x: random.between(-50, 50), y: random.between(-50, 50) };
        let (dx, dy) = (random.between(-3, 3), random.between(-3, 3));
        let longest = n.max(1) as i64;
        let along = |t: i64| Mark { x: start.x + t * dx, y: start.y + t * dy };
        let share = n / count + 1;
        marks.extend((0..share).map(|_| along(random.between(-longest, longest))));
        marks.extend((0..share as i64).map(along));
    }
    random.shuffle(&mut marks);
    marks
}

/// A few dense heaps far from each other.
fn cluster(n: usize, random: &mut Random) -> Vec<Mark> {
    let centres: Vec<Mark> = (0..1 + random.below(5)).map(|_| anywhere(random)).collect();
    let spread = random.pick(&[3, 20, 300]);
    (0..3 * n)
        .map(|_| {
            let centre = random.pick(&centres);
            Mark {
                x: centre.x + random.between(-spread, spread),
                y: centre.y + random.between(-spread, spread),
            }
        })
        .collect()
}

/// A range with hardly more cells than marks: full of ties and lines.
fn tiny(n: usize, random: &mut Random) -> Vec<Mark> {
    let columns = 1 + random.below(columns_for(n) + 2);
    let rows = n / columns + 1 + random.below(2);
    let (x, y) = (random.between(-3, 3), random.between(-3, 3));
    let mut marks: Vec<Mark> =
        cells(columns, rows).iter().map(|cell| Mark { x: cell.x + x, y: cell.y + y }).collect();
    random.shuffle(&mut marks);
    marks
}

/// Numbers at the ends of the range and round zero.
fn extreme(n: usize, random: &mut Random) -> Vec<Mark> {
    let ends = [-FAR, -FAR + 1, -1, 0, 1, FAR - 1, FAR];
    let number = |random: &mut Random| match random.below(4) {
        0 => random.between(-FAR, FAR),
        _ => random.pick(&ends),
    };
    (0..3 * n).map(|_| Mark { x: number(random), y: number(random) }).collect()
}

/// Marks on a parabola: all corners of the hull.
fn parabola(random: &mut Random) -> Vec<Mark> {
    let stretch = random.pick(&[1, 1, 7, 100]);
    let bottom = random.pick(&[0, -FAR]);
    let first = random.between(-100, 0);
    let steps = (first..=100).chain(-100..first);
    steps.map(|t| Mark { x: stretch * t, y: bottom + t * t }).collect()
}

/// A random plate as listing text, with a budget of any kind, and now and then
/// with too many marks, a number out of range or equal marks.
pub fn random_plate(random: &mut Random) -> Vec<u8> {
    if random.one_in(50) {
        return crowd(random);
    }
    let marks = random_marks(random_size, random);
    plate_text(&random_budget(&marks, random), &marks)
}

/// Marks of any kind, now and then with a number out of range or equal marks.
/// Large plates are rare, for comparisons that start no process for each.
pub fn quick_marks(random: &mut Random) -> Vec<Mark> {
    random_marks(quick_size, random)
}

fn random_marks(size: fn(&mut Random) -> usize, random: &mut Random) -> Vec<Mark> {
    let (_, kind) = random.pick(&KINDS);
    let n = size(random);
    let mut marks = marks(kind, n, random);
    if random.one_in(20) {
        spoil(&mut marks, random);
    }
    marks
}

/// A small plate as listing text, to be damaged: what damage leaves of a plate
/// is seldom searched, so that it need not be large.
pub fn small_plate(random: &mut Random) -> Vec<u8> {
    let (_, kind) = random.pick(&KINDS);
    let n = random.below(30);
    plate_text(&plain_budget(random), &marks(kind, n, random))
}

/// Small plates often, full ones seldom, those that are too large now and then.
fn random_size(random: &mut Random) -> usize {
    match random.below(100) {
        0..=49 => random.below(10),
        50..=79 => 10 + random.below(21),
        80..=91 => 31 + random.below(70),
        92..=96 => 101 + random.below(28),
        97 => MOST_MARKS,
        98 => MOST_MARKS + 1,
        _ => MOST_MARKS + 1 + random.below(200),
    }
}

/// As above, but few of the plates that take long to search: the larger, the
/// fewer.
fn quick_size(random: &mut Random) -> usize {
    match random_size(random) {
        n @ 31..=MOST_MARKS if !random.one_in(n / 4) => random.below(31),
        n => n,
    }
}

/// Puts up to three faults of refusals 3 and 4 into a plate.
fn spoil(marks: &mut [Mark], random: &mut Random) {
    if marks.is_empty() {
        return;
    }
    for _ in 0..1 + random.below(3) {
        let place = random.below(marks.len());
        let beyond = random.pick(&[FAR, FAR + 1, -FAR - 1, 99_999, 9_999_999, -9_999_999]);
        match random.below(3) {
            0 => marks[place].x = beyond,
            1 => marks[place].y = beyond,
            _ => marks[place] = random.pick(marks),
        }
    }
}

/// Far too many marks in up to as many bytes as a text may have.
fn crowd(random: &mut Random) -> Vec<u8> {
    let most = random.pick(&[3, 9, 2_000]);
    let mut text = b"-\n".to_vec();
    let limit = random.pick(&[600, 2_000, MOST_BYTES]);
    loop {
        let line = format!("{} {}\n", random.between(0, most), random.between(0, most));
        if text.len() + line.len() > limit {
            return text;
        }
        text.extend(line.as_bytes());
    }
}

/// A budget of any kind; some lie right round the end of the search.
fn random_budget(marks: &[Mark], random: &mut Random) -> String {
    if random.one_in(2) {
        return plain_budget(random);
    }
    let end = end_of_search(marks);
    let budgets = [end.saturating_sub(1), end, end + 1, random.below(end as usize + 1) as u32];
    random.pick(&budgets).to_string()
}

/// A budget that has nothing to do with the plate.
fn plain_budget(random: &mut Random) -> String {
    match random.below(6) {
        0 | 1 => "-".to_string(),
        2 => random.below(1_000_000_000).to_string(),
        _ => random.pick(&["0", "1", "999999999"]).to_string(),
    }
}

/// The marks as a list of numbers.
pub fn list_of(marks: &[Mark]) -> Vec<i32> {
    marks.iter().flat_map(|mark| [mark.x as i32, mark.y as i32]).collect()
}

/// The examinations of an ample search; 0 for marks that are refused.
fn end_of_search(marks: &[Mark]) -> u32 {
    marks_of_list(&list_of(marks))
        .and_then(|marks| search(&Plane::new(&marks), u32::MAX))
        .map_or(0, |outcome| outcome.examinations)
}

/// Every set of up to `most` marks on a grid of three by three, each in
/// increasing order of its cells.
pub fn sets_on_small_grid(most: usize) -> Vec<Vec<Mark>> {
    let cells = cells(3, 3);
    (0..1usize << cells.len())
        .filter(|set| set.count_ones() as usize <= most)
        .map(|set| (0..cells.len()).filter(|cell| set >> cell & 1 == 1).map(|cell| cells[cell]).collect())
        .collect()
}

#[cfg(test)]
mod tests {
    use super::*;

    #[test]
    fn every_kind_gives_different_marks_within_the_range() {
        let mut random = Random::new(11);
        for (name, kind) in KINDS {
            for n in [0, 1, 2, 3, 7, 30, 100, 128] {
                let marks = marks(kind, n, &mut random);
                assert_eq!(marks.len(), n, "{name}");
                assert!(marks_of_list(&list_of(&marks)).is_ok(), "{name}");
            }
        }
    }

    #[test]
    fn the_largest_ring_holds_256_marks() {
        assert_eq!(ring(25).len(), 12 + 2, "the two marks with y = 0 are met twice");
        let marks: HashSet<Mark> = ring(29_641_625).into_iter().collect();
        assert_eq!(marks.len(), 256);
        assert!(marks.iter().all(|mark| mark.x * mark.x + mark.y * mark.y == 29_641_625));
    }

    #[test]
    fn the_small_grid_has_382_sets_of_up_to_five() {
        assert_eq!(sets_on_small_grid(5).len(), 382);
    }

    #[test]
    fn the_same_seed_gives_the_same_plate() {
        let plate = |seed| random_plate(&mut Random::new(seed));
        assert!((0..50).all(|seed| plate(seed) == plate(seed)));
    }
}
