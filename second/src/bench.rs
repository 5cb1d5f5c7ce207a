//! Times of a search by the library and by this program's plain search, and the stack
//! that each call of the library takes.

use std::fs;
use std::hint::black_box;
use std::path::Path;
use std::time::Instant;

use crate::calls::{Calls, CERTIFICATE_ROOM, LONGEST_BUDGET_ROOM, PAIR_ROOM, SEARCH_ROOM};
use crate::driver::search_list;
use crate::library::Library;
use crate::plane::pair_count;
use crate::refusal::Refusal;
use crate::search::End;
use crate::stack::taken;
use crate::text::read;

/// How often each search is run. The numbers are odd, for one median run.
const LIBRARY_RUNS: usize = 101;
const PLAIN_RUNS: usize = 11;

/// A plate with a status buffer and an ample budget.
pub struct Plate {
    name: String,
    list: Vec<i32>,
    status: Vec<u8>,
    budget: u32,
}

impl Plate {
    /// Reads a plate; the budget of its first line is of no account.
    pub fn read(path: &Path) -> Result<Plate, String> {
        let explain = |reason: String| format!("{}: {reason}", path.display());
        let text = fs::read(path).map_err(|error| explain(error.to_string()))?;
        let (_, list) = read(&text).map_err(|refusal| explain(format!("{refusal:?}")))?;
        let n = list.len() / 2;
        let name = path.file_name().unwrap_or_default().to_string_lossy().into_owned();
        let budget = longest_budget(n).ok_or_else(|| explain("too many marks".to_string()))?;
        Ok(Plate { name, list, status: vec![0; pair_count(n)], budget })
    }

    fn len(&self) -> usize {
        self.list.len() / 2
    }

    /// One search by the library: the status number and the result.
    pub fn search_by_library(&mut self) -> (u32, [u64; SEARCH_ROOM]) {
        let mut result = [0; SEARCH_ROOM];
        let number = Library.search(Some(&self.list), Some(&mut self.status), self.budget, Some(&mut result));
        (number, result)
    }

    /// One own search.
    pub fn search_plainly(&mut self) -> Result<(End, u32), Refusal> {
        plain_search(&self.list, &mut self.status, self.budget)
    }

    /// Asks the library for a certificate of each pair of mark 0.
    fn request_by_library(&self) {
        let mut result = [0; CERTIFICATE_ROOM];
        for b in 1..self.len() {
            let number = Library.certificate(Some(&self.list), Some(&self.status), (0, b), Some(&mut result));
            black_box(number);
        }
    }
}

/// The library's longest budget for `n` marks.
fn longest_budget(n: usize) -> Option<u32> {
    let mut result = [0; LONGEST_BUDGET_ROOM];
    let number = Library.longest_budget(n, Some(&mut result));
    u32::try_from(result[0]).ok().filter(|_| number == 0)
}

/// The own search, under a name that a counting tool can be told.
#[no_mangle]
#[inline(never)]
pub fn plain_search(list: &[i32], status: &mut [u8], budget: u32) -> Result<(End, u32), Refusal> {
    search_list(list, status, budget)
}

/// The plates of a folder, by name.
pub fn plates(folder: &Path) -> Result<Vec<Plate>, String> {
    let explain = |error: std::io::Error| format!("{}: {error}", folder.display());
    let entries: Result<Vec<_>, _> = fs::read_dir(folder).map_err(explain)?.collect();
    let mut paths: Vec<_> = entries.map_err(explain)?.iter().map(fs::DirEntry::path).collect();
    paths.retain(|path| path.extension().is_some_and(|extension| extension == "txt"));
    paths.sort();
    paths.iter().map(|path| Plate::read(path)).collect()
}

/// Prints a line for each plate and then one for each call.
pub fn print(plates: &mut [Plate]) {
    println!("{:<14} {:>5} {:>12} {:>12} {:>6}", "plate", "marks", "driver ns", "plain ns", "ratio");
    for plate in plates.iter_mut() {
        print_times(plate);
    }
    println!("bytes of stack");
    for (name, bytes) in stacks(plates) {
        println!("{name:<24} {bytes:>7}");
    }
}

fn print_times(plate: &mut Plate) {
    let driver = median(LIBRARY_RUNS, || plate.search_by_library());
    let plain = median(PLAIN_RUNS, || plate.search_plainly());
    let ratio = plain as f64 / driver as f64;
    println!("{:<14} {:>5} {driver:>12} {plain:>12} {ratio:>6.2}", plate.name, plate.len());
}

/// The nanoseconds of the median run.
fn median<T>(runs: usize, mut run: impl FnMut() -> T) -> u128 {
    let mut times: Vec<u128> = (0..runs)
        .map(|_| {
            let start = Instant::now();
            black_box(run());
            start.elapsed().as_nanos()
        })
        .collect();
    times.sort_unstable();
    times[runs / 2]
}

/// The most stack that each call takes on any of the plates, and an empty call.
fn stacks(plates: &mut [Plate]) -> [(&'static str, usize); 6] {
    let search = plates.iter_mut().map(|plate| taken(|| plate.search_by_library())).max();
    let certificate = plates.iter().map(|plate| taken(|| plate.request_by_library())).max();
    [
        ("skeleton_search", search.unwrap_or_default()),
        ("skeleton_certificate", certificate.unwrap_or_default()),
        ("skeleton_pair", taken(|| Library.pair(126, 127, Some(&mut [0; PAIR_ROOM])))),
        ("skeleton_longest_budget", taken(|| longest_budget(128))),
        ("skeleton_version", taken(|| Library.version())),
        ("an empty call", taken(|| ())),
    ]
}
