//! The commands that need the library linked in.

use std::path::Path;
use std::process::ExitCode;

use second::bench::{plates, print, Plate};
use second::inside::{compare_inside, Tally};
use second::library::Library;
use second::search::End;

use super::{ended, failed, options, printed_seed, Ended, Misused};

pub fn run(arguments: &[&str]) -> Ended {
    match arguments {
        ["inside", options @ ..] => run_inside(options),
        ["bench"] => Ok(run_bench("plates/bench")),
        ["bench", folder] => Ok(run_bench(folder)),
        ["once", plate, "driver"] => Ok(run_once(plate, by_driver)),
        ["once", plate, "plain"] => Ok(run_once(plate, plainly)),
        _ => Err(Misused),
    }
}

fn run_inside(arguments: &[&str]) -> Ended {
    let options = options(arguments, &["--seed", "--plates"])?;
    let plates = options.plates.unwrap_or(20_000);
    let mut tally = Tally::default();
    let found = compare_inside(&Library, printed_seed(options.seed), plates, &mut tally);
    println!("refused {}", tally.refused());
    Ok(ended("inside", &tally, found))
}

fn run_bench(folder: &str) -> ExitCode {
    match plates(Path::new(folder)) {
        Ok(mut plates) => {
            print(&mut plates);
            ExitCode::SUCCESS
        }
        Err(reason) => failed(&reason),
    }
}

/// Makes exactly one search and prints how it ended.
fn run_once(path: &str, search: fn(&mut Plate) -> String) -> ExitCode {
    match Plate::read(Path::new(path)) {
        Ok(mut plate) => {
            println!("{}", search(&mut plate));
            ExitCode::SUCCESS
        }
        Err(reason) => failed(&reason),
    }
}

fn by_driver(plate: &mut Plate) -> String {
    match plate.search_by_library() {
        (0, [0, examinations]) => format!("done {examinations}"),
        (0, [_, examinations]) => format!("paused {examinations}"),
        (number, [detail, _]) => format!("refused {number} {detail}"),
    }
}

fn plainly(plate: &mut Plate) -> String {
    match plate.search_plainly() {
        Ok((End::Done, examinations)) => format!("done {examinations}"),
        Ok((End::Paused, examinations)) => format!("paused {examinations}"),
        Err(refusal) => format!("refused {} {}", refusal.number, refusal.detail),
    }
}
