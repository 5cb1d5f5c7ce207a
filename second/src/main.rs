//! The commands of the second program.

#[cfg(feature = "driver")]
mod linked;

use std::fmt::Display;
use std::io::{self, Read, Write};
use std::process::ExitCode;
use std::time::{SystemTime, UNIX_EPOCH};

use second::averages::averages;
use second::compare::{self, compare_random, compare_small};
use second::demands::{self, check_demands};
use second::other::{Child, Other};
use second::pieces::{self, compare_in_pieces};
use second::plates::{kind_named, marks};
use second::random::Random;
use second::text::{list, plate_text, read};

const USAGE: &str = "\
usage:
  second list
      reads a plate from standard input and writes its listing
  second compare --lister PATH [--seed S] [--plates N] [--texts N]
      compares PATH with this program's lister on random plates and damaged texts
  second small --lister PATH
      compares on every set of up to 5 marks on a grid of 3 by 3
  second demands [--lister PATH] [--seed S] [--plates N]
      checks demands 2 and 3 on small plates against brute force
  second pieces --lister PATH [--seed S] [--texts N]
      compares while PATH is fed its text in pieces, with a pause between them
  second averages [--seed S]
      averages of certain, possible and impossible pairs of uniform plates
  second plate KIND N SEED [BUDGET]
      writes a plate; KIND is one of uniform, grid, jittered, circle, lines,
      cluster, tiny, extreme, parabola
built with the feature `driver`, which links the library:
  second inside [--seed S] [--plates N]
      compares the library's answers with this program's, in process
  second bench [FOLDER]
      times of a search of each plate, and the stack that each call takes
  second once PLATE driver|plain
      searches a plate once, by the library or by this program's plain search
";

/// A command that was not understood.
struct Misused;

type Ended = Result<ExitCode, Misused>;

fn main() -> ExitCode {
    let arguments: Vec<String> = std::env::args().skip(1).collect();
    let arguments: Vec<&str> = arguments.iter().map(String::as_str).collect();
    run(&arguments).unwrap_or_else(|Misused| {
        eprint!("{USAGE}");
        ExitCode::from(2)
    })
}

fn run(arguments: &[&str]) -> Ended {
    match arguments {
        ["list"] => Ok(run_list()),
        ["compare", options @ ..] => run_compare(options),
        ["small", options @ ..] => run_small(options),
        ["demands", options @ ..] => run_demands(options),
        ["pieces", options @ ..] => run_pieces(options),
        ["averages", options @ ..] => run_averages(options),
        ["plate", kind, n, seed] => run_plate(kind, n, seed, "-"),
        ["plate", kind, n, seed, budget] => run_plate(kind, n, seed, budget),
        #[cfg(feature = "driver")]
        _ => linked::run(arguments),
        #[cfg(not(feature = "driver"))]
        _ => Err(Misused),
    }
}

/// The options of the comparing commands.
#[derive(Default)]
struct Options {
    lister: Option<Child>,
    seed: Option<u64>,
    plates: Option<usize>,
    texts: Option<usize>,
}

/// Reads options, each of which must be among those the command knows.
fn options(arguments: &[&str], known: &[&str]) -> Result<Options, Misused> {
    let mut options = Options::default();
    for option in arguments.chunks(2) {
        let &[name, value] = option else { return Err(Misused) };
        match name {
            _ if !known.contains(&name) => return Err(Misused),
            "--lister" => options.lister = Some(Child::new(value)),
            "--seed" => options.seed = Some(number(value)?),
            "--plates" => options.plates = Some(number(value)?),
            _ => options.texts = Some(number(value)?),
        }
    }
    Ok(options)
}

fn number<T: std::str::FromStr>(digits: &str) -> Result<T, Misused> {
    digits.parse().map_err(|_| Misused)
}

/// The seed given or a new one, printed so that the run can be repeated.
fn printed_seed(given: Option<u64>) -> u64 {
    let now = || SystemTime::now().duration_since(UNIX_EPOCH).map_or(1, |time| time.as_micros() as u64);
    let seed = given.unwrap_or_else(now);
    println!("seed {seed}");
    seed
}

fn run_list() -> ExitCode {
    let mut text = Vec::new();
    let moved = io::stdin().read_to_end(&mut text).and_then(|_| io::stdout().write_all(&list(&text)));
    match moved {
        Ok(()) => ExitCode::SUCCESS,
        Err(error) => failed(&error.to_string()),
    }
}

fn failed(reason: &str) -> ExitCode {
    eprintln!("{reason}");
    ExitCode::FAILURE
}

/// Ends a comparing command with what was found and, as the last line, how much
/// was compared. A command stops at the first difference.
fn ended(command: &str, tally: &impl Display, found: Result<(), impl Display>) -> ExitCode {
    match found {
        Ok(()) => {
            println!("{command}: {tally}, 0 differences");
            ExitCode::SUCCESS
        }
        Err(difference) => {
            print!("{difference}");
            println!("{command}: {tally}, 1 difference");
            ExitCode::FAILURE
        }
    }
}

fn run_compare(arguments: &[&str]) -> Ended {
    let options = options(arguments, &["--lister", "--seed", "--plates", "--texts"])?;
    let lister = options.lister.ok_or(Misused)?;
    let plates = options.plates.unwrap_or(2_000);
    let texts = options.texts.unwrap_or(2_000);
    let mut tally = compare::Tally::default();
    let found = compare_random(&lister, printed_seed(options.seed), plates, texts, &mut tally);
    Ok(ended("compare", &tally, found))
}

fn run_small(arguments: &[&str]) -> Ended {
    let lister = options(arguments, &["--lister"])?.lister.ok_or(Misused)?;
    let mut tally = compare::Tally::default();
    let found = compare_small(&lister, &mut tally);
    Ok(ended("small", &tally, found))
}

fn run_demands(arguments: &[&str]) -> Ended {
    let options = options(arguments, &["--lister", "--seed", "--plates"])?;
    let lister = options.lister.as_ref().map(|child| child as &dyn Other);
    let plates = options.plates.unwrap_or(500);
    let mut tally = demands::Tally::default();
    let found = check_demands(lister, printed_seed(options.seed), plates, &mut tally);
    Ok(ended("demands", &tally, found))
}

fn run_pieces(arguments: &[&str]) -> Ended {
    let options = options(arguments, &["--lister", "--seed", "--texts"])?;
    let lister = options.lister.ok_or(Misused)?;
    let texts = options.texts.unwrap_or(300);
    let mut tally = pieces::Tally::default();
    let found = compare_in_pieces(&lister, printed_seed(options.seed), texts, &mut tally);
    Ok(ended("pieces", &tally, found))
}

fn run_averages(arguments: &[&str]) -> Ended {
    const PLATES: usize = 50;
    let mut random = Random::new(printed_seed(options(arguments, &["--seed"])?.seed));
    for n in [100, 125] {
        match averages(n, PLATES, &mut random) {
            Ok(mean) => println!(
                "{n} marks, {PLATES} plates: certain {:.2}, possible {:.2}, impossible {:.2}, examinations {:.2}",
                mean.certain, mean.possible, mean.impossible, mean.examinations
            ),
            Err(refusal) => return Ok(failed(&format!("{refusal:?}"))),
        }
    }
    Ok(ExitCode::SUCCESS)
}

fn run_plate(kind: &str, n: &str, seed: &str, budget: &str) -> Ended {
    let kind = kind_named(kind).ok_or(Misused)?;
    read(format!("{budget}\n").as_bytes()).map_err(|_| Misused)?;
    let marks = marks(kind, number(n)?, &mut Random::new(number(seed)?));
    Ok(match io::stdout().write_all(&plate_text(budget, &marks)) {
        Ok(()) => ExitCode::SUCCESS,
        Err(error) => failed(&error.to_string()),
    })
}
