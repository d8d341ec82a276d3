//! An independent model of the SCP 1700 file calls, and the test that holds the
//! program `replay` and the emulator's seam against it. README.md says how to
//! use it.

mod check;
mod choose;
mod doors;
mod paper;
#[cfg(test)]
mod tests;

use std::io::{self, Read, Write};
use std::path::Path;
use std::process::ExitCode;

use check::archive::Archive;
use check::kept;
use check::program::Program;
use check::run::{run, Plan};
use doors::replay::expected;
use doors::script::Script;

const USAGE: &str = "usage:
  model run SEED SCRIPTS FOLDER   scripts, chains, tellings, cuttings and columns on replay and at the seam; failing ones go to FOLDER
  model some SEED SCRIPTS FOLDER  the same, where pairs of call and answer may be missing
  model long SEED CALLS FOLDER    one run of so many calls at the seam
  model shelves SEED SHELVES FOLDER  shelves of volumes at the seam; nothing goes to FOLDER
  model copies SEED COPIES FOLDER fresh disks at the seam
  model again FILE                a kept script, chain, telling, cutting or column once more
  model keep SEED NUMBER FOLDER   writes the script and the four chains of this number to FOLDER
  model expected                  a script on standard input: what replay must print
  model listing                   a volume on standard input: what the lister must print
The environment's REPLAY is the command that runs replay, SEAM the one that runs seam.c.
";

/// The program that the environment's variable names.
fn program(variable: &str) -> Result<Program, String> {
    let command = std::env::var(variable).unwrap_or_default();
    Program::new(&command).ok_or(format!("{} is not set", variable))
}

/// What is under test, or what is missing.
fn under_test() -> Result<(Program, Archive), String> {
    Ok((program("REPLAY")?, Archive::new(program("SEAM")?)))
}

fn run_all(seed: u64, scripts: u64, folder: &Path, every_pair: bool) -> Result<bool, String> {
    let (replay, seam) = under_test()?;
    std::fs::create_dir_all(folder).map_err(|error| error.to_string())?;
    let (passed, failed) = run(&Plan { seed, scripts, replay: &replay, seam: &seam, folder, every_pair });
    println!("compared: {} passed, {} failed", passed, failed);
    Ok(failed == 0)
}

fn run_long(seed: u64, calls: usize, folder: &Path) -> Result<bool, String> {
    let (_, seam) = under_test()?;
    std::fs::create_dir_all(folder).map_err(|error| error.to_string())?;
    let fault = check::run::run_long(seed, calls, &seam, folder).err();
    match &fault {
        None => println!("one run of {} calls at the seam passed", calls),
        Some(what) => println!("FAILED the run of {} calls of seed {} at the seam: {}", calls, seed, what),
    }
    let failed = u8::from(fault.is_some());
    println!("compared: {} passed, {} failed", 1 - failed, failed);
    Ok(failed == 0)
}

fn run_shelves(seed: u64, shelves: u64) -> Result<bool, String> {
    let (_, seam) = under_test()?;
    let (passed, failed) = check::shelves::run(seed, shelves, &seam);
    println!("compared: {} passed, {} failed", passed, failed);
    Ok(failed == 0)
}

fn run_copies(seed: u64, copies: u64) -> Result<bool, String> {
    let (_, seam) = under_test()?;
    let (passed, failed) = check::copies::run(seed, copies, &seam);
    println!("compared: {} passed, {} failed", passed, failed);
    Ok(failed == 0)
}

fn again(file: &str) -> Result<bool, String> {
    let (replay, seam) = under_test()?;
    let bytes = std::fs::read(file).map_err(|error| format!("{}: {}", file, error))?;
    Ok(check::again::again(&bytes, &replay, &seam))
}

fn keep(seed: u64, number: u64, folder: &Path) -> Result<bool, String> {
    std::fs::create_dir_all(folder).map_err(|error| error.to_string())?;
    for ending in [kept::SCRIPT, kept::CHAIN, kept::TELLING, kept::CUTTING, kept::COLUMN] {
        let path = kept::keep(folder, seed, number, ending).map_err(|error| error.to_string())?;
        println!("{}", path.display());
    }
    Ok(true)
}

/// Prints a text made of standard input.
fn answer(text_of: fn(&[u8]) -> String) -> Result<bool, String> {
    let mut bytes = Vec::new();
    io::stdin().lock().read_to_end(&mut bytes).map_err(|error| error.to_string())?;
    io::stdout().lock().write_all(text_of(&bytes).as_bytes()).map_err(|error| error.to_string())?;
    Ok(true)
}

/// `None` where the words are no command.
fn obey(words: &[&str]) -> Option<Result<bool, String>> {
    Some(match words {
        ["run", seed, scripts, folder] => {
            run_all(seed.parse().ok()?, scripts.parse().ok()?, Path::new(folder), true)
        }
        ["some", seed, scripts, folder] => {
            run_all(seed.parse().ok()?, scripts.parse().ok()?, Path::new(folder), false)
        }
        ["long", seed, calls, folder] => run_long(seed.parse().ok()?, calls.parse().ok()?, Path::new(folder)),
        ["shelves", seed, shelves, _] => run_shelves(seed.parse().ok()?, shelves.parse().ok()?),
        ["copies", seed, copies, _] => run_copies(seed.parse().ok()?, copies.parse().ok()?),
        ["again", file] => again(file),
        ["keep", seed, number, folder] => keep(seed.parse().ok()?, number.parse().ok()?, Path::new(folder)),
        ["expected"] => answer(|bytes| expected(&Script::decode(bytes)).0),
        ["listing"] => answer(paper::lister::listing),
        _ => return None,
    })
}

fn main() -> ExitCode {
    let arguments: Vec<String> = std::env::args().skip(1).collect();
    let words: Vec<&str> = arguments.iter().map(String::as_str).collect();
    match obey(&words) {
        Some(Ok(true)) => ExitCode::SUCCESS,
        Some(Ok(false)) => ExitCode::from(1),
        Some(Err(fault)) => {
            eprintln!("model: {}", fault);
            ExitCode::from(2)
        }
        None => {
            eprint!("{}", USAGE);
            ExitCode::from(2)
        }
    }
}
