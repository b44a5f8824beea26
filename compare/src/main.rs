//! A second program for the circulation planner: predicts and checks its
//! listings. Build with `cargo build --release` or `rustc -O src/main.rs`.
//!
//!     compare gen SEED OUTFILE      writes the plant file of a seed
//!     compare expect FILE           prints the predicted text
//!     compare check FILE TEXT       checks a printed text by definitions
//!     compare tallies FILE          prints relabels and discharges by stage
//!     compare run CMD FROM TO       compares a planner over seeds FROM..=TO
//!     compare all CMD               compares it over every small plant
//!     compare self FROM TO          compares solver and procedure over seeds
//!     compare self all              the same over every small plant
//!
//! CMD is the path of a program that reads a plant file on standard input.
//! Built with the feature `linked`, CMD may be the word `linked`: then the C
//! function `widgulp_listing` is called, as in
//! `rustc -O --cfg 'feature="linked"' -L DIR -l NAME src/main.rs`.

mod check;
mod damage;
mod enumerate;
mod generate;
mod limits;
mod listing;
mod planner;
mod plant;
mod procedure;
mod random;
mod shapes;
mod small;
mod solver;
#[cfg(test)]
mod tests;

use generate::Foreseen;
use planner::Planner;
use plant::{Aim, Plant, Verdict};
use std::process::ExitCode;

const USAGE: &str = "compare gen SEED OUTFILE | expect FILE | check FILE TEXT | tallies FILE\n\
    \u{20}      | run CMD FROM TO | all CMD | self FROM TO | self all";

/// Where files that make a difference are kept.
const KEPT: &str = "differences";
/// How many differences are shown.
const MOST_SHOWN: u64 = 5;

fn main() -> ExitCode {
    let arguments: Vec<String> = std::env::args().skip(1).collect();
    let words: Vec<&str> = arguments.iter().map(|word| word.as_str()).collect();
    match command(&words) {
        Ok(true) => ExitCode::SUCCESS,
        Ok(false) => ExitCode::from(1),
        Err(message) => {
            eprintln!("{message}");
            ExitCode::from(2)
        }
    }
}

/// True if nothing differs.
fn command(words: &[&str]) -> Result<bool, String> {
    match *words {
        ["gen", seed, path] => write_file(path, &generate::file(number(seed)?).0).map(|()| true),
        ["expect", path] => {
            let file = read_file(path)?;
            print!("{}", listing::expect(planner::seen_by_program(&file)));
            Ok(true)
        }
        ["check", path, text] => check_text(&read_file(path)?, &read_file(text)?),
        ["tallies", path] => print_tallies(&read_file(path)?),
        ["run", name, from, to] => {
            compare_seeds(&Planner::named(name)?, number(from)?, number(to)?)
        }
        ["all", name] => {
            let planner = Planner::named(name)?;
            each_small(|file| compare(&planner, file))
        }
        ["self", from, to] => compare_self(number(from)?, number(to)?),
        ["self", "all"] => each_small(|file| agree(file, Foreseen::Accepted)),
        _ => Err(USAGE.to_string()),
    }
}

fn number(word: &str) -> Result<u64, String> {
    word.parse().map_err(|_| format!("{word} is no number"))
}

fn read_file(path: &str) -> Result<Vec<u8>, String> {
    std::fs::read(path).map_err(|error| format!("{path}: {error}"))
}

fn write_file(path: &str, bytes: &[u8]) -> Result<(), String> {
    std::fs::write(path, bytes).map_err(|error| format!("{path}: {error}"))
}

fn check_text(file: &[u8], text: &[u8]) -> Result<bool, String> {
    let result = check::check(planner::seen_by_program(file), text);
    match &result {
        Ok(()) => println!("OK"),
        Err(difference) => println!("{difference}"),
    }
    Ok(result.is_ok())
}

fn print_tallies(file: &[u8]) -> Result<bool, String> {
    match plant::read(planner::seen_by_program(file)) {
        Err(decline) => print!("{}", listing::declined(decline)),
        Ok(file) => {
            let outcome = procedure::plan(&file.plant, file.aim);
            for (stage, tally) in outcome.tallies.iter().enumerate() {
                let stage = stage + 1;
                println!(
                    "stage {stage}: {} relabels, {} discharges",
                    tally.relabels, tally.discharges
                );
            }
        }
    }
    Ok(true)
}

/// Counts files and differences, shows and keeps the first of them.
struct Summary {
    files: u64,
    differences: u64,
}

impl Summary {
    fn new() -> Summary {
        Summary { files: 0, differences: 0 }
    }

    fn add(&mut self, name: &str, file: &[u8], result: Result<(), String>) -> Result<(), String> {
        self.files += 1;
        if let Err(difference) = result {
            self.differences += 1;
            if self.differences <= MOST_SHOWN {
                println!("{name}: {difference}");
            }
            std::fs::create_dir_all(KEPT).map_err(|error| format!("{KEPT}: {error}"))?;
            write_file(&format!("{KEPT}/{name}.plant"), file)?;
        }
        Ok(())
    }

    fn finish(&self) -> bool {
        println!("{} files, {} differences", self.files, self.differences);
        self.differences == 0
    }
}

fn compare_seeds(planner: &Planner, from: u64, to: u64) -> Result<bool, String> {
    let mut summary = Summary::new();
    for seed in from..=to {
        let (file, _) = generate::file(seed);
        summary.add(&format!("seed-{seed}"), &file, compare(planner, &file))?;
    }
    Ok(summary.finish())
}

/// Does one comparison with every small plant file.
fn each_small<F>(comparison: F) -> Result<bool, String>
where
    F: Fn(&[u8]) -> Result<(), String>,
{
    let mut summary = Summary::new();
    let mut kept = Ok(());
    small::each_file(|file| {
        if kept.is_ok() {
            let name = format!("small-{}", summary.files);
            kept = summary.add(&name, &file, comparison(&file));
        }
    });
    kept.map(|()| summary.finish())
}

/// One file: the planner's text against the prediction and the definitions.
fn compare(planner: &Planner, file: &[u8]) -> Result<(), String> {
    let seen = planner.seen(file);
    let text = planner.text(file)?;
    check::check(seen, &text)?;
    let expected = listing::expect(seen);
    if text == expected.as_bytes() {
        return Ok(());
    }
    let shown = String::from_utf8_lossy(&text);
    let row = shown.lines().zip(expected.lines()).position(|(a, b)| a != b).unwrap_or(0);
    let shown_row = shown.lines().nth(row).unwrap_or("");
    let expected_row = expected.lines().nth(row).unwrap_or("");
    Err(format!("row {}: shows \"{shown_row}\", predicted \"{expected_row}\"", row + 1))
}

fn compare_self(from: u64, to: u64) -> Result<bool, String> {
    let mut summary = Summary::new();
    for seed in from..=to {
        let (file, foreseen) = generate::file(seed);
        summary.add(&format!("self-{seed}"), &file, agree(&file, foreseen))?;
    }
    Ok(summary.finish())
}

/// Whether all ways of answering one file agree.
fn agree(bytes: &[u8], foreseen: Foreseen) -> Result<(), String> {
    let file = match (plant::read(bytes), foreseen) {
        (Ok(_), Foreseen::Declined(want)) => return Err(format!("accepted, wanted {want:?}")),
        (Err(got), Foreseen::Declined(want)) if got != want => {
            return Err(format!("declined by {got:?}, wanted {want:?}"));
        }
        (Err(got), Foreseen::Accepted) => return Err(format!("declined by {got:?}")),
        (Err(_), _) => return Ok(()),
        (Ok(file), _) => file,
    };
    check::check(bytes, listing::expect(bytes).as_bytes())?;
    agree_on(&file.plant, file.aim)?;
    for (place, trial) in file.trials.iter().enumerate() {
        agree_on(&file.plant.with_trial(trial), file.aim)
            .map_err(|difference| format!("trial {place}: {difference}"))?;
    }
    Ok(())
}

fn agree_on(plant: &Plant, aim: Aim) -> Result<(), String> {
    let solved = solver::solve(plant, aim);
    let outcome = procedure::plan(plant, aim);
    same("procedure", &outcome.verdict, &solved)?;
    if solved.total().is_some() {
        solver::check_flow(plant, &outcome.flow)?;
    }
    if plant.junctions <= enumerate::MOST_LISTED_JUNCTIONS {
        same("list of all sets", &enumerate::by_sets(plant, aim), &solved)?;
    }
    match enumerate::by_flows(plant, aim) {
        Some(total) if total != solved.total() => {
            Err(format!("list of all flows gives {total:?}, solver {solved:?}"))
        }
        _ => Ok(()),
    }
}

fn same(name: &str, verdict: &Verdict, solved: &Verdict) -> Result<(), String> {
    if verdict == solved {
        Ok(())
    } else {
        Err(format!("{name} gives {verdict:?}, solver {solved:?}"))
    }
}
