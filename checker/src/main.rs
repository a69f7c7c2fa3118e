// The checker's command line; see `--help`.

use checker::checking::{files, parse, run, Difference, Options, Order, Spoil, HELP};
use checker::notation::{Answerer, MOST_INPUT};
use std::io::{self, Read, Write};
use std::path::{Path, PathBuf};
use std::process::ExitCode;
use std::{env, fs};

fn main() -> ExitCode {
    match parse(env::args().skip(1)) {
        Ok(Order::Run(options)) => report(check(&options)),
        Ok(Order::Files(options, paths)) => report(check_files(&options, &paths)),
        Ok(Order::Answer(path)) => answer(&path),
        Ok(Order::Help) => {
            print!("{HELP}");
            ExitCode::SUCCESS
        }
        Ok(Order::ListSpoils) => {
            Spoil::list().for_each(|line| println!("{line}"));
            ExitCode::SUCCESS
        }
        Err(text) => {
            eprintln!("{text}\n{HELP}");
            ExitCode::from(2)
        }
    }
}

/// Status 1 on a difference; a panic ends with another status, never with 0.
fn report(outcome: Result<String, Difference>) -> ExitCode {
    match outcome {
        Ok(text) => {
            println!("{text}");
            ExitCode::SUCCESS
        }
        Err(difference) => {
            println!("{}", difference.0);
            println!("checker: stopped at a difference");
            ExitCode::from(1)
        }
    }
}

fn check(options: &Options) -> Result<String, Difference> {
    let counts = run(options)?;
    Ok(format!(
        "{}\nchecker: {} sheets, {} units, {} program runs, {} cases, 0 differences",
        counts.summary(),
        counts.sheets,
        counts.units,
        counts.program_runs,
        counts.reached.cases
    ))
}

fn check_files(options: &Options, paths: &[PathBuf]) -> Result<String, Difference> {
    let checked = files(options, paths)?;
    Ok(format!(
        "checker: {} files, {} cases, {} numbers of the C functions, 0 differences",
        checked.files, checked.cases, checked.numbers
    ))
}

/// Writes the file with the model's answers to standard output.
fn answer(path: &Path) -> ExitCode {
    match answered(path).and_then(|text| io::stdout().write_all(&text)) {
        Ok(()) => ExitCode::SUCCESS,
        Err(error) => {
            eprintln!("{}: {error}", path.display());
            ExitCode::from(1)
        }
    }
}

fn answered(path: &Path) -> io::Result<Vec<u8>> {
    let mut input = Vec::new();
    match path.to_str() {
        Some("-") => drop(io::stdin().read_to_end(&mut input)?),
        _ => input = fs::read(path)?,
    }
    let text = Answerer::new().text(&input, |_, _, _| {});
    text.ok_or_else(|| io::Error::other(format!("more than {MOST_INPUT} bytes")))
}
