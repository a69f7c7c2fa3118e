// The command line.

use super::spoil::Spoil;
use std::path::PathBuf;

pub const HELP: &str = "\
checker [--seed S] [--count C] [--units U] [--programs P] [--words W]
        [--lengths L] [--cases N] [--desks M] [--searches F] [--writings T]
        [--random-only] [--directory D] [--spoil NAME]
Holds the proved bench against a separately written model.
  --seed S       start of all random choices (default 1)
  --count C      random and damaged sheets (default 150000)
  --units U      about so many units for the third demand (default 700000)
  --programs P   one sheet in P goes to the program's services (default 10)
  --words W      random words for the program, so many runs, besides those of
                 every run (default 1000)
  --lengths L    every L-th sheet length from 0 to 40913 (default 1: all)
  --cases N      about so many random cases as text, besides the 65536 of the
                 house unit's table and the words of all small machines; 0:
                 none of them (default 400000)
  --desks M      machines for the program's desk, each with several dialogues;
                 0: none, and no files either (default 500)
  --searches F   sheets for the program's search of a word; what it finds is
                 built and certified (default 600)
  --writings T   turns of the program's writing of sheets, each with some runs;
                 0: none, and no files either (default 200)
  --random-only  without what is the same in every run: the documented cases,
                 words of every kind, chains, all small machines
  --directory D  where the programs, bench and cases, are (default target/bin)
  --spoil NAME   spoils what the bench answered, so that the run must fail;
                 --spoil list prints the names, and fixed behind those that
                 --random-only does not show
Same seed and arguments, same run. Status 0: no difference; 1: a difference,
or something that a run has to meet never occurred; 2: wrong arguments.

checker [--directory D] [--spoil NAME] --files FILE..
Holds files of cases with their answers against the model, what cases writes
for them against the files, and the C functions against the model for every
case of certifying and judging. Status 0: no difference; 1: a difference.

checker --answer FILE
Writes a file of cases with the model's answers; - is standard input. Status 0;
1 where the file cannot be read or is too long.
";

#[derive(Clone, Debug)]
pub struct Options {
    pub seed: u64,
    pub count: usize,
    pub units: usize,
    pub programs: usize,
    pub words: usize,
    pub lengths: usize,
    pub cases: usize,
    pub desks: usize,
    pub searches: usize,
    pub writings: usize,
    pub random_only: bool,
    pub directory: PathBuf,
    pub spoil: Option<Spoil>,
}

impl Default for Options {
    fn default() -> Options {
        Options {
            seed: 1,
            count: 150_000,
            units: 700_000,
            programs: 10,
            words: 1000,
            lengths: 1,
            cases: 400_000,
            desks: 500,
            searches: 600,
            writings: 200,
            random_only: false,
            directory: PathBuf::from("target/bin"),
            spoil: None,
        }
    }
}

/// What the command line asks for.
#[derive(Debug)]
pub enum Order {
    Run(Options),
    Files(Options, Vec<PathBuf>),
    Answer(PathBuf),
    Help,
    ListSpoils,
}

pub fn parse(mut arguments: impl Iterator<Item = String>) -> Result<Order, String> {
    let mut options = Options::default();
    while let Some(name) = arguments.next() {
        match name.as_str() {
            "--help" => return Ok(Order::Help),
            "--random-only" => options.random_only = true,
            "--files" => {
                let files: Vec<PathBuf> = arguments.map(PathBuf::from).collect();
                let some = (!files.is_empty()).then_some(files);
                let files = some.ok_or(String::from("--files needs a file"))?;
                return Ok(Order::Files(options, files));
            }
            _ => {
                let value = arguments.next().ok_or(format!("{name} needs a value"))?;
                match (name.as_str(), value.as_str()) {
                    ("--answer", _) => return Ok(Order::Answer(PathBuf::from(value))),
                    ("--spoil", "list") => return Ok(Order::ListSpoils),
                    _ => set(&mut options, &name, value)?,
                }
            }
        }
    }
    Ok(Order::Run(options))
}

/// An option with a value.
fn set(options: &mut Options, name: &str, value: String) -> Result<(), String> {
    match name {
        "--seed" => options.seed = number(name, &value, 0)?,
        "--count" => options.count = number(name, &value, 0)? as usize,
        "--units" => options.units = number(name, &value, 0)? as usize,
        "--programs" => options.programs = number(name, &value, 1)? as usize,
        "--words" => options.words = number(name, &value, 0)? as usize,
        "--lengths" => options.lengths = number(name, &value, 1)? as usize,
        "--cases" => options.cases = number(name, &value, 0)? as usize,
        "--desks" => options.desks = number(name, &value, 0)? as usize,
        "--searches" => options.searches = number(name, &value, 0)? as usize,
        "--writings" => options.writings = number(name, &value, 0)? as usize,
        "--directory" => options.directory = PathBuf::from(value),
        "--spoil" => {
            let spoil = Spoil::named(&value).ok_or(format!("no spoil is called {value}"))?;
            options.spoil = Some(spoil);
        }
        _ => return Err(format!("unknown argument {name}")),
    }
    Ok(())
}

fn number(name: &str, value: &str, least: u64) -> Result<u64, String> {
    match value.parse() {
        Ok(number) if number >= least => Ok(number),
        _ => Err(format!(
            "{name} needs a number from {least} up, not {value}"
        )),
    }
}
