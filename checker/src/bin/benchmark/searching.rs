// The search for a word: the program `cases`, as a process of its own on several copies of a case,
// beside the checker's two searches on as many copies of the sheet.

use crate::children::run;
use crate::clock::now;
use crate::measure::median;
use crate::searched::{machines, Searched};
use crate::table::{figure, head, row, Bars};
use checker::checks::load;
use checker::machine::Machine;
use checker::notation::written;
use checker::random::Random;
use checker::searching::{by_halves, depth_first};
use checker::sheet::{machine_payload, record};
use std::hint::black_box;
use std::path::Path;

/// How many times the time of the checker's own depth-first search, the program's method, may be
/// taken. The search by halves is another method, and stands beside it without a bar.
const BAR: f64 = 2.0;
/// Copies of a case in a run: more where the program takes less than so many microseconds for one,
/// so that the start of the process counts little.
const FEW: usize = 20;
const MANY: usize = 100;
const QUICK: f64 = 1_000.0;
/// Turns of all three sides.
const TURNS: usize = 7;
/// The program's name in its directory.
const NAME: &str = "cases";

/// Microseconds a search.
#[derive(Default)]
struct Samples {
    halves: Vec<f64>,
    depth: Vec<f64>,
    program: Vec<f64>,
}

/// All machines, each with the times and what they are held against.
pub fn searching(directory: &Path, random: &mut Random, bars: &mut Bars) -> Result<(), String> {
    let columns = [
        "machine of 10 states and 8 commands",
        "by halves µs",
        "depth first µs",
        "program µs",
        "program to depth first",
        "bar",
        "met",
        "program to by halves",
    ];
    head("Searching for a word", &columns);
    for searched in machines(random) {
        let samples = measured(&directory.join(NAME), &searched)?;
        let (halves, depth) = (median(samples.halves), median(samples.depth));
        let program = median(samples.program);
        let name = format!("search, {}", searched.name);
        row(&[
            searched.name.into(),
            figure(halves),
            figure(depth),
            figure(program),
            figure(program / depth),
            format!("{BAR}"),
            bars.hold(&name, program / depth, BAR).into(),
            figure(program / halves),
        ]);
    }
    Ok(())
}

/// The three sides by turns, once their answers are found equal.
fn measured(program: &Path, searched: &Searched) -> Result<Samples, String> {
    let payload = machine_payload(&searched.machine);
    let sheet = record(1, &payload);
    let case = format!("word {{1 {}}}\n", written(&payload));
    let answer = answer(searched)?;
    let program_time = |copies| ran(program, searched.name, &case, &answer, copies);
    let copies = match program_time(FEW)? < QUICK {
        true => MANY,
        false => FEW,
    };
    let mut samples = Samples::default();
    for _ in 0..TURNS {
        samples.halves.push(sample(&sheet, by_halves, copies));
        samples.depth.push(sample(&sheet, depth_first, copies));
        samples.program.push(program_time(copies)?);
    }
    Ok(samples)
}

/// The answer that both searches of the checker give.
fn answer(searched: &Searched) -> Result<String, String> {
    let word = by_halves(&searched.machine);
    if word != depth_first(&searched.machine) {
        let name = searched.name;
        return Err(format!(
            "the answers differ: {name}: {word:?} by halves alone"
        ));
    }
    Ok(match word {
        Some(word) => format!("word {}", written(&word)),
        None => String::from("none"),
    })
}

/// The time of a search in one run of the program, which has to write this answer to each copy.
fn ran(program: &Path, name: &str, case: &str, answer: &str, copies: usize) -> Result<f64, String> {
    let wanted = format!("{case}> {answer}\n").repeat(copies) + &format!("> {copies} cases\n");
    let (output, time) = run(program, case.repeat(copies).as_bytes())
        .map_err(|error| format!("{}: {error}", program.display()))?;
    if output == wanted.as_bytes() {
        return Ok(time / copies as f64);
    }
    let output = String::from_utf8_lossy(&output);
    let mut came: Vec<&str> = output
        .lines()
        .filter(|line| line.starts_with('>'))
        .collect();
    came.dedup();
    Err(format!(
        "the answers differ: {name}: wanted {answer}, came {came:?}"
    ))
}

/// The time of a search in the machine of a sheet, reading it included.
fn sample(sheet: &[u8], search: fn(&Machine) -> Option<Vec<u8>>, copies: usize) -> f64 {
    let start = now();
    for _ in 0..copies {
        let machine = load(black_box(sheet)).expect("the sheet holds a machine");
        black_box(search(&machine));
    }
    (now() - start) / copies as f64
}
