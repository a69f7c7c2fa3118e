// The benchmark of certifying and of the search for a word: what the proved functions cost beside
// an unverified near-linear certifier, and the program `cases` beside unverified searches, the
// checker's, on the same sheets, all with parsing and all checks. Or, with --against, what they cost
// beside those of an older archive. Prints tables in Markdown; ends with status 1 only where two sides
// answer differently, the program cannot be run or the older archive is missing.

mod against;
mod archives;
mod chains;
mod children;
mod clock;
mod machines;
mod marks;
mod measure;
mod options;
mod pairs;
mod scratch;
mod searched;
mod searching;
mod sides;
mod stack;
mod table;
mod workloads;

use against::against;
use checker::machine::LONGEST_SEQUENCE;
use checker::random::Random;
use checker::rig::{rig_certify, rig_judge};
use measure::{medians, Times};
use options::{options, usage, Options};
use searching::searching;
use sides::{proved, Proved, Sides};
use std::process::ExitCode;
use table::{figure, head, row, Bars};
use workloads::Workload;

/// The lengths at which growth is looked at.
const LENGTHS: [usize; 5] = [1_000, 2_000, 5_000, 10_000, LONGEST_SEQUENCE];

fn main() -> ExitCode {
    let Some(options) = options() else {
        eprintln!("{}", usage());
        return ExitCode::from(2);
    };
    match benchmark(&options) {
        Ok(bars) => {
            println!("\n{}", bars.verdict());
            ExitCode::SUCCESS
        }
        Err(difference) => {
            println!("\nbenchmark: {difference}");
            ExitCode::FAILURE
        }
    }
}

fn benchmark(options: &Options) -> Result<Bars, String> {
    if let Some(archive) = &options.against {
        println!("# Proved functions: before, {archive}, and after, the present archive");
        return against(options.layout_before, &options.seeds);
    }
    let mut bars = Bars::default();
    for &seed in &options.seeds {
        if !options.only_searching {
            certifying_and_judging(seed, &mut bars)?;
        }
        println!("\n# The search for a word: program and unverified baselines, seed {seed}");
        searching(&options.directory, &mut Random::new(seed), &mut bars)?;
    }
    Ok(bars)
}

fn certifying_and_judging(seed: u64, bars: &mut Bars) -> Result<(), String> {
    let mut random = Random::new(seed);
    let mut sides = Sides::new(seed);
    let built = workloads::built(&mut random);
    let house = workloads::house_workloads();
    let mut all: Vec<Workload> = Vec::new();
    all.extend(built.iter().chain(&house).cloned());
    all.extend(workloads::random_workloads(&mut random));
    all.extend(workloads::hostile(&mut random));
    println!("# Certifying: proved function and unverified baseline, seed {seed}");
    ratios(&all, &mut sides, bars)?;
    growth(&[&house[0], &built[0], &built[5]], &mut sides)?;
    judging(built.iter().chain(&house), &mut sides)?;
    let functions = [
        ("rig_certify", rig_certify as Proved),
        ("rig_judge", rig_judge),
    ];
    stack::taken(&functions, &stack::sheets(&all, &mut random), bars);
    println!(
        "\nThe baseline's workspace: {} bytes.",
        workspace(&built[5])
    );
    Ok(())
}

/// Both sides on every workload.
fn ratios(workloads: &[Workload], sides: &mut Sides, bars: &mut Bars) -> Result<(), String> {
    let columns = [
        "workload",
        "N",
        "baseline µs",
        "proved µs",
        "ratio",
        "bar",
        "met",
    ];
    head("Ratio", &columns);
    for workload in workloads {
        let times = certifying(workload, sides)?;
        row(&[
            workload.name.clone(),
            workload.sequence.len().to_string(),
            figure(times.one),
            figure(times.other),
            figure(times.ratio()),
            format!("{}", workload.bar()),
            bars.hold(&workload.name, times.ratio(), workload.bar())
                .into(),
        ]);
    }
    Ok(())
}

/// The times of both sides on a workload, once their answers are found equal.
fn certifying(workload: &Workload, sides: &mut Sides) -> Result<Times, String> {
    let sheet = workload.sheet();
    sides.certify(&workload.name, &sheet)?;
    let Sides {
        baseline,
        ours,
        theirs,
        ..
    } = sides;
    let one = || {
        baseline.certify(&sheet, ours);
    };
    let other = || {
        proved(rig_certify, &sheet, theirs);
    };
    Ok(medians(one, other))
}

/// Nanoseconds a command at rising lengths.
fn growth(workloads: &[&Workload], sides: &mut Sides) -> Result<(), String> {
    let columns = [
        "repeated or cut",
        "N",
        "baseline ns a command",
        "proved ns a command",
        "ratio",
    ];
    head("Time as N grows", &columns);
    for workload in workloads {
        for length in LENGTHS {
            let part = workload.repeated(workload.name.clone(), length);
            let times = certifying(&part, sides)?;
            let each = |time: f64| figure(time * 1e3 / length as f64);
            row(&[
                part.name.clone(),
                length.to_string(),
                each(times.one),
                each(times.other),
                figure(times.ratio()),
            ]);
        }
    }
    Ok(())
}

/// Judging against certifying, both proved: with all right answers, and with none, where judging
/// does nothing more than to load the sheet a second time.
fn judging<'a>(
    workloads: impl Iterator<Item = &'a Workload>,
    sides: &mut Sides,
) -> Result<(), String> {
    let columns = [
        "sheet",
        "N",
        "answers",
        "certifying µs",
        "judging µs",
        "ratio",
    ];
    head("Judging", &columns);
    for workload in workloads {
        for answers in [workload.sequence.len(), 0] {
            let sheet = workload.answered(answers);
            sides.certify(&workload.name, &sheet)?;
            sides.judge(&workload.name, &sheet)?;
            let times = judged(&sheet, sides);
            row(&[
                workload.name.clone(),
                workload.sequence.len().to_string(),
                answers.to_string(),
                figure(times.one),
                figure(times.other),
                figure(times.ratio()),
            ]);
        }
    }
    Ok(())
}

/// The times of both proved functions on a sheet.
fn judged(sheet: &[u8], sides: &mut Sides) -> Times {
    let Sides { ours, theirs, .. } = sides;
    let one = || {
        proved(rig_certify, sheet, ours);
    };
    let other = || {
        proved(rig_judge, sheet, theirs);
    };
    medians(one, other)
}

/// Bytes that the baseline has allocated once it has certified a sheet.
fn workspace(workload: &Workload) -> usize {
    let sheet = workload.sheet();
    let mut marks = vec![0; sides::ROOM];
    let before = scratch::allocated();
    let mut baseline = checker::certifying::Certifier::new();
    baseline.certify(&sheet, &mut marks);
    scratch::allocated() - before
}
