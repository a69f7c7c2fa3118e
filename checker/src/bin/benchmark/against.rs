// An older archive of the proved functions beside the present one: both in this process by turns, on
// the same sheets. What they give has to be the same; the tables tell their times and their stack.

use crate::archives::{older, present, Archive};
use crate::marks::Layout;
use crate::measure::{median, Times};
use crate::pairs::Pair;
use crate::stack;
use crate::table::{figure, head, row, Bars};
use crate::workloads::{self, Workload};
use checker::random::Random;

const UNBUILT: &str =
    "it was built without an older archive; checker/benchmark --against builds it with one";

/// Both archives on the workloads of all seeds: their times, then their stack.
pub fn against(older_layout: Layout, seeds: &[u64]) -> Result<Bars, String> {
    let archives = [older(older_layout).ok_or(UNBUILT)?, present()];
    let of_seeds: Vec<Vec<Workload>> = seeds.iter().map(|&seed| workloads(seed)).collect();
    println!("\nMedians over the seeds {seeds:?}.");
    times(&archives, &of_seeds, seeds[0])?;
    let mut bars = Bars::default();
    let functions = [
        ("rig_certify, before", archives[0].certify),
        ("rig_certify, after", archives[1].certify),
        ("rig_judge, before", archives[0].judge),
        ("rig_judge, after", archives[1].judge),
    ];
    let sheets = stack::sheets(&of_seeds.concat(), &mut Random::new(seeds[0]));
    stack::taken(&functions, &sheets, &mut bars);
    Ok(bars)
}

/// The workloads of a seed, the short ones first.
fn workloads(seed: u64) -> Vec<Workload> {
    let mut random = Random::new(seed);
    let mut all = vec![workloads::twin_workload()];
    all.extend(workloads::house_workloads());
    all.extend(workloads::built(&mut random));
    all.extend(workloads::random_workloads(&mut random));
    all.extend(workloads::hostile(&mut random));
    all
}

/// A row for each workload, with the medians over the seeds.
fn times(archives: &[Archive; 2], of_seeds: &[Vec<Workload>], seed: u64) -> Result<(), String> {
    let mut certifying = Pair::new("certifying", archives, |archive| archive.certify, seed);
    let mut judging = Pair::new("judging", archives, |archive| archive.judge, seed);
    let columns = [
        "workload",
        "certifying before",
        "after",
        "after/before",
        "judging, all answers, before",
        "after",
        "after/before",
    ];
    head("Times", &columns);
    for index in 0..of_seeds[0].len() {
        let (mut certified, mut judged) = (Vec::new(), Vec::new());
        for workload in of_seeds.iter().map(|workloads| &workloads[index]) {
            let answers = workload.sequence.len();
            certified.push(certifying.times(workload, &workload.sheet())?);
            judged.push(judging.times(workload, &workload.answered(answers))?);
        }
        let name = of_seeds[0][index].name.clone();
        let cells = [vec![name], cells(&certified), cells(&judged)];
        row(&cells.concat());
    }
    println!("\nNumbers and marks of both archives are the same on all these sheets.");
    Ok(())
}

/// The medians of both times and of their ratio.
fn cells(times: &[Times]) -> Vec<String> {
    let median_of = |value: fn(&Times) -> f64| median(times.iter().map(value).collect());
    vec![
        time(median_of(|times| times.one)),
        time(median_of(|times| times.other)),
        format!("{:.3}", median_of(Times::ratio)),
    ]
}

/// Microseconds, short times as nanoseconds.
fn time(microseconds: f64) -> String {
    if microseconds < 10.0 {
        return format!("{} ns", figure(microseconds * 1e3));
    }
    format!("{} µs", figure(microseconds))
}
