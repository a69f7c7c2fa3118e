// What the command line asks for.

use crate::marks::{Layout, LAYOUTS};
use std::path::PathBuf;

const USAGE: &str = "usage: benchmark [--seeds S,...] [--directory D] [--only-searching]
       benchmark [--seeds S,...] --against ARCHIVE [--layout-before LAYOUT]
  --seeds S,...           starts of all random choices (default 1; --seed S for one): the tables for
                          each of them, with --against the medians over all of them
  --directory D           where the program cases is (default target/bin)
  --only-searching        the search for a word alone
  --against ARCHIVE       this older librig.a, with which checker/benchmark has built the benchmark,
                          beside the present one, and nothing else
  --layout-before LAYOUT  how the older archive writes its marks (default: as the present one): ";

pub struct Options {
    pub seeds: Vec<u64>,
    pub directory: PathBuf,
    pub only_searching: bool,
    pub against: Option<String>,
    pub layout_before: Layout,
}

/// What the benchmark understands.
pub fn usage() -> String {
    USAGE.to_owned() + &LAYOUTS.map(|layout| layout.name).join(", ")
}

/// What the arguments ask for; none if they are not understood.
pub fn options() -> Option<Options> {
    let mut options = Options {
        seeds: vec![1],
        directory: PathBuf::from("target/bin"),
        only_searching: false,
        against: None,
        layout_before: LAYOUTS[0],
    };
    let mut arguments = std::env::args().skip(1);
    while let Some(name) = arguments.next() {
        match name.as_str() {
            "--seed" | "--seeds" => options.seeds = numbers(&arguments.next()?)?,
            "--directory" => options.directory = PathBuf::from(arguments.next()?),
            "--only-searching" => options.only_searching = true,
            "--against" => options.against = Some(arguments.next()?),
            "--layout-before" => options.layout_before = layout(&arguments.next()?)?,
            _ => return None,
        }
    }
    Some(options)
}

/// Numbers with commas between them.
fn numbers(text: &str) -> Option<Vec<u64>> {
    text.split(',').map(|number| number.parse().ok()).collect()
}

fn layout(name: &str) -> Option<Layout> {
    LAYOUTS.into_iter().find(|layout| layout.name == name)
}
