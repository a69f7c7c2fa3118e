// What a run has to meet of sheets that are written, in groups: those of `bench
// write` and `bench answers`, and what the cases have in common with them.

use super::files::FILES;
use super::payloads::{DAMAGED, PAIRS};
use crate::checking::tally::Group;

pub const GROUPS: [Group; 9] = [
    (
        "write",
        "written, refused 3, refused 4, refused 5, refused 6, refused 7, refused 10, refused 12, file not read",
    ),
    ("write, written with", WANTED),
    ("write, damages", DAMAGED),
    ("write, two causes", PAIRS),
    (
        "answers",
        "written, refused 1, refused 2, refused 3, refused 4, refused 5, refused 6, refused 7, refused 10, \
         refused 12, file not read",
    ),
    (
        "answers, before them",
        "no record 4, an empty one, fewer, as many as commands, more than commands",
    ),
    (
        "answers, judged with them",
        "pass, wrong, unheard, unfinished, refused 11",
    ),
    ("read and written again", WANTED),
    ("write, files", FILES),
];

/// What is wanted besides the machine.
pub const WANTED: &str = "a word, a sequence too, answers too";

/// The name of so many payloads.
pub fn wanted(payloads: usize) -> &'static str {
    let names: Vec<&str> = WANTED.split(", ").collect();
    names[payloads - 2]
}
