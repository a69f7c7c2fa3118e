// What a run has to meet of searches for a word, in groups; those of `bench word`
// and those of the cases are counted by themselves.

use super::machines::MACHINES;
use crate::checking::tally::Group;

/// What a search may give.
const OUTCOMES: &str = "word of 1, word of 2, word of 3, word of 4, word of 5, word of 6, none, \
     refused 1, refused 2, refused 3, refused 4, refused 12";
/// What stands behind the machine.
const RECORDS: &str =
    "nothing, a word that separates, a word that does not separate, no word, any records";
/// Where no word is found.
const NONE: &str = "a longer word separates, 10 states and 8 commands";

pub const GROUPS: [Group; 5] = [
    ("word", OUTCOMES),
    ("word, machines", MACHINES),
    ("word, behind the machine", RECORDS),
    ("word, none", NONE),
    ("word, found", "built and certified, not connected"),
];
