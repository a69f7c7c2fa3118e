// What a run with cases as text has to meet, in groups.

use super::searches::SIZES;
use crate::checking::searches;
use crate::checking::tally::Group;
use crate::checking::visitors::{STATES, UNITS};
use crate::checking::writings::{DAMAGED, WANTED};

const GROUPS: [Group; 32] = [
    (
        "build",
        "built, refused 1, refused 2, refused 3, refused 4, refused 5, refused 6, refused 8, refused 9, \
         refused 12",
    ),
    (
        "rooms for building",
        "every one from 0, around the needed, around the longest, every one for a refused sheet",
    ),
    (
        "certify",
        "certified, open, refused 1, refused 2, refused 3, refused 4, refused 5, refused 6, refused 7, \
         refused 9, refused 12",
    ),
    (
        "judge",
        "pass, wrong, unheard, unfinished, refused 1, refused 2, refused 3, refused 4, refused 5, \
         refused 6, refused 7, refused 9, refused 10, refused 11, refused 12",
    ),
    ("refusal", "none, refused 1, refused 2"),
    ("refusal, kinds", KINDS),
    ("part", "bytes, empty record, refused"),
    ("part, kinds", KINDS),
    (
        "transfer",
        "commands, empty, none, refused 1, refused 2, refused 3, refused 4, refused 12",
    ),
    (
        "transfer, sheets",
        "record 1 alone, nonsense behind it, any sheet, next state outside, answer silent, damaged",
    ),
    ("transfer, states", "both, one outside, both outside"),
    (
        "desk",
        "orders, refused 1, refused 2, refused 3, refused 4, refused 5, refused 6, refused 8, refused 12",
    ),
    (
        "desk, ends",
        "home with the word, home later, stranger in the word, stranger later, unfinished",
    ),
    (
        "desk, ends repeated",
        "home with the word, home later, stranger in the word, stranger later",
    ),
    (
        "desk, answers",
        "none, too few, as many as needed, more",
    ),
    (
        "desk, first silence",
        "in the word, behind the word, behind the end",
    ),
    ("desk, units", UNITS),
    ("desk, any bytes", "asked"),
    ("desk, copies begun in state", STATES),
    (
        "word, permutations",
        "word of 1, word of 2, word of 3, word of 4, word of 5, word of 6, none",
    ),
    (
        "write",
        "written, refused 3, refused 4, refused 5, refused 6, refused 7, refused 9, refused 10, refused 12",
    ),
    ("write, written with", WANTED),
    ("write, damages", DAMAGED),
    (
        "write, two causes",
        "3 and 4, 4 and 12, 12 and 5, 5 and 6, 6 and 7, 7 and 10, 10 and 9",
    ),
    (
        "write, rooms",
        "every one from 0, none, less, one less, as needed, one more, more",
    ),
    ("write, sheets again", WANTED),
    ("write, parts read back", WANTED),
    ("house", "inside, outside"),
    ("limits", "asked"),
    (
        "unreadable",
        "line too short, digit too many, other byte, byte dropped, byte changed, byte added, line cut, \
         number above a limit, more than full, near to a case, any bytes",
    ),
    (
        "lines",
        "full case, comment, empty, answer, comment with bytes above 127, case with bytes above 127, \
         comment with carriage return, case with carriage return, case with other control bytes",
    ),
    (
        "inputs",
        "all, empty, without last newline, longest, one byte too long, longer",
    ),
];
/// What is the same in every run.
const FIXED: [Group; 3] = [
    ("chains", "house unit, ring, doubling, longest dialogue"),
    ("written by the program", "twin, house unit, ring"),
    ("word, all machines of the size", SIZES),
];

pub const KINDS: &str = "0, 1, 2, 3, 4, 5, 257, 258, 65535, other";
/// All groups, what is the same in every run among them or not.
pub fn groups(fixed: bool) -> impl Iterator<Item = Group> {
    let fixed = FIXED.into_iter().filter(move |_| fixed);
    GROUPS.into_iter().chain(searches::GROUPS).chain(fixed)
}
