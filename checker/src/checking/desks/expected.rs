// What a run with dialogues of `bench desk` has to meet, in groups.

use crate::checking::tally::Group;
use crate::checking::visitors::{STATES, UNITS};

/// How a talk line by line, or one on a whole input, may end.
const ENDS: &str = "home with the word, home later, stranger in the word, stranger later, \
     input ended, line too long, too many lines";
const REFUSALS: &str =
    "refused 1, refused 2, refused 3, refused 4, refused 5, refused 6, refused 8, refused 12";

pub const GROUPS: [Group; 10] = [
    ("talks", ENDS),
    ("talks, units", UNITS),
    ("talks, copies begun in state", STATES),
    ("talks, lines that are no answer", BAD),
    ("inputs", ENDS),
    ("inputs, lines that are no answer", BAD),
    (
        "inputs, made with",
        "79 bytes in a line, 80 bytes in a line, 81 bytes in a line, longer lines, no last newline, \
         a cut, more behind the end",
    ),
    ("inputs, while it runs", "open, ended"),
    ("sheets", REFUSALS),
    (
        "files",
        "missing, directory, below a file, name too long, any bytes in a missing name, symbolic links in a \
         ring, any bytes in a name, any text in a name, name of 4095 bytes, symbolic link, empty, longest, \
         one byte too long, endless, house unit in pieces, longest in pieces, endless in pieces",
    ),
];
/// How many lines of a dialogue are told to be no answer.
const BAD: &str = "none, one, several, 98, 99, 100";

/// The name of such a number.
pub fn several(lines: usize) -> String {
    match lines {
        0 => String::from("none"),
        1 => String::from("one"),
        2..=97 => String::from("several"),
        _ => lines.to_string(),
    }
}

#[cfg(test)]
mod tests {
    use super::*;

    #[test]
    fn numbers_of_lines() {
        let named = [0, 1, 2, 97, 98, 99, 100].map(several);
        assert_eq!(
            named,
            ["none", "one", "several", "several", "98", "99", "100"]
        );
    }
}
