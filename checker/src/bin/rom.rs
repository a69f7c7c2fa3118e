// Prints how many read-only bytes the house unit's entries take in each of the two programs, and
// fails where they are more than twenty: sixteen for the entries, four to turn them back.

use checker::rom::{measure, Place, Question};
use std::path::Path;
use std::process::ExitCode;

const MOST: usize = 20;

fn main() -> ExitCode {
    let programs = [("bench", Question::Sheet), ("cases", Question::Lookup)];
    let mut small = true;
    for (name, question) in programs {
        match measure(&Path::new("target/bin").join(name), question) {
            Ok(found) => {
                println!("{name}: {}", told(&found));
                small &= (1..=MOST).contains(&found.len());
            }
            Err(error) => {
                println!("{name}: {error}");
                small = false;
            }
        }
    }
    if small {
        return ExitCode::SUCCESS;
    }
    println!("the house unit's entries have to take 1 to {MOST} read-only bytes in each program");
    ExitCode::FAILURE
}

fn told(found: &[Place]) -> String {
    let of_instructions = || found.iter().filter_map(|place| place.instruction.as_ref());
    let constants = of_instructions().count();
    let mut told = format!(
        "{} read-only bytes for the house unit's entries, {} of data and {constants} in instructions",
        found.len(),
        found.len() - constants
    );
    let mut instructions: Vec<&String> = of_instructions().collect();
    instructions.dedup();
    for instruction in instructions {
        told += &format!("; {instruction}");
    }
    told
}

// Here and not in the library, whose other tests start processes: one of them could have the copy
// open for writing while it is run.
#[cfg(test)]
mod tests {
    use super::*;
    use checker::known::house_sheet;
    use checker::rom::deciding;

    /// A script that writes its own last 48 bytes, and these as places.
    fn script(last: &[u8]) -> (Vec<u8>, Vec<Place>) {
        let bytes = [b"#!/bin/sh\ntail -c 48 \"$0\"\nexit\n", last].concat();
        let place = |offset| Place {
            offset,
            length: 16,
            instruction: None,
        };
        let from = bytes.len() - last.len();
        (bytes, (0..3).map(|i| place(from + 16 * i)).collect())
    }

    #[test]
    fn a_sheet_that_is_kept_whole_takes_32_bytes_and_another_is_not_measured() {
        let (bytes, places) = script(&house_sheet());
        let found = deciding(bytes, &places, Question::Sheet).unwrap();
        let first = places[0].offset + 8;
        let offsets: Vec<usize> = found.iter().map(|place| place.offset).collect();
        assert_eq!(offsets, (first..first + 32).collect::<Vec<_>>());

        let mut sheet = house_sheet();
        sheet[20] += 1;
        let (bytes, places) = script(&sheet);
        assert!(deciding(bytes, &places, Question::Sheet).is_err());
    }
}
