// Sheets for reading, each with every kind: payloads that only reading hands
// back, empty ones and as long as a sheet allows.

use super::compare::Comparer;
use super::difference::{Case, Difference};
use crate::machine::LONGEST_SEQUENCE;
use crate::random::Random;
use crate::sheet::{record, HEADER, LONGEST_SHEET};
use std::path::Path;

/// A record of random bytes.
fn bytes(random: &mut Random, kind: u16, length: usize) -> Vec<u8> {
    let mut payload = vec![0; length];
    random.fill(&mut payload);
    record(kind, &payload)
}

/// One sheet of random payloads with these kinds and lengths.
fn sheet(random: &mut Random, records: &[(u16, usize)]) -> Vec<u8> {
    let written = records
        .iter()
        .map(|&(kind, length)| bytes(random, kind, length));
    written.collect::<Vec<_>>().concat()
}

fn sheets(random: &mut Random) -> Vec<Vec<u8>> {
    let longest = LONGEST_SEQUENCE;
    let mut sheets = vec![
        sheet(random, &[(1, 162), (2, 16), (3, longest), (4, longest)]),
        sheet(random, &[(1, 0), (2, 0), (3, 0), (4, 0)]),
        sheet(random, &[(2, 5), (4, 300)]),
        sheet(random, &[(3, 1), (1, 2)]),
        sheet(random, &[(1, LONGEST_SHEET - HEADER + 1)]),
    ];
    for kind in 1..=4 {
        sheets.push(sheet(random, &[(kind, LONGEST_SHEET - HEADER)]));
    }
    sheets
}

impl Comparer {
    pub fn readings(&mut self, seed: u64, directory: &Path) -> Result<(), Difference> {
        let sheets = sheets(&mut Random::at(seed, 6, 0));
        for (index, sheet) in sheets.into_iter().enumerate() {
            let kind = String::from("reading");
            let case = Case {
                seed,
                index,
                kind,
                sheet,
            };
            for wanted in 0..=5 {
                let words = [b"read".to_vec(), wanted.to_string().into_bytes()];
                self.program(&case, directory, &words)?;
            }
        }
        Ok(())
    }
}
