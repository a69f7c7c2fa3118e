// Reading: what is handed back and what is refused, for every kind; the sheet is
// written again where it can be.

use super::driver::Driver;
use super::sheets;
use super::writings::again;
use crate::checking::difference::Difference;
use crate::notation::Question;
use crate::random::Random;
use crate::sheet::{record, HEADER, LONGEST_SHEET};

/// Kinds that may be taken for another where bits are lost, among others.
const KINDS: [u16; 9] = [0, 1, 2, 3, 4, 5, 257, 258, 65535];
/// Longer sheets are read with a few kinds only.
const SHORT: usize = 300;

pub fn parts(driver: &mut Driver, random: &mut Random) -> Result<(), Difference> {
    let sheet = match random.below(30) {
        0 => whole(random),
        1..=10 => payloads(random),
        _ => sheets::any(random),
    };
    let other = random.bits() as u16;
    let kinds = match sheet.len() {
        0..=SHORT => [&KINDS[..], &[other]].concat(),
        _ => vec![*random.pick(&KINDS), random.range(1, 4) as u16],
    };
    for kind in kinds {
        let sheet = sheet.clone();
        driver.ask(
            random,
            Question::Part {
                kind,
                sheet: sheet.clone(),
            },
        )?;
        driver.ask(random, Question::Refusal { kind, sheet })?;
    }
    again(driver, random, &sheet)
}

/// Some kinds in rising order with any payloads, empty ones often.
fn payloads(random: &mut Random) -> Vec<u8> {
    let mut sheet = Vec::new();
    for kind in 1..=4 {
        match random.below(4) {
            0 => {}
            1 => sheet.extend(record(kind, &[])),
            _ => sheet.extend(sheets::nonsense(random, kind)),
        }
    }
    sheet
}

/// One record in a sheet as long as a sheet may be, or a byte more.
fn whole(random: &mut Random) -> Vec<u8> {
    let mut payload = vec![0; LONGEST_SHEET - HEADER + random.below(2)];
    random.fill(&mut payload);
    record(random.range(1, 4) as u16, &payload)
}
