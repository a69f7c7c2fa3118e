// The read-only bytes that the house unit's entries (§10.1) take in a program as it is built. A copy
// of the program is changed at one place after another: in its data, and in the constants of its
// instructions. A byte counts if the program, in whichever of three ways that byte is changed, still
// gives sixteen entries in the right form, and in one of them not those of the specification. So
// nothing is assumed about how the table is packed: what a compiler has unpacked or moved into
// instructions counts as well. Constants by which an entry's place is computed count, too.

mod elf;
mod operands;
mod questions;
mod trials;

pub use questions::Question;

use std::io;
use std::path::Path;
use trials::Trials;

/// Bytes of a program that are changed: data, or the constant of an instruction.
#[derive(Clone, Debug, PartialEq, Eq)]
pub struct Place {
    pub offset: usize,
    pub length: usize,
    pub instruction: Option<String>,
}

impl Place {
    fn data(offset: usize) -> Place {
        Place {
            offset,
            length: 1,
            instruction: None,
        }
    }
}

/// The places, a byte each, on which the entries depend that the program gives.
pub fn measure(program: &Path, question: Question) -> io::Result<Vec<Place>> {
    let bytes = std::fs::read(program)?;
    let sections = elf::sections(&bytes)?;
    let mut places = elf::data(&sections);
    places.extend(operands::constants(program, &sections)?);
    deciding(bytes, &places, question)
}

/// Those of some places, of a program with these bytes.
pub fn deciding(bytes: Vec<u8>, places: &[Place], question: Question) -> io::Result<Vec<Place>> {
    let trials = Trials::new(bytes, question)?;
    let mut found = Vec::new();
    for place in places {
        found.extend(trials.deciding(place)?);
    }
    Ok(widened(found))
}

/// Data between two bytes that count, less than this apart, counts with them: elements of a table may
/// be wider than what is read of them.
const APART: usize = 16;

fn widened(found: Vec<Place>) -> Vec<Place> {
    let mut all: Vec<Place> = Vec::new();
    for place in found {
        let of_data = |last: &&Place| last.instruction.is_none() && place.instruction.is_none();
        if let Some(last) = all.last().filter(of_data).map(|last| last.offset) {
            if (last..last + APART).contains(&place.offset) {
                all.extend((last + 1..place.offset).map(Place::data));
            }
        }
        all.push(place);
    }
    all
}

#[cfg(test)]
mod tests {
    use super::*;

    #[test]
    fn wide_elements() {
        let constant = Place {
            instruction: Some("and $0x3f,%dl".to_string()),
            ..Place::data(41)
        };
        let found = [4, 8, 23, 39]
            .map(Place::data)
            .into_iter()
            .chain([constant.clone()]);
        let all = (4..24).chain([39]).map(Place::data).chain([constant]);
        assert_eq!(widened(found.collect()), all.collect::<Vec<_>>());
    }
}
