// Reading one record of a sheet: checks 1 and 2, then its payload.

use crate::refusal::Refusal;
use crate::sheet::{read, Part};

/// The record of this kind. A kind that no record can have is missing in every
/// sheet.
pub fn part(sheet: &[u8], kind: u16) -> Result<Part<'_>, Refusal> {
    let parts = read(sheet, 0)?;
    let index = usize::from(kind).checked_sub(1);
    let part = index.and_then(|index| parts.get(index).copied().flatten());
    part.ok_or(Refusal::new(2, sheet.len()))
}

/// Its payload.
pub fn payload(sheet: &[u8], kind: u16) -> Result<&[u8], Refusal> {
    part(sheet, kind).map(|part| part.payload)
}

#[cfg(test)]
mod tests {
    use super::*;

    /// The twin with its built sequence and all answers, byte by byte.
    const TWIN: [u8; 59] = [
        10, 0, 0, 0, 1, 0, 2, 2, 1, 0, 0, 5, 0, 1, 1, 5, // machine
        1, 0, 0, 0, 2, 0, 0, // word
        12, 0, 0, 0, 3, 0, 0, 0, 0, 0, 0, 0, 1, 0, 0, 0, 1, 0, // sequence
        12, 0, 0, 0, 4, 0, 0, 1, 0, 1, 0, 1, 5, 0, 1, 0, 5, 1, // answers
    ];

    fn refused(number: u8, place: usize) -> Result<&'static [u8], Refusal> {
        Err(Refusal::new(number, place))
    }

    #[test]
    fn each_record_of_the_twin() {
        assert_eq!(payload(&TWIN, 1), Ok(&TWIN[6..16]));
        assert_eq!(payload(&TWIN, 2), Ok(&TWIN[22..23]));
        assert_eq!(payload(&TWIN, 3), Ok(&TWIN[29..41]));
        assert_eq!(payload(&TWIN, 4), Ok(&TWIN[47..59]));
    }

    #[test]
    fn missing_kinds() {
        for kind in [0, 5, 7, 256, 257, 65535] {
            assert_eq!(payload(&TWIN, kind), refused(2, 59));
        }
        assert_eq!(payload(&TWIN[..41], 4), refused(2, 41));
        assert_eq!(payload(&TWIN[..41], 3), Ok(&TWIN[29..41]));
        assert_eq!(payload(&TWIN[41..], 4), Ok(&TWIN[47..59]));
        assert_eq!(payload(&[], 1), refused(2, 0));
    }

    #[test]
    fn causes_before_a_missing_kind() {
        for kind in [0, 1, 4, 7] {
            assert_eq!(payload(&TWIN[..58], kind), refused(1, 41));
            assert_eq!(payload(&TWIN[..45], kind), refused(1, 41));
            assert_eq!(payload(&[0; 40_913], kind), refused(1, 40_912));
            let mut repeated = TWIN;
            repeated[45] = 3;
            assert_eq!(payload(&repeated, kind), refused(2, 41));
            repeated[20] = 5;
            assert_eq!(payload(&repeated, kind), refused(2, 16));
        }
    }

    #[test]
    fn payloads_are_not_looked_at() {
        let sheet = [2, 0, 0, 0, 1, 0, 99, 0, 0, 0, 0, 0, 2, 0];
        assert_eq!(payload(&sheet, 1), Ok(&[99, 0][..]));
        assert_eq!(payload(&sheet, 2), Ok(&[][..]));
    }
}
