// Writing a sheet: from payloads, and a sheet again with other answers.

use crate::checks::check_parts;
use crate::machine::{Machine, LONGEST_SEQUENCE};
use crate::refusal::Refusal;
use crate::sheet::{read, record, Part, HEADER};

/// So many bytes of a payload show that it is too long, whatever its kind.
pub const MOST_NEEDED: usize = LONGEST_SEQUENCE + 1;

/// The sheet with these payloads, from kind 1 up: two, three or four of them.
/// Checks 3, 4, 12, 5, 6, 7 and 10, as far as their payloads are there.
pub fn write<P: AsRef<[u8]>>(payloads: &[P]) -> Result<Vec<u8>, Refusal> {
    let parts = placed(payloads);
    check_parts(&parts, &mut Machine::default())?;
    if let [_, _, sequence, answers] = parts[..] {
        if answers.payload.len() > sequence.payload.len() {
            return Err(Refusal::new(10, answers.start));
        }
    }
    let records = (1..).zip(&parts);
    let records = records.map(|(kind, part)| record(kind, part.payload));
    Ok(records.collect::<Vec<_>>().concat())
}

/// The payloads with the starts of their records in the sheet that would be
/// written.
fn placed<P: AsRef<[u8]>>(payloads: &[P]) -> Vec<Part<'_>> {
    let (mut parts, mut start) = (Vec::new(), 0);
    for payload in payloads.iter().map(AsRef::as_ref) {
        parts.push(Part { start, payload });
        start += HEADER + payload.len();
    }
    parts
}

/// Writing into a lent buffer: gives the length; cause 9 where the buffer is
/// shorter than that.
pub fn write_into<P: AsRef<[u8]>>(payloads: &[P], buffer: &mut [u8]) -> Result<usize, Refusal> {
    let sheet = write(payloads)?;
    let needed = sheet.len();
    let front = buffer.get_mut(..needed).ok_or(Refusal::new(9, needed))?;
    front.copy_from_slice(&sheet);
    Ok(needed)
}

/// Records 1 to 3 of a sheet and these answers as record 4: checks 1 and 2 of
/// the sheet, then those of writing. The payload of a record 4 that it has is not
/// looked at.
pub fn with_answers(sheet: &[u8], answers: &[u8]) -> Result<Vec<u8>, Refusal> {
    let parts = read(sheet, 3)?.map(Option::unwrap_or_default);
    let [machine, word, sequence, _] = parts.map(|part| part.payload);
    write(&[machine, word, sequence, answers])
}

/// The payloads of a sheet that one can be written from: records 1 and 2, or 1
/// to 3, or all four. None where the records are others.
pub fn payloads(sheet: &[u8]) -> Option<Vec<&[u8]>> {
    let parts = read(sheet, 2).ok()?;
    let there = parts.iter().flatten();
    let payloads: Vec<&[u8]> = there.map(|part| part.payload).collect();
    parts[..payloads.len()]
        .iter()
        .all(Option::is_some)
        .then_some(payloads)
}

#[cfg(test)]
mod tests {
    use super::*;
    use crate::checks::{check, Service};
    use crate::known::{ring, twin, LONG_WORD, TWIN_ANSWERS, TWIN_BUILT};
    use crate::sheet::{machine_payload, sheet_of, LONGEST_SHEET};

    /// The twin's machine: record 1 ends at 16, with the word 0 record 2 at 23,
    /// with what is built record 3 at 41, with all answers record 4 at 59.
    const TWIN: [u8; 10] = [2, 2, 1, 0, 0, 5, 0, 1, 1, 5];

    fn told(payloads: &[&[u8]]) -> (u8, usize) {
        let refusal = write(payloads).unwrap_err();
        (refusal.number, refusal.place)
    }

    fn twin_with(place: usize, byte: u8) -> [u8; 10] {
        let mut machine = TWIN;
        machine[place] = byte;
        machine
    }

    #[test]
    fn the_twin() {
        let (built, answers) = (&TWIN_BUILT[..], &TWIN_ANSWERS[..]);
        let all = [&TWIN[..], &[0], built, answers];
        let sheet = sheet_of(&twin(), &[0], Some(built), Some(answers));
        assert_eq!(write(&all), Ok(sheet.clone()));
        assert_eq!(write(&all[..3]).as_deref(), Ok(&sheet[..41]));
        assert_eq!(write(&all[..2]).as_deref(), Ok(&sheet[..23]));
        assert_eq!(payloads(&sheet).as_deref(), Some(&all[..]));
        assert_eq!(payloads(&sheet[..41]).as_deref(), Some(&all[..3]));
        assert_eq!(payloads(&sheet[..16]), None);
        assert_eq!(payloads(&[&sheet[..23], &sheet[41..]].concat()), None);
        let empty = write(&[&TWIN[..], &[0], built, &[]]);
        assert_eq!(empty, Ok(sheet_of(&twin(), &[0], Some(built), Some(&[]))));
    }

    #[test]
    fn places_count_in_the_sheet() {
        assert_eq!(told(&[&[], &[0]]), (3, 0));
        assert_eq!(told(&[&TWIN[..9], &[0]]), (3, 0));
        assert_eq!(told(&[&twin_with(6, 2), &[0]]), (4, 12));
        assert_eq!(told(&[&twin_with(9, 255), &[0]]), (12, 15));
        assert_eq!(told(&[&TWIN, &[]]), (5, 16));
        assert_eq!(told(&[&TWIN, &[0; 17]]), (5, 16));
        assert_eq!(told(&[&TWIN, &[0, 1, 2]]), (5, 24));
        assert_eq!(told(&[&TWIN, &[1]]), (6, 1));
        assert_eq!(told(&[&TWIN, &[0], &[]]), (7, 23));
        assert_eq!(told(&[&TWIN, &[0], &[0; 20_356]]), (7, 23));
        assert_eq!(told(&[&TWIN, &[0], &[1, 2]]), (7, 30));
        assert_eq!(told(&[&TWIN, &[0], &[1, 0], &[9; 3]]), (10, 31));
    }

    #[test]
    fn earlier_causes_first() {
        let (outside, silent) = (twin_with(2, 2), twin_with(3, 255));
        assert_eq!(told(&[&[&outside[..], &[0]].concat(), &[0]]), (3, 0));
        let both = [&silent[..4], &[2], &silent[5..]].concat();
        assert_eq!(told(&[&both, &[]]), (4, 10));
        assert_eq!(told(&[&silent, &[]]), (12, 9));
        assert_eq!(told(&[&TWIN, &[1, 2]]), (5, 23));
        assert_eq!(told(&[&TWIN, &[1], &[]]), (6, 1));
        assert_eq!(told(&[&TWIN, &[0], &[], &[1]]), (7, 23));
        let many = [&TWIN[..], &[0], &[0], &[1, 1]];
        let refused = write_into(&many, &mut [0; 3]);
        assert_eq!(refused, Err(Refusal::new(10, 30)));
    }

    #[test]
    fn rooms() {
        let (two, mut buffer) = ([&TWIN[..], &[0]], [7; 25]);
        assert_eq!(
            write_into(&two, &mut buffer[..22]),
            Err(Refusal::new(9, 23))
        );
        assert_eq!(buffer, [7; 25]);
        assert_eq!(write_into(&two, &mut buffer), Ok(23));
        let sheet = sheet_of(&twin(), &[0], None, None);
        assert_eq!(buffer[..], [&sheet[..], &[7, 7]].concat());
        let (largest, bytes) = (machine_payload(&ring()), [0; LONGEST_SEQUENCE]);
        let all = [&largest[..], &LONG_WORD, &bytes, &bytes];
        let needed = Err(Refusal::new(9, LONGEST_SHEET));
        assert_eq!(write_into(&all, &mut [0; LONGEST_SHEET - 1]), needed);
    }

    #[test]
    fn other_answers() {
        let (built, right) = (&TWIN_BUILT[..], &TWIN_ANSWERS[..]);
        let sheet = |answers| sheet_of(&twin(), &[0], Some(built), answers);
        for old in [None, Some(&[][..]), Some(&[9; 40]), Some(right)] {
            let old = sheet(old);
            assert_eq!(with_answers(&old, right), Ok(sheet(Some(right))));
            assert_eq!(with_answers(&old, &[]), Ok(sheet(Some(&[]))));
            assert_eq!(with_answers(&old, &[0; 13]), Err(Refusal::new(10, 41)));
        }
        let short = sheet_of(&twin(), &[0], None, Some(right));
        assert_eq!(with_answers(&short, right), Err(Refusal::new(2, 41)));
        let sheet = sheet(Some(right));
        assert_eq!(with_answers(&sheet[..58], right), Err(Refusal::new(1, 41)));
        let wrong = sheet_of(&twin(), &[1], Some(&[9]), None);
        assert_eq!(with_answers(&wrong, &[0, 0]), Err(Refusal::new(6, 1)));
    }

    /// A sheet that breaks the same rule is refused alike by the services that
    /// read it, as long as its records are those of a sheet.
    #[test]
    fn as_a_sheet_is_refused() {
        let machines: [&[u8]; 5] = [
            &TWIN,
            &TWIN[..8],
            &twin_with(4, 9),
            &twin_with(5, 255),
            &[11, 1],
        ];
        let words: [&[u8]; 5] = [&[0], &[1], &[], &[0, 2], &[0; 17]];
        let sequences: [&[u8]; 3] = [&[0, 1], &[], &[1, 1, 2]];
        for machine in machines {
            for word in words {
                for sequence in sequences {
                    let records = [record(1, machine), record(2, word), record(3, sequence)];
                    let sheet = records.concat();
                    let read = check(&sheet, Service::Certifying, &mut Machine::default());
                    let written = write(&[machine, word, sequence]);
                    assert_eq!(written.clone().err(), read.err());
                    assert!(written.is_err() || written == Ok(sheet));
                }
            }
        }
    }

    /// What is read of a file that is longer is refused as the whole is.
    #[test]
    fn cut_where_it_is_too_long() {
        let cut = vec![0; MOST_NEEDED];
        let long = vec![0; 3 * MOST_NEEDED];
        for bytes in [&cut, &long] {
            assert_eq!(told(&[bytes, &[0]]), (3, 0));
            assert_eq!(told(&[&TWIN, bytes]), (5, 16));
            assert_eq!(told(&[&TWIN, &[0], bytes]), (7, 23));
            let full = [0; LONGEST_SEQUENCE];
            assert_eq!(told(&[&TWIN, &[0], &full, bytes]), (10, 20_384));
        }
    }
}
