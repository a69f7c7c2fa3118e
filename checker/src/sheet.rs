// The sheet: writing records, and reading them with checks 1 and 2.

use crate::machine::Machine;
use crate::refusal::Refusal;

pub const LONGEST_SHEET: usize = 40_912;
pub const HEADER: usize = 6;

/// One record: length, kind, payload.
pub fn record(kind: u16, payload: &[u8]) -> Vec<u8> {
    lying_record(payload.len() as u32, kind, payload)
}

/// A record whose header may give another length than its payload has.
pub fn lying_record(length: u32, kind: u16, payload: &[u8]) -> Vec<u8> {
    let mut bytes = length.to_le_bytes().to_vec();
    bytes.extend(kind.to_le_bytes());
    bytes.extend(payload);
    bytes
}

/// The payload of record 1.
pub fn machine_payload(machine: &Machine) -> Vec<u8> {
    let mut payload = vec![machine.n as u8, machine.k as u8];
    for (next, answer) in machine.next.iter().zip(&machine.answer) {
        payload.extend([*next, *answer]);
    }
    payload
}

/// A whole sheet, its last records left out where there are none.
pub fn sheet_of(
    machine: &Machine,
    word: &[u8],
    sequence: Option<&[u8]>,
    answers: Option<&[u8]>,
) -> Vec<u8> {
    let mut sheet = record(1, &machine_payload(machine));
    sheet.extend(record(2, word));
    if let Some(sequence) = sequence {
        sheet.extend(record(3, sequence));
    }
    if let Some(answers) = answers {
        sheet.extend(record(4, answers));
    }
    sheet
}

/// Where a record stands: its start (of the header) and its payload.
#[derive(Clone, Copy, Debug, Default)]
pub struct Part<'a> {
    pub start: usize,
    pub payload: &'a [u8],
}

impl Part<'_> {
    /// Offset in the sheet of a byte of the payload.
    pub fn offset(&self, index: usize) -> usize {
        self.start + HEADER + index
    }
}

/// The parts by kind: kind 1 at index 0, and so on; None where there is none.
pub type Parts<'a> = [Option<Part<'a>>; 4];

/// Checks 1 and 2. `needed` is how many kinds, from 1 up, have to be there.
pub fn read(sheet: &[u8], needed: usize) -> Result<Parts<'_>, Refusal> {
    if sheet.len() > LONGEST_SHEET {
        return Err(Refusal::new(1, LONGEST_SHEET));
    }
    let mut parts = [None; 4];
    let mut start = 0;
    let mut before = 0;
    while start < sheet.len() {
        let (kind, payload) = split(&sheet[start..]).ok_or(Refusal::new(1, start))?;
        if kind <= before || kind > 4 {
            return Err(Refusal::new(2, start));
        }
        parts[kind - 1] = Some(Part { start, payload });
        before = kind;
        start += HEADER + payload.len();
    }
    if parts[..needed].iter().any(Option::is_none) {
        return Err(Refusal::new(2, sheet.len()));
    }
    Ok(parts)
}

/// Kind and payload of the record in front, if it does not run past the end.
fn split(rest: &[u8]) -> Option<(usize, &[u8])> {
    let (header, behind) = rest.split_at_checked(HEADER)?;
    let length = u32::from_le_bytes([header[0], header[1], header[2], header[3]]);
    let kind = u16::from_le_bytes([header[4], header[5]]);
    let payload = behind.get(..usize::try_from(length).ok()?)?;
    Some((usize::from(kind), payload))
}
