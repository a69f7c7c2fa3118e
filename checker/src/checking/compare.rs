// One call of a C function against the model: the number, every byte of the
// lent marks, and guards around marks and sheet.

use super::counts::Counts;
use super::difference::{Case, Difference};
use super::spoil::{Seen, Spoil};
use crate::certifying::Certifier;
use crate::random::Random;
use crate::rig::{rig_certify, rig_judge};
use crate::sheet::read;

const GUARD: usize = 64;

#[derive(Clone, Copy, Debug, PartialEq, Eq)]
pub enum Call {
    Certify,
    Judge,
}

pub const CALLS: [Call; 2] = [Call::Certify, Call::Judge];

pub struct Comparer {
    pub counts: Counts,
    pub certifier: Certifier,
    pub spoil: Option<Spoil>,
    random: Random,
    sheet: Area,
    marks: Area,
}

/// Bytes lent to the bench with guards around them, and what they should be
/// afterwards.
#[derive(Default)]
struct Area {
    lent: Vec<u8>,
    wanted: Vec<u8>,
}

impl Area {
    /// Random bytes throughout.
    fn fill(&mut self, length: usize, random: &mut Random) {
        self.lent.resize(length + 2 * GUARD, 0);
        random.fill(&mut self.lent);
        self.wanted.clone_from(&self.lent);
    }

    fn inside(bytes: &mut [u8]) -> &mut [u8] {
        let end = bytes.len() - GUARD;
        &mut bytes[GUARD..end]
    }

    /// Index of the first byte that differs, negative in the guard before.
    fn first_difference(&self) -> Option<(isize, u8, u8)> {
        if self.lent == self.wanted {
            return None;
        }
        let pairs = self.lent.iter().zip(&self.wanted);
        let (index, (&got, &want)) = pairs.enumerate().find(|(_, (got, want))| got != want)?;
        Some((index as isize - GUARD as isize, want, got))
    }
}

impl Comparer {
    pub fn new(seed: u64, spoil: Option<Spoil>) -> Comparer {
        Comparer {
            counts: Counts::default(),
            certifier: Certifier::new(),
            spoil,
            random: Random::new(seed ^ 0x6275_6666_6572_7300),
            sheet: Area::default(),
            marks: Area::default(),
        }
    }

    /// Both functions with the same room.
    pub fn both(&mut self, case: &Case, room: usize) -> Result<(), Difference> {
        CALLS
            .into_iter()
            .try_for_each(|call| self.call(case, call, room).map(drop))
    }

    /// One function with marks of random bytes; gives the number that both
    /// agree on.
    pub fn call(&mut self, case: &Case, call: Call, room: usize) -> Result<u64, Difference> {
        self.call_on(case, call, room, None)
    }

    /// The same, with this byte throughout the marks if one is given.
    pub fn call_on(
        &mut self,
        case: &Case,
        call: Call,
        room: usize,
        byte: Option<u8>,
    ) -> Result<u64, Difference> {
        self.lend(&case.sheet, room);
        if let Some(byte) = byte {
            Area::inside(&mut self.marks.lent).fill(byte);
            Area::inside(&mut self.marks.wanted).fill(byte);
        }
        let marks = Area::inside(&mut self.marks.wanted);
        let want = match call {
            Call::Certify => self.certifier.certify(&case.sheet, marks),
            Call::Judge => self.certifier.judge(&case.sheet, marks),
        };
        let mut number = self.call_rig(call);
        self.spoil(case, &mut number);
        self.counts.called(call, number);
        let head = format!("{call:?} with room {room}");
        if number != want {
            let text = format!("{head}: the model gives {want:#x}, the bench {number:#x}");
            return Err(case.difference(&text));
        }
        for (name, area) in [("marks", &self.marks), ("sheet", &self.sheet)] {
            if let Some((index, want, got)) = area.first_difference() {
                let text = format!(
                    "{head}, number {number:#x} in both: byte {index} of the {name} \
                     is {got} after the bench, {want} by the model"
                );
                return Err(case.difference(&text));
            }
        }
        self.silence(call, &case.sheet, room, number);
        Ok(number)
    }

    fn lend(&mut self, sheet: &[u8], room: usize) {
        self.marks.fill(room, &mut self.random);
        self.sheet.fill(sheet.len(), &mut self.random);
        for bytes in [&mut self.sheet.lent, &mut self.sheet.wanted] {
            Area::inside(bytes).copy_from_slice(sheet);
        }
    }

    fn call_rig(&mut self, call: Call) -> u64 {
        let sheet = Area::inside(&mut self.sheet.lent);
        let (sheet, sheet_len) = (sheet.as_ptr(), sheet.len());
        let marks = Area::inside(&mut self.marks.lent);
        let (marks, marks_len) = (marks.as_mut_ptr(), marks.len());
        // Both pointers are to live buffers of the lengths given.
        unsafe {
            match call {
                Call::Certify => rig_certify(sheet, sheet_len, marks, marks_len),
                Call::Judge => rig_judge(sheet, sheet_len, marks, marks_len),
            }
        }
    }

    fn spoil(&mut self, case: &Case, number: &mut u64) {
        if let Some(spoil) = self.spoil {
            spoil.rig(Seen {
                number,
                needed: needed_room(&case.sheet),
                marks: &mut self.marks.lent,
                sheet: &mut self.sheet.lent,
                guard: GUARD,
            });
        }
    }
}

/// N+1 where a record 3 can be found.
pub fn needed_room(sheet: &[u8]) -> Option<usize> {
    let parts = read(sheet, 0).ok()?;
    Some(parts[2]?.payload.len() + 1)
}
