// Certifying: the checks, fast recognition, marks and open number.

use crate::checks::{check, Checked, Service};
use crate::machine::Machine;
use crate::number;
use crate::recognition::Recogniser;
use crate::refusal::Refusal;

/// Certified if `open` is none, else open with that number.
#[derive(Clone, Copy, Debug, PartialEq, Eq)]
pub struct Certificate {
    pub recognised: usize,
    pub open: Option<usize>,
}

/// Certification with its workspace, which is reused between calls.
#[derive(Default)]
pub struct Certifier {
    pub(crate) machine: Machine,
    recogniser: Recogniser,
}

impl Certifier {
    pub fn new() -> Certifier {
        Certifier::default()
    }

    /// Certifies a sheet; gives the number that the rig gets.
    pub fn certify(&mut self, sheet: &[u8], marks: &mut [u8]) -> u64 {
        number::of_certifying(self.certificate(sheet, marks))
    }

    /// The same, as a value.
    pub fn certificate(&mut self, sheet: &[u8], marks: &mut [u8]) -> Result<Certificate, Refusal> {
        let checked = self.check(sheet, Service::Certifying, marks.len())?;
        Ok(self.certify_checked(&checked, marks))
    }

    /// Checks 1 to 7, 12 and 9.
    pub(crate) fn check<'a>(
        &mut self,
        sheet: &'a [u8],
        service: Service,
        room: usize,
    ) -> Result<Checked<'a>, Refusal> {
        let checked = check(sheet, service, &mut self.machine)?;
        let wanted = checked.sequence.len() + 1;
        if room < wanted {
            return Err(Refusal::new(9, wanted));
        }
        Ok(checked)
    }

    /// Certifies what was checked, with `self.machine` read from the same sheet.
    pub(crate) fn certify_checked(&mut self, sheet: &Checked, marks: &mut [u8]) -> Certificate {
        let marks = &mut marks[..sheet.sequence.len() + 1];
        let machine = &self.machine;
        let found = self
            .recogniser
            .recognise(machine, sheet.word, sheet.sequence, marks);
        let entries = machine.n * machine.k;
        let least = found.verified.trailing_ones() as usize;
        let open = match marks[0] {
            0 => Some(0),
            _ if least < entries => Some(1 + least),
            _ => None,
        };
        Certificate {
            recognised: found.recognised,
            open,
        }
    }
}
