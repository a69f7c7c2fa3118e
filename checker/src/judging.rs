// Judging: certifying, then the answers against the specified ones.

use crate::certifying::Certifier;
use crate::checks::Service;
use crate::machine::SILENCE;
use crate::number;
use crate::refusal::Refusal;

#[derive(Clone, Copy, Debug, PartialEq, Eq)]
pub enum Verdict {
    Pass { length: usize, end: usize },
    Wrong { place: usize, want: u8, got: u8 },
    Unheard { place: usize },
    Unfinished { answers: usize },
}

impl Certifier {
    /// Judges a sheet; gives the number that the rig gets.
    pub fn judge(&mut self, sheet: &[u8], marks: &mut [u8]) -> u64 {
        number::of_judging(self.verdict(sheet, marks))
    }

    /// The same, as a value.
    pub fn verdict(&mut self, sheet: &[u8], marks: &mut [u8]) -> Result<Verdict, Refusal> {
        let checked = self.check(sheet, Service::Judging, marks.len())?;
        let (sequence, given) = (checked.sequence, checked.answers.payload);
        if given.len() > sequence.len() {
            return Err(Refusal::new(10, checked.answers.start));
        }
        if let Some(open) = self.certify_checked(&checked, marks).open {
            return Err(Refusal::new(11, open));
        }
        let wanted = self.machine.answers(0, sequence);
        let differs = (0..given.len()).find(|&place| given[place] != wanted[place]);
        Ok(match differs {
            Some(place) if given[place] == SILENCE => Verdict::Unheard { place },
            Some(place) => Verdict::Wrong {
                place,
                want: wanted[place],
                got: given[place],
            },
            None if given.len() < sequence.len() => Verdict::Unfinished {
                answers: given.len(),
            },
            None => Verdict::Pass {
                length: sequence.len(),
                end: self.machine.after(0, sequence),
            },
        })
    }
}
