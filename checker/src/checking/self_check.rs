// The model against itself and against the specification's claims: fast recognition
// is the naive one, what is built is certified and within its bound, searches for a
// word agree, and a sheet's records give that sheet.

use super::compare::Comparer;
use super::difference::{Case, Difference};
use super::searches::promised;
use crate::building::{bound, build};
use crate::certifying::Certificate;
use crate::checks::{check, load, Checked, Service};
use crate::machine::Machine;
use crate::naive;
use crate::sheet::sheet_of;
use crate::writing::{payloads, write};

/// Longest sequence for which the naive recognition is made.
const SHORT: usize = 250;

impl Comparer {
    /// All checks, where the sheet is one they apply to.
    pub fn model(&mut self, case: &Case) -> Result<(), Difference> {
        let mut machine = Machine::default();
        if let Ok(checked) = check(&case.sheet, Service::Certifying, &mut machine) {
            if checked.sequence.len() <= SHORT {
                self.naive(case, &machine, &checked)?;
            }
        }
        if let Ok(checked) = check(&case.sheet, Service::Building, &mut machine) {
            self.built(case, &machine, checked.word)?;
        }
        if let Ok(machine) = load(&case.sheet) {
            self.searched(case, &machine)?;
        }
        self.written_again(case)
    }

    /// Writing what a sheet holds gives the sheet, where it is not refused; and it
    /// is not where judging has none of its causes up to 10.
    fn written_again(&mut self, case: &Case) -> Result<(), Difference> {
        let written = payloads(&case.sheet).map(|payloads| write(&payloads));
        let judged = check(&case.sheet, Service::Judging, &mut Machine::default());
        let sound = judged.is_ok_and(|it| it.answers.payload.len() <= it.sequence.len());
        match written {
            Some(Ok(sheet)) if sheet == case.sheet => self.counts.written_again += 1,
            Some(Ok(_)) => return Err(case.difference("the checker's own: written otherwise")),
            _ if sound => return Err(case.difference("the checker's own: not written")),
            _ => {}
        }
        Ok(())
    }

    fn searched(&mut self, case: &Case, machine: &Machine) -> Result<(), Difference> {
        let differs = |text: String| case.difference(&format!("the checker's own: {text}"));
        let promised = promised(machine).map_err(differs)?;
        self.counts.searches += 1;
        self.counts.all_tried += usize::from(promised.naive);
        Ok(())
    }

    fn naive(&mut self, case: &Case, machine: &Machine, sheet: &Checked) -> Result<(), Difference> {
        let known = naive::recognised(machine, sheet.word, sheet.sequence);
        let slow = Certificate {
            recognised: known.iter().filter(|&&known| known).count(),
            open: naive::open_number(machine, sheet.sequence, &known),
        };
        let mut marks = vec![0; known.len()];
        let fast = self.certifier.certificate(&case.sheet, &mut marks);
        let alike = marks.iter().map(|&mark| mark == 1).eq(known);
        self.counts.naive += 1;
        if fast != Ok(slow) || !alike {
            let text = format!("the checker's own: naive {slow:?}, fast {fast:?}");
            return Err(case.difference(&text));
        }
        Ok(())
    }

    /// Built exactly where the table is strongly connected.
    fn built(&mut self, case: &Case, machine: &Machine, word: &[u8]) -> Result<(), Difference> {
        let outcome = build(machine, word);
        if outcome.is_ok() != machine.strongly_connected() {
            return Err(case.difference("built or not, against strongly connected or not"));
        }
        let Ok(built) = outcome else {
            return Ok(());
        };
        self.counts.built += 1;
        if built.len() > bound(machine.n, machine.k, word.len()) {
            return Err(case.difference("the built sequence is longer than its bound"));
        }
        let sheet = sheet_of(machine, word, Some(&built), None);
        let mut marks = vec![0; built.len() + 1];
        let certificate = self.certifier.certificate(&sheet, &mut marks);
        if certificate.is_ok_and(|certificate| certificate.open.is_none()) {
            return Ok(());
        }
        Err(case.difference("the built sequence is not certified"))
    }
}
