// Sheets that the program writes, and itself reads and judges. The verdicts are
// given, not computed.

use super::chains::{lent_bytes, MORE};
use super::driver::Driver;
use crate::building::build;
use crate::checking::difference::Difference;
use crate::known::{house, ring, twin, LONG_WORD};
use crate::machine::Machine;
use crate::notation::written;
use crate::sheet::machine_payload;

struct Written {
    name: &'static str,
    payloads: [Vec<u8>; 4],
    /// The length of its sheet, and what judging it gives.
    length: usize,
    verdict: &'static str,
}

fn known() -> [Written; 3] {
    let written = |name, machine: Machine, word: &[u8], length, verdict| {
        let sequence = build(&machine, word).expect("the machine is connected");
        let answers = machine.answers(0, &sequence);
        Written {
            name,
            payloads: [machine_payload(&machine), word.to_vec(), sequence, answers],
            length,
            verdict,
        }
    };
    [
        written("twin", twin(), &[0], 59, "pass 12 end 0"),
        written("house unit", house(), &[0, 1], 466, "pass 203 end 2"),
        written("ring", ring(), &LONG_WORD, 40_912, "pass 20355 end 1"),
    ]
}

pub fn all_written(driver: &mut Driver) -> Result<(), Difference> {
    for known in known() {
        let sheet = known.write(driver)?;
        known.read_and_judge(driver, &sheet)?;
        driver.reached.meet("written by the program", known.name);
    }
    Ok(())
}

impl Written {
    /// The sheet, taken out of the answer.
    fn write(&self, driver: &mut Driver) -> Result<Vec<u8>, Difference> {
        let parts: Vec<String> = self.payloads.iter().map(|part| written(part)).collect();
        let line = format!("write {} {}", self.length + MORE, parts.join(" / "));
        let answer = driver.answer(&line)?;
        let start = format!("written {} | ", self.length);
        lent_bytes(&answer, &start, self.length).ok_or_else(|| self.differs(&start, &answer))
    }

    /// Every part is the one that was given, and the sheet passes.
    fn read_and_judge(&self, driver: &mut Driver, sheet: &[u8]) -> Result<(), Difference> {
        let sheet = written(sheet);
        let mut start = 0;
        for (kind, payload) in (1..).zip(&self.payloads) {
            let (from, size) = (start + 6, payload.len());
            let want = format!("from {from} size {size} | {}", written(payload));
            self.expect(driver, &format!("part {kind} {sheet}"), &want)?;
            start = from + size;
        }
        let marks = self.payloads[2].len() + 1;
        let want = format!("{} | 1*{marks}", self.verdict);
        self.expect(driver, &format!("judge {marks} {sheet}"), &want)
    }

    fn expect(&self, driver: &mut Driver, line: &str, want: &str) -> Result<(), Difference> {
        let answer = driver.answer(line)?;
        match answer == want {
            true => Ok(()),
            false => Err(self.differs(want, &answer)),
        }
    }

    fn differs(&self, want: &str, answer: &str) -> Difference {
        let name = self.name;
        Difference(format!(
            "DIFFERENCE\nthe {name}, written: expected {want}\ncame {answer}"
        ))
    }
}
