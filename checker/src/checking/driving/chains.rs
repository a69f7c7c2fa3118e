// Three machines from their table to a verdict: built by the program, then
// certified and judged with what it built. The lengths and end states are
// given, not computed.

use super::driver::Driver;
use crate::checking::difference::Difference;
use crate::known::{doubling, house, ring, LONG_WORD};
use crate::machine::{Machine, SILENCE};
use crate::notation::{part, written, Reader, LENT};
use crate::sheet::machine_payload;

/// Room beyond what is needed.
pub const MORE: usize = 5;

/// So many bytes of the buffer behind the start of an answer; none where others
/// than the room beyond them follow, or it begins otherwise.
pub fn lent_bytes(answer: &str, start: &str, length: usize) -> Option<Vec<u8>> {
    let buffer = answer.strip_prefix(start)?;
    let bytes = part(&mut Reader::new(buffer.as_bytes())).ok()?;
    (bytes.get(length..)? == [LENT; MORE]).then(|| bytes[..length].to_vec())
}

struct Chain {
    name: &'static str,
    machine: Machine,
    word: Vec<u8>,
    /// Of the built sequence.
    length: usize,
    /// None: not given, so the model's.
    end: Option<usize>,
}

fn known() -> [Chain; 3] {
    let chain = |name, machine, word: &[u8], length, end| Chain {
        name,
        machine,
        word: word.to_vec(),
        length,
        end,
    };
    [
        chain("house unit", house(), &[0, 1], 203, Some(2)),
        chain("ring", ring(), &LONG_WORD, 20_355, Some(1)),
        chain("doubling", doubling(), &LONG_WORD, 8_544, None),
    ]
}

pub fn chains(driver: &mut Driver) -> Result<(), Difference> {
    for chain in known() {
        let sequence = chain.build(driver)?;
        chain.certify(driver, &sequence)?;
        chain.judge(driver, &sequence)?;
        driver.reached.meet("chains", chain.name);
    }
    Ok(())
}

impl Chain {
    /// Records 1 and 2.
    fn front(&self) -> String {
        let machine = written(&machine_payload(&self.machine));
        format!("{{1 {machine}}}{{2 {}}}", written(&self.word))
    }

    /// The sequence, taken out of the answer.
    fn build(&self, driver: &mut Driver) -> Result<Vec<u8>, Difference> {
        let line = format!("build {} {}", self.length + MORE, self.front());
        let answer = driver.answer(&line)?;
        let start = format!("built {} | ", self.length);
        lent_bytes(&answer, &start, self.length)
            .ok_or_else(|| self.differs(&line, &format!("{start}..."), &answer))
    }

    fn certify(&self, driver: &mut Driver, sequence: &[u8]) -> Result<(), Difference> {
        let places = self.length + 1;
        let sequence = written(sequence);
        let line = format!("certify {places} {}{{3 {sequence}}}", self.front());
        let want = format!("certified {places} | 1*{places}");
        self.expect(driver, &line, &want)
    }

    /// The machine's own answers, answers that are not, and silence.
    fn judge(&self, driver: &mut Driver, sequence: &[u8]) -> Result<(), Difference> {
        let right = self.machine.answers(0, sequence);
        let last = right[self.length - 1];
        let end = self.end.unwrap_or(self.machine.after(0, sequence));
        let mut wrong = right.clone();
        wrong[self.length - 1] = last ^ 1;
        let fewer = &right[..self.length - 1];
        let unheard = [fewer, &[SILENCE]].concat();
        let place = self.length - 1;
        let mut cases = vec![
            (right.clone(), format!("pass {} end {end}", self.length)),
            (
                wrong,
                format!("wrong at {place} want {last} got {}", last ^ 1),
            ),
            (fewer.to_vec(), format!("unfinished {place}")),
            (unheard, format!("unheard at {place}")),
            (vec![SILENCE; self.length], String::from("unheard at 0")),
        ];
        cases.extend(self.faulty(sequence));
        for (answers, want) in cases {
            let marks = format!("1*{}", self.length + 1);
            self.judged(driver, sequence, &answers, &format!("{want} | {marks}"))?;
        }
        self.too_long(driver, sequence, &right)
    }

    /// The house unit with entry (0, 1) leading to 0.
    fn faulty(&self, sequence: &[u8]) -> Option<(Vec<u8>, String)> {
        let mut unit = self.machine.clone();
        unit.next[1] = 0;
        let answers = unit.answers(0, sequence);
        (self.name == "house unit").then_some((answers, String::from("wrong at 2 want 2 got 31")))
    }

    /// One answer more, which makes the ring's sheet too long.
    fn too_long(
        &self,
        driver: &mut Driver,
        sequence: &[u8],
        right: &[u8],
    ) -> Result<(), Difference> {
        if self.name != "ring" {
            return Ok(());
        }
        let more = [right, &[0]].concat();
        let want = format!("refused 1 at 40912 | {LENT}*{}", self.length + 1);
        self.judged(driver, sequence, &more, &want)
    }

    fn judged(
        &self,
        driver: &mut Driver,
        sequence: &[u8],
        answers: &[u8],
        want: &str,
    ) -> Result<(), Difference> {
        let records = format!("{{3 {}}}{{4 {}}}", written(sequence), written(answers));
        let line = format!("judge {} {}{records}", self.length + 1, self.front());
        self.expect(driver, &line, want)
    }

    fn expect(&self, driver: &mut Driver, line: &str, want: &str) -> Result<(), Difference> {
        let answer = driver.answer(line)?;
        if answer == want {
            return Ok(());
        }
        Err(self.differs(line, want, &answer))
    }

    fn differs(&self, line: &str, want: &str, answer: &str) -> Difference {
        let name = self.name;
        Difference(format!(
            "DIFFERENCE\nthe chain of the {name}: expected {want}\ncame {answer}\nfor {line}"
        ))
    }
}
