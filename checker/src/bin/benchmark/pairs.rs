// A function of both archives: whether it gives the same on a sheet, and its times.

use crate::archives::Archive;
use crate::marks::Layout;
use crate::measure::{medians, Times};
use crate::sides::{proved, Proved, ROOM};
use crate::workloads::Workload;
use checker::machine::LONGEST_SEQUENCE;
use checker::random::Random;
use std::cell::RefCell;

/// The function in one archive.
struct Side {
    function: Proved,
    layout: Layout,
}

/// What a call gives.
struct Answer {
    number: u64,
    /// The marks of all places, one byte each.
    marks: Vec<u8>,
    /// Whether the bytes behind the marks are as they were lent.
    kept: bool,
}

impl Side {
    /// A call on the sheet of a sequence of so many commands, with a buffer of these bytes lent.
    fn answer(&self, sheet: &[u8], commands: usize, lent: &[u8]) -> Answer {
        let mut buffer = lent.to_vec();
        let number = proved(self.function, sheet, &mut buffer);
        let mark = |place| (self.layout.mark)(&buffer, place);
        let end = (self.layout.bytes)(commands);
        Answer {
            number,
            marks: (0..=commands).map(mark).collect(),
            kept: buffer[end..] == lent[end..],
        }
    }

    fn calls(&self, count: usize, sheet: &[u8], buffer: &mut [u8]) {
        for _ in 0..count {
            proved(self.function, sheet, buffer);
        }
    }
}

/// The function in both archives.
pub struct Pair {
    name: &'static str,
    before: Side,
    after: Side,
    random: Random,
}

impl Pair {
    /// What `choose` takes from both archives; the seed is for the bytes of lent buffers.
    pub fn new(
        name: &'static str,
        archives: &[Archive; 2],
        choose: fn(&Archive) -> Proved,
        seed: u64,
    ) -> Pair {
        let [before, after] = archives.each_ref().map(|archive| Side {
            function: choose(archive),
            layout: archive.layout,
        });
        Pair {
            name,
            before,
            after,
            random: Random::new(seed),
        }
    }

    /// The times of both on a sheet of the workload, once what they give is found the same. A timing
    /// has as many calls as make about the longest sequence's commands. Both are lent one buffer:
    /// where it lies would make a difference.
    pub fn times(&mut self, workload: &Workload, sheet: &[u8]) -> Result<Times, String> {
        let commands = workload.sequence.len();
        if let Some(difference) = self.difference(sheet, commands) {
            let (name, workload) = (self.name, &workload.name);
            return Err(format!(
                "the answers differ: {name}, {workload}: {difference}"
            ));
        }
        let calls = (LONGEST_SEQUENCE / commands).max(1);
        let buffer = RefCell::new(vec![0; ROOM]);
        let timed = |side: &Side| side.calls(calls, sheet, &mut buffer.borrow_mut());
        let times = medians(|| timed(&self.before), || timed(&self.after));
        Ok(Times {
            one: times.one / calls as f64,
            other: times.other / calls as f64,
        })
    }

    /// How the numbers or the marks differ, or that a call wrote more than the marks.
    fn difference(&mut self, sheet: &[u8], commands: usize) -> Option<String> {
        let mut lent = vec![0; ROOM];
        self.random.fill(&mut lent);
        let before = self.before.answer(sheet, commands, &lent);
        let after = self.after.answer(sheet, commands, &lent);
        if before.number != after.number {
            let (before, after) = (before.number, after.number);
            return Some(format!("before {before:#x}, after {after:#x}"));
        }
        let differs = |&place: &usize| before.marks[place] != after.marks[place];
        if let Some(place) = (0..=commands).find(differs) {
            return Some(format!("the marks differ at place {place}"));
        }
        let kept = before.kept && after.kept;
        (!kept).then(|| "bytes behind the marks were written".into())
    }
}
