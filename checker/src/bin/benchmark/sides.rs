// The two sides that are compared: the checker's fast certifier (the baseline) and the proved
// functions. Each side has a marks buffer of its own.

use checker::certifying::Certifier;
use checker::machine::LONGEST_SEQUENCE;
use checker::random::Random;
use checker::rig;

/// A C function of the rig.
pub type Proved = unsafe extern "C" fn(*const u8, usize, *mut u8, usize) -> u64;

/// Room for the marks of every sequence and some bytes that must stay as they are.
pub const ROOM: usize = LONGEST_SEQUENCE + 1 + 64;

/// Calls a function of the rig.
pub fn proved(function: Proved, sheet: &[u8], marks: &mut [u8]) -> u64 {
    unsafe { function(sheet.as_ptr(), sheet.len(), marks.as_mut_ptr(), marks.len()) }
}

/// Both sides' marks, and the baseline's workspace.
pub struct Sides {
    pub baseline: Certifier,
    pub ours: Vec<u8>,
    pub theirs: Vec<u8>,
    random: Random,
}

impl Sides {
    pub fn new(seed: u64) -> Sides {
        Sides {
            baseline: Certifier::new(),
            ours: vec![0; ROOM],
            theirs: vec![0; ROOM],
            random: Random::new(seed),
        }
    }

    /// Certifies on both sides; an error if numbers or bytes of the buffers differ.
    pub fn certify(&mut self, name: &str, sheet: &[u8]) -> Result<u64, String> {
        self.fill();
        let ours = self.baseline.certify(sheet, &mut self.ours);
        let theirs = proved(rig::rig_certify, sheet, &mut self.theirs);
        self.compare(name, ours, theirs)
    }

    /// Judges on both sides, likewise.
    pub fn judge(&mut self, name: &str, sheet: &[u8]) -> Result<u64, String> {
        self.fill();
        let ours = self.baseline.judge(sheet, &mut self.ours);
        let theirs = proved(rig::rig_judge, sheet, &mut self.theirs);
        self.compare(name, ours, theirs)
    }

    /// Gives both buffers the same random bytes.
    fn fill(&mut self) {
        self.random.fill(&mut self.ours);
        self.theirs.copy_from_slice(&self.ours);
    }

    fn compare(&self, name: &str, ours: u64, theirs: u64) -> Result<u64, String> {
        if ours != theirs {
            return Err(format!(
                "the answers differ: {name}: baseline {ours:#x}, proved {theirs:#x}"
            ));
        }
        match (0..ROOM).find(|&byte| self.ours[byte] != self.theirs[byte]) {
            Some(byte) => Err(format!(
                "the answers differ: {name}: the marks differ at byte {byte}"
            )),
            None => Ok(ours),
        }
    }
}
