// A case, and a difference found in it, with all that is needed to repeat it.

use std::fmt::Write;
use std::io;

/// One sheet with where it came from.
#[derive(Clone, Debug)]
pub struct Case {
    pub seed: u64,
    pub index: usize,
    pub kind: String,
    pub sheet: Vec<u8>,
}

#[derive(Debug)]
pub struct Difference(pub String);

/// A file or a pipe of the checker's own fails.
impl From<io::Error> for Difference {
    fn from(error: io::Error) -> Difference {
        Difference(format!("the checker's own: {error}"))
    }
}

impl Case {
    /// A difference in this case; `what` says where and what the two answers are.
    pub fn difference(&self, what: &str) -> Difference {
        let mut text = format!(
            "DIFFERENCE\nseed {} index {} case {}\n{what}\nsheet of {} bytes: ",
            self.seed,
            self.index,
            self.kind,
            self.sheet.len()
        );
        for byte in &self.sheet {
            write!(text, "{byte:02x}").expect("a string takes all text");
        }
        Difference(text)
    }
}
