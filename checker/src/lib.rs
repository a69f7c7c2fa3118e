// A second model of the control-unit bench, to be read against
// docs/SPECIFICATION.md, and the checker that holds the proved program against
// it. The sections that comments cite are those of that page.

pub mod building;
pub mod certifying;
pub mod checking;
pub mod checks;
pub mod desk;
pub mod dialogue;
pub mod judging;
pub mod known;
pub mod lines;
pub mod machine;
pub mod naive;
pub mod notation;
pub mod number;
pub mod random;
pub mod reading;
pub mod recognition;
pub mod refusal;
pub mod rig;
pub mod rom;
pub mod searching;
pub mod sheet;
pub mod words;
pub mod writing;

#[cfg(test)]
mod cases;
