// The two archives that can be compared: the one that the present sources make, and an older one,
// whose names begin with before_. The benchmark has the older one only with the feature `against`.

use crate::marks::{Layout, LAYOUTS};
use crate::sides::Proved;
use checker::rig::{rig_certify, rig_judge};

/// An archive: its functions, and how they write marks.
pub struct Archive {
    pub certify: Proved,
    pub judge: Proved,
    pub layout: Layout,
}

#[cfg(feature = "against")]
extern "C" {
    fn before_rig_certify(
        sheet: *const u8,
        sheet_len: usize,
        marks: *mut u8,
        marks_len: usize,
    ) -> u64;
    fn before_rig_judge(
        sheet: *const u8,
        sheet_len: usize,
        marks: *mut u8,
        marks_len: usize,
    ) -> u64;
}

/// The older archive's functions for certifying and for judging.
#[cfg(feature = "against")]
const OLDER: Option<(Proved, Proved)> = Some((before_rig_certify, before_rig_judge));
#[cfg(not(feature = "against"))]
const OLDER: Option<(Proved, Proved)> = None;

/// The older archive, if the benchmark was built with one.
pub fn older(layout: Layout) -> Option<Archive> {
    OLDER.map(|(certify, judge)| Archive {
        certify,
        judge,
        layout,
    })
}

/// The archive that the present sources make.
pub fn present() -> Archive {
    Archive {
        certify: rig_certify,
        judge: rig_judge,
        layout: LAYOUTS[0],
    }
}
