// The two C functions of the proved archive.

extern "C" {
    pub fn rig_certify(sheet: *const u8, sheet_len: usize, marks: *mut u8, marks_len: usize)
        -> u64;
    pub fn rig_judge(sheet: *const u8, sheet_len: usize, marks: *mut u8, marks_len: usize) -> u64;
}
