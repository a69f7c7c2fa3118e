// How an archive writes the marks of a sequence's places into the lent buffer. Archives of different
// times may differ in this, so each is read by its own layout.

/// A way to write the marks.
#[derive(Clone, Copy)]
pub struct Layout {
    /// Its name on the command line.
    pub name: &'static str,
    /// How many bytes the marks of a sequence of so many commands take.
    pub bytes: fn(usize) -> usize,
    /// The mark of a place, 0 or 1.
    pub mark: fn(&[u8], usize) -> u8,
}

/// All layouts; the first is that of the archive that the present sources make.
pub const LAYOUTS: [Layout; 1] = [Layout {
    name: "bytes",
    bytes: |commands| commands + 1,
    mark: |marks, place| marks[place],
}];
