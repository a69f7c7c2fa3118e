// A sheet that comes through a named pipe, in pieces: reading it gives less at a
// time than is asked for.

use super::batch::dialogue;
use super::files::longest;
use super::Desks;
use crate::checking::difference::Difference;
use crate::checking::named_files::feed;
use crate::dialogue::MOST_READ;
use crate::known::house_sheet;
use crate::random::Random;

/// Leads the house unit home.
const INPUT: &[u8] = b"2\n21\n6\n6\n";
/// The endless pipe is fed with so much; the program has long stopped reading.
const ENDLESS: usize = 20 * MOST_READ;

impl Desks<'_> {
    pub fn pieces(&mut self) -> Result<(), Difference> {
        let random = &mut Random::at(self.seed, 9, usize::MAX - 1);
        let longest = longest();
        let endless = longest.iter().copied().cycle().take(ENDLESS).collect();
        let sheets = [
            ("house unit in pieces", house_sheet(), 5),
            ("longest in pieces", longest, 4000),
            ("endless in pieces", endless, 4000),
        ];
        for (index, (name, sheet, size)) in sheets.into_iter().enumerate() {
            let path = self.scratch.path().join(name);
            feed(&path, sheet.clone(), size)?;
            let wanted = dialogue(&sheet, INPUT);
            let case = self.case(index, name, sheet);
            self.run(random, &case, &path, INPUT, &wanted)?;
            self.tally.meet("files", name);
        }
        Ok(())
    }
}
