// The program `cases`: batches of cases go in, and what it writes has to be the
// model's text.

mod between;
mod building;
mod chains;
mod compare;
mod desks;
mod driver;
mod expected;
mod full;
mod marks;
mod near;
mod numbers;
mod parts;
mod reached;
mod searches;
mod sheets;
mod sizes;
mod spelling;
mod spoiled_answer;
mod spoiled_run;
mod spoiled_writing;
mod spoils;
mod tables;
mod transfers;
mod unreadable;
mod writings;
mod written;

pub use compare::{first_difference, program_difference};
pub use driver::{LIMIT, NAME};
pub use reached::Reached;
pub use sheets::{for_building, maybe_refused, nonsense};
pub use spoils::CasesSpoil;

use super::compare::Comparer;
use super::difference::Difference;
use super::options::Options;
use crate::random::Random;
use driver::Driver;

type Generator = fn(&mut Driver, &mut Random) -> Result<(), Difference>;

/// One round of cases; what comes several times makes few cases at a time.
const ROUND: [Generator; 48] = [
    building::every_room,
    marks::marks,
    parts::parts,
    between::between,
    desks::desks,
    searches::searches,
    writings::written,
    writings::refused,
    transfers::transfers,
    building::refused,
    desks::refused,
    searches::refused,
    marks::marks,
    near::near,
    building::long_rooms,
    numbers::numbers,
    marks::marks,
    writings::every_room,
    writings::refused,
    between::between,
    building::refused,
    searches::searches,
    desks::desks,
    desks::refused,
    searches::refused,
    parts::parts,
    unreadable::damaged,
    building::refused,
    transfers::transfers,
    writings::written,
    writings::refused,
    desks::desks,
    marks::marks,
    numbers::numbers,
    between::between,
    building::refused,
    desks::refused,
    full::full,
    parts::parts,
    searches::searches,
    desks::desks,
    desks::refused,
    searches::refused,
    writings::refused,
    writings::written,
    unreadable::damaged,
    writings::refused,
    marks::marks,
];
/// The inputs of every size come in one round of so many.
const SIZES: usize = 10;

impl Comparer {
    /// Random cases, some more than asked for, the house unit's whole table, and
    /// the words of all small machines.
    pub fn cases(&mut self, options: &Options) -> Result<(), Difference> {
        if options.cases == 0 {
            return Ok(());
        }
        let driver = &mut Driver::new(options, &mut self.counts.reached);
        tables::tables(driver, &mut Random::at(options.seed, 7, 0))?;
        if !options.random_only {
            searches::all_small(driver)?;
        }
        let table = driver.asked;
        for round in 1.. {
            let mut random = Random::at(options.seed, 7, round);
            for generator in ROUND {
                generator(driver, &mut random)?;
            }
            if round % SIZES == 1 {
                sizes::sizes(driver, &mut random)?;
            }
            if driver.asked - table >= options.cases {
                break;
            }
        }
        driver.send()
    }

    /// Whole chains, built, certified and judged, the longest dialogue, and sheets
    /// that are written and judged.
    pub fn case_chains(&mut self, options: &Options) -> Result<(), Difference> {
        let driver = &mut Driver::new(options, &mut self.counts.reached);
        chains::chains(driver)?;
        desks::longest(driver)?;
        written::all_written(driver)
    }
}
