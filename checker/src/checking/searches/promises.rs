// What holds of every search (§14), of the model's own: the searches agree, and
// a word that is found is one that building takes.

use crate::building::build;
use crate::certifying::Certifier;
use crate::checks::{check, Service};
use crate::machine::Machine;
use crate::naive::shortest_word;
use crate::searching::{by_halves, depth_first, with_word, MOST_FOUND};
use crate::sheet::{machine_payload, record, sheet_of};

/// The naive search is made where all its words have so few answers or less.
const FEW: usize = 50_000;

/// The word that is to be found, with what was looked at.
pub struct Promised {
    pub word: Option<Vec<u8>>,
    /// Whether the naive search was made.
    pub naive: bool,
    /// Whether a sequence was built on the word.
    pub built: bool,
}

/// Searches in every way, then builds and certifies with what is found.
pub fn promised(machine: &Machine) -> Result<Promised, String> {
    let word = by_halves(machine);
    let deep = depth_first(machine);
    let naive = machine.k.pow(MOST_FOUND as u32) * machine.n <= FEW;
    let slow = match naive {
        true => shortest_word(machine),
        false => deep.clone(),
    };
    if word != deep || word != slow {
        return Err(format!(
            "by halves {word:?}, depth first {deep:?}, of all words {slow:?}"
        ));
    }
    let built = match &word {
        Some(word) => taken(machine, word)?,
        None => false,
    };
    Ok(Promised { word, naive, built })
}

/// Whether a sequence is built with the word, which then has to be certified;
/// the word itself has to be no cause.
fn taken(machine: &Machine, word: &[u8]) -> Result<bool, String> {
    let sheet = with_word(&record(1, &machine_payload(machine)), word);
    if sheet != sheet_of(machine, word, None, None) {
        return Err(String::from("the sheet with the word is another"));
    }
    let checked = check(&sheet, Service::Building, &mut Machine::default());
    if let Err(refusal) = checked {
        return Err(format!("{word:?} was found and is refused: {refusal:?}"));
    }
    let Ok(built) = build(machine, word) else {
        return Ok(false);
    };
    let sheet = sheet_of(machine, word, Some(&built), None);
    let certificate = Certifier::new().certificate(&sheet, &mut vec![0; built.len() + 1]);
    match certificate.is_ok_and(|certificate| certificate.open.is_none()) {
        true => Ok(true),
        false => Err(format!("{word:?} was found, and its sequence is open")),
    }
}
