// Wrong words in place of the one that is to be found.

use crate::machine::Machine;

#[derive(Clone, Copy, Debug, PartialEq, Eq)]
pub enum Wrong {
    /// Separates, as short, and comes later in byte order.
    Later,
    /// Separates, with a command more.
    Longer,
    /// As short, and does not separate.
    NotSeparating,
    /// A command less, which does not separate.
    Shorter,
}

impl Wrong {
    /// The wrong word, none where there is no such.
    pub fn word(self, machine: &Machine, word: &[u8]) -> Option<Vec<u8>> {
        let separates = |word: &Vec<u8>| machine.unseparated(word).is_none();
        match self {
            Wrong::Later => later(machine.k, word).find(separates),
            Wrong::Longer => Some([word, &[0]].concat()),
            Wrong::NotSeparating => later(machine.k, word).find(|word| !separates(word)),
            Wrong::Shorter if word.len() > 1 => Some(word[..word.len() - 1].to_vec()),
            Wrong::Shorter => None,
        }
    }
}

/// The words of the same length behind this one, in byte order.
fn later(k: usize, word: &[u8]) -> impl Iterator<Item = Vec<u8>> {
    let mut word = word.to_vec();
    std::iter::from_fn(move || {
        let last = (0..word.len())
            .rev()
            .find(|&place| usize::from(word[place]) + 1 < k)?;
        word[last] += 1;
        word[last + 1..].fill(0);
        Some(word.clone())
    })
}
