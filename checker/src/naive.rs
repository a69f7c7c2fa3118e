// Recognition plainly as the two rules of §5.1 read, repeated until nothing
// changes; the search for a word as §14 reads. Slow, for short sequences and
// small machines only: the yardsticks of `recognition` and `searching`.

use crate::machine::Machine;
use crate::searching::MOST_FOUND;

/// For places 0 to N, whether the place is recognised.
pub fn recognised(machine: &Machine, word: &[u8], sequence: &[u8]) -> Vec<bool> {
    let states = machine.states(sequence);
    let last = sequence.len();
    let mut known: Vec<bool> = (0..=last)
        .map(|p| p + word.len() <= last && &sequence[p..p + word.len()] == word)
        .collect();
    loop {
        let before = known.clone();
        for p in 0..=last {
            for q in 0..=last {
                // Where the first m commands differ, no longer string is equal.
                for m in 1..=last - p.max(q) {
                    let alike = sequence[p + m - 1] == sequence[q + m - 1];
                    if !alike || !known[p] || !known[q] || states[p] != states[q] {
                        break;
                    }
                    known[q + m] |= known[p + m];
                }
            }
        }
        if known == before {
            return known;
        }
    }
}

/// The open number, 1 + s*k + command or 0; none if certified.
pub fn open_number(machine: &Machine, sequence: &[u8], known: &[bool]) -> Option<usize> {
    if !known[0] {
        return Some(0);
    }
    let states = machine.states(sequence);
    for s in 0..machine.n {
        for command in 0..machine.k {
            let verified = (0..sequence.len()).any(|i| {
                states[i] == s && usize::from(sequence[i]) == command && known[i] && known[i + 1]
            });
            if !verified {
                return Some(1 + s * machine.k + command);
            }
        }
    }
    None
}

/// The first word of all those of 1 to 6 commands, by length and then in byte
/// order, that separates (§14).
pub fn shortest_word(machine: &Machine) -> Option<Vec<u8>> {
    let mut words = (1..=MOST_FOUND).flat_map(|length| words(machine.k, length));
    words.find(|word| machine.unseparated(word).is_none())
}

/// All words of a length, in byte order.
fn words(k: usize, length: usize) -> impl Iterator<Item = Vec<u8>> {
    let command = move |number: usize, place: usize| number / k.pow(place as u32) % k;
    let places = move || (0..length).rev();
    let word = move |number| places().map(|place| command(number, place) as u8).collect();
    (0..k.pow(length as u32)).map(word)
}
