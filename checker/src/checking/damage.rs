// Damaged sheets: one or several damages to records and bytes, so that the
// order of the causes matters.

use super::records::{damage_frame, damage_payload, join, pieces};
use crate::random::Random;

/// Damages a sound sheet; adds the names of the damages to `kind`.
pub fn damaged(random: &mut Random, sheet: &[u8], kind: &mut String) -> Vec<u8> {
    let mut records = pieces(sheet);
    let mut name = |what: &str| {
        kind.push_str("; ");
        kind.push_str(what);
    };
    let (frames, payloads) =
        *random.pick(&[(0, 1), (0, 1), (0, 2), (0, 3), (1, 0), (1, 1), (2, 2)]);
    for _ in 0..payloads {
        name(damage_payload(random, &mut records));
    }
    for _ in 0..frames {
        name(damage_frame(random, &mut records));
    }
    let mut bytes = join(&records);
    if random.once_in(4) {
        name(damage_bytes(random, &mut bytes));
    }
    bytes
}

/// Damages bytes only, one to three times.
pub fn bytes_damaged(random: &mut Random, sheet: &[u8], kind: &mut String) -> Vec<u8> {
    let mut bytes = sheet.to_vec();
    for _ in 0..random.range(1, 3) {
        kind.push_str("; ");
        kind.push_str(damage_bytes(random, &mut bytes));
    }
    bytes
}

fn damage_bytes(random: &mut Random, bytes: &mut Vec<u8>) -> &'static str {
    if bytes.is_empty() {
        bytes.push(random.byte());
        return "byte added";
    }
    // The machine and the headers stand in front: damage there is likelier.
    let reach = *random.pick(&[bytes.len(), bytes.len().min(40), bytes.len().min(200)]);
    let place = random.below(reach);
    match random.below(8) {
        0..=1 => {
            bytes[place] = random.byte();
            "byte changed"
        }
        2 => {
            bytes[place] ^= 1 << random.below(8);
            "bit changed"
        }
        3 => {
            bytes.insert(place, random.byte());
            "byte inserted"
        }
        4 => {
            bytes.remove(place);
            "byte removed"
        }
        5..=6 => {
            bytes.truncate(place);
            "cut"
        }
        _ => {
            let more = random.range(1, 12);
            let high = *random.pick(&[1, 5, 256]);
            bytes.extend((0..more).map(|_| random.below(high) as u8));
            "extended"
        }
    }
}

/// Plain random bytes, mostly low ones so that a frame may come about.
pub fn plain_bytes(random: &mut Random) -> Vec<u8> {
    let longest = *random.pick(&[8, 30, 200, 3000]);
    let high = *random.pick(&[2, 3, 5, 256]);
    let length = random.below(longest);
    (0..length).map(|_| random.below(high) as u8).collect()
}
