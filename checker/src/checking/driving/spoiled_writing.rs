// Spoils the answer to a case of writing, by its room and its parts.

use super::writings::needed;
use crate::notation::{part, question, written, Question, Reader};
use crate::sheet::HEADER;

/// What is wrong with the answer.
#[derive(Clone, Copy)]
pub enum WritingChange {
    /// A refusal that begins so is told as cause 9, where the room is too small
    /// as well.
    RoomFirst(&'static str),
    /// The place of a byte is counted in its part.
    InPart,
    /// The last record has the kind of the one before it.
    LastKind,
}

impl WritingChange {
    /// The spoiled answer to this case, none where the way does not apply.
    pub fn of(self, asked: &[u8], answer: &str) -> Option<String> {
        let Ok(Question::Write { room, parts }) = question(asked) else {
            return None;
        };
        let (told, buffer) = answer.split_once(" | ")?;
        match self {
            WritingChange::RoomFirst(start) => {
                let needed = needed(&parts);
                let applies = told.starts_with(start) && !told.starts_with("refused 9 ");
                let told = format!("refused 9 at {needed}");
                (applies && room < needed).then(|| format!("{told} | {buffer}"))
            }
            WritingChange::InPart => {
                let told = in_part(told, &parts)?;
                Some(format!("{told} | {buffer}"))
            }
            WritingChange::LastKind => {
                told.strip_prefix("written ")?;
                let mut bytes = part(&mut Reader::new(buffer.as_bytes())).ok()?;
                bytes[needed(&parts[..parts.len() - 1]) + 4] -= 1;
                Some(format!("{told} | {}", written(&bytes)))
            }
        }
    }
}

/// The refusal with its place counted from the first byte of the part; none where
/// the place is no byte of a part.
fn in_part(told: &str, parts: &[Vec<u8>]) -> Option<String> {
    let (number, place) = told.strip_prefix("refused ")?.split_once(" at ")?;
    let before = match number {
        "4" | "12" => 0,
        "5" => 1,
        "7" => 2,
        _ => return None,
    };
    let first = needed(&parts[..before]) + HEADER;
    let place = place.parse::<usize>().ok()?.checked_sub(first)?;
    Some(format!("refused {number} at {place}"))
}

#[cfg(test)]
mod tests {
    use super::*;

    #[test]
    fn spoiled() {
        let of = |change: WritingChange, asked: &str, answer| change.of(asked.as_bytes(), answer);
        let (room, many) = (
            WritingChange::RoomFirst("refused 10 "),
            "refused 10 at 24 | 238",
        );
        let asked = "write 1 1 1 0 7 / 0 / 0 / 7 7";
        let spoiled = Some(String::from("refused 9 at 32 | 238"));
        assert_eq!(of(room, asked, many), spoiled);
        assert_eq!(of(room, "write 40 1 1 0 7 / 0 / 0 / 7 7", many), None);
        let command = of(
            WritingChange::InPart,
            "write 0 1 1 0 7 / 0 1",
            "refused 5 at 17 | -",
        );
        assert_eq!(command, Some(String::from("refused 5 at 1 | -")));
        let length = of(
            WritingChange::InPart,
            "write 0 1 1 0 7 / -",
            "refused 5 at 10 | -",
        );
        assert_eq!(length, None);
        let sheet = "written 17 | 4 0*3 1 0 1 1 0 7 1 0*3 2 0 0";
        let kind = of(WritingChange::LastKind, "write 17 1 1 0 7 / 0", sheet);
        let spoiled = "written 17 | 4 0*3 1 0 1 1 0 7 1 0*3 1 0 0";
        assert_eq!(kind.as_deref(), Some(spoiled));
    }
}
