// Ways to spoil what `bench write` and `bench answers` wrote.

use crate::checking::process::Printed;
use crate::checking::spoil::{change_last, other_line, silence_as_next_state};
use crate::lines::refused;
use crate::reading::part;
use crate::refusal::Refusal;
use crate::sheet::{read, HEADER};
use crate::words::Service;

#[derive(Clone, Copy, Debug, PartialEq, Eq)]
pub enum WriteSpoil {
    Byte,
    Cut,
    More,
    LastKind,
    Length,
    Refused,
    RefusalOnOutput,
    RefusalLost,
    RefusalWrites,
    PlaceInPart,
    SilenceCause,
    FileUntold,
    InputRead,
    Status,
    OldKept,
    OldCounted,
    OldBefore,
    AnswersLost,
}

/// The names on the command line.
const NAMES: [(&str, WriteSpoil); 18] = [
    ("write-byte", WriteSpoil::Byte),
    ("write-cut", WriteSpoil::Cut),
    ("write-more", WriteSpoil::More),
    ("write-last-kind", WriteSpoil::LastKind),
    ("write-length", WriteSpoil::Length),
    ("write-refused", WriteSpoil::Refused),
    ("write-refusal-on-output", WriteSpoil::RefusalOnOutput),
    ("write-refusal-lost", WriteSpoil::RefusalLost),
    ("write-refusal-writes", WriteSpoil::RefusalWrites),
    ("write-place-in-part", WriteSpoil::PlaceInPart),
    ("write-silence-cause", WriteSpoil::SilenceCause),
    ("write-file-untold", WriteSpoil::FileUntold),
    ("write-input-read", WriteSpoil::InputRead),
    ("write-status", WriteSpoil::Status),
    ("write-old-answers-kept", WriteSpoil::OldKept),
    ("write-old-answers-counted", WriteSpoil::OldCounted),
    ("write-old-answers-before", WriteSpoil::OldBefore),
    ("write-answers-lost", WriteSpoil::AnswersLost),
];

impl WriteSpoil {
    pub fn names() -> impl Iterator<Item = String> {
        NAMES.iter().map(|(name, _)| String::from(*name))
    }

    pub fn named(name: &str) -> Option<WriteSpoil> {
        let found = NAMES.iter().find(|(known, _)| *known == name);
        found.map(|(_, spoil)| *spoil)
    }

    /// Spoils a run of this service with this on standard input.
    pub fn apply(self, service: Service, sheet: &[u8], seen: &mut Printed) {
        match (seen.output.is_empty(), service) {
            (false, Service::Answers) => self.answers(sheet, seen),
            (false, _) => self.written(seen),
            (true, _) => self.told(seen),
        }
        match (self, &mut seen.left) {
            (WriteSpoil::InputRead, Some(left)) => *left = left.saturating_sub(1),
            (WriteSpoil::Status, _) => seen.status = Some(1),
            _ => {}
        }
    }

    fn written(self, seen: &mut Printed) {
        let last = last_record(&seen.output);
        match self {
            WriteSpoil::Byte => change_last(&mut seen.output),
            WriteSpoil::Cut => drop(seen.output.pop()),
            WriteSpoil::More => seen.output.push(b'\n'),
            WriteSpoil::LastKind => seen.output[last + 4] -= 1,
            WriteSpoil::Length => seen.output[last] ^= 1,
            WriteSpoil::Refused => {
                seen.output.clear();
                seen.error = refused(Refusal::new(3, 0)).into_bytes();
            }
            _ => {}
        }
    }

    /// A sheet that got its answers: an older record 4 taken for more than it is.
    fn answers(self, sheet: &[u8], seen: &mut Printed) {
        let old = part(sheet, 4);
        let last = last_record(&seen.output);
        match (self, old) {
            (WriteSpoil::AnswersLost, _) => seen.output.truncate(last),
            (WriteSpoil::OldKept, Ok(_)) => seen.output = sheet.to_vec(),
            (WriteSpoil::OldBefore, Ok(old)) => {
                let record = &sheet[old.start..];
                seen.output.splice(last..last, record.iter().copied());
            }
            (WriteSpoil::OldCounted, Ok(old)) => {
                let commands = part(sheet, 3).map_or(0, |part| part.payload.len());
                if old.payload.len() > commands {
                    seen.output.clear();
                    seen.error = refused(Refusal::new(10, old.start)).into_bytes();
                }
            }
            _ => {}
        }
    }

    /// A refusal's line, or that of a file.
    fn told(self, seen: &mut Printed) {
        let refusal = seen.error.starts_with(b"REFUSED ");
        match self {
            WriteSpoil::RefusalOnOutput if refusal => seen.output.append(&mut seen.error),
            WriteSpoil::RefusalLost if refusal => seen.error.clear(),
            WriteSpoil::RefusalWrites if refusal => seen.output.push(0),
            WriteSpoil::PlaceInPart => in_part(&mut seen.error),
            WriteSpoil::SilenceCause => silence_as_next_state(&mut seen.error),
            WriteSpoil::FileUntold if !refusal => seen.error.clear(),
            _ => {}
        }
    }
}

/// The start of a sheet's last record.
fn last_record(sheet: &[u8]) -> usize {
    let parts = read(sheet, 0).unwrap_or_default();
    let last = parts.iter().flatten().last();
    last.map_or(0, |part| part.start)
}

/// The place of a next state counted from the machine's first byte.
fn in_part(line: &mut Vec<u8>) {
    other_line(line, "REFUSED 4 at ", |place| {
        let place: usize = place.parse().unwrap_or_default();
        format!("REFUSED 4 at {} next state\n", place.saturating_sub(HEADER))
    });
}
