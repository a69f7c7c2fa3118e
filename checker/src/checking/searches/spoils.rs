// Ways to spoil what `bench word` wrote.

use super::wrong::Wrong;
use crate::checking::process::Printed;
use crate::checking::spoil::silence_as_next_state;
use crate::checks::load;
use crate::lines::{refused, searched};
use crate::reading::part;
use crate::refusal::Refusal;
use crate::searching::{search, with_word};
use crate::sheet::record;

#[derive(Clone, Copy, Debug, PartialEq, Eq)]
pub enum WordSpoil {
    Wrong(Wrong),
    Lost,
    Invented,
    LineOnly,
    LineCut,
    LineOnOutput,
    LineLost,
    NoneOnOutput,
    Alone,
    RestKept,
    RecordKept,
    RecordMissed,
    RefusalOnOutput,
    RefusalLost,
    SilenceCause,
    Status,
}

/// The names on the command line.
const NAMES: [(&str, WordSpoil); 19] = [
    ("word-later", WordSpoil::Wrong(Wrong::Later)),
    ("word-longer", WordSpoil::Wrong(Wrong::Longer)),
    ("word-shorter", WordSpoil::Wrong(Wrong::Shorter)),
    (
        "word-not-separating",
        WordSpoil::Wrong(Wrong::NotSeparating),
    ),
    ("word-lost", WordSpoil::Lost),
    ("word-invented", WordSpoil::Invented),
    ("word-line-only", WordSpoil::LineOnly),
    ("word-line-cut", WordSpoil::LineCut),
    ("word-line-on-output", WordSpoil::LineOnOutput),
    ("word-line-lost", WordSpoil::LineLost),
    ("word-none-on-output", WordSpoil::NoneOnOutput),
    ("word-alone", WordSpoil::Alone),
    ("word-rest-kept", WordSpoil::RestKept),
    ("word-record-kept", WordSpoil::RecordKept),
    ("word-record-missed", WordSpoil::RecordMissed),
    ("word-refusal-on-output", WordSpoil::RefusalOnOutput),
    ("word-refusal-lost", WordSpoil::RefusalLost),
    ("word-silence-cause", WordSpoil::SilenceCause),
    ("word-status", WordSpoil::Status),
];

impl WordSpoil {
    pub fn names() -> impl Iterator<Item = String> {
        NAMES.iter().map(|(name, _)| String::from(*name))
    }

    pub fn named(name: &str) -> Option<WordSpoil> {
        let found = NAMES.iter().find(|(known, _)| *known == name);
        found.map(|(_, spoil)| *spoil)
    }

    /// Spoils a run on this sheet.
    pub fn apply(self, sheet: &[u8], seen: &mut Printed) {
        match search(sheet) {
            Err(_) => self.refusal(seen),
            Ok(None) => self.none(sheet, seen),
            Ok(Some(word)) => self.found(sheet, &word, seen),
        }
        if self == WordSpoil::Status {
            seen.status = Some(1);
        }
    }

    fn refusal(self, seen: &mut Printed) {
        match self {
            WordSpoil::RefusalOnOutput => seen.output.append(&mut seen.error),
            WordSpoil::RefusalLost => seen.error.clear(),
            WordSpoil::SilenceCause => silence_as_next_state(&mut seen.error),
            _ => {}
        }
    }

    fn none(self, sheet: &[u8], seen: &mut Printed) {
        match self {
            WordSpoil::Invented => tell(sheet, &[0], seen),
            WordSpoil::NoneOnOutput => seen.output.append(&mut seen.error),
            _ => {}
        }
    }

    fn found(self, sheet: &[u8], word: &[u8], seen: &mut Printed) {
        let other = match self {
            WordSpoil::Wrong(way) => load(sheet).ok().and_then(|it| way.word(&it, word)),
            _ => None,
        };
        if let Some(other) = other {
            tell(sheet, &other, seen);
        }
        match self {
            WordSpoil::Lost => {
                seen.output.clear();
                seen.error = searched(None).into_bytes();
            }
            WordSpoil::LineOnly => seen.error = searched(Some(&[word, &[0]].concat())).into_bytes(),
            WordSpoil::LineCut => drop(seen.error.pop()),
            WordSpoil::LineOnOutput => seen.output.append(&mut seen.error),
            WordSpoil::LineLost => seen.error.clear(),
            WordSpoil::Alone => seen.output = record(2, word),
            _ => self.records(sheet, seen),
        }
    }

    /// What stands behind the machine, taken for more than it is.
    fn records(self, sheet: &[u8], seen: &mut Printed) {
        let given = part(sheet, 2);
        match (self, given) {
            (WordSpoil::RestKept, _) => {
                let rest = [3, 4].map(|kind| part(sheet, kind));
                let kept = rest.into_iter().flatten();
                kept.for_each(|it| {
                    seen.output
                        .extend(&sheet[it.start..it.offset(it.payload.len())])
                });
            }
            (WordSpoil::RecordKept, Ok(given)) => {
                seen.output = with_word(sheet, given.payload);
            }
            (WordSpoil::RecordMissed, Err(_)) => {
                seen.output.clear();
                seen.error = refused(Refusal::new(2, sheet.len())).into_bytes();
            }
            _ => {}
        }
    }
}

/// The run tells this word.
fn tell(sheet: &[u8], word: &[u8], seen: &mut Printed) {
    seen.output = with_word(sheet, word);
    seen.error = searched(Some(word)).into_bytes();
}
