// Ways to spoil what `bench desk` wrote, in a run on a whole input and in a talk
// line by line.

use crate::checking::process::{Printed, LIMIT};
use crate::checking::spoil::silence_as_next_state;
use crate::checking::visitors::Visitor;
use crate::dialogue::{ENDED, NO_ANSWER, TOO_LONG, TOO_MANY};
use std::time::Duration;

#[derive(Clone, Copy, Debug, PartialEq, Eq)]
pub enum DeskSpoil {
    Command,
    HomeForStranger,
    HomeCount,
    StrangerPlace,
    CommandRepeated,
    Untold,
    ToldTwice,
    ToldOnOutput,
    StopUntold,
    StopChanged,
    StopEnds,
    ReadsOn,
    ReadsLess,
    RefusalOnError,
    SilenceCause,
    ReasonLost,
    Status,
    TalkCommand,
    TalkEnd,
    TalkUntold,
    TalkSilent,
    TalkStrays,
}

/// The names on the command line.
const NAMES: [(&str, DeskSpoil); 22] = [
    ("desk-command", DeskSpoil::Command),
    ("desk-home-for-stranger", DeskSpoil::HomeForStranger),
    ("desk-home-count", DeskSpoil::HomeCount),
    ("desk-stranger-place", DeskSpoil::StrangerPlace),
    ("desk-command-repeated", DeskSpoil::CommandRepeated),
    ("desk-untold", DeskSpoil::Untold),
    ("desk-told-twice", DeskSpoil::ToldTwice),
    ("desk-told-on-output", DeskSpoil::ToldOnOutput),
    ("desk-stop-untold", DeskSpoil::StopUntold),
    ("desk-stop-changed", DeskSpoil::StopChanged),
    ("desk-stop-ends", DeskSpoil::StopEnds),
    ("desk-reads-on", DeskSpoil::ReadsOn),
    ("desk-reads-less", DeskSpoil::ReadsLess),
    ("desk-refusal-on-error", DeskSpoil::RefusalOnError),
    ("desk-silence-cause", DeskSpoil::SilenceCause),
    ("desk-reason-lost", DeskSpoil::ReasonLost),
    ("desk-status", DeskSpoil::Status),
    ("desk-talk-command", DeskSpoil::TalkCommand),
    ("desk-talk-end", DeskSpoil::TalkEnd),
    ("desk-talk-untold", DeskSpoil::TalkUntold),
    ("desk-talk-silent", DeskSpoil::TalkSilent),
    ("desk-talk-strays", DeskSpoil::TalkStrays),
];

/// So long is waited for a line that never comes.
const SOON: Duration = Duration::from_millis(500);

impl DeskSpoil {
    pub fn names() -> impl Iterator<Item = String> {
        NAMES.iter().map(|(name, _)| String::from(*name))
    }

    pub fn named(name: &str) -> Option<DeskSpoil> {
        let found = NAMES.iter().find(|(known, _)| *known == name);
        found.map(|(_, spoil)| *spoil)
    }

    pub fn limit(self) -> Duration {
        match self {
            DeskSpoil::TalkSilent => SOON,
            _ => LIMIT,
        }
    }

    /// Spoils a run on a whole input.
    pub fn whole(self, seen: &mut Printed) {
        let (output, error) = (&mut seen.output, &mut seen.error);
        match self {
            DeskSpoil::Command => replace(output, "COMMAND 0", "COMMAND 1"),
            DeskSpoil::HomeForStranger => replace(output, "STRANGER at", "HOME after"),
            DeskSpoil::HomeCount => replace(output, "HOME after ", "HOME after 1"),
            DeskSpoil::StrangerPlace => replace(output, "STRANGER at ", "STRANGER at 1"),
            DeskSpoil::CommandRepeated if error.starts_with(NO_ANSWER.as_bytes()) => {
                replace(output, "COMMAND 0\n", "COMMAND 0\nCOMMAND 0\n");
            }
            DeskSpoil::Untold => replace(error, NO_ANSWER, ""),
            DeskSpoil::ToldTwice => replace(error, NO_ANSWER, &NO_ANSWER.repeat(2)),
            DeskSpoil::ToldOnOutput => output.append(error),
            DeskSpoil::StopUntold => replace(error, ENDED, ""),
            DeskSpoil::StopChanged => replace(error, TOO_MANY, TOO_LONG),
            DeskSpoil::StopEnds if error.ends_with(b"ended\n") => output.extend(b"STRANGER at 0\n"),
            DeskSpoil::ReadsOn => seen.left = seen.left.map(|left| left.saturating_sub(1)),
            DeskSpoil::ReadsLess => seen.left = seen.left.map(|left| left + 1),
            DeskSpoil::RefusalOnError if output.starts_with(b"REFUSED") => error.append(output),
            DeskSpoil::SilenceCause => silence_as_next_state(output),
            DeskSpoil::ReasonLost => replace(error, "No such file or directory", "not read"),
            DeskSpoil::Status => seen.status = Some(1),
            _ => {}
        }
    }

    /// Spoils a line of standard output in a talk.
    pub fn line(self, line: &mut Vec<u8>) {
        match self {
            DeskSpoil::TalkCommand => replace(line, "COMMAND 0", "COMMAND 1"),
            DeskSpoil::TalkEnd => replace(line, "HOME", "STRANGER"),
            _ => {}
        }
    }

    /// Spoils a line of standard error in a talk.
    pub fn told(self, line: &mut Vec<u8>) {
        if self == DeskSpoil::TalkUntold {
            line.clear();
        }
    }

    /// Whether a line is kept back in a talk, so that none comes.
    pub fn keeps_back(self) -> bool {
        self == DeskSpoil::TalkSilent
    }

    /// Moves the unit behind the desk's back: only the promise can notice.
    pub fn visitor(self, visitor: &mut Visitor) {
        if self == DeskSpoil::TalkStrays {
            visitor.state += 1;
        }
    }
}

/// The first of these words by others.
fn replace(bytes: &mut Vec<u8>, words: &str, others: &str) {
    let mut windows = bytes.windows(words.len());
    if let Some(place) = windows.position(|window| window == words.as_bytes()) {
        bytes.splice(place..place + words.len(), others.bytes());
    }
}
