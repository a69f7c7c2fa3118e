// Ways to spoil what the program `cases` wrote.

use super::spoiled_answer::spoil_answer;
use super::spoiled_answer::Change::{
    self, Answer, Byte, Command, Dropped, LentByte, Middle, More, Moved, OtherWord, Unheard, Words,
    Writing,
};
use super::spoiled_run::{answer_kept, comment_lost, count_more, newline_lost, too_long_taken};
use super::spoiled_writing::WritingChange::{InPart, LastKind, RoomFirst};
use crate::checking::process::Printed;
use crate::checking::searches::Wrong;

/// One of the ways, by its place in the two tables.
#[derive(Clone, Copy, Debug, PartialEq, Eq)]
pub struct CasesSpoil(usize);

/// A name, how the case begins, its numbers without needless zeros, and what
/// becomes of the first answer to which the way applies.
const ANSWERS: [(&str, &str, Change); 89] = [
    ("built-length", "build", More("built ")),
    ("built-byte", "build", Byte("built ")),
    ("byte-behind-built", "build", LentByte("built ")),
    ("build-cause", "build", Words("refused 8 ", "refused 6 ")),
    (
        "build-silence-cause",
        "build",
        Words("refused 12 ", "refused 4 "),
    ),
    ("build-needs", "build", More("refused 9 at ")),
    ("refused-build-writes", "build", LentByte("refused ")),
    ("part-from", "part", Moved("")),
    ("empty-part-from", "part", Moved(" | -")),
    ("part-size", "part", More(" size ")),
    ("part-byte", "part", Byte("from ")),
    ("refused-part-from", "part", Words("from 0 ", "from 6 ")),
    ("refusal-number", "refusal", Words("refused 2", "refused 1")),
    ("refusal-place", "refusal", More(" at ")),
    ("refusal-lost", "refusal", Answer("refused ", "none")),
    (
        "refusal-invented",
        "refusal",
        Answer("none", "refused 2 at 0"),
    ),
    ("kind-cut", "refusal 257 ", Answer("refused 2 ", "none")),
    ("transfer-command", "transfer", Command),
    (
        "transfer-longer",
        "transfer",
        Words("commands -", "commands 0"),
    ),
    ("transfer-lost", "transfer", Answer("commands ", "none")),
    (
        "transfer-invented",
        "transfer",
        Answer("none", "commands -"),
    ),
    ("transfer-place", "transfer", More("refused 4 at ")),
    (
        "transfer-silence-cause",
        "transfer",
        Words("refused 12 ", "refused 4 "),
    ),
    (
        "transfer-silence-taken",
        "transfer",
        Answer("refused 12 ", "commands -"),
    ),
    ("desk-first-command", "desk", More("command ")),
    ("desk-home-count", "desk", More("home after ")),
    ("desk-stranger-place", "desk", More("stranger at ")),
    (
        "desk-home-for-stranger",
        "desk",
        Middle("stranger at ", "home after "),
    ),
    (
        "desk-stranger-for-home",
        "desk",
        Middle("home after ", "stranger at "),
    ),
    (
        "desk-drives-on",
        "desk",
        Middle("home after 3 home", "home after 3 command 0 home"),
    ),
    ("desk-end-lost", "desk", Dropped(" home after")),
    ("desk-end-once", "desk", Dropped(" stranger at")),
    ("desk-last-order", "desk", Dropped(" command")),
    ("desk-cause", "desk", Words("refused 8 ", "refused 6 ")),
    ("desk-place", "desk", More("refused 8 at ")),
    (
        "desk-silence-cause",
        "desk",
        Words("refused 12 ", "refused 4 "),
    ),
    ("desk-taken", "desk", Answer("refused ", "command 0")),
    ("desk-refused", "desk", Answer("command ", "refused 2 at 0")),
    ("word-later", "word", OtherWord(Wrong::Later)),
    ("word-longer", "word", OtherWord(Wrong::Longer)),
    ("word-shorter", "word", OtherWord(Wrong::Shorter)),
    (
        "word-not-separating",
        "word",
        OtherWord(Wrong::NotSeparating),
    ),
    ("word-lost", "word", Answer("word ", "none")),
    ("word-invented", "word", Answer("none", "word 0")),
    ("word-cause", "word", Words("refused 3 ", "refused 4 ")),
    ("word-place", "word", More("refused 4 at ")),
    (
        "word-silence-cause",
        "word",
        Words("refused 12 ", "refused 4 "),
    ),
    ("word-taken", "word", Answer("refused ", "none")),
    ("word-refused", "word", Answer("word ", "refused 2 at 0")),
    ("write-length", "write", More("written ")),
    ("write-byte", "write", Byte("written ")),
    ("write-behind", "write", LentByte("written ")),
    ("write-last-kind", "write", Writing(LastKind)),
    ("write-needs", "write", More("refused 9 at ")),
    (
        "write-room-before-answers",
        "write",
        Writing(RoomFirst("refused 10 ")),
    ),
    (
        "write-room-before-all",
        "write",
        Writing(RoomFirst("refused ")),
    ),
    ("write-place-in-part", "write", Writing(InPart)),
    ("write-answers-place", "write", More("refused 10 at ")),
    ("write-refused-writes", "write", LentByte("refused ")),
    ("write-room-writes", "write", LentByte("refused 9 ")),
    (
        "write-shape-cause",
        "write",
        Words("refused 3 ", "refused 4 "),
    ),
    (
        "write-silence-cause",
        "write",
        Words("refused 12 ", "refused 4 "),
    ),
    ("write-pair", "write", More("refused 6 at ")),
    ("write-word-place", "write", More("refused 5 at ")),
    ("write-sequence-place", "write", More("refused 7 at ")),
    (
        "write-unseparated",
        "write",
        Words("refused 6 at 1 ", "written 1 "),
    ),
    ("write-refused", "write", Words("written ", "refused 9 at ")),
    ("write-taken", "write", Words("refused 10 at ", "written ")),
    ("house-next", "house 3 2 ", More("next ")),
    ("house-answer", "house 255 255 ", More("answer ")),
    ("limits", "limits", More("sequence ")),
    ("column", "unreadable", More("unreadable at ")),
    ("unreadable-answered", "unreadable", Answer("", "none")),
    (
        "certified",
        "certify",
        Words("certified ", "open 1 recognised "),
    ),
    ("recognised", "certify", More(" recognised ")),
    ("open-number", "certify", More("open ")),
    ("mark", "certify", Byte("open ")),
    ("byte-behind-marks", "certify", LentByte("certified ")),
    ("certify-silence-place", "certify", More("refused 12 at ")),
    ("end-state", "judge", More(" end ")),
    ("wrong-given", "judge", More(" got ")),
    (
        "wrong-for-unheard",
        "judge",
        Words("unheard at ", "wrong at "),
    ),
    ("unheard-for-wrong", "judge", Unheard),
    ("unheard-place", "judge", More("unheard at ")),
    ("unheard-mark", "judge", Byte("unheard ")),
    ("silence-writes", "judge", LentByte("refused 12 ")),
    ("unfinished", "judge", More("unfinished ")),
    ("not-certified", "judge", More("refused 11 at ")),
    ("refused-judge-writes", "judge", LentByte("refused 10 ")),
];

/// Gets the input and all that was printed.
type Whole = fn(&[u8], &mut Printed);

/// Names and what becomes of a whole run.
const WHOLE: [(&str, Whole); 8] = [
    ("count", |_, seen| count_more(seen)),
    ("comment-lost", comment_lost),
    ("old-answer-kept", answer_kept),
    ("last-newline", |_, seen| newline_lost(seen)),
    ("on-error", |_, seen| seen.error.push(b'\n')),
    ("status", |_, seen| seen.status = Some(1)),
    ("too-long-taken", too_long_taken),
    ("too-long-untold", |_, seen| seen.error.clear()),
];

impl CasesSpoil {
    pub fn names() -> impl Iterator<Item = String> {
        let answers = ANSWERS.iter().map(|way| way.0);
        let all = answers.chain(WHOLE.iter().map(|way| way.0));
        all.map(|name| format!("cases-{name}"))
    }

    pub fn named(name: &str) -> Option<CasesSpoil> {
        let place = CasesSpoil::names().position(|known| known == name);
        place.map(CasesSpoil)
    }

    pub fn apply(self, input: &[u8], seen: &mut Printed) {
        match ANSWERS.get(self.0) {
            Some(&(_, case, change)) => spoil_answer(&mut seen.output, case, change),
            None => WHOLE[self.0 - ANSWERS.len()].1(input, seen),
        }
    }
}
