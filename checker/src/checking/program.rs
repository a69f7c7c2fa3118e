// The program against the model: for a sheet or for words, its output, error
// output and exit status, and whether it left its input alone.

use super::compare::Comparer;
use super::desks::{wanted, Wanted};
use super::difference::{Case, Difference};
use super::kinds;
use super::named_files::contents;
use super::process::{on_pipe, on_sheet, Printed, LIMIT};
use super::searches::outcome;
use super::spoil::Spoil;
use crate::building::build_sheet;
use crate::known::house_sheet;
use crate::lines;
use crate::machine::LONGEST_SEQUENCE;
use crate::random::Random;
use crate::reading::payload;
use crate::refusal::Refusal;
use crate::searching::{search, with_word};
use crate::words::{service, Service, Word};
use crate::writing::{with_answers, write, MOST_NEEDED};
use std::io;
use std::path::Path;

/// The program's name in its directory.
pub const NAME: &str = "bench";

/// The choices made for a sheet that goes to the program.
fn choices(case: &Case) -> Random {
    Random::at(case.seed, 3, case.index)
}

/// Judging, with its word or without one.
fn judge(random: &mut Random) -> Vec<Word> {
    match random.below(2) {
        0 => Vec::new(),
        _ => vec![b"judge".to_vec()],
    }
}

impl Comparer {
    /// Gives the sheet to the five services that take one on standard input.
    pub fn services(&mut self, case: &Case, directory: &Path) -> Result<(), Difference> {
        let mut random = choices(case);
        let lines = [
            judge(&mut random),
            vec![b"certify".to_vec()],
            vec![b"word".to_vec()],
            vec![b"build".to_vec()],
            vec![b"read".to_vec(), kinds::for_sheet(&mut random)],
        ];
        lines
            .iter()
            .try_for_each(|words| self.program(case, directory, words))
    }

    /// Gives the sheet to judging alone.
    pub fn judging(&mut self, case: &Case, directory: &Path) -> Result<(), Difference> {
        self.program(case, directory, &judge(&mut choices(case)))
    }

    /// One run with these words; the sheet is on standard input. Where it must
    /// not be read, it has to fit in a pipe.
    pub fn program(
        &mut self,
        case: &Case,
        directory: &Path,
        words: &[Word],
    ) -> Result<(), Difference> {
        self.printing(case, directory, words).map(drop)
    }

    /// The same; gives what was printed.
    pub fn printing(
        &mut self,
        case: &Case,
        directory: &Path,
        words: &[Word],
    ) -> Result<Printed, Difference> {
        let want = self.printed(words, &case.sheet);
        self.run(case, directory, words, &want)
    }

    /// One run that has to print this; gives what it printed.
    pub fn run(
        &mut self,
        case: &Case,
        directory: &Path,
        words: &[Word],
        want: &Printed,
    ) -> Result<Printed, Difference> {
        let mut got = self
            .started(&directory.join(NAME), words, &case.sheet, want)
            .map_err(|error| differs(case, words, want, &error.to_string()))?;
        if let Some(spoil) = self.spoil {
            spoil.program(service(words), &case.sheet, &mut got);
        }
        self.count(words, &got);
        if got == *want {
            return Ok(got);
        }
        Err(differs(case, words, want, &shown(&got)))
    }

    /// Whether a sheet on standard input is read: not where words are wrong, nor
    /// where a file that comes before it cannot be read.
    pub fn reads_sheet(&mut self, words: &[Word]) -> bool {
        self.printed(words, &[]).left.is_none()
    }

    fn count(&mut self, words: &[Word], got: &Printed) {
        let asked = service(words);
        self.counts.asked(words, asked);
        match asked {
            Ok(Service::Judge) => self.counts.lines.meet("judge", &line_name(&got.output)),
            Ok(Service::Certify) => self.counts.lines.meet("certify", &line_name(&got.output)),
            Ok(Service::Word) => self.counts.words.meet("word", &outcome(&got.error)),
            Ok(Service::Build) => self.counts.built_or_refused(refusal_number(&got.error)),
            Ok(Service::Read(_)) => self.counts.read_or_refused(refusal_number(&got.error)),
            Ok(Service::Write) => self.counts.writings.meet("write", &told_name(got)),
            Ok(Service::Answers) => self.counts.writings.meet("answers", &told_name(got)),
            _ => {}
        }
    }

    /// Runs the program on the sheet; where no sheet is to be read, what is left of
    /// it counts.
    fn started(
        &self,
        program: &Path,
        words: &[Word],
        sheet: &[u8],
        want: &Printed,
    ) -> io::Result<Printed> {
        if want.left.is_none() {
            return on_sheet(program, words, sheet);
        }
        let words = self.spoil.map_or(words, |spoil| spoil.words(words));
        let limit = self.spoil.map_or(LIMIT, Spoil::limit);
        // A dialogue may need the end of its input; no other service awaits it.
        let open = service(words) != Ok(Service::Desk);
        on_pipe(program, words, sheet, limit, open)
    }

    /// What the program should print.
    fn printed(&mut self, words: &[Word], sheet: &[u8]) -> Printed {
        let mut marks = vec![0; LONGEST_SEQUENCE + 1];
        match service(words) {
            Ok(Service::Judge) => {
                let outcome = self.certifier.verdict(sheet, &mut marks);
                printed(lines::judged(outcome), "", None)
            }
            Ok(Service::Certify) => {
                let outcome = self.certifier.certificate(sheet, &mut marks);
                printed(lines::certified(outcome), "", None)
            }
            Ok(Service::Word) => searched(sheet),
            Ok(Service::Build) => bytes_or_refusal(build_sheet(sheet)),
            Ok(Service::Read(kind)) => bytes_or_refusal(payload(sheet, kind).map(Vec::from)),
            Ok(Service::Write) => written(&words[1..], sheet),
            Ok(Service::Answers) => answered(&words[1], sheet),
            Ok(Service::Desk) => desk(&words[1], sheet),
            Ok(Service::House) => printed(house_sheet(), "", Some(sheet)),
            Ok(Service::Help) => printed(lines::HELP, "", Some(sheet)),
            Err(mistake) => printed("", lines::mistaken(mistake), Some(sheet)),
        }
    }
}

/// Both outputs, status 0, and all of the input left if it is given.
fn printed(output: impl Into<Vec<u8>>, error: impl Into<Vec<u8>>, left: Option<&[u8]>) -> Printed {
    Printed {
        output: output.into(),
        error: error.into(),
        status: Some(0),
        left: left.map(<[u8]>::len),
    }
}

/// A dialogue on this input, with the file of this name; here no line is so long
/// that it is open how far it is read.
fn desk(name: &[u8], input: &[u8]) -> Printed {
    let Wanted {
        output,
        error,
        read,
    } = wanted(name, input);
    printed(output, error, Some(&input[*read.end()..]))
}

/// Bytes go to standard output, a refusal's line to standard error.
pub fn bytes_or_refusal(outcome: Result<Vec<u8>, Refusal>) -> Printed {
    match outcome {
        Ok(bytes) => printed(bytes, "", None),
        Err(refusal) => printed("", lines::refused(refusal), None),
    }
}

/// The sheet of the payloads in these files, the first that cannot be read being
/// told; standard input is left alone.
fn written(names: &[Word], input: &[u8]) -> Printed {
    let files = names.iter().map(|name| contents(name, MOST_NEEDED));
    match files.collect::<Result<Vec<_>, _>>() {
        Ok(payloads) => wrote(&payloads, input),
        Err(told) => printed("", told, Some(input)),
    }
}

/// The same for files that hold these payloads.
pub fn wrote(payloads: &[Vec<u8>], input: &[u8]) -> Printed {
    Printed {
        left: Some(input.len()),
        ..bytes_or_refusal(write(payloads))
    }
}

/// The sheet with the answers in this file, which is read before the sheet.
fn answered(name: &[u8], sheet: &[u8]) -> Printed {
    match contents(name, MOST_NEEDED) {
        Ok(answers) => bytes_or_refusal(with_answers(sheet, &answers)),
        Err(told) => printed("", told, Some(sheet)),
    }
}

/// The sheet with the word goes to standard output, a line to standard error in
/// any case (§14).
fn searched(sheet: &[u8]) -> Printed {
    match search(sheet) {
        Err(refusal) => printed("", lines::refused(refusal), None),
        Ok(found) => {
            let bytes = found.as_deref().map(|word| with_word(sheet, word));
            let line = lines::searched(found.as_deref());
            printed(bytes.unwrap_or_default(), line, None)
        }
    }
}

/// The number in a REFUSED line, 0 if there is none.
fn refusal_number(line: &[u8]) -> u64 {
    let text = String::from_utf8_lossy(line);
    let number = text
        .strip_prefix("REFUSED ")
        .and_then(|rest| rest.split(' ').next());
    number.and_then(|digits| digits.parse().ok()).unwrap_or(0)
}

/// The name of a line: its first word, with the number of a refusal.
pub fn line_name(line: &[u8]) -> String {
    let text = String::from_utf8_lossy(line).to_lowercase();
    let words: Vec<&str> = text.split_whitespace().collect();
    match words[..] {
        ["refused", number, ..] => format!("refused {number}"),
        [first, ..] => String::from(first),
        [] => String::from("none"),
    }
}

/// The name of what a service that writes a sheet told.
fn told_name(got: &Printed) -> String {
    match (got.output.is_empty(), refusal_number(&got.error)) {
        (false, _) => String::from("written"),
        (true, 0) => String::from("file not read"),
        (true, number) => format!("refused {number}"),
    }
}

/// A run with these words printed something else.
pub fn differs(case: &Case, words: &[Word], want: &Printed, got: &str) -> Difference {
    let (words, want) = (spelled(words), shown(want));
    case.difference(&format!(
        "{words}: the model gives {want}\nthe program {got}"
    ))
}

/// The program's name and the words, each in quotes.
fn spelled(words: &[Word]) -> String {
    let quoted = words
        .iter()
        .map(|word| format!(" \"{}\"", word.escape_ascii()));
    format!("{NAME}{}", quoted.collect::<String>())
}

pub fn shown(printed: &Printed) -> String {
    let left = printed.left.map(|bytes| format!(" input left {bytes}"));
    format!(
        "output \"{}\" error \"{}\" status {:?}{}",
        printed.output.escape_ascii(),
        printed.error.escape_ascii(),
        printed.status,
        left.unwrap_or_default()
    )
}
