// The lines that the program prints, newline included.

use crate::certifying::Certificate;
use crate::desk::Order;
use crate::judging::Verdict;
use crate::refusal::Refusal;
use crate::searching::MOST_FOUND;
use crate::words::Mistake;

/// What `bench help` writes.
pub const HELP: &str = "\
bench, bench judge      judge the sheet on standard input: PASS, WRONG, UNHEARD, UNFINISHED or REFUSED
bench certify           certify the sequence of the sheet on standard input: CERTIFIED, OPEN or REFUSED
bench word              find a separating word for the machine of the sheet on standard input: \
                        the sheet with it as record 2; WORD, NONE or REFUSED on standard error
bench build             build the sequence of the sheet on standard input: the sheet with it as record 3
bench read KIND         read the sheet on standard input: the payload of record 1 machine, 2 word, 3 sequence, 4 answers
bench write MACHINE WORD [SEQUENCE [ANSWERS]]  \
                        write the sheet of the payloads in these files, as bench read gives them
bench answers FILE      put the answers in that file into the sheet on standard input: \
                        the sheet with them as record 4
bench desk SHEET        bring a unit to its start by the sheet in that file: COMMAND, answers on standard input, \
                        HOME or STRANGER
bench house             the house unit's sheet: machine and word
bench help, --help, -h  these lines
";

/// The line of wrong words.
pub fn mistaken(mistake: Mistake) -> String {
    let phrase = mistake.phrase();
    format!("bench: {phrase}; bench help lists the services\n")
}

pub fn refused(refusal: Refusal) -> String {
    let phrase = refusal.phrase().map(|text| format!(" {text}"));
    let (number, place) = (refusal.number, refusal.place);
    format!(
        "REFUSED {number} at {place}{}\n",
        phrase.unwrap_or_default()
    )
}

/// The line of `bench judge`.
pub fn judged(outcome: Result<Verdict, Refusal>) -> String {
    match outcome {
        Err(refusal) => refused(refusal),
        Ok(Verdict::Pass { length, end }) => format!("PASS {length} end {end}\n"),
        Ok(Verdict::Wrong { place, want, got }) => {
            format!("WRONG at {place} want {want} got {got}\n")
        }
        Ok(Verdict::Unheard { place }) => format!("UNHEARD at {place}\n"),
        Ok(Verdict::Unfinished { answers }) => format!("UNFINISHED {answers}\n"),
    }
}

/// The line of `bench certify` (§8.1).
pub fn certified(outcome: Result<Certificate, Refusal>) -> String {
    match outcome {
        Err(refusal) => refused(refusal),
        Ok(certificate) => {
            let recognised = certificate.recognised;
            match certificate.open {
                None => format!("CERTIFIED {recognised}\n"),
                Some(open) => format!("OPEN {open} recognised {recognised}\n"),
            }
        }
    }
}

/// The line of an order of `bench desk` (§8.1).
pub fn ordered(order: Order) -> String {
    match order {
        Order::Command(command) => format!("COMMAND {command}\n"),
        Order::Home(commands) => format!("HOME after {commands}\n"),
        Order::Stranger(answer) => format!("STRANGER at {answer}\n"),
    }
}

/// The line of `bench word` where nothing is refused (§14).
pub fn searched(found: Option<&[u8]>) -> String {
    match found {
        None => format!("NONE of 1 to {MOST_FOUND} commands\n"),
        Some(word) => {
            let commands: Vec<String> = word.iter().map(u8::to_string).collect();
            format!("WORD {}\n", commands.join(" "))
        }
    }
}
