// The words behind the program's name: the service that they ask for, or the
// first mistake in them.

/// A longer word is a mistake.
pub const LONGEST: usize = 4095;

/// Every first word that names a service.
pub const NAMES: [&str; 12] = [
    "judge", "certify", "word", "build", "read", "write", "answers", "desk", "house", "help",
    "--help", "-h",
];

pub type Word = Vec<u8>;

#[derive(Clone, Copy, Debug, PartialEq, Eq)]
pub enum Service {
    Judge,
    Certify,
    Word,
    Build,
    Read(u16),
    /// The two to four words behind it name files.
    Write,
    /// The word behind it names a file.
    Answers,
    /// The word behind it names a file.
    Desk,
    House,
    Help,
}

/// The mistakes in the order in which they are looked for.
#[derive(Clone, Copy, Debug, PartialEq, Eq)]
pub enum Mistake {
    FirstEmpty,
    FirstLong,
    NoService,
    TooMany,
    TooFew,
    KindEmpty,
    KindLong,
    NoKind,
    SheetEmpty,
    SheetLong,
    FileEmpty,
    FileLong,
}

impl Mistake {
    pub const ALL: [Mistake; 12] = [
        Mistake::FirstEmpty,
        Mistake::FirstLong,
        Mistake::NoService,
        Mistake::TooMany,
        Mistake::TooFew,
        Mistake::KindEmpty,
        Mistake::KindLong,
        Mistake::NoKind,
        Mistake::SheetEmpty,
        Mistake::SheetLong,
        Mistake::FileEmpty,
        Mistake::FileLong,
    ];

    /// What the program's line says.
    pub fn phrase(self) -> &'static str {
        match self {
            Mistake::FirstEmpty | Mistake::KindEmpty | Mistake::SheetEmpty | Mistake::FileEmpty => {
                "an argument is empty"
            }
            Mistake::FirstLong | Mistake::KindLong | Mistake::SheetLong | Mistake::FileLong => {
                "an argument is longer than 4095 bytes"
            }
            Mistake::NoService => "the first argument names no service",
            Mistake::TooMany => "too many arguments for this service",
            Mistake::TooFew => "too few arguments for this service",
            Mistake::NoKind => "KIND is not a decimal number from 0 to 65535",
        }
    }

    /// A name of its own for each, for the counts.
    pub fn name(self) -> &'static str {
        match self {
            Mistake::FirstEmpty => "first word empty",
            Mistake::FirstLong => "first word too long",
            Mistake::NoService => "no service",
            Mistake::TooMany => "too many words",
            Mistake::TooFew => "too few words",
            Mistake::KindEmpty => "KIND empty",
            Mistake::KindLong => "KIND too long",
            Mistake::NoKind => "KIND no number",
            Mistake::SheetEmpty => "SHEET empty",
            Mistake::SheetLong => "SHEET too long",
            Mistake::FileEmpty => "FILE empty",
            Mistake::FileLong => "FILE too long",
        }
    }
}

/// What the words ask for; no word at all asks for judging.
pub fn service(words: &[Word]) -> Result<Service, Mistake> {
    let Some((first, rest)) = words.split_first() else {
        return Ok(Service::Judge);
    };
    length(first, Mistake::FirstEmpty, Mistake::FirstLong)?;
    let service = match first.as_slice() {
        b"judge" => Service::Judge,
        b"certify" => Service::Certify,
        b"word" => Service::Word,
        b"build" => Service::Build,
        b"house" => Service::House,
        b"help" | b"--help" | b"-h" => Service::Help,
        b"read" => return reading(rest),
        b"write" => return files(rest, 2, 4, Service::Write),
        b"answers" => return files(rest, 1, 1, Service::Answers),
        b"desk" => return desk(rest),
        _ => return Err(Mistake::NoService),
    };
    match rest {
        [] => Ok(service),
        _ => Err(Mistake::TooMany),
    }
}

/// The words behind `read`: one, which is KIND.
fn reading(rest: &[Word]) -> Result<Service, Mistake> {
    match rest {
        [] => Err(Mistake::TooFew),
        [kind] => {
            length(kind, Mistake::KindEmpty, Mistake::KindLong)?;
            decimal(kind).map(Service::Read).ok_or(Mistake::NoKind)
        }
        _ => Err(Mistake::TooMany),
    }
}

/// The words behind `desk`: one, which is SHEET, any file's name.
fn desk(rest: &[Word]) -> Result<Service, Mistake> {
    match rest {
        [] => Err(Mistake::TooFew),
        [sheet] => {
            length(sheet, Mistake::SheetEmpty, Mistake::SheetLong)?;
            Ok(Service::Desk)
        }
        _ => Err(Mistake::TooMany),
    }
}

/// The words behind `write` and `answers`: so many at least and at most, each of
/// them any file's name.
fn files(rest: &[Word], least: usize, most: usize, service: Service) -> Result<Service, Mistake> {
    if rest.len() < least {
        return Err(Mistake::TooFew);
    }
    if rest.len() > most {
        return Err(Mistake::TooMany);
    }
    let named = |name: &Word| length(name, Mistake::FileEmpty, Mistake::FileLong);
    rest.iter().try_for_each(named)?;
    Ok(service)
}

fn length(word: &[u8], empty: Mistake, long: Mistake) -> Result<(), Mistake> {
    match word.len() {
        0 => Err(empty),
        1..=LONGEST => Ok(()),
        _ => Err(long),
    }
}

/// The number, if every byte is a digit and it fits in 16 bits.
fn decimal(word: &[u8]) -> Option<u16> {
    word.iter().try_fold(0u16, |number, byte| {
        let digit = byte.is_ascii_digit().then(|| byte - b'0')?;
        number.checked_mul(10)?.checked_add(u16::from(digit))
    })
}

#[cfg(test)]
mod tests {
    use super::*;

    fn asked(words: &[&str]) -> Result<Service, Mistake> {
        let words: Vec<Word> = words.iter().map(|word| word.as_bytes().to_vec()).collect();
        service(&words)
    }

    fn zeros_before(count: usize, number: &str) -> String {
        format!("{}{number}", "0".repeat(count))
    }

    #[test]
    fn services() {
        assert_eq!(asked(&[]), Ok(Service::Judge));
        assert_eq!(asked(&["judge"]), Ok(Service::Judge));
        assert_eq!(asked(&["certify"]), Ok(Service::Certify));
        assert_eq!(asked(&["word"]), Ok(Service::Word));
        assert_eq!(asked(&["build"]), Ok(Service::Build));
        assert_eq!(asked(&["read", "3"]), Ok(Service::Read(3)));
        assert_eq!(asked(&["write", "3", "4"]), Ok(Service::Write));
        assert_eq!(asked(&["answers", "3"]), Ok(Service::Answers));
        assert_eq!(asked(&["desk", "3"]), Ok(Service::Desk));
        assert_eq!(asked(&["house"]), Ok(Service::House));
        for help in ["help", "--help", "-h"] {
            assert_eq!(asked(&[help]), Ok(Service::Help));
        }
        let named = NAMES.iter().map(|name| asked(&[name]));
        assert!(named.into_iter().all(|it| it != Err(Mistake::NoService)));
    }

    #[test]
    fn first_word() {
        assert_eq!(asked(&[""]), Err(Mistake::FirstEmpty));
        assert_eq!(asked(&["", "judge"]), Err(Mistake::FirstEmpty));
        for length in [4095, 4096, 5000] {
            let word = "x".repeat(length);
            let mistake = match length {
                4095 => Mistake::NoService,
                _ => Mistake::FirstLong,
            };
            assert_eq!(asked(&[&word]), Err(mistake));
            assert_eq!(asked(&[&word, "", "1"]), Err(mistake));
        }
        for word in [
            "Judge", "jud", "judges", "words", "wor", "reads", "writes", "writ", "answer", "-help",
            "--h", "help\n",
        ] {
            assert_eq!(asked(&[word]), Err(Mistake::NoService));
            assert_eq!(asked(&[word, "1", "1"]), Err(Mistake::NoService));
        }
    }

    #[test]
    fn number_of_words() {
        for name in [
            "judge", "certify", "word", "build", "house", "help", "--help", "-h",
        ] {
            assert_eq!(asked(&[name, ""]), Err(Mistake::TooMany));
            assert_eq!(asked(&[name, "1", "2"]), Err(Mistake::TooMany));
        }
        assert_eq!(asked(&["read"]), Err(Mistake::TooFew));
        assert_eq!(asked(&["read", "", ""]), Err(Mistake::TooMany));
        assert_eq!(asked(&["read", "x", "1"]), Err(Mistake::TooMany));
        assert_eq!(asked(&["desk"]), Err(Mistake::TooFew));
        assert_eq!(asked(&["desk", "", ""]), Err(Mistake::TooMany));
        assert_eq!(asked(&["desk", "x", "1"]), Err(Mistake::TooMany));
    }

    #[test]
    fn files() {
        let (long, longer) = ("x".repeat(4095), "x".repeat(4096));
        for count in 0..6 {
            let words = |name| [vec![name], vec!["x"; count]].concat();
            let write = match count {
                0..=1 => Err(Mistake::TooFew),
                2..=4 => Ok(Service::Write),
                _ => Err(Mistake::TooMany),
            };
            assert_eq!(asked(&words("write")), write);
            let answers = match count {
                0 => Err(Mistake::TooFew),
                1 => Ok(Service::Answers),
                _ => Err(Mistake::TooMany),
            };
            assert_eq!(asked(&words("answers")), answers);
        }
        assert_eq!(asked(&["write", ""]), Err(Mistake::TooFew));
        assert_eq!(asked(&["write", "", "", "", "", ""]), Err(Mistake::TooMany));
        assert_eq!(asked(&["answers", "", &longer]), Err(Mistake::TooMany));
        assert_eq!(asked(&["answers", ""]), Err(Mistake::FileEmpty));
        assert_eq!(asked(&["answers", &long]), Ok(Service::Answers));
        assert_eq!(asked(&["answers", &longer]), Err(Mistake::FileLong));
        assert_eq!(asked(&["write", &long, &long]), Ok(Service::Write));
        let first = asked(&["write", "x", &longer, ""]);
        assert_eq!(first, Err(Mistake::FileLong));
        let first = asked(&["write", "x", "x", "", &longer]);
        assert_eq!(first, Err(Mistake::FileEmpty));
    }

    #[test]
    fn sheets() {
        let sheet = |word: &str| asked(&["desk", word]);
        for word in ["3", "desk", " ", "\n", "/", "..", "\u{e9}"] {
            assert_eq!(sheet(word), Ok(Service::Desk));
        }
        assert_eq!(sheet(""), Err(Mistake::SheetEmpty));
        assert_eq!(sheet(&"x".repeat(4095)), Ok(Service::Desk));
        assert_eq!(sheet(&"x".repeat(4096)), Err(Mistake::SheetLong));
    }

    #[test]
    fn kinds() {
        let kind = |word: &str| asked(&["read", word]);
        for (word, number) in [("0", 0), ("7", 7), ("0003", 3), ("65535", 65535)] {
            assert_eq!(kind(word), Ok(Service::Read(number)));
        }
        assert_eq!(kind(&zeros_before(4000, "3")), Ok(Service::Read(3)));
        assert_eq!(kind(&zeros_before(4094, "3")), Ok(Service::Read(3)));
        assert_eq!(kind(&zeros_before(4095, "3")), Err(Mistake::KindLong));
        assert_eq!(kind(&"x".repeat(4096)), Err(Mistake::KindLong));
        assert_eq!(kind(""), Err(Mistake::KindEmpty));
        for word in ["65536", "65539", "4294967299", "18446744073709551619"] {
            assert_eq!(kind(word), Err(Mistake::NoKind));
        }
        for word in ["+3", "-3", " 3", "3\n", "3.", "0x3", "three", "/", ":"] {
            assert_eq!(kind(word), Err(Mistake::NoKind));
        }
        assert_eq!(kind(&"9".repeat(4095)), Err(Mistake::NoKind));
    }
}
