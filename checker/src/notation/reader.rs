// Reading a line from the left, up to the first byte with which no case goes
// on.

/// The column of that byte, counted from 1; one behind the line's end where the
/// line ends too early.
#[derive(Clone, Copy, Debug, PartialEq, Eq)]
pub struct Unreadable(pub usize);

/// A line and how far it is read.
pub struct Reader<'a> {
    line: &'a [u8],
    at: usize,
}

impl<'a> Reader<'a> {
    pub fn new(line: &'a [u8]) -> Reader<'a> {
        Reader { line, at: 0 }
    }

    pub fn peek(&self) -> Option<u8> {
        self.line.get(self.at).copied()
    }

    /// No case goes on with what stands here.
    pub fn stuck<T>(&self) -> Result<T, Unreadable> {
        Err(Unreadable(self.at + 1))
    }

    /// Reads the byte if it is the one that stands here.
    pub fn takes(&mut self, byte: u8) -> bool {
        let stands = self.peek() == Some(byte);
        self.at += usize::from(stands);
        stands
    }

    pub fn take(&mut self, byte: u8) -> Result<(), Unreadable> {
        if self.takes(byte) {
            return Ok(());
        }
        self.stuck()
    }

    pub fn end(&self) -> Result<(), Unreadable> {
        match self.peek() {
            None => Ok(()),
            Some(_) => self.stuck(),
        }
    }

    /// One of the names, none of which is the beginning of another.
    pub fn name(&mut self, names: &[&'static str]) -> Result<&'static str, Unreadable> {
        let rest = &self.line[self.at..];
        let alike = |name: &&str| {
            let pairs = name.bytes().zip(rest);
            pairs.take_while(|(one, other)| one == *other).count()
        };
        let best = names.iter().copied().max_by_key(alike).unwrap_or_default();
        self.at += alike(&best);
        if rest.starts_with(best.as_bytes()) {
            return Ok(best);
        }
        self.stuck()
    }

    /// A number of at least one digit, `most` at most.
    pub fn number(&mut self, most: usize) -> Result<usize, Unreadable> {
        let mut number = self.digit(0, most)?;
        while self.peek().is_some_and(|byte| byte.is_ascii_digit()) {
            number = self.digit(number, most)?;
        }
        Ok(number)
    }

    /// The number with one digit more.
    fn digit(&mut self, number: usize, most: usize) -> Result<usize, Unreadable> {
        let digit = self.peek().filter(u8::is_ascii_digit);
        let longer = digit.map(|digit| 10 * number + usize::from(digit - b'0'));
        match longer {
            Some(longer) if longer <= most => {
                self.at += 1;
                Ok(longer)
            }
            _ => self.stuck(),
        }
    }
}
