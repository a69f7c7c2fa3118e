// A run of the program with which one talks line by line.

use crate::checking::process::{command, wait};
use crate::words::Word;
use std::io::{self, BufRead, BufReader, ErrorKind, Read, Write};
use std::mem::take;
use std::path::Path;
use std::process::{Child, ChildStdin, Stdio};
use std::sync::mpsc::{channel, Receiver, RecvTimeoutError};
use std::thread::spawn;
use std::time::Duration;

pub struct Talk {
    child: Child,
    input: Option<ChildStdin>,
    output: Receiver<Vec<u8>>,
    error: Receiver<Vec<u8>>,
    /// For each line that has to come, and for the end.
    limit: Duration,
}

impl Talk {
    pub fn start(program: &Path, words: &[Word], limit: Duration) -> io::Result<Talk> {
        let mut child = command(program, words).stdin(Stdio::piped()).spawn()?;
        Ok(Talk {
            input: child.stdin.take(),
            output: lines_of(child.stdout.take()),
            error: lines_of(child.stderr.take()),
            child,
            limit,
        })
    }

    /// The next line of standard output, with its newline; empty at the end.
    pub fn output(&mut self) -> io::Result<Vec<u8>> {
        self.line(|talk| &talk.output)
    }

    /// The same for standard error.
    pub fn error(&mut self) -> io::Result<Vec<u8>> {
        self.line(|talk| &talk.error)
    }

    fn line(&mut self, from: fn(&Talk) -> &Receiver<Vec<u8>>) -> io::Result<Vec<u8>> {
        match from(self).recv_timeout(self.limit) {
            Ok(line) => Ok(line),
            Err(RecvTimeoutError::Disconnected) => Ok(Vec::new()),
            Err(RecvTimeoutError::Timeout) => {
                let text = format!("no line came in {:?}", self.limit);
                Err(io::Error::new(ErrorKind::TimedOut, text))
            }
        }
    }

    /// Writes bytes, which a program that has ended need not read.
    pub fn say(&mut self, bytes: &[u8]) -> io::Result<()> {
        match self.input.as_mut().map_or(Ok(()), |it| it.write_all(bytes)) {
            Err(error) if error.kind() != ErrorKind::BrokenPipe => Err(error),
            _ => Ok(()),
        }
    }

    /// Ends the input.
    pub fn hang_up(&mut self) {
        self.input = None;
    }

    /// The exit status; the input stays open as long as it was.
    pub fn status(&mut self) -> io::Result<Option<i32>> {
        let ended = wait(&mut self.child, self.limit)?;
        Ok(ended.code())
    }
}

/// A run that still goes on is ended.
impl Drop for Talk {
    fn drop(&mut self) {
        if let Ok(None) = self.child.try_wait() {
            let _ = self.child.kill();
            let _ = self.child.wait();
        }
    }
}

/// Lines as they come, with their newlines.
fn lines_of(from: Option<impl Read + Send + 'static>) -> Receiver<Vec<u8>> {
    let (sender, receiver) = channel();
    spawn(move || {
        let Some(from) = from else {
            return;
        };
        let (mut from, mut line) = (BufReader::new(from), Vec::new());
        while from.read_until(b'\n', &mut line).is_ok_and(|size| size > 0) {
            if sender.send(take(&mut line)).is_err() {
                return;
            }
        }
    });
    receiver
}

#[cfg(test)]
mod tests {
    use super::*;

    fn talk(program: &str, millis: u64) -> Talk {
        Talk::start(Path::new(program), &[], Duration::from_millis(millis)).unwrap()
    }

    #[test]
    fn line_by_line() {
        let mut cat = talk("cat", 5000);
        cat.say(b"one\n").unwrap();
        assert_eq!(cat.output().unwrap(), b"one\n");
        cat.say(b"two").unwrap();
        cat.hang_up();
        assert_eq!(cat.output().unwrap(), b"two");
        assert_eq!(cat.output().unwrap(), b"");
        assert_eq!(cat.error().unwrap(), b"");
        assert_eq!(cat.status().unwrap(), Some(0));
    }

    #[test]
    fn silence() {
        let mut cat = talk("cat", 100);
        assert_eq!(cat.output().unwrap_err().kind(), ErrorKind::TimedOut);
        assert_eq!(cat.status().unwrap_err().kind(), ErrorKind::TimedOut);
        let mut deaf = talk("true", 5000);
        assert_eq!(deaf.output().unwrap(), b"");
        assert_eq!(deaf.status().unwrap(), Some(0));
        deaf.say(b"nobody hears\n").unwrap();
    }
}
