// Runs a program: on a sheet, on a text, with an input whose unread rest counts,
// or several times in a chain.

use crate::words::Word;
use std::ffi::OsStr;
use std::io::{self, ErrorKind, Read, Write};
use std::os::unix::ffi::OsStrExt;
use std::path::Path;
use std::process::{Child, Command, ExitStatus, Output, Stdio};
use std::thread::{scope, sleep};
use std::time::{Duration, Instant};

/// A run that reads nothing has to end within this time.
pub const LIMIT: Duration = Duration::from_secs(20);
const PAUSE: Duration = Duration::from_micros(300);

/// What a run left.
#[derive(Clone, Debug, PartialEq, Eq)]
pub struct Printed {
    pub output: Vec<u8>,
    pub error: Vec<u8>,
    pub status: Option<i32>,
    /// How many bytes of the input are unread, where they are counted.
    pub left: Option<usize>,
}

impl From<Output> for Printed {
    fn from(ended: Output) -> Printed {
        Printed {
            output: ended.stdout,
            error: ended.stderr,
            status: ended.status.code(),
            left: None,
        }
    }
}

/// The program with these words, its outputs piped.
pub fn command(program: &Path, words: &[Word]) -> Command {
    let mut command = Command::new(program);
    command
        .args(words.iter().map(|word| OsStr::from_bytes(word)))
        .stdout(Stdio::piped())
        .stderr(Stdio::piped());
    command
}

/// A run on a sheet.
pub fn on_sheet(program: &Path, words: &[Word], sheet: &[u8]) -> io::Result<Printed> {
    let mut child = command(program, words).stdin(Stdio::piped()).spawn()?;
    write(child.stdin.take(), sheet)?;
    Ok(child.wait_with_output()?.into())
}

/// Writes and closes; the reader may stop early: a broken pipe is fine.
fn write(to: Option<impl Write>, bytes: &[u8]) -> io::Result<()> {
    match to.map_or(Ok(()), |mut to| to.write_all(bytes)) {
        Err(error) if error.kind() != ErrorKind::BrokenPipe => Err(error),
        _ => Ok(()),
    }
}

/// A run on a text of any length: what it prints is read while it reads.
pub fn on_text(program: &Path, text: &[u8], limit: Duration) -> io::Result<Printed> {
    let mut child = command(program, &[]).stdin(Stdio::piped()).spawn()?;
    let (input, output, error) = (child.stdin.take(), child.stdout.take(), child.stderr.take());
    scope(|threads| {
        let writing = threads.spawn(move || write(input, text));
        let output = threads.spawn(move || all_of(output));
        let error = threads.spawn(move || all_of(error));
        let ended = wait(&mut child, limit)?;
        writing.join().expect("writing does not panic")?;
        Ok(Printed {
            output: output.join().expect("reading does not panic")?,
            error: error.join().expect("reading does not panic")?,
            status: ended.code(),
            left: None,
        })
    })
}

fn all_of(from: Option<impl Read>) -> io::Result<Vec<u8>> {
    let mut bytes = Vec::new();
    if let Some(mut from) = from {
        from.read_to_end(&mut bytes)?;
    }
    Ok(bytes)
}

/// A run on an input that has to fit in a pipe, and that stays open until the
/// run has ended, or ends; then what is unread is counted.
pub fn on_pipe(
    program: &Path,
    words: &[Word],
    input: &[u8],
    limit: Duration,
    open: bool,
) -> io::Result<Printed> {
    piped(&mut command(program, words), input, limit, open)
}

/// The same, of a command that was made before.
pub fn piped(
    command: &mut Command,
    input: &[u8],
    limit: Duration,
    open: bool,
) -> io::Result<Printed> {
    let (mut reader, mut writer) = io::pipe()?;
    writer.write_all(input)?;
    let kept = open.then_some(writer);
    let mut child = command.stdin(reader.try_clone()?).spawn()?;
    wait(&mut child, limit)?;
    drop(kept);
    let mut left = Vec::new();
    reader.read_to_end(&mut left)?;
    Ok(Printed {
        left: Some(left.len()),
        ..child.wait_with_output()?.into()
    })
}

/// A run without standard input, which the shell closes.
pub fn closed_input(program: &Path, words: &[Word], limit: Duration) -> io::Result<Printed> {
    let mut shell = Command::new("sh");
    shell
        .args(["-c", "exec \"$0\" \"$@\" <&-"])
        .arg(program)
        .args(words.iter().map(|word| OsStr::from_bytes(word)))
        .stdout(Stdio::piped())
        .stderr(Stdio::piped());
    let mut child = shell.spawn()?;
    wait(&mut child, limit)?;
    Ok(child.wait_with_output()?.into())
}

/// Waits for the end; after the time limit the run is ended and it is an error.
pub fn wait(child: &mut Child, limit: Duration) -> io::Result<ExitStatus> {
    let start = Instant::now();
    loop {
        if let Some(status) = child.try_wait()? {
            return Ok(status);
        }
        if start.elapsed() > limit {
            child.kill()?;
            child.wait()?;
            let text = format!("had not ended after {limit:?}");
            return Err(io::Error::new(ErrorKind::TimedOut, text));
        }
        sleep(PAUSE);
    }
}

/// Runs with one word each, all at once, the output of one being the input of
/// the next; so only the last one's output is seen here.
pub fn chain(program: &Path, services: &[&str]) -> io::Result<Vec<Printed>> {
    let mut input = Stdio::null();
    let mut children = Vec::new();
    for (index, service) in services.iter().enumerate() {
        let words = [service.as_bytes().to_vec()];
        let mut child = command(program, &words).stdin(input).spawn()?;
        input = Stdio::null();
        if index + 1 < services.len() {
            input = child.stdout.take().map_or(input, Stdio::from);
        }
        children.push(child);
    }
    let ended = children.into_iter().map(Child::wait_with_output);
    ended.map(|output| Ok(output?.into())).collect()
}

#[cfg(test)]
mod tests {
    use super::*;

    fn unread_by(program: &str, words: &[&[u8]], limit: Duration) -> io::Result<Printed> {
        let words: Vec<Word> = words.iter().map(|word| word.to_vec()).collect();
        on_pipe(Path::new(program), &words, b"12345", limit, true)
    }

    #[test]
    fn input_left_alone() {
        let printed = unread_by("echo", &[b"a\xff\nb"], LIMIT).unwrap();
        assert_eq!(printed.output, b"a\xff\nb\n");
        assert_eq!((printed.status, printed.left), (Some(0), Some(5)));
    }

    #[test]
    fn input_read() {
        let printed = unread_by("head", &[b"-c", b"1"], LIMIT).unwrap();
        assert_ne!(printed.left, Some(5));
        let waiting = unread_by("cat", &[], Duration::from_millis(200)).unwrap_err();
        assert_eq!(waiting.kind(), ErrorKind::TimedOut);
    }

    #[test]
    fn texts() {
        let text = vec![b'x'; 1_048_576];
        let printed = on_text(Path::new("cat"), &text, LIMIT).unwrap();
        assert_eq!((printed.status, printed.output), (Some(0), text.clone()));
        let deaf = on_text(Path::new("true"), &text, LIMIT).unwrap();
        assert_eq!((deaf.status, deaf.output.len()), (Some(0), 0));
        let waiting = unread_by("cat", &[], Duration::from_millis(200)).unwrap_err();
        assert_eq!(waiting.kind(), ErrorKind::TimedOut);
    }

    #[test]
    fn without_input() {
        let words = [
            b"-c".to_vec(),
            b"echo \"$0\"; cat".to_vec(),
            b"a \xff".to_vec(),
        ];
        let printed = closed_input(Path::new("sh"), &words, LIMIT).unwrap();
        assert_eq!(printed.output, b"a \xff\n");
        assert!(!printed.error.is_empty());
    }

    /// `yes` never ends.
    #[test]
    fn endless_output() {
        let endless = on_text(Path::new("yes"), b"", Duration::from_millis(200)).unwrap_err();
        assert_eq!(endless.kind(), ErrorKind::TimedOut);
    }

    #[test]
    fn sheet_and_chain() {
        let printed = on_sheet(Path::new("cat"), &[], b"sheet").unwrap();
        assert_eq!((printed.output, printed.left), (b"sheet".to_vec(), None));
        let printed = chain(Path::new("echo"), &["one", "two"]).unwrap();
        let outputs: Vec<&[u8]> = printed.iter().map(|it| it.output.as_slice()).collect();
        assert_eq!(outputs, [&b""[..], b"two\n"]);
    }
}
