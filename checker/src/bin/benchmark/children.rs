// Runs of a program with what they cost: the time that the process spent on a processor, in the
// program and in the system for it, from its start to its end.

use std::io::{self, Read, Write};
use std::path::Path;
use std::process::{Command, Stdio};

#[repr(C)]
#[derive(Default)]
struct Time {
    seconds: i64,
    microseconds: i64,
}

/// What Linux tells of a process that has ended: both times, and fourteen numbers that are not
/// used here.
#[repr(C)]
#[derive(Default)]
struct Usage {
    program: Time,
    system: Time,
    other: [i64; 14],
}

extern "C" {
    fn wait4(process: i32, status: *mut i32, options: i32, usage: *mut Usage) -> i32;
}

/// Runs the program on an input that fits in a pipe; gives its output and the microseconds.
pub fn run(program: &Path, input: &[u8]) -> io::Result<(Vec<u8>, f64)> {
    let mut child = Command::new(program)
        .stdin(Stdio::piped())
        .stdout(Stdio::piped())
        .spawn()?;
    if let Some(mut to) = child.stdin.take() {
        to.write_all(input)?;
    }
    let mut output = Vec::new();
    if let Some(mut from) = child.stdout.take() {
        from.read_to_end(&mut output)?;
    }
    let (mut status, mut usage) = (0, Usage::default());
    let process = child.id() as i32;
    let ended = unsafe { wait4(process, &mut status, 0, &mut usage) };
    if ended != process || status != 0 {
        return Err(io::Error::other("the run did not end with status 0"));
    }
    let microseconds = |time: Time| time.seconds as f64 * 1e6 + time.microseconds as f64;
    Ok((
        output,
        microseconds(usage.program) + microseconds(usage.system),
    ))
}
