// The bytes of a part, read and written.

use super::reader::{Reader, Unreadable};
use crate::sheet::HEADER;

/// The most bytes that the parts of a case have together.
pub const MOST_BYTES: usize = 1_048_576;

/// Reads a case's only part.
pub fn part(reader: &mut Reader) -> Result<Vec<u8>, Unreadable> {
    let mut parts = parts(reader, 1, 1)?;
    Ok(parts.remove(0))
}

/// Reads parts with ` / ` between them, so many at least and at most.
pub fn parts(reader: &mut Reader, least: usize, most: usize) -> Result<Vec<Vec<u8>>, Unreadable> {
    let (mut bytes, mut sizes) = (Vec::new(), Vec::new());
    for count in 1..=most {
        let before = bytes.len();
        let another = match count {
            _ if count < least => Another::Has,
            _ if count < most => Another::May,
            _ => Another::Never,
        };
        let follows = items(reader, &mut bytes, another)?;
        sizes.push(bytes.len() - before);
        if !follows {
            break;
        }
    }
    let mut rest = &bytes[..];
    let split = |&size: &usize| {
        let (part, behind) = rest.split_at(size);
        rest = behind;
        part.to_vec()
    };
    Ok(sizes.iter().map(split).collect())
}

/// Whether another part has to follow, may follow, or never does.
#[derive(Clone, Copy, PartialEq, Eq)]
enum Another {
    Has,
    May,
    Never,
}

/// Adds a part to those before it: `-`, or items with a space between them; a
/// record may stand right behind another. Where another part follows, the
/// ` / ` is read too; gives whether it does.
fn items(reader: &mut Reader, bytes: &mut Vec<u8>, another: Another) -> Result<bool, Unreadable> {
    if reader.takes(b'-') {
        if another == Another::Never || (another == Another::May && reader.peek() != Some(b' ')) {
            return Ok(false);
        }
        b" / ".iter().try_for_each(|&byte| reader.take(byte))?;
        return Ok(true);
    }
    loop {
        let is_record = reader.peek() == Some(b'{');
        if is_record {
            record(reader, bytes)?;
        } else {
            run(reader, bytes)?;
        }
        if is_record && reader.peek() == Some(b'{') {
            continue;
        }
        if !reader.takes(b' ') {
            return match another {
                Another::Has => reader.stuck(),
                _ => Ok(false),
            };
        }
        if another != Another::Never && reader.takes(b'/') {
            reader.take(b' ')?;
            return Ok(true);
        }
    }
}

/// `B` or `B*N`. A byte too many may still become one of no times, so it is
/// told behind its digits.
fn run(reader: &mut Reader, bytes: &mut Vec<u8>) -> Result<(), Unreadable> {
    let byte = reader.number(255)? as u8;
    let left = MOST_BYTES - bytes.len();
    let times = match reader.takes(b'*') {
        true => reader.number(left)?,
        false if left == 0 => return reader.stuck(),
        false => 1,
    };
    bytes.resize(bytes.len() + times, byte);
    Ok(())
}

/// `{K ..}` or `{K:LEN ..}`, header and payload.
fn record(reader: &mut Reader, bytes: &mut Vec<u8>) -> Result<(), Unreadable> {
    if MOST_BYTES - bytes.len() < HEADER {
        return reader.stuck();
    }
    reader.take(b'{')?;
    let kind = reader.number(usize::from(u16::MAX))? as u16;
    let told = match reader.takes(b':') {
        true => Some(reader.number(u32::MAX as usize)?),
        false => None,
    };
    let start = bytes.len();
    bytes.extend([0; HEADER]);
    if reader.takes(b' ') {
        payload(reader, bytes)?;
    }
    reader.take(b'}')?;
    let length = told.unwrap_or(bytes.len() - start - HEADER) as u32;
    bytes[start..start + 4].copy_from_slice(&length.to_le_bytes());
    bytes[start + 4..start + HEADER].copy_from_slice(&kind.to_le_bytes());
    Ok(())
}

/// What stands behind the space: nothing, `-`, or bytes.
fn payload(reader: &mut Reader, bytes: &mut Vec<u8>) -> Result<(), Unreadable> {
    if reader.peek() == Some(b'}') || reader.takes(b'-') {
        return Ok(());
    }
    run(reader, bytes)?;
    while reader.takes(b' ') {
        run(reader, bytes)?;
    }
    Ok(())
}

/// Bytes as answers write them.
pub fn written(bytes: &[u8]) -> String {
    if bytes.is_empty() {
        return String::from("-");
    }
    let mut items = Vec::new();
    for run in bytes.chunk_by(|one, other| one == other) {
        match run {
            [byte] => items.push(byte.to_string()),
            [byte, _] => items.push(format!("{byte} {byte}")),
            _ => items.push(format!("{}*{}", run[0], run.len())),
        }
    }
    items.join(" ")
}
