// The constants in a program's instructions, as objdump prints them: `$0x3f` in `and $0x3f,%dl`. On
// x86-64 a constant is the last thing of an instruction, and the code of the operation tells how
// many bytes it has.

use super::elf::{offset_of, Section};
use super::Place;
use std::io;
use std::path::Path;
use std::process::Command;

pub fn constants(program: &Path, sections: &[Section]) -> io::Result<Vec<Place>> {
    let printed = Command::new("objdump").arg("-dw").arg(program).output()?;
    if !printed.status.success() {
        return Err(io::Error::other("objdump failed"));
    }
    let lines = String::from_utf8_lossy(&printed.stdout);
    let instructions = lines.lines().filter_map(instruction);
    let places: io::Result<Vec<Place>> = instructions
        .filter(|instruction| instruction.text.contains("$0x"))
        .map(|instruction| constant(&instruction, sections))
        .collect();
    match places {
        Ok(places) if places.is_empty() => Err(io::Error::other("objdump printed no instruction")),
        places => places,
    }
}

struct Instruction<'a> {
    address: usize,
    bytes: Vec<u8>,
    text: &'a str,
}

/// A line `ADDRESS:<tab>BYTES<tab>TEXT`.
fn instruction(line: &str) -> Option<Instruction<'_>> {
    let mut fields = line.split('\t');
    let address = fields.next()?.trim().strip_suffix(':')?;
    let bytes = fields.next()?.split_whitespace();
    Some(Instruction {
        address: usize::from_str_radix(address, 16).ok()?,
        bytes: bytes
            .map(|byte| u8::from_str_radix(byte, 16).ok())
            .collect::<Option<_>>()?,
        text: fields.next()?.trim(),
    })
}

fn constant(instruction: &Instruction, sections: &[Section]) -> io::Result<Place> {
    let unknown = || {
        let text = instruction.text;
        io::Error::other(format!("{text}: where its constant stands is not known"))
    };
    let length = length(&instruction.bytes).ok_or_else(unknown)?;
    let start = offset_of(sections, instruction.address).ok_or_else(unknown)?;
    Ok(Place {
        offset: start + instruction.bytes.len() - length,
        length,
        instruction: Some(
            instruction
                .text
                .split_whitespace()
                .collect::<Vec<_>>()
                .join(" "),
        ),
    })
}

/// The bytes of the constant, of an instruction that has one.
fn length(bytes: &[u8]) -> Option<usize> {
    let prefix = |byte: &u8| matches!(byte, 0x2e | 0x40..=0x4f | 0x64..=0x66 | 0xf2 | 0xf3);
    let prefixes = bytes.iter().take_while(|byte| prefix(byte)).count();
    let (before, after) = bytes.split_at(prefixes);
    let long = before.last().is_some_and(|byte| byte & 0xf8 == 0x48);
    let usual = if before.contains(&0x66) { 2 } else { 4 };
    match *after.first()? {
        0xb8..=0xbf if long => Some(8),
        operation @ 0x00..=0x3f if operation & 7 == 4 => Some(1),
        operation @ 0x00..=0x3f if operation & 7 == 5 => Some(usual),
        0x0f | 0x6a | 0x6b | 0x80 | 0x83 | 0xa8 | 0xb0..=0xb7 | 0xc0 | 0xc1 | 0xc6 | 0xf6 => {
            Some(1)
        }
        0x68 | 0x69 | 0x81 | 0xa9 | 0xb8..=0xbf | 0xc7 | 0xf7 => Some(usual),
        _ => None,
    }
}

#[cfg(test)]
mod tests {
    use super::*;

    fn read(line: &str) -> (usize, String, usize) {
        let instruction = instruction(line).unwrap();
        let length = length(&instruction.bytes).unwrap();
        (instruction.address, instruction.text.to_string(), length)
    }

    #[test]
    fn lines_and_lengths() {
        let line = "    25a0:\t80 e2 3f             \tand    $0x3f,%dl";
        assert_eq!(read(line), (0x25a0, "and    $0x3f,%dl".to_string(), 1));
        let lengths = [
            ("48 b8 03 15 01 06 02 00 00 00", 8),
            ("66 c7 84 24 30 f2 00 00 04 04", 2),
            ("c7 84 24 d0 02 00 00 22 00 00 00", 4),
            ("48 c7 c0 01 00 00 00", 4),
            ("c6 84 24 da 02 00 00 01", 1),
            ("b8 03 00 00 00", 4),
            ("41 b8 03 00 00 00", 4),
            ("b2 01", 1),
            ("c0 ea 06", 1),
            ("48 83 c0 02", 1),
            ("49 81 eb 00 40 01 00", 4),
            ("3c 03", 1),
            ("48 3d 00 10 00 00", 4),
            ("66 0f 70 c0 e8", 1),
        ];
        for (bytes, expected) in lengths {
            let line = format!("  10:\t{bytes} \tx $0x1");
            assert_eq!(read(&line).2, expected, "{bytes}");
        }
    }

    #[test]
    fn what_is_no_instruction_is_passed_over() {
        for line in [
            "",
            "0000000000002080 <_start>:",
            "Disassembly of section .text:",
        ] {
            assert!(instruction(line).is_none(), "{line}");
        }
        assert_eq!(length(&[0xd1, 0xea]), None);
    }
}
