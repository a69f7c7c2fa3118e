// The sections of an executable file (ELF, 64 bits, little-endian): its data, and where the code of
// an address stands in the file.

use super::Place;
use std::io;

const PROGRAM_BITS: usize = 1;
const EXECUTED: usize = 4;
/// As many bytes of data are changed at once, before each of them is.
const BLOCK: usize = 16;

#[derive(Clone, Debug)]
pub struct Section {
    name: String,
    kind: usize,
    flags: usize,
    address: usize,
    offset: usize,
    size: usize,
}

impl Section {
    /// Read-only data, or the first values of data that is written: both are kept in the file.
    fn is_data(&self) -> bool {
        let named = self.name.starts_with(".rodata") || self.name.starts_with(".data");
        named && self.kind == PROGRAM_BITS
    }

    fn has_code(&self, address: usize) -> bool {
        let all = self.address..self.address + self.size;
        self.kind == PROGRAM_BITS && self.flags & EXECUTED != 0 && all.contains(&address)
    }
}

pub fn sections(file: &[u8]) -> io::Result<Vec<Section>> {
    if !file.starts_with(b"\x7fELF\x02\x01") {
        return Err(io::Error::other(
            "not an executable file of 64 bits, little-endian",
        ));
    }
    let table = number(file, 0x28, 8)?;
    let (size, count) = (number(file, 0x3a, 2)?, number(file, 0x3c, 2)?);
    let names = number(file, table + number(file, 0x3e, 2)? * size + 24, 8)?;
    (0..count)
        .map(|index| section(file, table + index * size, names))
        .collect()
}

/// The section whose header stands at a place; names begin at another.
fn section(file: &[u8], at: usize, names: usize) -> io::Result<Section> {
    let name = file.get(names + number(file, at, 4)?..).unwrap_or_default();
    let name = name.split(|byte| *byte == 0).next().unwrap_or_default();
    let section = Section {
        name: String::from_utf8_lossy(name).into_owned(),
        kind: number(file, at + 4, 4)?,
        flags: number(file, at + 8, 8)?,
        address: number(file, at + 16, 8)?,
        offset: number(file, at + 24, 8)?,
        size: number(file, at + 32, 8)?,
    };
    if section.kind == PROGRAM_BITS && section.offset + section.size > file.len() {
        return Err(io::Error::other("the file is cut"));
    }
    Ok(section)
}

fn number(file: &[u8], at: usize, size: usize) -> io::Result<usize> {
    let bytes = file
        .get(at..at + size)
        .ok_or_else(|| io::Error::other("the file is cut"))?;
    let digits = bytes.iter().rev();
    Ok(digits.fold(0, |number, byte| number << 8 | usize::from(*byte)))
}

/// The data, block by block.
pub fn data(sections: &[Section]) -> Vec<Place> {
    let blocks = |section: &Section| {
        let end = section.offset + section.size;
        (section.offset..end)
            .step_by(BLOCK)
            .map(move |offset| Place {
                offset,
                length: BLOCK.min(end - offset),
                instruction: None,
            })
    };
    let data = sections.iter().filter(|section| section.is_data());
    data.flat_map(blocks).collect()
}

/// Where the code of an address stands in the file.
pub fn offset_of(sections: &[Section], address: usize) -> Option<usize> {
    let section = sections.iter().find(|section| section.has_code(address))?;
    Some(address - section.address + section.offset)
}

#[cfg(test)]
mod tests {
    use super::*;

    #[test]
    fn this_program() {
        let file = std::fs::read(std::env::current_exe().unwrap()).unwrap();
        let sections = sections(&file).unwrap();
        let named = |name| sections.iter().find(|section| section.name == name);
        let (text, rodata) = (named(".text").unwrap(), named(".rodata").unwrap());
        assert_eq!(offset_of(&sections, text.address), Some(text.offset));
        assert_eq!(offset_of(&sections, rodata.address), None);
        let inside = |place: &Place| place.offset >= rodata.offset;
        let blocks = data(std::slice::from_ref(rodata));
        assert!(blocks.iter().all(inside));
        let length: usize = blocks.iter().map(|place| place.length).sum();
        assert_eq!(length, rodata.size);
        assert!(data(std::slice::from_ref(text)).is_empty());
    }

    #[test]
    fn no_program() {
        let file = std::fs::read(std::env::current_exe().unwrap()).unwrap();
        for part in [
            &b""[..],
            b"#!/bin/sh\n",
            &file[..40],
            &file[..file.len() / 2],
        ] {
            assert!(sections(part).is_err());
        }
    }
}
