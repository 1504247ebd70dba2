//! Tables of names (request 2026-03): which lists of them can be registered,
//! and how long a string is.

use std::ops::Range;

use crate::areas::{CALIBRATION, MEMORY};

/// "The gate registers up to 16 tables"
const MOST_TABLES: usize = 16;

/// "16-bit entries of 8 bytes"
const ENTRY: usize = 8;

/// "Sizes of the base types are": each size with its codes.
pub const BASE_TYPES: [(u16, &[u8]); 4] = [
    (1, &[0xE0, 0xF0]),
    (2, &[0xE1, 0xF1, 0xE5, 0xF5]),
    (4, &[0xE2, 0xF2, 0xE6, 0xF6, 0xFA]),
    (8, &[0xE3, 0xF3, 0xFB]),
];

/// Where a table lies, as a list names it.
#[derive(Clone, Copy, Debug, PartialEq, Eq)]
pub struct Table {
    pub address: u16,
    pub size: u16,
}

/// "A list is bad when it names more than 16 tables, a table not as said, or
/// one with an entry" that is bad.
pub fn is_bad(list: &[Table], memory: &[u8]) -> bool {
    list.len() > MOST_TABLES || list.iter().any(|table| table.is_bad(memory))
}

impl Table {
    fn is_bad(&self, memory: &[u8]) -> bool {
        !self.is_as_said() || self.entries(memory).any(|entry| entry.is_bad(memory))
    }

    /// "each inside the calibration area and one or more whole entries"
    fn is_as_said(&self) -> bool {
        let Range { start, end } = self.range();
        let inside = CALIBRATION.start <= start && end <= CALIBRATION.end;
        inside && self.size > 0 && usize::from(self.size).is_multiple_of(ENTRY)
    }

    /// Wide enough that no sum can wrap.
    fn range(&self) -> Range<usize> {
        let start = usize::from(self.address);
        start..start + usize::from(self.size)
    }

    fn entries<'a>(&self, memory: &'a [u8]) -> impl Iterator<Item = Entry> + 'a {
        memory[self.range()].chunks_exact(ENTRY).map(Entry::of)
    }
}

/// What is looked at of an entry, whatever the two low bits of its info say: of
/// name, type, address and info neither the name nor the address.
struct Entry {
    type_address: usize,
    size: u16,
}

impl Entry {
    fn of(bytes: &[u8]) -> Entry {
        let word = |at: usize| u16::from_le_bytes([bytes[at], bytes[at + 1]]);
        Entry {
            type_address: usize::from(word(2)),
            // "an entry's size is its info divided by 4"
            size: word(6) / 4,
        }
    }

    /// "an entry whose type address is outside memory or whose size differs
    /// from its base type's"
    fn is_bad(&self, memory: &[u8]) -> bool {
        self.type_address >= MEMORY
            || base_size(&memory[self.type_address..]).is_some_and(|size| size != self.size)
    }
}

/// The size of the base type that the bytes begin with: "a base type's string is
/// such a code and a zero, other types have any size".
fn base_size(bytes: &[u8]) -> Option<u16> {
    let begins = |codes: &[u8]| codes.iter().any(|code| bytes.starts_with(&[*code, 0]));
    let found = BASE_TYPES.iter().find(|(_, codes)| begins(codes));
    found.map(|(size, _)| *size)
}

/// The length of the string at an address, without its zero; nothing for one
/// that "has no zero before memory's end".
pub fn string_length(memory: &[u8], address: u32) -> Option<u16> {
    let from = memory.get(address as usize..)?;
    let length = from.iter().position(|byte| *byte == 0)?;
    Some(length as u16)
}

#[cfg(test)]
mod tests {
    use super::*;

    #[test]
    fn fourteen_base_types() {
        let sized = |size| {
            let is_of = |code: &u8| base_size(&[*code, 0]) == Some(size);
            (0..=255).filter(is_of).collect::<Vec<u8>>()
        };
        assert_eq!(sized(1), [0xE0, 0xF0]);
        assert_eq!(sized(2), [0xE1, 0xE5, 0xF1, 0xF5]);
        assert_eq!(sized(4), [0xE2, 0xE6, 0xF2, 0xF6, 0xFA]);
        assert_eq!(sized(8), [0xE3, 0xF3, 0xFB]);
        let none = (0..=255).filter(|code: &u8| base_size(&[*code, 0]).is_none());
        assert_eq!(none.count(), 256 - 14);
    }

    #[test]
    fn a_code_and_a_zero() {
        assert_eq!(base_size(&[0xE1, 0x00, 0x41]), Some(2));
        assert_eq!(base_size(&[0xE1, 0x41, 0x00]), None);
        assert_eq!(base_size(&[0xE1, 0xE0, 0x00]), None);
        assert_eq!(base_size(&[0xE1]), None);
        assert_eq!(base_size(&[0x00, 0xE1]), None);
        assert_eq!(base_size(&[]), None);
    }

    #[test]
    fn lengths_up_to_the_end() {
        let mut memory = vec![0x41; MEMORY];
        assert_eq!(string_length(&memory, 0), None);
        memory[MEMORY - 1] = 0;
        assert_eq!(string_length(&memory, 0), Some(16_383));
        assert_eq!(string_length(&memory, 16_382), Some(1));
        assert_eq!(string_length(&memory, 16_383), Some(0));
        assert_eq!(string_length(&memory, 16_384), None);
        assert_eq!(string_length(&memory, u32::MAX), None);
    }
}
