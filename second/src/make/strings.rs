//! Strings in memory, and how long 0xD4 and 0xE6 say they are.

use super::Maker;

/// Lengths around a byte's edges, and ones that are doubled on the wire.
const LENGTHS: [usize; 14] = [
    0, 1, 2, 10, 42, 43, 44, 255, 256, 257, 0x2B0, 0x2B2, 299, 1_000,
];

/// Where no string begins, in 4 bytes also where the lower two say otherwise.
const OUTSIDE: [u32; 9] = [
    16_384,
    16_384,
    16_385,
    32_768,
    65_535,
    0x1_0000,
    0x0100_0010,
    0x8000_0000,
    u32::MAX,
];

impl Maker {
    /// A string put somewhere, asked for at its beginning, in it, at its zero and
    /// behind it; at times it has no zero and goes to memory's end.
    pub fn string(&mut self) {
        let length = match self.rng.below(30) {
            0 => 16_383,
            _ => *self.rng.pick(&LENGTHS),
        };
        let mut string = self.characters(length);
        string.push(0);
        let mut at = self.string_place(string.len());
        if self.rng.once_in(4) {
            string.pop();
            at = 16_384 - string.len();
        }
        self.put(at, &string);
        for offset in [
            0,
            1,
            length / 2,
            length.saturating_sub(1),
            length,
            length + 1,
        ] {
            if self.rng.once_in(2) {
                self.ask_length((at + offset) as u32);
            }
        }
    }

    /// Addresses around the ends of the areas and outside memory.
    pub fn string_edges(&mut self) {
        let outside = *self.rng.pick(&OUTSIDE);
        let near = self.address(1);
        for address in [outside, near, 16_383] {
            if self.rng.once_in(2) {
                self.ask_length(address);
            }
        }
    }

    fn ask_length(&mut self, address: u32) {
        let bytes = address.to_le_bytes();
        match address > 0xFFFF || self.rng.once_in(2) {
            true => self.send(0xE6, &bytes),
            false => self.send(0xD4, &bytes[..2]),
        }
    }

    /// Bytes without a zero.
    fn characters(&mut self, count: usize) -> Vec<u8> {
        let bytes = self.rng.bytes(count);
        bytes.into_iter().map(|byte| byte.max(1)).collect()
    }

    /// Across an end of an area, up to memory's end, or anywhere.
    fn string_place(&mut self, length: usize) -> usize {
        let last = 16_384 - length;
        let across = *self.rng.pick(&[8_192, 12_288]) - length / 2;
        let any = self.rng.below(last as u64 + 1) as usize;
        (*self.rng.pick(&[0, 43, across, across, any, last, last])).min(last)
    }
}
