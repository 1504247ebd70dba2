//! Reads and writes of the memory, around the ends of its areas.

use super::served::{parts, width};
use super::Maker;

/// Sizes at the edges of what a command or an answer holds, and ones that make
/// the length byte 0x2B.
const SIZES: [u8; 22] = [
    0, 1, 2, 3, 4, 8, 19, 20, 29, 30, 31, 38, 40, 43, 59, 60, 61, 62, 63, 64, 65, 255,
];

impl Maker {
    pub fn size(&mut self) -> u8 {
        *self.rng.pick(&SIZES)
    }

    /// An address for so many bytes: low ones, so that commands meet there, and
    /// ones where the range just ends at, before or behind an area's end.
    pub fn address(&mut self, size: u8) -> u32 {
        let near = |end: u32, off: u32| (end + off).saturating_sub(u32::from(size) + 1);
        match self.rng.below(10) {
            0..=3 => self.rng.below(64) as u32,
            4 => self.rng.below(16_384) as u32,
            5 => {
                let edges = [0, 43, 0x2B2B, 8_191, 8_192, 12_287, 12_288, 16_383];
                *self.rng.pick(&edges)
            }
            6 => *self.rng.pick(&[16_384, 16_385, 65_534, 65_535, 32_768]),
            _ => {
                let end = *self.rng.pick(&[8_192, 8_192, 12_288, 16_384]);
                near(end, self.rng.below(3) as u32)
            }
        }
    }

    /// An address in so many bytes; in 4, at times one that only looks small.
    pub fn address_bytes(&mut self, size: u8, width: usize) -> Vec<u8> {
        let mut address = self.address(size);
        if width == 4 && self.rng.once_in(5) {
            let high = [0x1_0000, 0x100_0000, 0x8000_0000, 0xFFFF_0000];
            address |= *self.rng.pick(&high);
        }
        if width == 4 && self.rng.once_in(15) {
            address = u32::MAX - self.rng.below(5) as u32;
        }
        address.to_le_bytes()[..width].to_vec()
    }

    /// Reads of 1, 2, 4 bytes.
    pub fn fast_read(&mut self) {
        let reads = [
            (0xD0, 1, 2),
            (0xD1, 2, 2),
            (0xD2, 4, 2),
            (0xE0, 1, 4),
            (0xE1, 2, 4),
            (0xE2, 4, 4),
        ];
        let (command, size, width) = *self.rng.pick(&reads);
        let data = self.address_bytes(size, width);
        self.send(command, &data);
    }

    /// Writes of 1, 2, 4 bytes, with and without a mask, and reading back.
    pub fn fast_write(&mut self) {
        let writes = [
            (0xE3, 1, 2),
            (0xE4, 2, 2),
            (0xF0, 4, 4),
            (0xE5, 1, 2),
            (0xF1, 2, 4),
        ];
        let (command, size, rest) = *self.rng.pick(&writes);
        let address = self.address_bytes(size, 2);
        let mut data = address.clone();
        data.extend(self.rng.bytes(rest));
        self.send(command, &data);
        if self.rng.once_in(2) {
            self.send(0xD2, &address);
        }
    }

    /// A block read or written, its length the one its fields give.
    pub fn block(&mut self) {
        let commands = [0x01, 0x04, 0x02, 0x05, 0x03, 0x06];
        let command = *self.rng.pick(&commands);
        let (width, parts) = (width(command), parts(command));
        // The largest block whose data and mask still fit 64 bytes.
        let largest = match parts {
            0 => 64,
            parts => (63 - width) / parts,
        };
        let size = match self.rng.below(4) {
            0 => 1 + self.rng.below(8) as u8,
            1 => largest as u8,
            2 => 1 + self.rng.below(largest as u64) as u8,
            _ if parts == 0 && self.rng.once_in(2) => *self.rng.pick(&[65, 66, 255]),
            _ => self.size(),
        };
        let data = self.block_data(size, width, parts * usize::from(size));
        self.send(command, &data);
    }

    /// A block whose length is not the one its fields give, or an empty one.
    pub fn wrong_block(&mut self) {
        if self.rng.once_in(4) {
            return self.empty_block();
        }
        let command = *self.rng.pick(&[0x01, 0x04, 0x02, 0x05, 0x03, 0x06]);
        let width = width(command);
        let size = self.size();
        let wanted = parts(command) * usize::from(size);
        let more = match self.rng.below(4) {
            0 => wanted + 1,
            1 => wanted.saturating_sub(1),
            2 => usize::from(size),
            _ => self.rng.below(60) as usize,
        };
        let mut data = self.block_data(size, width, more);
        if self.rng.once_in(3) {
            data.truncate(self.rng.below(6) as usize);
        }
        self.send(command, &data);
    }

    /// A size of 0, at an address that may be wrong as well.
    fn empty_block(&mut self) {
        let command = 0x01 + self.rng.below(6) as u8;
        let data = self.block_data(0, width(command), 0);
        self.send(command, &data);
    }

    /// Size, address and so many bytes behind them; no more than a length byte
    /// can tell.
    fn block_data(&mut self, size: u8, width: usize, more: usize) -> Vec<u8> {
        let mut data = vec![size];
        data.extend(self.address_bytes(size, width));
        data.extend(self.rng.bytes(more));
        data.truncate(255);
        data
    }

    pub fn information(&mut self) {
        let command = *self.rng.pick(&[0xC0, 0xC8]);
        self.send(command, &[]);
    }
}
