//! What a line brings beside whole right messages.

use super::wire::literals;
use super::Maker;
use crate::line::{stuffed, sum_byte, START};
use crate::message::fast_length;

/// Messages that make the target answer whatever came before them.
const WHOLE: [(u8, &[u8]); 5] = [
    (0xC8, &[]),
    (0xD0, &[0x10, 0x00]),
    (0xD0, &[0x2B, 0x00]),
    (0x01, &[0x04, 0x10, 0x00]),
    (0xE3, &[0x10, 0x00, 0x2B, 0x2B]),
];

impl Maker {
    pub fn whole(&mut self) -> Vec<u8> {
        let (command, data) = *self.rng.pick(&WHOLE);
        stuffed(&literals(command, data))
    }

    pub fn noise(&mut self) {
        let count = 1 + self.rng.below(40) as usize;
        let bytes = self.rng.bytes(count);
        self.bytes(&bytes);
    }

    /// A write that is cut off; the next thing that comes may finish it, or
    /// end a 0x2B that waits.
    pub fn truncated(&mut self) {
        let wire = self.write_of_start_bytes();
        let count = 1 + self.rng.below(wire.len() as u64 - 1) as usize;
        self.bytes(&wire[..count]);
        if self.rng.once_in(3) {
            self.noise();
        }
    }

    /// A message dropped by the start of another.
    pub fn interrupted(&mut self) {
        let mut wire = self.write_of_start_bytes();
        wire.truncate(1 + self.rng.below(wire.len() as u64 - 1) as usize);
        // Cut between two 0x2B, the start pairs with the one that waits.
        wire.extend(self.whole());
        self.on_wire(&wire);
    }

    /// A block write full of 0x2B, or of bytes that often are.
    fn write_of_start_bytes(&mut self) -> Vec<u8> {
        let size = 1 + self.rng.below(20) as u8;
        let mut data = vec![size];
        data.extend(self.address_bytes(size, 2));
        if self.rng.once_in(2) {
            data.extend(vec![START; usize::from(size)]);
        } else {
            data.extend(self.rng.bytes(usize::from(size)));
        }
        stuffed(&literals(0x02, &data))
    }

    /// Runs of 0x2B of every parity, before a message and inside one.
    pub fn start_bytes(&mut self) {
        let run = vec![START; self.rng.below(9) as usize];
        let mut wire = self.whole();
        if self.rng.once_in(2) {
            wire.splice(0..0, run);
        } else {
            let place = 1 + self.rng.below(wire.len() as u64) as usize;
            wire.splice(place..place, run);
        }
        self.bytes(&wire);
        if self.rng.once_in(2) {
            let whole = self.whole();
            self.bytes(&whole);
        }
    }

    /// Any command value, served or not, with a length that may fit.
    pub fn any_command(&mut self) {
        let command = match self.rng.below(3) {
            0 => *self
                .rng
                .pick(&[0x10, 0x11, 0x12, 0xC6, 0xD4, 0xE6, 0x2B, 0x00, 0xFF]),
            _ => self.rng.next() as u8,
        };
        let count = match fast_length(command) {
            Some(length) => length,
            None => *self.rng.pick(&[0, 1, 2, 3, 5, 43, 63, 64]),
        };
        let data = self.rng.bytes(count);
        self.send(command, &data);
    }

    /// A part of all command values in their order, on one line.
    pub fn sweep(&mut self) {
        let first = self.rng.next() as u8;
        let mut wire = Vec::new();
        for number in 0..32 {
            let command = first.wrapping_add(number);
            let some = *self.rng.pick(&[0, 0, 3, 5]);
            let data = self.rng.bytes(fast_length(command).unwrap_or(some));
            wire.extend(stuffed(&literals(command, &data)));
        }
        self.bytes(&wire);
    }

    /// Sum bytes of 0x2B: in a message, whose second one may come late or be
    /// another message's start, and in an answer.
    pub fn start_sums(&mut self) {
        let address = self.rng.below(64) as u8;
        let value = self.rng.byte();
        // The byte that 0xE3 ignores makes the sum.
        let before = [0xE3, address, 0x00, value, START];
        let data = [address, 0x00, value, sum_byte(&before)];
        let wire = stuffed(&literals(0xE3, &data));
        let (all_but_last, last) = wire.split_at(wire.len() - 1);
        self.bytes(all_but_last);
        match self.rng.below(3) {
            0 => self.information(),
            1 => self.some_ticks(),
            _ => {}
        }
        self.bytes(last);
        self.poke(usize::from(address), &[sum_byte(&[START])]);
        self.send(0xD0, &[address, 0x00]);
    }
}
