//! Blocks of wire bytes, as hardware with a buffer of its own hands them over.

use super::wire::literals;
use super::{hex, Maker};
use crate::line::{stuffed, START};

/// Rooms that are refused, and rooms at the edges.
const SHORT: [usize; 5] = [0, 1, 130, 131, 131];
const EDGES: [usize; 8] = [132, 132, 133, 262, 263, 264, 396, 2_000];

/// How long answers often are: a status alone, one to four data bytes, a brief
/// description, and 64 data bytes none or all of which are doubled.
const ANSWERS: [usize; 10] = [3, 3, 3, 4, 5, 6, 7, 9, 67, 131];

/// The most wire bytes in a block.
const MOST_BYTES: usize = 600;

impl Maker {
    pub fn blocks(&mut self) {
        match self.rng.below(3) {
            0 => self.measured_block(),
            _ => self.row_of_blocks(),
        }
        if self.rng.once_in(3) {
            self.information();
        }
    }

    /// Messages with answers of known lengths, and a room of which behind one
    /// of them 131 or 132 bytes are left.
    fn measured_block(&mut self) {
        let mut wire = Vec::new();
        let mut written = 0;
        let mut rooms = Vec::new();
        for _ in 0..1 + self.rng.below(4) {
            let (message, length) = self.measured();
            wire.extend(message);
            written += length;
            rooms.extend([131 + written, 132 + written]);
        }
        match self.rng.below(4) {
            0 => wire.extend(self.whole()),
            1 => wire.push(self.rng.byte()),
            _ => {}
        }
        let room = *self.rng.pick(&rooms);
        self.block_line(room, &wire);
        self.between();
    }

    /// A message, and how long its answer is.
    fn measured(&mut self) -> (Vec<u8>, usize) {
        match self.rng.below(4) {
            0 => (stuffed(&literals(0xC8, &[])), 9),
            1 => (stuffed(&[0xC8, 0x39]), 3),
            2 => (stuffed(&literals(0xC7, &[])), 3),
            _ => (self.longest_answer(), 131),
        }
    }

    /// A row of messages and what may stand between them, cut into blocks
    /// anywhere; single bytes, ticks and pokes come between the blocks.
    fn row_of_blocks(&mut self) {
        let mut wire = Vec::new();
        for _ in 0..1 + self.rng.below(10) {
            wire.extend(self.some_wire());
        }
        wire.truncate(MOST_BYTES);
        let mut rest = wire.as_slice();
        while !rest.is_empty() {
            let count = match self.rng.below(3) {
                0 => 1 + self.rng.below(rest.len() as u64) as usize,
                _ => rest.len(),
            };
            let (piece, after) = rest.split_at(count);
            self.piece(piece);
            self.between();
            rest = after;
        }
    }

    fn piece(&mut self, wire: &[u8]) {
        if self.rng.once_in(6) {
            return self.bytes(wire);
        }
        let room = self.block_room();
        self.block_line(room, wire);
    }

    fn between(&mut self) {
        match self.rng.below(10) {
            5 => {
                let room = self.block_room();
                self.block_line(room, &[]);
            }
            which => self.happen(which),
        }
    }

    /// Mostly messages that are answered, of every length an answer has.
    fn some_wire(&mut self) -> Vec<u8> {
        let mut wire = match self.rng.below(8) {
            0..=2 => self.whole(),
            3 | 4 => self.served_wire(),
            5 => self.longest_answer(),
            6 => stuffed(&literals(0x01, &[0x40, 0x10, 0x20])),
            _ => self.rng.bytes(6),
        };
        match self.rng.below(16) {
            0 => wire.truncate(self.rng.below(wire.len() as u64) as usize),
            1 => wire.extend(vec![START; 1 + self.rng.below(3) as usize]),
            _ => {}
        }
        wire
    }

    /// A message of any command, at times with a wrong sum.
    fn served_wire(&mut self) -> Vec<u8> {
        let command = self.any_served();
        let data = self.right_data(command);
        let mut all = literals(command, &data);
        if self.rng.once_in(4) {
            let last = all.len() - 1;
            all[last] = all[last].wrapping_add(1);
        }
        stuffed(&all)
    }

    /// A read of 64 bytes 0x2B, which the gate's program has put there.
    fn longest_answer(&mut self) -> Vec<u8> {
        self.poke(64, &[START; 64]);
        stuffed(&literals(0x01, &[0x40, 0x40, 0x00]))
    }

    /// Refused, at an edge, just enough or not for a further byte behind some
    /// answers, or any.
    fn block_room(&mut self) -> usize {
        let some: usize = (0..1 + self.rng.below(4))
            .map(|_| *self.rng.pick(&ANSWERS))
            .sum();
        match self.rng.below(10) {
            0 => *self.rng.pick(&SHORT),
            1 | 2 => *self.rng.pick(&EDGES),
            3..=6 => 131 + some + self.rng.below(2) as usize,
            7 => 132 + self.rng.below(1_869) as usize,
            _ => 2_000,
        }
    }

    /// A block that is mostly taken whole.
    pub fn roomy_block(&mut self, wire: &[u8]) {
        let room = *self.rng.pick(&[2_000, 2_000, 2_000, 600, 264, 132]);
        self.block_line(room, wire);
    }

    fn block_line(&mut self, room: usize, wire: &[u8]) {
        self.lines.push(format!("K {room}{}", hex(wire)));
    }
}
