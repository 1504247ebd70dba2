//! Messages put on the wire of a script.

use super::{hex, Maker};
use crate::line::{stuffed, sum_byte, START};
use crate::message::fast_length;

/// The literals of a message with its right sum.
pub fn literals(command: u8, data: &[u8]) -> Vec<u8> {
    let mut literals = vec![command];
    if fast_length(command).is_none() {
        literals.push(data.len() as u8);
    }
    literals.extend_from_slice(data);
    literals.push(sum_byte(&literals));
    literals
}

impl Maker {
    /// A message with its right sum.
    pub fn send(&mut self, command: u8, data: &[u8]) {
        self.on_wire(&stuffed(&literals(command, data)));
    }

    /// Wire bytes: mostly as they are, at times behind a run of 0x2B, at times
    /// with ticks and pokes between them.
    pub fn on_wire(&mut self, wire: &[u8]) {
        let mut bytes = Vec::new();
        if self.rng.once_in(12) {
            // An even run is dropped, an odd one takes the message's start.
            let run = *self.rng.pick(&[1, 2, 2, 2, 3, 4, 4, 6, 8]);
            bytes = vec![START; run];
        }
        bytes.extend_from_slice(wire);
        if self.rng.once_in(8) {
            self.in_pieces(&bytes);
        } else {
            self.bytes(&bytes);
        }
    }

    /// Wire bytes on more than one line, with something between the lines.
    fn in_pieces(&mut self, wire: &[u8]) {
        let mut rest = wire;
        while !rest.is_empty() {
            let count = 1 + self.rng.below(rest.len() as u64) as usize;
            let (piece, after) = rest.split_at(count);
            self.bytes(piece);
            rest = after;
            match self.rng.below(8) {
                5 if self.rng.once_in(6) => self.register_between(),
                which => self.happen(which),
            }
        }
    }

    /// Something that happens beside the wire, of seven things, or nothing.
    pub fn happen(&mut self, which: u64) {
        match which {
            0 => self.ticks(1),
            1 => self.some_ticks(),
            2 => self.some_poke(),
            3 => self.move_trigger(),
            4 => self.application_call(),
            6 => self.panel_call(),
            7 => self.some_frame(),
            _ => {}
        }
    }

    /// Wire bytes one by one; now and then as a block instead.
    pub fn bytes(&mut self, wire: &[u8]) {
        if self.rng.once_in(20) {
            return self.roomy_block(wire);
        }
        let mut bytes = hex(wire);
        if self.rng.once_in(40) {
            // Small letters, single digits and more than one space.
            bytes = bytes.to_ascii_lowercase().replace(" 0", "  ");
        }
        self.lines.push(format!("B{bytes}"));
    }
}
