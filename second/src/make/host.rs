//! Calls of the other end of the cable.

use super::{hex, Maker};
use crate::line::{stuffed, sum_byte, wire, START};
use crate::message::fast_length;

impl Maker {
    /// Some lines of the writers and the reader.
    pub fn other_end(&mut self) {
        for _ in 0..1 + self.rng.below(4) {
            match self.rng.below(7) {
                0 | 1 => self.write_command(),
                2 | 3 => self.write_answer(),
                4 => self.begin_reader(),
                _ => self.read_answers(),
            }
        }
    }

    /// Rooms at the edges, and around the bytes that are needed.
    fn room(&mut self, needed: usize) -> usize {
        let rooms = [
            0,
            1,
            needed,
            needed,
            needed.saturating_sub(1),
            needed + 1,
            131,
            132,
            600,
        ];
        (*self.rng.pick(&rooms)).min(600)
    }

    fn write_command(&mut self) {
        let command = match self.rng.below(10) {
            0 => START,
            1..=4 => 0xC0 | self.rng.next() as u8,
            _ => self.rng.next() as u8,
        };
        let any = self.rng.below(256) as usize;
        let count = match fast_length(command) {
            Some(length) if !self.rng.once_in(5) => length,
            Some(_) => *self.rng.pick(&[0, 1, 2, 3, 4, 5, 6, 7, 43]),
            None => *self
                .rng
                .pick(&[0, 1, 3, 43, 64, 65, 254, 255, 256, 300, any]),
        };
        let data = self.rng.bytes(count);
        let mut rest = data.clone();
        if command < 0xC0 {
            rest.insert(0, count as u8);
        }
        let room = self.room(wire(command, &rest).len());
        let line = format!("W {command:02X} {room}{}", hex(&data));
        self.lines.push(line);
    }

    fn write_answer(&mut self) {
        let status = self.status();
        let any = self.rng.below(65) as usize;
        let count = match status & 0x80 {
            0 => *self.rng.pick(&[0, 1, 2, 43, 63, 64, 64, 65, 100, any]),
            _ => *self.rng.pick(&[0, 0, 0, 1, 64, 65]),
        };
        let data = self.rng.bytes(count);
        let rooms = [0, 1, 64, 131, 132, 132, 132, 133, 600, count + 3];
        let room = *self.rng.pick(&rooms);
        let line = format!("V {status:02X} {room}{}", hex(&data));
        self.lines.push(line);
    }

    /// Mostly a status of the paper, at times any.
    fn status(&mut self) -> u8 {
        match self.rng.below(8) {
            0 => *self.rng.pick(&[0x03, 0x80, 0x8A, 0x7F, 0xFF, 0x2B]),
            1 => self.rng.byte(),
            2 | 3 => 0x81 + self.rng.below(9) as u8,
            _ => self.rng.below(3) as u8,
        }
    }

    fn begin_reader(&mut self) {
        let some = self.rng.below(65);
        let lengths = [0, 1, 2, 4, 43, 63, 64, 65, 66, 255, 256, 100_000, some];
        let expected = *self.rng.pick(&lengths);
        if expected <= 64 {
            self.expected = expected as usize;
        }
        self.lines.push(format!("E {expected}"));
    }

    /// Answers as they come back, right ones and others.
    fn read_answers(&mut self) {
        let mut bytes = Vec::new();
        for _ in 0..1 + self.rng.below(3) {
            let mut answer = self.answer();
            match self.rng.below(10) {
                0 => answer.truncate(self.rng.below(answer.len() as u64) as usize),
                1 => bytes.extend(vec![START; self.rng.below(5) as usize]),
                2 => bytes.extend(self.rng.bytes(5)),
                _ => {}
            }
            bytes.extend(answer);
        }
        self.read_in_rooms(&bytes);
    }

    /// The wire bytes of an answer, at times with a wrong sum or length.
    fn answer(&mut self) -> Vec<u8> {
        let status = self.status();
        let count = match status & 0x80 {
            0 => self.expected,
            _ => 0,
        };
        let off = *self.rng.pick(&[0, 0, 0, 0, 0, 0, 0, 1]);
        let mut literals = vec![status];
        literals.extend(self.rng.bytes(count + off));
        let sum = sum_byte(&literals);
        literals.push(match self.rng.below(6) {
            0 => sum.wrapping_add(1 + self.rng.below(255) as u8),
            _ => sum,
        });
        stuffed(&literals)
    }

    /// Mostly enough room; at times too little for some bytes in the middle,
    /// which are then given again, since such a call takes none.
    fn read_in_rooms(&mut self, bytes: &[u8]) {
        let room = *self.rng.pick(&[64, 64, 64, 65, 131, 132, 600]);
        if !self.rng.once_in(3) {
            return self.read_line(room, bytes);
        }
        let place = self.rng.below(bytes.len() as u64 + 1) as usize;
        let (before, after) = bytes.split_at(place);
        self.read_line(room, before);
        let short = *self.rng.pick(&[0, 1, 62, 63, 63]);
        let again = &after[..after.len().min(2)];
        self.read_line(short, again);
        self.read_line(room, after);
    }

    fn read_line(&mut self, room: usize, bytes: &[u8]) {
        if !bytes.is_empty() {
            self.lines.push(format!("R {room}{}", hex(bytes)));
        }
    }
}
