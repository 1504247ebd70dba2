//! Commands for the gate's own program, and its calls.

use super::Maker;

/// How many bytes a command has, at the edges and where the length is 0x2B.
const COUNTS: [usize; 10] = [1, 1, 1, 2, 3, 8, 43, 62, 63, 64];

/// Rooms that are enough, and rooms that are not.
const ENOUGH: [usize; 6] = [64, 64, 64, 65, 132, 600];
const SHORT: [usize; 6] = [0, 1, 2, 62, 63, 63];

/// Results at the edges, and one that is doubled on the wire.
const RESULTS: [u8; 7] = [0x00, 0x01, 0x2B, 0x7F, 0x80, 0xFC, 0xFD];
const NO_RESULTS: [u8; 3] = [0xFE, 0xFE, 0xFF];

impl Maker {
    pub fn command_bytes(&mut self) -> Vec<u8> {
        let any = 1 + self.rng.below(64) as usize;
        let count = match self.rng.below(3) {
            0 => any,
            _ => *self.rng.pick(&COUNTS),
        };
        self.rng.bytes(count)
    }

    pub fn send_command(&mut self) {
        let command = self.command_bytes();
        self.send(0x10, &command);
    }

    fn send_too_long(&mut self) {
        let count = *self.rng.pick(&[65, 65, 66, 128, 255]);
        let command = self.rng.bytes(count);
        self.send(0x10, &command);
    }

    fn ask_result(&mut self) {
        self.send(0xC6, &[]);
    }

    fn collect(&mut self) {
        let room = *self.rng.pick(&ENOUGH);
        self.lines.push(format!("C {room}"));
    }

    fn collect_short(&mut self) {
        let room = *self.rng.pick(&SHORT);
        self.lines.push(format!("C {room}"));
    }

    fn report(&mut self) {
        let result = match self.rng.below(3) {
            0 => self.rng.below(0xFE) as u8,
            _ => *self.rng.pick(&RESULTS),
        };
        self.lines.push(format!("Y {result:02X}"));
    }

    fn report_wrong(&mut self) {
        let result = *self.rng.pick(&NO_RESULTS);
        self.lines.push(format!("Y {result:X}"));
    }

    /// The gate's program takes what came, if it is a command, and ends it.
    pub fn hand_over(&mut self) {
        self.ask_result();
        self.collect();
        self.report();
    }

    /// One call of the gate's program, whatever stands.
    pub fn application_call(&mut self) {
        match self.rng.below(8) {
            0..=2 => self.collect(),
            3 => self.collect_short(),
            4..=6 => self.report(),
            _ => self.report_wrong(),
        }
    }

    /// What does nothing or is refused, wherever a command has come to; only a
    /// further command may be taken.
    fn beside(&mut self) {
        match self.rng.below(10) {
            0 | 1 => self.send_command(),
            2 => self.send(0x10, &[]),
            3 => self.send_too_long(),
            4 => self.collect_short(),
            5 => self.report_wrong(),
            6 => self.some_ticks(),
            _ => {}
        }
        if !self.rng.once_in(3) {
            self.ask_result();
        }
    }

    /// A command sent, collected and ended, with wrong calls beside; now and
    /// then a step is left out, or made twice.
    pub fn application_used(&mut self) {
        let steps: [fn(&mut Maker); 3] = [Maker::send_command, Maker::collect, Maker::report];
        for step in steps {
            for _ in 0..*self.rng.pick(&[0, 1, 1, 1, 1, 1, 1, 2]) {
                step(self);
                self.beside();
            }
        }
    }

    /// Calls in any order: results before the command, collections behind it.
    pub fn application_any(&mut self) {
        for _ in 0..1 + self.rng.below(4) {
            self.application_call();
            self.beside();
        }
    }
}
