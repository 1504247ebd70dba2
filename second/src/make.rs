//! Makes random scripts that reach everything a target and its other end do.
//!
//! A script is a row of steps: single messages right and wrong, noise, whole
//! recordings that are set up, triggered and read back, commands for the gate's
//! own program with its calls, tables of names that are registered and asked
//! for, blocks of wire bytes, a panel that prepares and starts the recorder,
//! frames at the second port, and calls of the other end of the cable.

mod application;
mod blocks;
mod entries;
mod host;
mod memory;
mod modbus;
mod noise;
mod panel;
mod plan;
mod recording;
mod scope;
mod served;
mod strings;
mod tables;
pub mod wire;

use crate::areas::{BUFFER, BUFFER_LENGTH};
use crate::reachable;
use crate::rng::Rng;
use plan::Plan;

/// The bytes of one M line at the end: short enough to be read.
const SHOWN: usize = 256;

pub struct Maker {
    rng: Rng,
    /// The commands served, in their order.
    served: Vec<u8>,
    lines: Vec<String>,
    /// The data length the reader of the script expects.
    expected: usize,
    /// The setup sent last.
    plan: Option<Plan>,
    /// How many tables the last list named, registered or not.
    named: u16,
}

type Step = fn(&mut Maker);

/// Each step with its weight.
const STEPS: [(u64, Step); 37] = [
    (8, Maker::fast_read),
    (8, Maker::fast_write),
    (10, Maker::block),
    (7, Maker::wrong_block),
    (2, Maker::information),
    (5, Maker::scope_used),
    (5, Maker::scope_wrong),
    (14, Maker::recording),
    (8, Maker::setup_wrong),
    (8, Maker::recorder_command),
    (1, Maker::long_recording),
    (4, Maker::noise),
    (4, Maker::truncated),
    (4, Maker::interrupted),
    (3, Maker::start_bytes),
    (4, Maker::any_command),
    (2, Maker::sweep),
    (3, Maker::start_sums),
    (6, Maker::long_message),
    (8, Maker::wrong_sum),
    (4, Maker::some_poke),
    (4, Maker::some_ticks),
    (7, Maker::other_end),
    (6, Maker::application_used),
    (3, Maker::application_any),
    (3, Maker::tables_used),
    (5, Maker::tables_wrong),
    (2, Maker::tables_asked),
    (3, Maker::string),
    (2, Maker::string_edges),
    (8, Maker::blocks),
    (7, Maker::panel_recording),
    (5, Maker::panel_wrong),
    (3, Maker::panel_call),
    (5, Maker::panel_amid),
    (12, Maker::frames),
    (2, Maker::frames_beside_recorder),
];

/// The script of a seed: so many operations, then the memory shown.
pub fn script(seed: u64, operations: usize) -> String {
    let mut maker = Maker {
        rng: Rng::new(seed),
        served: reachable::commands().into_iter().map(|row| row.0).collect(),
        lines: vec![format!("# seed {seed}")],
        expected: 0,
        plan: None,
        named: 0,
    };
    maker.opening();
    while maker.lines.len() < operations + 1 {
        maker.step();
    }
    // A step may have gone past the end; the line with the seed is no operation.
    maker.lines.truncate(operations + 1);
    maker.closing();
    maker.lines.join("\n") + "\n"
}

impl Maker {
    fn step(&mut self) {
        let all = STEPS.iter().map(|(weight, _)| weight).sum();
        let mut number = self.rng.below(all);
        for (weight, step) in STEPS {
            if number < weight {
                return step(self);
            }
            number -= weight;
        }
    }

    /// Something in the memory, and commands before anything is set up.
    fn opening(&mut self) {
        for address in [0, 32, 8_160, 8_192, 12_224, 12_288, 16_352] {
            let bytes = self.rng.bytes(32);
            self.poke(address, &bytes);
        }
        if self.rng.once_in(3) {
            for address in (0..16_384).step_by(1_024) {
                let bytes = self.rng.bytes(1_024);
                self.poke(address, &bytes);
            }
        }
        for command in [0xC1, 0xC2, 0xC3, 0xC4, 0xC9, 0xC5, 0xC6] {
            if self.rng.once_in(2) {
                self.send(command, &[]);
            }
        }
        for step in [Maker::panel_amid, Maker::panel_wrong] {
            if self.rng.once_in(2) {
                step(self);
            }
        }
        if self.rng.once_in(2) {
            self.application_any();
        }
        if self.rng.once_in(2) {
            self.tables_asked();
        }
    }

    /// The variables and the recorder buffer.
    fn closing(&mut self) {
        let variables = (0..8_192).step_by(SHOWN);
        let buffer = (BUFFER..BUFFER + BUFFER_LENGTH).step_by(SHOWN);
        for address in variables.chain(buffer) {
            self.lines.push(format!("M {address} {SHOWN}"));
        }
    }

    fn some_poke(&mut self) {
        let count = *self.rng.pick(&[1, 1, 2, 4, 16, 64]);
        let address = match self.rng.below(4) {
            0 => self.rng.below(64),
            1 => BUFFER as u64 + self.rng.below(64),
            2 => *self.rng.pick(&[0, 8_190, 12_286, 16_320]),
            _ => self.rng.below(16_384 - 64),
        };
        let bytes = self.rng.bytes(count);
        self.poke(address as usize, &bytes);
    }

    fn some_ticks(&mut self) {
        let count = *self.rng.pick(&[0, 1, 1, 2, 3, 5, 10, 100, 1_000]);
        self.ticks(count);
    }

    fn poke(&mut self, address: usize, bytes: &[u8]) {
        // A poke reaches to the end of the memory at most.
        let count = bytes.len().min(16_384 - address);
        let line = format!("P {address}{}", hex(&bytes[..count]));
        self.lines.push(line);
    }

    fn ticks(&mut self, count: u64) {
        self.lines.push(format!("T {count}"));
    }
}

/// Bytes in hex, a space before each.
fn hex(bytes: &[u8]) -> String {
    bytes.iter().map(|byte| format!(" {byte:02X}")).collect()
}

#[cfg(test)]
mod tests {
    use super::*;
    use std::io::sink;

    use crate::cover::Counts;
    use crate::play::play_watched;

    #[test]
    fn the_same_seed_gives_the_same_script() {
        assert_eq!(script(5, 300), script(5, 300));
        assert_ne!(script(5, 300), script(6, 300));
    }

    #[test]
    fn so_many_operations_and_the_memory() {
        assert_eq!(script(5, 300).lines().count(), 1 + 300 + 32 + 16);
    }

    /// Every script can be read, and together they reach everything.
    #[test]
    fn scripts_reach_everything() {
        let mut counts = Counts::none();
        for seed in 0..60 {
            let script = script(seed, 500);
            let played = play_watched(&mut script.as_bytes(), &mut sink(), &mut counts);
            assert_eq!(played, Ok(()));
        }
        assert_eq!(counts.faults(), "");
    }
}
