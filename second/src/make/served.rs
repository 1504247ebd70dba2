//! Messages for each command served: right ones, to be spoiled in one thing.

use super::wire::literals;
use super::Maker;
use crate::line::{stuffed, START};
use crate::message::fast_length;

/// Commands that are not served, of either kind.
const OTHER: [u8; 6] = [0x00, 0x12, 0x7F, 0xBF, 0xC7, 0xFF];

/// The bytes of an address in a standard command.
pub fn width(command: u8) -> usize {
    match command {
        0x04..=0x06 | 0x0A | 0x0B => 4,
        _ => 2,
    }
}

/// How many times a block's bytes stand in its message: not at all in a read,
/// once in a write, twice in a masked one.
pub fn parts(command: u8) -> usize {
    usize::from((command - 1) % 3)
}

impl Maker {
    /// Any of the commands, each served one as often as another.
    pub fn any_served(&mut self) -> u8 {
        let at = self.rng.below(self.served.len() as u64 + 1) as usize;
        match self.served.get(at) {
            Some(command) => *command,
            None => *self.rng.pick(&OTHER),
        }
    }

    /// One of those with a length byte.
    fn standard(&mut self) -> u8 {
        let standard = self.served.partition_point(|c| fast_length(*c).is_none());
        *self.rng.pick(&self.served[..standard])
    }

    /// Data with which nothing refuses the command while the recorder stands and
    /// no command is pending.
    pub fn right_data(&mut self, command: u8) -> Vec<u8> {
        let address = self.rng.below(64) as u8;
        match command {
            0x01..=0x06 => {
                let size = 1 + self.rng.below(8) as u8;
                self.block_fields(command, size, parts(command) * usize::from(size))
            }
            0x08 | 0x0A => self.right_definitions(width(command)),
            0x09 | 0x0B => {
                let mut plan = self.plan();
                plan.wide = command == 0x0B;
                plan.data()
            }
            0x10 => self.command_bytes(),
            0x11 => self.table_index().to_le_bytes().to_vec(),
            0xD0..=0xD4 => vec![address, 0x00],
            0xE0..=0xE2 | 0xE6 => vec![address, 0x00, 0x00, 0x00],
            0xE3..=0xE5 => [vec![address, 0x00], self.rng.bytes(2)].concat(),
            0xF0 | 0xF1 => [vec![address, 0x00], self.rng.bytes(4)].concat(),
            0xFF => self.rng.bytes(6),
            _ => Vec::new(),
        }
    }

    /// Size, a low address and so many bytes behind them.
    fn block_fields(&mut self, command: u8, size: u8, more: usize) -> Vec<u8> {
        let address = 16 + self.rng.below(64) as u32;
        let mut data = vec![size];
        data.extend_from_slice(&address.to_le_bytes()[..width(command)]);
        data.extend(self.rng.bytes(more));
        data
    }

    /// A message that would be carried out, but for its sum; what it would have
    /// done shows in what follows.
    pub fn wrong_sum(&mut self) {
        let command = self.any_served();
        let data = self.right_data(command);
        let mut all = literals(command, &data);
        let last = all.len() - 1;
        all[last] = match self.rng.below(3) {
            0 => all[last].wrapping_add(1),
            1 => START,
            _ => self.rng.byte(),
        };
        self.on_wire(&stuffed(&all));
        match command {
            0x02..=0x06 if self.rng.once_in(2) => self.send(0x01, &[64, 0x10, 0x00]),
            0x08 | 0x0A => self.send(0xC5, &[]),
            0x09 | 0x0B | 0xC1..=0xC2 => self.send(0xC3, &[]),
            0x10 => self.hand_over(),
            _ => {}
        }
    }

    /// Length bytes around and far above 64, at times with a wrong sum too.
    pub fn long_message(&mut self) {
        let command = match self.rng.below(5) {
            0 => *self.rng.pick(&[0x12, 0x7F, 0xBF, 0x00]),
            _ => self.standard(),
        };
        let count = *self.rng.pick(&[0, 63, 64, 64, 65, 65, 66, 128, 255]);
        let data = self.filling(command, count);
        let mut all = literals(command, &data);
        if self.rng.once_in(5) {
            let last = all.len() - 1;
            all[last] = self.rng.byte();
        }
        self.on_wire(&stuffed(&all));
        if command == 0x10 {
            self.hand_over();
        }
    }

    /// Data of a length that a block's fields fill where they can: at 64 and
    /// below it is then carried out.
    fn filling(&mut self, command: u8, count: usize) -> Vec<u8> {
        let head = 1 + width(command);
        let fits = (0x01..=0x06).contains(&command) && count > head && parts(command) > 0;
        if !fits {
            return self.rng.bytes(count);
        }
        let size = (count - head) / parts(command);
        self.block_fields(command, size as u8, count - head)
    }
}
