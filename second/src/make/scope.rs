//! Scope setups and reads.

use super::Maker;

impl Maker {
    /// Definitions of the given sizes, addresses of so many bytes.
    fn definitions(&mut self, sizes: &[u8], width: usize, inside: bool) -> Vec<u8> {
        let mut data = vec![sizes.len() as u8];
        for size in sizes {
            data.push(*size);
            if inside {
                let most = 16_384 - u64::from(*size);
                let addresses = [0, 16, 43, 8_190, 12_288, most, most];
                let address = *self.rng.pick(&addresses) as u32;
                data.extend_from_slice(&address.to_le_bytes()[..width]);
            } else {
                data.extend(self.address_bytes(*size, width));
            }
        }
        data
    }

    /// One or two small variables, whole within the memory.
    pub fn right_definitions(&mut self, width: usize) -> Vec<u8> {
        let sizes: &[u8] = if self.rng.once_in(2) { &[1] } else { &[2, 4] };
        self.definitions(sizes, width, true)
    }

    fn scope_command(&mut self) -> (u8, usize) {
        *self.rng.pick(&[(0x08, 2), (0x0A, 4)])
    }

    /// A setup that is accepted, read while variables change; at times more
    /// than an answer holds.
    pub fn scope_used(&mut self) {
        let (command, width) = self.scope_command();
        let sizes: Vec<u8> = match self.rng.below(5) {
            0 => vec![8; 8],
            1 => vec![64],
            2 => vec![*self.rng.pick(&[60, 61]), 4],
            3 => vec![255; 1 + self.rng.below(8) as usize],
            _ => self.small_sizes(),
        };
        let data = self.definitions(&sizes, width, true);
        self.send(command, &data);
        for _ in 0..self.rng.below(4) {
            self.send(0xC5, &[]);
            self.some_poke();
        }
        self.send(0xC5, &[]);
    }

    fn small_sizes(&mut self) -> Vec<u8> {
        let count = 1 + self.rng.below(8);
        let sizes = [1, 1, 2, 2, 4, 4, 3, 8];
        (0..count).map(|_| *self.rng.pick(&sizes)).collect()
    }

    /// Counts, sizes, lengths and ranges at and behind their edges.
    pub fn scope_wrong(&mut self) {
        if self.rng.once_in(3) {
            return self.scope_outside();
        }
        let (command, width) = self.scope_command();
        let count = *self.rng.pick(&[0, 1, 2, 8, 9, 9, 10, 12]);
        let mut sizes: Vec<u8> = (0..count).map(|_| 1 + self.rng.below(4) as u8).collect();
        if count > 0 && self.rng.once_in(4) {
            sizes[self.rng.below(count) as usize] = 0;
        }
        let inside = self.rng.once_in(2);
        let mut data = self.definitions(&sizes, width, inside);
        match self.rng.below(8) {
            0 => data.push(0x01),
            1 => data.truncate(data.len() - 1),
            2 => data[0] = *self.rng.pick(&[0, 1, 8, 9, 255]),
            _ => {}
        }
        self.send(command, &data);
        if self.rng.once_in(2) {
            // What was set up before still stands.
            self.send(0xC5, &[]);
        }
    }
    /// Definitions with nothing wrong but, mostly, a range; the first, the last
    /// or any.
    fn scope_outside(&mut self) {
        let (command, width) = self.scope_command();
        let sizes = self.small_sizes();
        let mut data = self.definitions(&sizes, width, true);
        let which = self.rng.below(sizes.len() as u64) as usize;
        let which = *self.rng.pick(&[0, which, sizes.len() - 1]);
        let at = 1 + which * (1 + width);
        let past = *self.rng.pick(&[0, 1, 2]);
        let address = 16_384 - u32::from(sizes[which]) + past;
        data[at + 1..at + 1 + width].copy_from_slice(&address.to_le_bytes()[..width]);
        self.send(command, &data);
        self.send(0xC5, &[]);
    }
}
