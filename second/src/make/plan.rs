//! Recorder setups that are accepted, and ones with something wrong.

use super::Maker;

/// A recorder setup as a script sends it.
#[derive(Clone)]
pub struct Plan {
    pub wide: bool,
    pub mode: u8,
    pub samples: u16,
    pub post_trigger: u16,
    pub divider: u16,
    pub address: u32,
    pub size: u8,
    pub sign: u8,
    pub threshold: u32,
    /// Size and address each.
    pub variables: Vec<(u8, u32)>,
}

impl Plan {
    pub fn command(&self) -> u8 {
        if self.wide {
            0x0B
        } else {
            0x09
        }
    }

    pub fn data(&self) -> Vec<u8> {
        let width = if self.wide { 4 } else { 2 };
        let mut data = vec![self.mode];
        for word in [self.samples, self.post_trigger, self.divider] {
            data.extend_from_slice(&word.to_le_bytes());
        }
        data.extend_from_slice(&self.address.to_le_bytes()[..width]);
        data.extend_from_slice(&[self.size, self.sign]);
        data.extend_from_slice(&self.threshold.to_le_bytes());
        data.push(self.variables.len() as u8);
        for (size, address) in &self.variables {
            data.push(*size);
            data.extend_from_slice(&address.to_le_bytes()[..width]);
        }
        data
    }

    pub fn set_size(&self) -> u32 {
        self.variables
            .iter()
            .map(|(size, _)| u32::from(*size))
            .sum()
    }

    /// The bytes of the buffer that sets may fill.
    pub fn filled(&self) -> u64 {
        u64::from(self.samples) * u64::from(self.set_size())
    }

    /// The ticks from one set to the next.
    pub fn step(&self) -> u64 {
        u64::from(self.divider) + 1
    }
}

/// All bits of a value of so many bytes.
pub fn full(size: u8) -> u32 {
    u32::MAX >> (32 - 8 * u32::from(size.clamp(1, 4)))
}

/// The value of so many bytes with only its sign bit set.
pub fn sign_bit(size: u8) -> u32 {
    full(size) / 2 + 1
}

impl Maker {
    /// A setup that is accepted while no recorder runs.
    pub fn plan(&mut self) -> Plan {
        let size = *self.rng.pick(&[1, 2, 4]);
        let address = self.recordable(size);
        let variables = self.variables(size, address);
        let mut plan = Plan {
            wide: self.rng.once_in(3),
            mode: *self.rng.pick(&[0, 1, 1, 1, 2, 2, 2]),
            samples: 1,
            post_trigger: 0,
            divider: *self.rng.pick(&[0, 0, 0, 0, 0, 1, 1, 2, 3, 9]),
            address,
            size,
            sign: self.rng.below(2) as u8,
            threshold: self.threshold(size),
            variables,
        };
        plan.samples = self.samples(plan.set_size());
        plan.post_trigger = self.post_trigger(plan.samples);
        if self.rng.once_in(30) {
            plan.divider = *self.rng.pick(&[43, 255, 256, 5_000, 65_535]);
        }
        if plan.mode == 0 {
            self.spoil_trigger(&mut plan);
        }
        plan
    }

    /// An address below 12,288, at times just so that the range ends there.
    fn recordable(&mut self, size: u8) -> u32 {
        let last = 12_288 - u32::from(size);
        match self.rng.below(8) {
            0 => last,
            1 => *self.rng.pick(&[8_188, 8_190, 8_191, 8_192, 43]),
            2 => self.rng.below(u64::from(last) + 1) as u32,
            _ => self.rng.below(48) as u32,
        }
    }

    /// Up to 8 variables, the trigger's mostly among them.
    fn variables(&mut self, size: u8, address: u32) -> Vec<(u8, u32)> {
        let sizes = [1, 1, 1, 2, 2, 4, 4, 3, 8, 43, 64, 255];
        let count = *self.rng.pick(&[1, 1, 1, 2, 2, 3, 4, 8]);
        let mut all = Vec::new();
        for _ in 0..count {
            let size = *self.rng.pick(&sizes);
            all.push((size, self.recordable(size)));
        }
        if !self.rng.once_in(4) {
            all[0] = (size, address);
        }
        all
    }

    /// Few samples mostly, at times as many as the buffer holds.
    fn samples(&mut self, set_size: u32) -> u16 {
        let most = 4_096 / set_size as u16;
        let any = 1 + self.rng.below(u64::from(most)) as u16;
        let some = [1, 2, 3, 4, 5, 5, 7, 10, any, most, most];
        (*self.rng.pick(&some)).min(most)
    }

    fn post_trigger(&mut self, samples: u16) -> u16 {
        let some = [0, 0, 1, 1, 2, 3, samples - 1, samples, samples + 1];
        match self.rng.below(12) {
            0 => samples.saturating_mul(3),
            1 => *self.rng.pick(&[43, 300, 65_535]),
            _ => *self.rng.pick(&some),
        }
    }

    /// Thresholds around every sign boundary; what stands above the trigger
    /// size does not count.
    fn threshold(&mut self, size: u8) -> u32 {
        let half = sign_bit(size);
        let any = self.rng.next() as u32;
        let some = [0, 1, 2, 43, half - 1, half, half, half + 1, full(size), any];
        let value = *self.rng.pick(&some) & full(size);
        if self.rng.once_in(2) {
            value | self.rng.next() as u32 & !full(size)
        } else {
            value
        }
    }

    /// "With mode 0 the trigger's fields are not looked at."
    fn spoil_trigger(&mut self, plan: &mut Plan) {
        if self.rng.once_in(2) {
            plan.size = self.size();
            plan.sign = self.rng.byte();
            plan.address = *self.rng.pick(&[12_288, 16_384, 65_535]);
        }
    }

    /// A setup with something wrong, mostly while no recorder runs.
    pub fn setup_wrong(&mut self) {
        if !self.rng.once_in(4) {
            self.send(0xC2, &[]);
        }
        let mut plan = self.plan();
        let data = self.spoiled(&mut plan);
        self.send(plan.command(), &data);
        if self.rng.once_in(2) {
            // What was set up before still stands.
            self.recorder_command();
        }
    }

    /// The data part of a plan that is spoiled in one thing, at times in two.
    pub fn spoiled(&mut self, plan: &mut Plan) -> Vec<u8> {
        self.spoil(plan);
        if self.rng.once_in(5) {
            self.spoil(plan);
        }
        let mut data = plan.data();
        match self.rng.below(12) {
            0 => data.push(self.rng.byte()),
            1 => data.truncate(data.len() - 1),
            2 => data.truncate(self.rng.below(20) as usize),
            3 if !plan.wide => data[15] = *self.rng.pick(&[0, 1, 8, 9, 255]),
            _ => {}
        }
        data
    }

    fn spoil(&mut self, plan: &mut Plan) {
        let most = (4_096 / plan.set_size().max(1)) as u16;
        let some = self.rng.below(plan.variables.len().max(1) as u64) as usize;
        let high = *self.rng.pick(&[0x1_0000, 0x8000_0000, 0xFFFF_0000]);
        match self.rng.below(14) {
            0 => plan.mode = *self.rng.pick(&[3, 4, 43, 255]),
            1 => plan.sign = *self.rng.pick(&[2, 43, 255]),
            2 => plan.samples = 0,
            3 => plan.samples = most + 1,
            4 => plan.samples = *self.rng.pick(&[4_096, 4_097, 32_768, 65_535]),
            5 => plan.size = *self.rng.pick(&[0, 3, 3, 3, 5, 8, 255]),
            6 => plan.address = 12_288 + 1 - u32::from(plan.size.min(4)),
            7 => plan.address = *self.rng.pick(&[12_288, 16_383, 65_535]),
            8 => plan.variables.clear(),
            9 => plan.variables = vec![(1, 16); 9],
            10 => plan.variables = vec![(0, 16)],
            11 if some < plan.variables.len() => plan.variables[some].0 = 0,
            12 if some < plan.variables.len() => {
                let size = u32::from(plan.variables[some].0);
                plan.variables[some].1 = 12_288 + 1 - size;
            }
            _ if plan.wide => plan.address |= high,
            _ => plan.variables.push((255, 12_288 - 254)),
        }
    }
}
