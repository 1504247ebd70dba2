//! Recordings: set up, triggered, stopped and read back.

use super::plan::{full, sign_bit, Plan};
use super::Maker;
use crate::areas::BUFFER;

/// The most ticks a step gives in a row.
const MOST_TICKS: u64 = 70_000;

impl Maker {
    /// Any of the recorder's short commands, in whatever state it is.
    pub fn recorder_command(&mut self) {
        let command = self.of_recorder();
        self.send(command, &[]);
    }

    pub fn of_recorder(&mut self) -> u8 {
        *self.rng.pick(&[0xC1, 0xC2, 0xC3, 0xC3, 0xC3, 0xC4, 0xC9])
    }

    /// A recording from its setup to its reading, at times started again.
    pub fn recording(&mut self) {
        let plan = self.set_up();
        self.record(&plan);
        if self.rng.once_in(3) {
            self.send(0xC1, &[]);
            self.rounds(&plan);
            self.read_back(&plan);
        }
    }

    /// What comes behind a start: changing values, mostly a trigger, the stop.
    pub fn record(&mut self, plan: &Plan) {
        self.rounds(plan);
        if !self.rng.once_in(4) {
            self.cross(plan);
        }
        self.run_out(plan);
        self.read_back(plan);
    }

    /// A setup, mostly behind a stop.
    fn set_up(&mut self) -> Plan {
        let plan = self.plan();
        self.send_setup(&plan);
        plan
    }

    /// A setup is refused while the recorder runs.
    pub fn stop_mostly(&mut self) {
        if !self.rng.once_in(6) {
            self.send(0xC2, &[]);
        }
    }

    pub fn send_setup(&mut self, plan: &Plan) {
        self.stop_mostly();
        self.plan = Some(plan.clone());
        self.move_trigger();
        self.send(plan.command(), &plan.data());
    }

    /// Some rounds of changed values and ticks.
    pub fn rounds(&mut self, plan: &Plan) {
        for _ in 0..1 + self.rng.below(6) {
            match self.rng.below(6) {
                0 => self.write_trigger(plan),
                1 => self.some_poke(),
                _ => self.move_trigger(),
            }
            self.some_steps(plan);
            if self.rng.once_in(5) {
                self.recorder_command();
            }
        }
    }

    /// Ticks around whole steps of the divider.
    pub fn some_steps(&mut self, plan: &Plan) {
        let step = plan.step();
        let few = 1 + self.rng.below(12);
        let counts = [1, 1, step, step, step + 1, step - 1, 2 * step, few];
        let count = *self.rng.pick(&counts);
        self.ticks(count.min(MOST_TICKS));
    }

    /// A value near the threshold, or at a sign boundary.
    fn value(&mut self, plan: &Plan) -> u32 {
        let (near, half) = (plan.threshold, sign_bit(plan.size));
        let values = [
            near.wrapping_sub(1),
            near,
            near.wrapping_add(1),
            near ^ half,
            0,
            half - 1,
            half,
            full(plan.size),
            self.rng.next() as u32,
        ];
        *self.rng.pick(&values)
    }

    /// The gate's program changes the trigger variable of the last setup.
    pub fn move_trigger(&mut self) {
        if let Some(plan) = self.plan.clone() {
            let value = self.value(&plan);
            self.poke_trigger(&plan, value);
        }
    }

    fn poke_trigger(&mut self, plan: &Plan, value: u32) {
        let address = plan.address.min(12_287) as usize;
        let size = usize::from(plan.size.clamp(1, 4));
        self.poke(address, &value.to_le_bytes()[..size]);
    }

    /// The same over the port, where it may be written.
    fn write_trigger(&mut self, plan: &Plan) {
        let value = self.value(plan).to_le_bytes();
        let mut data = (plan.address as u16).to_le_bytes().to_vec();
        match plan.size {
            1 => data.extend_from_slice(&[value[0], 0x00]),
            2 => data.extend_from_slice(&value[..2]),
            _ => data.extend_from_slice(&value),
        }
        let command = match plan.size {
            1 => 0xE3,
            2 => 0xE4,
            _ => 0xF0,
        };
        self.send(command, &data);
    }

    /// From one side of the threshold to the other, a set at each.
    fn cross(&mut self, plan: &Plan) {
        let rising = plan.mode == 1;
        let (below, above) = (
            plan.threshold.wrapping_sub(1),
            plan.threshold.wrapping_add(1),
        );
        let before = if rising { below } else { above };
        let after = match self.rng.below(3) {
            0 if rising => above,
            0 => below,
            _ => plan.threshold,
        };
        self.poke_trigger(plan, before);
        self.ticks(plan.step());
        self.poke_trigger(plan, after);
        self.ticks(plan.step());
    }

    /// The post-trigger sets, up to just before, at or behind the stop.
    fn run_out(&mut self, plan: &Plan) {
        let wanted = u64::from(plan.post_trigger) * plan.step();
        if wanted > MOST_TICKS || wanted > 3_000 && !self.rng.once_in(8) {
            return self.send(0xC3, &[]);
        }
        if wanted > 1 {
            self.ticks(wanted - 1);
            self.move_trigger();
            self.send(0xC3, &[]);
        }
        self.ticks(1);
        self.send(0xC3, &[]);
        if self.rng.once_in(3) {
            self.some_poke();
            self.some_steps(plan);
        }
    }

    /// The buffer query, mostly behind a stop, and reads of the buffer.
    pub fn read_back(&mut self, plan: &Plan) {
        if !self.rng.once_in(5) {
            self.send(0xC2, &[]);
        }
        let query = *self.rng.pick(&[0xC4, 0xC9]);
        self.send(query, &[]);
        for _ in 0..1 + self.rng.below(3) {
            let size = *self.rng.pick(&[1, 4, 16, 64, 64]);
            let most = plan.filled().min(4_096 - u64::from(size));
            let any = self.rng.below(most + 1);
            let offset = *self.rng.pick(&[0, most, any]);
            let address = (BUFFER as u64 + offset) as u16;
            let [low, high] = address.to_le_bytes();
            self.send(0x01, &[size, low, high]);
        }
    }

    /// A recording of more than 65,536 sets: without a trigger, or with as long
    /// a post-trigger.
    pub fn long_recording(&mut self) {
        let mut plan = self.plan();
        plan.divider = self.rng.below(2) as u16;
        plan.samples = plan.samples.min(*self.rng.pick(&[1, 3, 7, 10, 1_000]));
        plan.post_trigger = *self.rng.pick(&[0, 65_535, 65_535]);
        self.send_setup(&plan);
        if plan.post_trigger > 0 {
            self.cross(&plan);
        }
        let counts = [65_534, 65_535, 65_536, 65_537, MOST_TICKS];
        let count = *self.rng.pick(&counts);
        self.ticks(count * plan.step());
        for _ in 0..1 + self.rng.below(4) {
            self.send(0xC3, &[]);
            self.move_trigger();
            self.some_steps(&plan);
        }
        self.read_back(&plan);
    }
}
