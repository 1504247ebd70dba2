//! The front panel: it prepares and starts, whatever the recorder does and in
//! the midst of a message too.

use super::plan::Plan;
use super::wire::literals;
use super::{hex, Maker};
use crate::line::stuffed;

impl Maker {
    /// A recording that the panel prepares; it or the laptop starts it, perhaps
    /// after ticks at which nothing may happen.
    pub fn panel_recording(&mut self) {
        let plan = self.narrow_plan();
        self.stop_mostly();
        self.prepare(&plan);
        self.ask_recorder();
        if self.rng.once_in(2) {
            self.some_steps(&plan);
        }
        match self.rng.below(4) {
            0 => self.send(0xC1, &[]),
            _ => self.start(),
        }
        self.record(&plan);
        if self.rng.once_in(3) {
            self.prepare_again(&plan);
        }
    }

    /// Behind a recording: prepared anew, looked at, and started or not.
    fn prepare_again(&mut self, plan: &Plan) {
        self.stop_mostly();
        match self.rng.below(3) {
            0 => self.prepare_anything(),
            _ => self.prepare(plan),
        }
        self.read_back(plan);
        self.some_steps(plan);
        if self.rng.once_in(2) {
            self.start();
            self.rounds(plan);
        }
        self.read_back(plan);
    }

    /// A data part with something wrong, mostly while the recorder stands; what
    /// was set up before still stands.
    pub fn panel_wrong(&mut self) {
        if !self.rng.once_in(4) {
            self.send(0xC2, &[]);
        }
        self.prepare_wrong();
        self.ask_recorder();
        if self.rng.once_in(2) {
            self.start();
            self.move_trigger();
            self.some_ticks();
            self.ask_recorder();
        }
    }

    /// One call of the panel, whatever stands.
    pub fn panel_call(&mut self) {
        match self.rng.below(6) {
            0 | 1 => self.start(),
            2 => self.prepare_wrong(),
            3 => self.prepare_anything(),
            _ => {
                let plan = self.narrow_plan();
                self.prepare(&plan);
            }
        }
    }

    /// A message cut in two, with a call of the panel at the cut: mostly one
    /// that tells of the recorder, behind a stop or not.
    pub fn panel_amid(&mut self) {
        if self.rng.once_in(2) {
            self.send(0xC2, &[]);
        }
        let wire = match self.rng.below(3) {
            0 => self.whole(),
            _ => stuffed(&literals(self.of_recorder(), &[])),
        };
        let cut = 1 + self.rng.below(wire.len() as u64 - 1) as usize;
        self.bytes(&wire[..cut]);
        self.panel_call();
        self.bytes(&wire[cut..]);
    }

    fn start(&mut self) {
        self.lines.push("S".to_string());
    }

    fn prepare(&mut self, plan: &Plan) {
        self.plan = Some(plan.clone());
        self.move_trigger();
        self.prepare_with(&plan.data());
    }

    fn prepare_with(&mut self, data: &[u8]) {
        self.lines.push(format!("F{}", hex(data)));
    }

    fn prepare_wrong(&mut self) {
        let mut plan = self.narrow_plan();
        let mut data = self.spoiled(&mut plan);
        if self.rng.once_in(5) {
            // Above 64 bytes, whatever stands in them.
            data.resize(*self.rng.pick(&[65, 65, 66, 128, 255]), 0x2B);
        }
        self.prepare_with(&data);
    }

    /// Bytes that are hardly ever a setup, at every length up to 64 and beyond.
    fn prepare_anything(&mut self) {
        let any = self.rng.below(70) as usize;
        let count = *self.rng.pick(&[0, 1, 15, 16, 19, 63, 64, 65, 255, any]);
        let data = self.rng.bytes(count);
        self.prepare_with(&data);
    }

    /// The panel gives 0x09's data part, with addresses of 2 bytes.
    fn narrow_plan(&mut self) -> Plan {
        Plan {
            wide: false,
            ..self.plan()
        }
    }

    /// What a prepared recorder answers something of its own to.
    fn ask_recorder(&mut self) {
        for command in [0xC3, 0xC4] {
            if !self.rng.once_in(3) {
                self.send(command, &[]);
            }
        }
    }
}
