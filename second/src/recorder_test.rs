//! The recorder beside one that is ticked one tick at a time.

use crate::areas::{Range, BUFFER, MEMORY};
use crate::recorder::Recorder;
use crate::request::Setup;
use crate::rng::Rng;

/// The paper's recorder told as it happens: with counters.
struct Told {
    setup: Setup,
    ticks: u64,
    sets: u64,
    previous: Option<i64>,
    left: Option<u64>,
    stopped: bool,
}

impl Told {
    fn tick(&mut self, memory: &mut [u8]) {
        let due = self.ticks.is_multiple_of(u64::from(self.setup.divider) + 1);
        if self.stopped || !due {
            self.ticks += 1;
            return;
        }
        self.ticks += 1;
        self.copy(memory);
        if let Some(left) = self.left {
            self.left = Some(left - 1);
        } else if self.fires(memory) {
            self.left = Some(u64::from(self.setup.post_trigger));
        }
        self.stopped = self.left == Some(0);
    }

    fn copy(&mut self, memory: &mut [u8]) {
        let place = (self.sets % u64::from(self.setup.samples)) as usize;
        let mut to = BUFFER + place * self.setup.set_size();
        for variable in &self.setup.variables {
            let from = variable.address as usize;
            let size = usize::from(variable.size);
            memory.copy_within(from..from + size, to);
            to += size;
        }
        self.sets += 1;
    }

    fn fires(&mut self, memory: &[u8]) -> bool {
        let this = read(&self.setup, self.setup.trigger.of(memory));
        let threshold = read(&self.setup, &self.setup.threshold);
        let previous = self.previous.replace(this);
        match (previous, self.setup.mode) {
            (Some(previous), 1) => previous < threshold && this >= threshold,
            (Some(previous), 2) => previous > threshold && this <= threshold,
            (None, 1) => this >= threshold,
            (None, 2) => this <= threshold,
            _ => false,
        }
    }
}

fn read(setup: &Setup, bytes: &[u8]) -> i64 {
    match (setup.trigger.size, setup.sign) {
        (1, 0) => i64::from(bytes[0]),
        (1, _) => i64::from(bytes[0] as i8),
        (2, 0) => i64::from(u16::from_le_bytes([bytes[0], bytes[1]])),
        (2, _) => i64::from(i16::from_le_bytes([bytes[0], bytes[1]])),
        (_, 0) => i64::from(u32::from_le_bytes(bytes[..4].try_into().unwrap())),
        _ => i64::from(i32::from_le_bytes(bytes[..4].try_into().unwrap())),
    }
}

fn any_setup(rng: &mut Rng) -> Setup {
    let variables = (0..=rng.below(2)).map(|_| Range {
        size: *rng.pick(&[1, 2, 3]),
        address: rng.below(8) as u32,
    });
    Setup {
        variables: variables.collect(),
        mode: rng.below(3) as u8,
        samples: *rng.pick(&[1, 2, 3, 7]),
        post_trigger: *rng.pick(&[0, 1, 2, 9]),
        divider: *rng.pick(&[0, 0, 1, 2, 5]),
        trigger: Range {
            size: *rng.pick(&[1, 2, 4]),
            address: rng.below(8) as u32,
        },
        sign: rng.below(2) as u8,
        threshold: [*rng.pick(&[0x7F, 0x80, 0x00]); 4],
    }
}

fn started(setup: Setup) -> Recorder {
    let mut recorder = Recorder::prepared(setup);
    assert!(!recorder.runs());
    recorder.start();
    recorder
}

#[test]
fn agrees_with_one_told_tick_by_tick() {
    let mut rng = Rng::new(11);
    for _ in 0..3_000 {
        let setup = any_setup(&mut rng);
        let mut derived = started(setup.clone());
        let mut told = Told {
            setup,
            ticks: 0,
            sets: 0,
            previous: None,
            left: None,
            stopped: false,
        };
        let mut memory = vec![0; MEMORY];
        let mut other = memory.clone();
        for _ in 0..40 {
            let address = rng.below(12) as usize;
            let value = *rng.pick(&[0x00, 0x7F, 0x80, 0xFF]);
            memory[address] = value;
            other[address] = value;
            let count = rng.below(5);
            derived.ticks(count, &mut memory);
            (0..count).for_each(|_| told.tick(&mut other));
            check(&derived, &told, &memory, &other);
        }
    }
}

fn check(derived: &Recorder, told: &Told, memory: &[u8], other: &[u8]) {
    assert_eq!(memory, other);
    assert_eq!(derived.runs(), !told.stopped);
    let samples = u64::from(told.setup.samples);
    let index = if told.sets < samples {
        0
    } else {
        told.sets % samples
    };
    assert_eq!(u64::from(derived.start_index()), index);
}

/// A recorder that runs without a trigger and takes a set at every tick.
fn running_on(samples: u16) -> Recorder {
    let mut setup = any_setup(&mut Rng::new(u64::from(samples)));
    setup.mode = 0;
    setup.samples = samples;
    setup.divider = 0;
    started(setup)
}

/// Set numbers do not wrap at 65,536, nor anywhere.
#[test]
fn long_runs() {
    let mut memory = vec![0; MEMORY];
    let mut recorder = running_on(7);
    recorder.ticks(65_540, &mut memory);
    assert_eq!(recorder.start_index(), (65_540 % 7) as u16);
    recorder.ticks(u64::MAX, &mut memory);
    recorder.ticks(u64::MAX, &mut memory);
    let all = 65_540 + 2 * u128::from(u64::MAX);
    assert_eq!(u128::from(recorder.start_index()), all % 7);
}

/// A stop, then a start: the run before is forgotten, the buffer stays.
#[test]
fn starts_afresh() {
    let mut memory = vec![0x55; MEMORY];
    let mut recorder = running_on(2);
    recorder.ticks(3, &mut memory);
    assert_eq!(recorder.start_index(), 1);
    recorder.stop();
    assert!(!recorder.runs());
    recorder.ticks(4, &mut memory);
    assert_eq!(recorder.start_index(), 1);
    recorder.start();
    assert!(recorder.runs());
    assert_eq!(recorder.start_index(), 0);
    assert_eq!(memory[BUFFER], 0x55);
}
