//! Request 2026-06: the panel prepares and starts, beside the port.

use crate::staples_test::{answer, hex};
use crate::target::Target;

/// Mode 0, two samples, no divider, one variable of one byte at 16; and the same
/// with a trigger of mode 1: address 16, one byte, unsigned, threshold 0x80.
const PLAIN: &str = "00 02 00 00 00 00 00 00 00 00 00 00 00 00 00 01 01 10 00";
const TRIGGERED: &str = "01 02 00 00 00 00 00 10 00 01 00 80 00 00 00 01 01 10 00";

const START: &str = "2B C1 3F";
const STOP: &str = "2B C2 3E";
const STATUS: &str = "2B C3 3D";
const BUFFER: &str = "2B C4 3C";

/// A target whose recorder was prepared.
fn prepared(setup: &str) -> Target {
    let mut target = Target::reset();
    assert_eq!(target.prepare(&hex(setup)), 0x00);
    target
}

/// The same, and it has taken so many sets of the bytes 1, 2, 3 ..
fn recorded(sets: u8) -> Target {
    let mut target = prepared(PLAIN);
    assert_eq!(target.start(), 0x00);
    for value in 1..=sets {
        target.memory[16] = value;
        target.ticks(1);
    }
    target
}

/// "answers 0x02 to 0xC3 and start index 0 to 0xC4", and ticks do nothing.
fn stands_fresh(target: &mut Target) -> bool {
    let before = target.memory.clone();
    target.ticks(5);
    answer(target, STATUS) == hex("2B 02 FE")
        && answer(target, BUFFER) == hex("2B 00 00 30 00 00 D0")
        && target.memory == before
}

#[test]
fn prepared_and_not_started() {
    assert!(stands_fresh(&mut prepared(PLAIN)));
    assert_eq!(answer(&mut prepared(PLAIN), STOP), hex("2B 02 FE"));
}

#[test]
fn the_panel_or_the_laptop_starts() {
    let mut target = prepared(PLAIN);
    assert_eq!(target.start(), 0x00);
    assert_eq!(answer(&mut target, STATUS), hex("2B 01 FF"));
    let mut target = prepared(PLAIN);
    assert_eq!(answer(&mut target, START), hex("2B 00 00"));
    assert_eq!(target.start(), 0x01);
}

#[test]
fn start_answers_as_the_command() {
    assert_eq!(Target::reset().start(), 0x88);
    let mut target = recorded(1);
    assert_eq!(target.start(), 0x01);
    assert_eq!(answer(&mut target, STOP), hex("2B 00 00"));
    assert_eq!(target.start(), 0x00);
}

/// The trace before stays in the buffer, and no set of it counts.
#[test]
fn preparing_forgets_the_run_before() {
    let mut target = recorded(3);
    assert_eq!(answer(&mut target, STOP), hex("2B 00 00"));
    assert_eq!(answer(&mut target, BUFFER), hex("2B 00 00 30 01 00 CF"));
    assert_eq!(target.prepare(&hex(PLAIN)), 0x00);
    assert!(stands_fresh(&mut target));
    assert_eq!(target.memory[12_288..12_290], [3, 2]);
    assert_eq!(target.start(), 0x00);
    target.ticks(1);
    assert_eq!(target.memory[12_288..12_290], [3, 2]);
}

#[test]
fn statuses_in_their_order() {
    let mut target = recorded(1);
    let long = [hex(PLAIN), vec![0; 46]].concat();
    assert_eq!(long.len(), 65);
    assert_eq!(target.prepare(&long), 0x83);
    assert_eq!(target.prepare(&long[..64]), 0x87);
    assert_eq!(target.prepare(&[]), 0x87);
    answer(&mut target, STOP);
    assert_eq!(target.prepare(&long), 0x83);
    assert_eq!(target.prepare(&long[..64]), 0x85);
    assert_eq!(target.prepare(&[]), 0x85);
    assert_eq!(target.prepare(&hex(&PLAIN.replace("00 02", "00 00"))), 0x86);
    assert_eq!(target.prepare(&hex(&PLAIN.replace("10 00", "00 30"))), 0x89);
    // The former setup is still the one that is started.
    assert_eq!(target.start(), 0x00);
    target.ticks(1);
    assert_eq!(target.memory[12_288], 1);
}

/// The setup command still prepares and starts.
#[test]
fn the_command_is_the_two_in_a_row() {
    let setup = format!("2B 09 13 {PLAIN} D0");
    let mut target = Target::reset();
    assert_eq!(answer(&mut target, &setup), hex("2B 00 00"));
    assert_eq!(answer(&mut target, STATUS), hex("2B 01 FF"));
    let mut by_panel = prepared(PLAIN);
    by_panel.start();
    for value in 1..=3 {
        for target in [&mut target, &mut by_panel] {
            target.memory[16] = value;
            target.ticks(1);
        }
        assert_eq!(target.memory, by_panel.memory);
    }
}

/// The first set after the panel's start is looked at for itself (2026-02).
#[test]
fn metal_under_the_coil_of_a_prepared_recorder() {
    let mut target = prepared(TRIGGERED);
    target.memory[16] = 0x80;
    assert!(stands_fresh(&mut target));
    assert_eq!(target.start(), 0x00);
    target.ticks(1);
    assert_eq!(answer(&mut target, STATUS), hex("2B 02 FE"));
    assert_eq!(target.memory[12_288], 0x80);
}

#[test]
fn a_message_goes_on_around_the_panel() {
    let mut target = Target::reset();
    for byte in hex("2B C3") {
        assert!(target.byte(byte).is_none());
        target.start();
        target.prepare(&hex(PLAIN));
        target.prepare(&[]);
    }
    assert_eq!(target.byte(0x3D).unwrap().wire, hex("2B 01 FF"));
}
