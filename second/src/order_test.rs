//! "the first that applies in this order": messages that two or more rows of
//! the refusals' table fit.

use crate::line::stuffed;
use crate::make::wire::literals;
use crate::target::Target;

/// The status of the only answer to the literals.
fn status(target: &mut Target, literals: &[u8]) -> u8 {
    let wire = stuffed(literals);
    let all: Vec<_> = wire.iter().filter_map(|byte| target.byte(*byte)).collect();
    assert_eq!(all.len(), 1);
    all[0].status
}

fn told(target: &mut Target, command: u8, data: &[u8]) -> u8 {
    status(target, &literals(command, data))
}

/// A recorder setup of mode, samples, trigger size, sign and one variable.
fn setup(mode: u8, samples: u8, trigger: [u8; 3], sign: u8, variable: [u8; 3]) -> Vec<u8> {
    let [size, low, high] = trigger;
    let mut data = vec![mode, samples, 0, 0, 0, 0, 0, low, high, size, sign];
    data.extend_from_slice(&[0, 0, 0, 0, 1]);
    data.extend_from_slice(&variable);
    data
}

/// A target whose recorder runs.
fn recording() -> Target {
    let mut target = Target::reset();
    let data = setup(0, 4, [0, 0, 0], 0, [1, 0, 0]);
    assert_eq!(told(&mut target, 0x09, &data), 0x00);
    target
}

/// A target with a command that was not collected.
fn pending() -> Target {
    let mut target = Target::reset();
    assert_eq!(told(&mut target, 0x10, &[1]), 0x00);
    target
}

#[test]
fn a_wrong_sum_comes_first() {
    for (command, length) in [
        (0x01, 65),
        (0x7F, 0),
        (0x7F, 255),
        (0x09, 3),
        (0x10, 0),
        (0x10, 65),
        (0x11, 0),
        (0x11, 65),
        (0xC1, 0),
        (0xD4, 2),
        (0xE6, 4),
    ] {
        let mut wrong = literals(command, &vec![0; length]);
        *wrong.last_mut().unwrap() ^= 1;
        assert_eq!(status(&mut Target::reset(), &wrong), 0x82, "{command:02X}");
    }
}

#[test]
fn too_long_before_all_but_the_sum() {
    assert_eq!(told(&mut Target::reset(), 0x7F, &[0; 65]), 0x83);
    assert_eq!(told(&mut recording(), 0x09, &[0; 65]), 0x83);
    assert_eq!(told(&mut Target::reset(), 0x02, &[0; 255]), 0x83);
    assert_eq!(told(&mut pending(), 0x10, &[0; 65]), 0x83);
    assert_eq!(told(&mut Target::reset(), 0x11, &[0; 65]), 0x83);
    assert_eq!(told(&mut Target::reset(), 0x7F, &[0; 64]), 0x81);
}

#[test]
fn busy_before_the_fields() {
    assert_eq!(told(&mut recording(), 0x09, &[]), 0x87);
    assert_eq!(told(&mut recording(), 0x0B, &[3; 20]), 0x87);
    assert_eq!(told(&mut recording(), 0xC9, &[]), 0x87);
    assert_eq!(told(&mut pending(), 0x10, &[]), 0x87);
    assert_eq!(told(&mut pending(), 0x09, &[]), 0x85);
    assert_eq!(told(&mut recording(), 0x10, &[]), 0x85);
    assert_eq!(told(&mut Target::reset(), 0xC4, &[]), 0x88);
}

#[test]
fn the_length_before_sizes_and_ranges() {
    let mut target = Target::reset();
    assert_eq!(told(&mut target, 0x08, &[0, 0]), 0x85);
    assert_eq!(told(&mut target, 0x08, &[9, 1, 0, 0]), 0x85);
    assert_eq!(told(&mut target, 0x01, &[0, 0xFF]), 0x85);
    assert_eq!(told(&mut target, 0x11, &[0xFF]), 0x85);
    assert_eq!(told(&mut target, 0x11, &[0, 0, 0]), 0x85);
    let mode_3 = setup(3, 0, [3, 0, 0], 2, [0, 0, 0x40]);
    assert_eq!(told(&mut target, 0x09, &mode_3), 0x85);
    let sign_2 = setup(1, 0, [3, 0, 0], 2, [0, 0, 0x40]);
    assert_eq!(told(&mut target, 0x09, &sign_2), 0x85);
}

#[test]
fn sizes_before_answers_and_ranges() {
    let mut target = Target::reset();
    assert_eq!(told(&mut target, 0x01, &[0, 0xFF, 0xFF]), 0x86);
    assert_eq!(told(&mut target, 0x08, &[0]), 0x86);
    let size_3 = setup(2, 4, [3, 0xFF, 0xFF], 1, [1, 0xFF, 0xFF]);
    assert_eq!(told(&mut target, 0x09, &size_3), 0x86);
    let no_samples = setup(0, 0, [3, 0xFF, 0xFF], 9, [1, 0xFF, 0xFF]);
    assert_eq!(told(&mut target, 0x09, &no_samples), 0x86);
    let too_many = setup(0, 17, [3, 0xFF, 0xFF], 9, [241, 0, 0]);
    assert_eq!(told(&mut target, 0x09, &too_many), 0x86);
}

#[test]
fn the_answer_before_the_range() {
    let mut target = Target::reset();
    assert_eq!(told(&mut target, 0x01, &[65, 0xFF, 0xFF]), 0x84);
    assert_eq!(told(&mut target, 0x01, &[64, 0xFF, 0xFF]), 0x89);
    assert_eq!(told(&mut target, 0x04, &[1, 0, 0, 1, 0]), 0x89);
}

#[test]
fn ranges_of_setups() {
    let mut target = Target::reset();
    let variable = setup(0, 1, [0, 0, 0], 0, [2, 0xFF, 0x2F]);
    assert_eq!(told(&mut target, 0x09, &variable), 0x89);
    let trigger = setup(1, 1, [2, 0xFF, 0x2F], 0, [1, 0xFF, 0x2F]);
    assert_eq!(told(&mut target, 0x09, &trigger), 0x89);
    assert_eq!(told(&mut target, 0x08, &[1, 1, 0x00, 0x40]), 0x89);
    assert_eq!(told(&mut target, 0x08, &[1, 255, 0x01, 0x3F]), 0x00);
    assert_eq!(told(&mut target, 0xC5, &[]), 0x84);
    let not_looked_at = setup(0, 1, [9, 0xFF, 0xFF], 9, [1, 0xFF, 0x2F]);
    assert_eq!(told(&mut target, 0x09, &not_looked_at), 0x00);
}

/// Neither a recorder that runs nor a command that is pending is in the way of
/// the tables and the strings.
#[test]
fn names_are_told_at_any_time() {
    for mut target in [recording(), pending()] {
        assert_eq!(told(&mut target, 0x11, &[0, 0]), 0x00);
        assert_eq!(told(&mut target, 0xD4, &[0, 0]), 0x00);
        assert_eq!(told(&mut target, 0xE6, &[0, 0, 0, 0]), 0x00);
    }
}

/// "0x12 keeps 0x81": the two formats of entries are never mixed.
#[test]
fn the_other_format_is_not_served() {
    for length in [0, 2, 64] {
        let answered = told(&mut Target::reset(), 0x12, &vec![0; length]);
        assert_eq!(answered, 0x81);
    }
}
