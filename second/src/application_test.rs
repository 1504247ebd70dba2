//! Request 2026-01: commands for the gate's own program, from the wire to the
//! calls and back.

use crate::staples_test::{answer, answers, hex};
use crate::target::Target;

/// Code 1 without arguments, and code 7 with the arguments 2B and 09.
const CODE_1: &str = "2B 10 01 01 EE";
const CODE_7: &str = "2B 10 03 07 2B 2B 09 B2";
const EMPTY: &str = "2B 10 00 F0";
const RESULT: &str = "2B C6 3A";

const DONE: &str = "2B 00 00";
const MISFIT: &str = "2B 85 7B";
const BUSY: &str = "2B 87 79";

/// What 0xC6 returns; not for 0x2B, which is doubled.
fn result(target: &mut Target) -> u8 {
    let wire = answer(target, RESULT);
    assert_eq!((wire.len(), &wire[..2]), (4, &[0x2B, 0x00][..]));
    wire[2]
}

/// What a call collects into so many bytes EE: refusal or count, and the bytes.
fn collected(target: &mut Target, room: usize) -> (Result<usize, u8>, Vec<u8>) {
    let mut lent = vec![0xEE; room];
    (target.application.collect(&mut lent), lent)
}

/// Nothing is collected, and nothing lent is touched.
fn nothing_new(target: &mut Target) -> bool {
    collected(target, 64) == (Ok(0), vec![0xEE; 64])
}

/// A target that took code 1; so many of collection and result 5 followed.
fn after(steps: usize) -> Target {
    let mut target = Target::reset();
    assert_eq!(answer(&mut target, CODE_1), hex(DONE));
    if steps > 0 {
        assert_eq!(collected(&mut target, 64).0, Ok(1));
    }
    if steps > 1 {
        assert_eq!(target.application.report(5), Ok(()));
    }
    target
}

#[test]
fn a_command_from_the_laptop_and_back() {
    let mut target = Target::reset();
    assert_eq!(result(&mut target), 0xFF);
    assert_eq!(answer(&mut target, CODE_7), hex(DONE));
    assert_eq!(result(&mut target), 0xFE);
    let mut wanted = vec![0xEE; 70];
    wanted[..3].copy_from_slice(&[0x07, 0x2B, 0x09]);
    assert_eq!(collected(&mut target, 70), (Ok(3), wanted));
    assert_eq!(result(&mut target), 0xFE);
    assert!(nothing_new(&mut target));
    assert_eq!(target.application.report(0x2B), Ok(()));
    assert_eq!(answer(&mut target, RESULT), hex("2B 00 2B 2B D5"));
}

#[test]
fn the_result_stands_until_a_new_command_is_accepted() {
    let mut target = after(2);
    assert_eq!(answer(&mut target, EMPTY), hex(MISFIT));
    assert_eq!(result(&mut target), 5);
    assert_eq!(answer(&mut target, "2B 10 01 01 EF"), hex("2B 82 7E"));
    assert_eq!(result(&mut target), 5);
    assert!(nothing_new(&mut target));
    assert_eq!(answer(&mut target, CODE_7), hex(DONE));
    assert_eq!(result(&mut target), 0xFE);
    assert_eq!(collected(&mut target, 64).0, Ok(3));
}

#[test]
fn one_command_at_a_time() {
    for steps in 0..2 {
        let mut target = after(steps);
        assert_eq!(answer(&mut target, CODE_7), hex(BUSY));
        assert_eq!(answer(&mut target, EMPTY), hex(BUSY));
        assert_eq!(result(&mut target), 0xFE);
        // The one that was refused is not handed out.
        let code = if steps == 0 { Ok(1) } else { Ok(0) };
        assert_eq!(collected(&mut target, 64).0, code);
    }
    assert_eq!(answer(&mut after(2), CODE_7), hex(DONE));
    assert_eq!(answer(&mut after(2), EMPTY), hex(MISFIT));
    assert_eq!(answer(&mut Target::reset(), EMPTY), hex(MISFIT));
}

#[test]
fn the_longest_command() {
    let arguments = "09 ".repeat(63);
    let mut target = Target::reset();
    // 10 + 40 + 2B + 63 * 09 and the sum byte give 0.
    let longest = format!("2B 10 40 2B 2B {arguments} 4E");
    assert_eq!(answer(&mut target, &longest), hex(DONE));
    let (count, lent) = collected(&mut target, 64);
    assert_eq!(count, Ok(64));
    assert_eq!(lent, hex(&format!("2B {arguments}")));
    let longer = format!("2B 10 41 2B 2B {arguments} 00 4D");
    assert_eq!(answer(&mut target, &longer), hex("2B 83 7D"));
}

#[test]
fn sixty_three_bytes_are_too_few() {
    for steps in 0..3 {
        let mut target = after(steps);
        for room in [0, 1, 63] {
            assert_eq!(collected(&mut target, room), (Err(3), vec![0xEE; room]));
        }
        let new = if steps == 0 { Ok(1) } else { Ok(0) };
        assert_eq!(collected(&mut target, 64).0, new);
    }
}

#[test]
fn results_that_are_refused() {
    for steps in [0, 2] {
        let mut target = after(steps);
        let before = result(&mut target);
        for refused in [0x00, 0xFD, 0xFE, 0xFF] {
            assert_eq!(target.application.report(refused), Err(7));
        }
        assert_eq!(result(&mut target), before);
    }
    assert_eq!(Target::reset().application.report(0), Err(7));
    let mut target = after(1);
    assert_eq!(target.application.report(0xFE), Err(7));
    assert_eq!(target.application.report(0xFF), Err(7));
    assert_eq!(result(&mut target), 0xFE);
    assert_eq!(target.application.report(0xFD), Ok(()));
    assert_eq!(result(&mut target), 0xFD);
}

/// Scope, recorder and commands know nothing of each other.
#[test]
fn a_running_recorder_does_not_matter() {
    let mut target = after(0);
    let setup = "2B 09 13 00 04 00 00 00 00 00 10 00 02 00 00 70 00 00 01 02 10 00 4B";
    assert_eq!(answer(&mut target, setup), hex(DONE));
    assert_eq!(collected(&mut target, 64).0, Ok(1));
    assert_eq!(target.application.report(0), Ok(()));
    assert_eq!(answer(&mut target, CODE_1), hex(DONE));
    assert_eq!(answer(&mut target, "2B C3 3D"), hex("2B 01 FF"));
}

/// The gate's program may call in the middle of a message.
#[test]
fn calls_between_the_bytes() {
    let mut target = after(0);
    assert!(answers(&mut target, "2B 10 01").is_empty());
    assert_eq!(collected(&mut target, 64).0, Ok(1));
    assert!(answers(&mut target, "01").is_empty());
    assert_eq!(target.application.report(0), Ok(()));
    assert_eq!(answer(&mut target, "EE"), hex(DONE));
    assert_eq!(result(&mut target), 0xFE);
}
