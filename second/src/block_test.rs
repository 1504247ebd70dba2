//! Request 2026-05: a block of wire bytes, and the same bytes given singly.

use crate::rng::Rng;
use crate::staples_test::{answer, hex};
use crate::target::Target;

const STATUS: &str = "2B C3 3D";
const NOT_SET_UP: &str = "2B 88 78";

/// Taken, written and the lent bytes of a block that is not refused.
fn given(target: &mut Target, wire: &str, room: usize) -> (usize, usize, Vec<u8>) {
    let mut lent = vec![0xEE; room];
    let block = target.block(&hex(wire), &mut lent).ok().unwrap();
    (block.taken, block.wire().len(), lent)
}

/// The read of 64 bytes 0x2B: an answer of 131 bytes, the longest there is.
fn with_longest() -> (Target, &'static str) {
    let mut target = Target::reset();
    target.memory[16..80].fill(0x2B);
    (target, "2B 01 03 40 10 00 AC")
}

#[test]
fn rooms_that_are_refused() {
    for room in [0, 1, 131] {
        for wire in ["", "38 2B C3 3D"] {
            let mut target = Target::reset();
            assert!(target.byte(0x2B).is_none() && target.byte(0xC8).is_none());
            let mut lent = vec![0xEE; room];
            assert_eq!(target.block(&hex(wire), &mut lent).err(), Some(3));
            assert_eq!(lent, vec![0xEE; room]);
            // Nothing was taken: the message goes on.
            assert_eq!(answer(&mut target, "38"), hex("2B 00 03 00 01 01 00 40 BB"));
        }
    }
}

#[test]
fn an_empty_block() {
    let mut target = Target::reset();
    assert_eq!(given(&mut target, "", 132), (0, 0, vec![0xEE; 132]));
}

#[test]
fn the_room_is_looked_at_before_each_byte() {
    let wire = format!("{STATUS} {STATUS} {STATUS}");
    for (room, taken, written) in [
        (132, 3, 3),
        (134, 3, 3),
        (135, 6, 6),
        (137, 6, 6),
        (138, 9, 9),
    ] {
        let mut lent = hex(NOT_SET_UP).repeat(written / 3);
        lent.resize(room, 0xEE);
        let mut target = Target::reset();
        assert_eq!(given(&mut target, &wire, room), (taken, written, lent));
    }
}

/// A byte that would not be answered is not taken either.
#[test]
fn a_quiet_byte_needs_the_room_too() {
    let (mut target, read) = with_longest();
    let wire = format!("{read} 00");
    assert_eq!(given(&mut target, &wire, 262).0, 7);
    assert_eq!(given(&mut target, &wire, 263).0, 8);
}

#[test]
fn a_block_may_begin_and_end_inside_a_message() {
    let mut target = Target::reset();
    assert_eq!(given(&mut target, "2B C3 3D 2B", 200).0, 4);
    assert_eq!(given(&mut target, "C3", 132).0, 1);
    target.ticks(3);
    let (taken, written, lent) = given(&mut target, "3D 2B C3", 200);
    assert_eq!((taken, written, &lent[..3]), (3, 3, &hex(NOT_SET_UP)[..]));
    assert_eq!(answer(&mut target, "3D"), hex(NOT_SET_UP));
}

/// "State, memory and answers equal those of giving the same bytes singly":
/// blocks of any bytes and rooms, and behind them what both targets answer.
#[test]
fn equals_giving_the_bytes_singly() {
    let mut rng = Rng::new(11);
    let (mut target, _) = with_longest();
    let mut stopped = 0;
    for _ in 0..2_000 {
        let count = rng.below(60) as usize;
        let bytes: Vec<u8> = (0..count)
            .map(|_| *rng.pick(&[0x2B, 0x2B, 0xC8, 0x38, 0xC3, 0x3D, 0xE3, 0x10, 0x00]))
            .collect();
        let mut lent = vec![0xEE; 132 + rng.below(20) as usize];
        let mut single = target.clone();
        let block = target.block(&bytes, &mut lent).ok().unwrap();
        let one_by_one = bytes[..block.taken].iter();
        let answers: Vec<u8> = one_by_one
            .filter_map(|byte| Some(single.byte(*byte)?.wire))
            .flatten()
            .collect();
        assert_eq!(block.wire(), answers);
        assert!(lent.starts_with(&answers) && lent[answers.len()..].iter().all(|b| *b == 0xEE));
        assert!(target.memory == single.memory);
        let wire = |answer: crate::target::Answer| answer.wire;
        for byte in hex("38 2B C3 3D") {
            assert_eq!(
                target.clone().byte(byte).map(wire),
                single.byte(byte).map(wire)
            );
            target.byte(byte);
        }
        stopped += usize::from(block.taken < count);
    }
    assert!(stopped > 50, "{stopped}");
}
