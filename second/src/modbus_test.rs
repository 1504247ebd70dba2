//! Request 2026-07: worked frames, and every way a frame can end.

use crate::areas::MEMORY;
use crate::modbus::{call, check_sum, summed, Answer, Silence};
use crate::staples_test::hex;

const STATION: u16 = 17;

/// A memory that tells where its bytes stand.
fn memory() -> Vec<u8> {
    (0..MEMORY).map(|at| (at % 251) as u8).collect()
}

/// What a frame of these words gets, its check sum put behind them.
fn asked(memory: &mut [u8], words: &str) -> Result<Answer, Silence> {
    given(memory, &summed(hex(words)))
}

fn given(memory: &mut [u8], frame: &[u8]) -> Result<Answer, Silence> {
    let mut lent = vec![0xEE; 256];
    let answer = call(STATION, frame, memory, &mut lent).unwrap();
    let length = answer.as_ref().map_or(0, |answer| answer.frame.len());
    if let Ok(answer) = &answer {
        assert_eq!(lent[..length], answer.frame);
    }
    assert!(lent[length..].iter().all(|byte| *byte == 0xEE));
    answer
}

/// An answer of these words, with its check sum.
fn told(memory: &mut [u8], words: &str) -> Vec<u8> {
    asked(memory, words).unwrap().frame
}

/// An exception, and nothing changed.
fn exception(words: &str) -> u8 {
    let mut memory = memory();
    let before = memory.clone();
    let answer = asked(&mut memory, words).unwrap();
    assert_eq!(memory, before, "{words}");
    let wanted = summed(vec![0x11, answer.function | 0x80, answer.exception]);
    assert_eq!(answer.frame, wanted, "{words}");
    answer.exception
}

#[test]
fn known_check_sums() {
    assert_eq!(check_sum(b"123456789"), 0x4B37);
    assert_eq!(summed(hex("01 03 00 00 00 01"))[6..], [0x84, 0x0A]);
    let own = summed(hex("11 03 00 6B 00 03"));
    assert_eq!(own, hex("11 03 00 6B 00 03 76 87"));
    assert_eq!(check_sum(&own), 0);
}

#[test]
fn registers_are_read_high_byte_first() {
    let mut memory = memory();
    let answer = given(&mut memory, &hex("11 03 00 6B 00 03 76 87")).unwrap();
    assert_eq!(
        answer.frame,
        summed(hex("11 03 06 D7 D6 D9 D8 DB DA")),
        "bytes 214 to 219"
    );
}

#[test]
fn one_register_is_written() {
    let mut memory = memory();
    let frame = hex("11 06 00 01 00 03 9A 9B");
    assert_eq!(given(&mut memory, &frame).unwrap().frame, frame);
    assert_eq!(memory[1..5], [1, 3, 0, 4]);
}

#[test]
fn registers_are_written() {
    let mut memory = memory();
    let answer = told(&mut memory, "11 10 0F FE 00 02 04 12 34 56 78");
    assert_eq!(answer, summed(hex("11 10 0F FE 00 02")));
    assert_eq!(memory[8_188..8_192], [0x34, 0x12, 0x78, 0x56]);
}

/// The specification's worked example.
#[test]
fn a_register_is_masked() {
    let mut memory = vec![0; MEMORY];
    memory[8] = 0x12;
    let words = "11 16 00 04 00 F2 00 25";
    assert_eq!(told(&mut memory, words), summed(hex(words)));
    assert_eq!(memory[8..10], [0x17, 0x00]);
}

#[test]
fn silences() {
    let silent = |frame: &[u8]| {
        let mut memory = memory();
        let before = memory.clone();
        let silence = given(&mut memory, frame).unwrap_err();
        assert_eq!(memory, before);
        silence
    };
    let write = hex("11 06 00 01 00 03 9A 9B");
    assert_eq!(silent(&[]), Silence::Short);
    assert_eq!(silent(&summed(vec![0x11])), Silence::Short);
    assert_eq!(silent(&summed(vec![0x11; 255])), Silence::Long);
    assert_eq!(silent(&write[..7]), Silence::WrongSum);
    assert_eq!(
        silent(&summed(hex("12 06 00 01 00 03"))),
        Silence::OtherStation
    );
    assert_eq!(
        silent(&summed(hex("00 06 00 01 00 03"))),
        Silence::Broadcast
    );
    assert_eq!(
        silent(&summed(hex("11 86 00 01 00 03"))),
        Silence::FunctionAbove127
    );
    assert_eq!(silent(&summed(hex("11 80"))), Silence::FunctionAbove127);
}

#[test]
fn other_functions() {
    for function in 0..=127_u8 {
        if ![3, 6, 16, 22].contains(&function) {
            assert_eq!(exception(&format!("11 {function:02X}")), 1);
        }
    }
}

#[test]
fn values_before_addresses() {
    for words in [
        "11 03",
        "11 03 FF FF 00",
        "11 03 FF FF 00 01 00",
        "11 03 FF FF 00 00",
        "11 03 FF FF 00 7E",
        "11 03 FF FF 01 01",
        "11 06 FF FF 00",
        "11 06 FF FF 00 00 00",
        "11 10",
        "11 10 FF FF 00 01",
        "11 10 FF FF 00 00 00",
        "11 10 FF FF 00 01 02 00",
        "11 10 FF FF 00 01 02 00 00 00",
        "11 10 FF FF 00 01 04 00 00 00 00",
        "11 10 FF FF 00 02 02 00 00",
        "11 10 FF FF 00 7C F8",
        "11 10 FF FF 01 01 02 00 00",
        "11 16 FF FF 00 00 00",
        "11 16 FF FF 00 00 00 00 00",
    ] {
        assert_eq!(exception(words), 3, "{words}");
    }
}

#[test]
fn addresses_at_their_ends() {
    let mut memory = memory();
    assert_eq!(told(&mut memory, "11 03 1F FF 00 01").len(), 7);
    assert_eq!(told(&mut memory, "11 03 1F 83 00 7D").len(), 255);
    assert_eq!(told(&mut memory, "11 06 0F FF 00 00").len(), 8);
    assert_eq!(told(&mut memory, "11 16 0F FF 00 00 00 00").len(), 10);
    for words in [
        "11 03 20 00 00 01",
        "11 03 1F FF 00 02",
        "11 03 1F 84 00 7D",
        "11 03 FF FF 00 01",
        "11 06 10 00 00 00",
        "11 06 FF FF 00 00",
        "11 10 0F FF 00 02 04 00 00 00 00",
        "11 10 FF FF 00 01 02 00 00",
        "11 16 10 00 00 00 FF FF",
    ] {
        assert_eq!(exception(words), 2, "{words}");
    }
}

/// 123 registers make a frame of 255 bytes; 124 would make one of 257.
#[test]
fn the_longest_write() {
    let mut memory = memory();
    let words = |quantity: u8| {
        let values = vec![0x5A; 2 * usize::from(quantity)];
        summed([vec![0x11, 0x10, 0, 0, 0, quantity, 2 * quantity], values].concat())
    };
    assert_eq!(words(123).len(), 255);
    assert_eq!(given(&mut memory, &words(123)).unwrap().exception, 0);
    assert_eq!(memory[245..247], [0x5A, (246 % 251) as u8]);
    assert_eq!(given(&mut memory, &words(124)), Err(Silence::Long));
}

#[test]
fn refusals_lowest_first() {
    let mut memory = memory();
    let before = memory.clone();
    let frame = hex("11 06 00 01 00 03 9A 9B");
    for (station, room, refusal) in [
        (0, 255, 3),
        (17, 255, 3),
        (17, 0, 3),
        (0, 256, 9),
        (248, 256, 9),
        (273, 600, 9),
    ] {
        let mut lent = vec![0xEE; room];
        assert_eq!(call(station, &frame, &mut memory, &mut lent), Err(refusal));
        // Where silence would follow too.
        assert_eq!(call(station, &[], &mut memory, &mut lent), Err(refusal));
        assert!(lent.iter().all(|byte| *byte == 0xEE));
    }
    assert_eq!(memory, before);
}
