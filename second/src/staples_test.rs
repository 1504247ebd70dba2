//! The paper's fourteen staples, each from reset, the answers whole.

use crate::target::Target;

/// Bytes from hex words.
pub fn hex(text: &str) -> Vec<u8> {
    let byte = |word| u8::from_str_radix(word, 16).unwrap();
    text.split_ascii_whitespace().map(byte).collect()
}

/// Gives the wire bytes; every answer with the index of the byte it came with.
pub fn answers(target: &mut Target, wire: &str) -> Vec<(usize, Vec<u8>)> {
    let bytes = hex(wire);
    let given = bytes.iter().enumerate();
    given
        .filter_map(|(index, byte)| Some((index, target.byte(*byte)?.wire)))
        .collect()
}

/// Gives a message that gets one answer, with its last byte.
pub fn answer(target: &mut Target, wire: &str) -> Vec<u8> {
    let mut all = answers(target, wire);
    assert_eq!(all.len(), 1, "{wire}");
    let (index, answer) = all.remove(0);
    assert_eq!(index, hex(wire).len() - 1, "{wire}");
    answer
}

/// A target after reset with one byte of its memory set.
fn holding(address: usize, value: u8) -> Target {
    let mut target = Target::reset();
    target.memory[address] = value;
    target
}

const BRIEF: &str = "2B 00 03 00 01 01 00 40 BB";

#[test]
fn case_1_brief_information() {
    assert_eq!(answer(&mut Target::reset(), "2B C8 38"), hex(BRIEF));
}

#[test]
fn cases_2_and_3_read_a_byte() {
    let mut target = holding(16, 0x7F);
    assert_eq!(answer(&mut target, "2B D0 10 00 20"), hex("2B 00 7F 81"));
    let mut target = holding(16, 0x2B);
    assert_eq!(answer(&mut target, "2B D0 10 00 20"), hex("2B 00 2B 2B D5"));
}

#[test]
fn case_4_a_doubled_address() {
    let mut target = holding(43, 0x77);
    assert_eq!(answer(&mut target, "2B D0 2B 2B 00 05"), hex("2B 00 77 89"));
}

#[test]
fn case_5_a_masked_write() {
    let mut target = holding(16, 0x5A);
    assert_eq!(answer(&mut target, "2B E5 10 00 F0 3C DF"), hex("2B 00 00"));
    assert_eq!(target.memory[16], 0x72);
}

#[test]
fn case_6_a_wrong_sum() {
    let mut target = Target::reset();
    assert_eq!(answer(&mut target, "2B D0 10 00 21"), hex("2B 82 7E"));
}

#[test]
fn case_7_an_answer_too_long() {
    let mut target = Target::reset();
    assert_eq!(answer(&mut target, "2B 01 03 41 10 00 AB"), hex("2B 84 7C"));
}

#[test]
fn case_8_the_end_of_reading() {
    let mut target = holding(16_383, 0x11);
    assert_eq!(answer(&mut target, "2B D0 FF 3F F2"), hex("2B 00 11 EF"));
    let mut target = Target::reset();
    assert_eq!(answer(&mut target, "2B D0 00 40 F0"), hex("2B 89 77"));
}

#[test]
fn case_9_the_end_of_writing() {
    let mut target = Target::reset();
    assert_eq!(answer(&mut target, "2B E3 FF 1F 05 00 FA"), hex("2B 00 00"));
    assert_eq!(target.memory[8_191], 0x05);
    let mut target = Target::reset();
    assert_eq!(answer(&mut target, "2B E3 00 20 05 00 F8"), hex("2B 89 77"));
    assert_eq!(target.memory[8_192], 0x00);
}

#[test]
fn case_10_runs_of_the_start_byte() {
    let mut target = Target::reset();
    assert_eq!(answer(&mut target, "2B 2B 2B C8 38"), hex(BRIEF));
    assert!(answers(&mut Target::reset(), "2B 2B C8 38").is_empty());
}

#[test]
fn case_11_a_start_drops_the_message() {
    let mut target = Target::reset();
    assert_eq!(answer(&mut target, "2B D0 10 2B C8 38"), hex(BRIEF));
}

#[test]
fn case_12_not_served_and_not_set_up() {
    let mut target = Target::reset();
    assert_eq!(answer(&mut target, "2B 7F 00 81"), hex("2B 81 7F"));
    let mut target = Target::reset();
    assert_eq!(answer(&mut target, "2B C1 3F"), hex("2B 88 78"));
}

/// Whether the recorder of case 13 stopped with the move to 0x8000.
fn fires(setup: &str) -> bool {
    let mut target = Target::reset();
    target.memory[16..18].copy_from_slice(&[0x00, 0x60]);
    assert_eq!(answer(&mut target, setup), hex("2B 00 00"));
    target.ticks(1);
    assert_eq!(answer(&mut target, "2B C3 3D"), hex("2B 01 FF"));
    target.memory[16..18].copy_from_slice(&[0x00, 0x80]);
    target.ticks(1);
    let status = answer(&mut target, "2B C3 3D");
    assert_eq!(target.memory[12_288..12_292], [0x00, 0x60, 0x00, 0x80]);
    status == hex("2B 02 FE")
}

#[test]
fn case_13_signs() {
    // Rising, 4 samples, no post-trigger, no divider, 2 bytes at 16.
    let unsigned = "2B 09 13 01 04 00 00 00 00 00 10 00 02 00 00 70 00 00 01 02 10 00 4A";
    assert!(fires(unsigned));
    let signed = "2B 09 13 01 04 00 00 00 00 00 10 00 02 01 00 70 00 00 01 02 10 00 49";
    assert!(!fires(signed));
}

#[test]
fn case_14_the_longest_data() {
    let zeros = |count| "00 ".repeat(count);
    let write = format!("2B 02 40 3D 10 00 {} 71", zeros(61));
    assert_eq!(answer(&mut Target::reset(), &write), hex("2B 00 00"));
    let longer = format!("2B 02 41 3E 10 00 {} 6F", zeros(62));
    assert_eq!(answer(&mut Target::reset(), &longer), hex("2B 83 7D"));
}

/// The whole information, which no staple asks for.
#[test]
fn information_whole() {
    let data = "03 00 01 01 00 40 00 10 01 40 4C 4F 47 20 47 41 54 45";
    let mut wanted = hex(&format!("2B 00 {data}"));
    wanted.extend_from_slice(&[0; 17]);
    let sum = wanted[1..].iter().fold(0u8, |s, b| s.wrapping_add(*b));
    wanted.push(sum.wrapping_neg());
    assert_eq!(answer(&mut Target::reset(), "2B C0 40"), wanted);
}
