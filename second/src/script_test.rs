//! Lines that can be read, and lines that cannot.

use crate::script::{parse, Call, Operation};
use crate::tables::Table;

#[test]
fn reads_every_operation() {
    let read = |line| parse(line).unwrap();
    assert_eq!(read(""), None);
    assert_eq!(read("   "), None);
    assert_eq!(read("# B 2B"), None);
    let bytes = Operation::Bytes(vec![0x2B, 0x0A, 0xFF]);
    assert_eq!(read("B 2b  A FF"), Some(bytes));
    assert_eq!(read("T 70000"), Some(Operation::Ticks(70_000)));
    assert_eq!(read("P 16 5A"), Some(Operation::Poke(16, vec![0x5A])));
    assert_eq!(read("M 16383 1"), Some(Operation::Show(16_383, 1)));
    assert_eq!(read("E 65"), Some(Operation::BeginReader(65)));
    assert_eq!(read("C 65535"), Some(Operation::Collect(65_535)));
    assert_eq!(read("Y fd"), Some(Operation::Report(0xFD)));
    assert_eq!(read("G"), Some(Operation::Register(Vec::new())));
    let tables = [(8_192, 8), (65_535, 0)].map(|(address, size)| Table { address, size });
    let register = Operation::Register(tables.to_vec());
    assert_eq!(read("G 8192 8 65535 0"), Some(register));
    let block = |room, bytes| Some(Operation::Block { room, bytes });
    assert_eq!(read("K 0"), block(0, Vec::new()));
    assert_eq!(read("K 2000 2b 7"), block(2_000, vec![0x2B, 0x07]));
    assert_eq!(read("F"), Some(Operation::Prepare(Vec::new())));
    assert_eq!(read("F 2b 7"), Some(Operation::Prepare(vec![0x2B, 0x07])));
    assert_eq!(read("S"), Some(Operation::Start));
    let frame = |station, room, bytes| {
        Some(Operation::Frame {
            station,
            room,
            bytes,
        })
    };
    assert_eq!(read("U 65535 600"), frame(65_535, 600, Vec::new()));
    assert_eq!(read("U 0 0 2b 7"), frame(0, 0, vec![0x2B, 0x07]));
    let call = Call {
        first: 0xD0,
        room: 600,
        data: vec![0x10, 0x00],
    };
    assert_eq!(read("W D0 600 10 00"), Some(Operation::WriteCommand(call)));
}

#[test]
fn says_what_is_wrong() {
    for line in [
        "X",
        "b 2B",
        "B 2BC",
        "B +1",
        "B G",
        "T",
        "T -1",
        "T +1",
        "T 1 2",
        "P",
        "P 16384 00",
        "M 0",
        "M 1 16384",
        "W",
        "W D0",
        "W D0 601",
        "E",
        "R",
        "R 601",
        "C",
        "C 64 00",
        "C 65536",
        "C x",
        "Y",
        "Y 100",
        "Y 0 0",
        "Y g",
        "G 8192",
        "G 8192 8 8200",
        "G x 8",
        "G 8192 -8",
        "G 65536 8",
        "G 8192 65536",
        "K",
        "K x",
        "K -1 00",
        "K 2001",
        "K 132 100",
        "K 132 0x",
        "F 100",
        "F -1",
        "S 1",
        "S 00",
        "U",
        "U 1",
        "U 65536 256",
        "U -1 256",
        "U 1 601",
        "U 1 256 100",
    ] {
        assert!(parse(line).is_err(), "{line}");
    }
}

#[test]
fn up_to_so_many_bytes() {
    assert!(parse(&format!("F{}", " 00".repeat(255))).is_ok());
    assert!(parse(&format!("F{}", " 00".repeat(256))).is_err());
    assert!(parse(&format!("U 1 256{}", " 00".repeat(600))).is_ok());
    assert!(parse(&format!("U 1 256{}", " 00".repeat(601))).is_err());
}

#[test]
fn up_to_forty_tables() {
    assert!(parse(&format!("G{}", " 0 0".repeat(40))).is_ok());
    assert!(parse(&format!("G{}", " 0 0".repeat(41))).is_err());
}
