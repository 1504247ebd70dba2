//! Request 2026-03: tables registered and told, lists that are bad, and the
//! lengths of strings.

use crate::staples_test::{answer, answers, hex};
use crate::tables::{Table, BASE_TYPES};
use crate::target::Target;

const DONE: &str = "2B 00 00";
const NONE: &str = "2B 00 00 00 00 00 00 00 00";
const NO_ZERO: &str = "2B 86 7A";
const OUTSIDE: &str = "2B 89 77";

/// 0x11 of the first three indexes.
const FIRST: &str = "2B 11 02 00 00 ED";
const SECOND: &str = "2B 11 02 01 00 EC";
const THIRD: &str = "2B 11 02 02 00 EB";

/// One table of one entry.
const ONE: &[(u16, u16)] = &[(8_192, 8)];

fn registered(target: &mut Target, tables: &[(u16, u16)]) -> Result<(), u8> {
    let table = |(address, size): &(u16, u16)| Table {
        address: *address,
        size: *size,
    };
    target.register(tables.iter().map(table).collect())
}

/// Puts an entry with this type and info where a table is to be; its name and
/// its address are outside memory, which nobody looks at.
fn put_entry(target: &mut Target, at: usize, type_address: u16, info: u16) {
    let words = [0xFFFF, type_address, 0xFFFF, info];
    let bytes: Vec<u8> = words.iter().flat_map(|w| w.to_le_bytes()).collect();
    target.memory[at..at + 8].copy_from_slice(&bytes);
}

/// A target with the string of a type at 100, and one entry of it at 8,192.
fn with_entry(string: &[u8], info: u16) -> Target {
    let mut target = Target::reset();
    target.memory[100..100 + string.len()].copy_from_slice(string);
    put_entry(&mut target, 8_192, 100, info);
    target
}

#[test]
fn tables_are_told_by_their_index() {
    let mut target = Target::reset();
    assert_eq!(answer(&mut target, FIRST), hex(NONE));
    assert_eq!(registered(&mut target, &[(8_192, 16), (8_235, 8)]), Ok(()));
    assert_eq!(
        answer(&mut target, FIRST),
        hex("2B 00 02 00 10 00 00 20 CE")
    );
    // The second lies at 0x202B.
    assert_eq!(
        answer(&mut target, SECOND),
        hex("2B 00 02 00 08 00 2B 2B 20 AB")
    );
    assert_eq!(answer(&mut target, THIRD), hex(NONE));
    assert_eq!(answer(&mut target, "2B 11 02 FF FF EF"), hex(NONE));
    // 256 is not 0.
    assert_eq!(answer(&mut target, "2B 11 02 00 01 EC"), hex(NONE));
    assert_eq!(registered(&mut target, &[]), Ok(()));
    assert_eq!(answer(&mut target, FIRST), hex(NONE));
}

#[test]
fn sixteen_tables_and_no_more() {
    let mut target = Target::reset();
    assert_eq!(registered(&mut target, &[(8_192, 8); 17]), Err(8));
    assert_eq!(registered(&mut target, &[(8_192, 8); 16]), Ok(()));
    let last = "2B 11 02 0F 00 DE";
    assert_eq!(answer(&mut target, last), hex("2B 00 02 00 08 00 00 20 D6"));
    assert_eq!(answer(&mut target, "2B 11 02 10 00 DD"), hex(NONE));
}

#[test]
fn tables_lie_in_the_calibration_area() {
    for good in [(8_192, 4_096), (12_280, 8), (8_193, 4_088), (12_279, 8)] {
        assert_eq!(registered(&mut Target::reset(), &[good]), Ok(()));
    }
    for bad in [
        (8_191, 8),
        (8_184, 8),
        (0, 8),
        (12_281, 8),
        (12_288, 8),
        (8_192, 4_104),
        (8_184, 4_096),
        (16_384, 8),
        (8_192, 65_528),
        (65_528, 8),
    ] {
        assert_eq!(registered(&mut Target::reset(), &[bad]), Err(8), "{bad:?}");
    }
}

#[test]
fn tables_are_whole_entries() {
    for size in [0, 1, 4, 7, 9, 12, 15, 17] {
        assert_eq!(registered(&mut Target::reset(), &[(8_200, size)]), Err(8));
    }
}

#[test]
fn every_table_and_every_entry_is_looked_at() {
    let good = [(8_192, 24), (8_300, 24), (8_400, 24)];
    for (table, _) in good {
        for entry in [0, 8, 16] {
            let mut target = Target::reset();
            put_entry(&mut target, usize::from(table) + entry, 16_384, 0);
            assert_eq!(registered(&mut target, &good), Err(8));
        }
    }
    assert_eq!(registered(&mut Target::reset(), &good), Ok(()));
    let last_is_short = [(8_192, 24), (8_300, 24), (8_400, 23)];
    assert_eq!(registered(&mut Target::reset(), &last_is_short), Err(8));
}

#[test]
fn types_are_inside_memory() {
    for type_address in [0, 8_192, 16_383] {
        let mut target = Target::reset();
        put_entry(&mut target, 8_192, type_address, 77);
        assert_eq!(registered(&mut target, ONE), Ok(()));
    }
    for type_address in [16_384, 16_385, 65_535] {
        let mut target = Target::reset();
        put_entry(&mut target, 8_192, type_address, 77);
        assert_eq!(registered(&mut target, ONE), Err(8));
    }
}

/// Sizes around each base type's, whatever the two low bits of the info are.
#[test]
fn base_types_have_their_size() {
    for (size, codes) in BASE_TYPES {
        for code in codes {
            for info in (0..=4 * 17 + 3).chain([0xFFFF, size + 0x8000]) {
                let mut target = with_entry(&[*code, 0], info);
                let right = if info / 4 == size { Ok(()) } else { Err(8) };
                assert_eq!(registered(&mut target, ONE), right);
            }
        }
    }
}

#[test]
fn other_types_have_any_size() {
    let others: [&[u8]; 6] = [
        b"\0",
        b"LOG\0",
        &[0xE4, 0],
        &[0xEC, 0],
        &[0xFF, 0],
        &[0x60, 0],
    ];
    for string in others {
        assert_eq!(registered(&mut with_entry(string, 77), ONE), Ok(()));
    }
    // A code with more characters behind it, or none at all.
    let longer = [0xE0, 0xE1, 0x00];
    assert_eq!(registered(&mut with_entry(&longer, 77), ONE), Ok(()));
    let mut target = Target::reset();
    target.memory[16_383] = 0xE0;
    put_entry(&mut target, 8_192, 16_383, 77);
    assert_eq!(registered(&mut target, ONE), Ok(()));
    target.memory[16_382] = 0xE0;
    target.memory[16_383] = 0x00;
    put_entry(&mut target, 8_192, 16_382, 77);
    assert_eq!(registered(&mut target, ONE), Err(8));
}

/// A target with a scope, a running recorder, a command and an open message.
fn busy() -> Target {
    let mut target = Target::reset();
    target.memory[8_192] = 0x55;
    for message in [
        "2B 08 04 01 01 10 00 E2",
        "2B 09 13 00 04 00 00 00 00 00 10 00 02 00 00 70 00 00 01 02 10 00 4B",
        "2B 10 01 01 EE",
    ] {
        assert_eq!(answer(&mut target, message), hex(DONE));
    }
    assert!(answers(&mut target, "2B C8").is_empty());
    target
}

#[test]
fn registering_resets_all_but_the_memory() {
    let mut target = busy();
    assert_eq!(registered(&mut target, ONE), Ok(()));
    assert!(answers(&mut target, "38").is_empty());
    for unset in ["2B C5 3B", "2B C3 3D"] {
        assert_eq!(answer(&mut target, unset), hex("2B 88 78"));
    }
    assert_eq!(answer(&mut target, "2B C6 3A"), hex("2B 00 FF 01"));
    assert_eq!(target.memory[8_192], 0x55);
}

#[test]
fn a_bad_list_changes_nothing() {
    let mut target = busy();
    assert_eq!(registered(&mut target, &[(8_192, 7)]), Err(8));
    assert_eq!(answers(&mut target, "38").len(), 1);
    assert_eq!(answer(&mut target, "2B C5 3B"), hex("2B 00 00 00"));
    assert_eq!(answer(&mut target, "2B C3 3D"), hex("2B 01 FF"));
    assert_eq!(answer(&mut target, "2B C6 3A"), hex("2B 00 FE 02"));
    let mut target = Target::reset();
    assert_eq!(registered(&mut target, ONE), Ok(()));
    let told = answer(&mut target, FIRST);
    assert_eq!(registered(&mut target, &[(8_200, 8), (8_192, 0)]), Err(8));
    assert_eq!(answer(&mut target, FIRST), told);
    assert_eq!(answer(&mut target, SECOND), hex(NONE));
}

/// "as registered and not checked again"
#[test]
fn tables_stand_whatever_becomes_of_their_entries() {
    let mut target = Target::reset();
    assert_eq!(registered(&mut target, ONE), Ok(()));
    let told = answer(&mut target, FIRST);
    put_entry(&mut target, 8_192, 65_535, 0);
    assert_eq!(answer(&mut target, FIRST), told);
    assert_eq!(registered(&mut target, ONE), Err(8));
}

#[test]
fn lengths_of_strings() {
    let mut target = Target::reset();
    assert_eq!(answer(&mut target, "2B D4 10 00 1C"), hex("2B 00 00 00 00"));
    target.memory[16..59].fill(0x41);
    let wanted = hex("2B 00 2B 2B 00 D5");
    assert_eq!(answer(&mut target, "2B D4 10 00 1C"), wanted);
    assert_eq!(answer(&mut target, "2B E6 10 00 00 00 0A"), wanted);
    target.memory[16..1_039].fill(0x41);
    assert_eq!(answer(&mut target, "2B D4 10 00 1C"), hex("2B 00 FF 03 FE"));
}

#[test]
fn strings_at_the_end_of_memory() {
    let mut target = Target::reset();
    assert_eq!(answer(&mut target, "2B D4 FF 3F EE"), hex("2B 00 00 00 00"));
    target.memory[16_380..].fill(0x41);
    assert_eq!(answer(&mut target, "2B D4 FF 3F EE"), hex(NO_ZERO));
    assert_eq!(answer(&mut target, "2B E6 FC 3F 00 00 DF"), hex(NO_ZERO));
    assert_eq!(answer(&mut target, "2B D4 FB 3F F2"), hex("2B 00 00 00 00"));
    for outside in [
        "2B D4 00 40 EC",
        "2B D4 FF FF 2E",
        "2B E6 00 40 00 00 DA",
        "2B E6 10 00 01 00 09",
        "2B E6 FF FF FF FF 1E",
    ] {
        assert_eq!(answer(&mut target, outside), hex(OUTSIDE));
    }
}
