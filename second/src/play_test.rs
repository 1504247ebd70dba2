//! Scripts played, and what is printed.

use crate::play::{play, Failure};

fn played(script: &str) -> (Result<(), Failure>, String) {
    let mut out = Vec::new();
    let result = play(&mut script.as_bytes(), &mut out);
    (result, String::from_utf8(out).unwrap())
}

#[test]
fn prints_answers_memory_and_sum() {
    let (result, out) = played("P 16 7F\nB 2B D0 10 00 20\n\n# end\nM 15 3\nM 9 0\n");
    assert_eq!(result, Ok(()));
    let wanted = "A 4 2B 00 7F 81\nM 15 00 7F 00\nM 9\nD adler32 ";
    assert!(out.starts_with(wanted), "{out}");
}

#[test]
fn the_other_end_prints_no_sum() {
    let (_, out) = played("W C8 4\nW 2B 0\nV 81 131\nE 65\nE 1\nR 63 2B\n");
    let (_, refused) = played("V 81 131");
    let wanted = format!("W 0 3 2B C8 38 EE\nW 4 0\n{refused}E 5\nE 0\nR 0 3\n");
    assert_eq!(out, wanted);
    let (_, read) = played("E 1\nR 64 2B 00 07 F9 2B 81 7F\n");
    let rest = " EE".repeat(63);
    let wanted = format!("E 0\nR 3 0 00 1 07{rest}\nR 6 0 81 0 EE{rest}\n");
    assert_eq!(read, wanted);
}

#[test]
fn commands_are_collected_and_reported() {
    let (_, out) = played("C 1\nY 0\nB 2B 10 02 07 09 DE\nC 64\nC 64\nY FE\nY fd\nB 2B C6 3A\n");
    let rest = " EE".repeat(62);
    let collected = format!("C 0 2 07 09{rest}\nC 0 0 EE EE{rest}\n");
    let wanted = format!("C 3 0 EE\nY 7\nA 5 2B 00 00\n{collected}Y 7\nY 0\nA 8 2B 00 FD 03\nD ");
    assert!(out.starts_with(&wanted), "{out}");
    let (_, nothing) = played("C 0\n");
    assert!(nothing.starts_with("C 3 0\nD "), "{nothing}");
}

#[test]
fn tables_are_registered_and_told() {
    let ask = "B 2B 11 02 00 00 ED\n";
    let (_, out) = played(&format!("{ask}G 8192 16\n{ask}G 8192 7\n{ask}G\n{ask}"));
    let (none, told) = ["00 00 00 00 00 00 00", "02 00 10 00 00 20 CE"].into();
    let wanted = format!(
        "A 5 2B 00 {none}\nG 0\nA 11 2B 00 {told}\nG 8\n\
         A 17 2B 00 {told}\nG 0\nA 23 2B 00 {none}\nD "
    );
    assert!(out.starts_with(&wanted), "{out}");
    let (_, alone) = played("G\n");
    assert_eq!(alone, "G 0\nD adler32 40000001\n");
}

/// Bytes of a block that are not taken are lost, and count as given.
#[test]
fn blocks_are_taken_while_there_is_room() {
    let (_, out) = played("B 2B C8\nK 135 38 2B C3 3D 2B C3\nB 3D\n");
    let brief = "2B 00 03 00 01 01 00 40 BB";
    let fill = " EE".repeat(126);
    assert!(
        out.starts_with(&format!("K 0 1 9 {brief}{fill}\nD ")),
        "{out}"
    );
    let (_, out) = played("K 141 2B C8 38 2B C3\nB 3D\nK 131 2B\nK 0\nK 132\nB 2B C3 3D\n");
    let (fill, all) = (" EE".repeat(132), " EE".repeat(131));
    let wanted = format!(
        "K 0 5 9 {brief}{fill}\nA 5 2B 88 78\nK 3 0 0{all}\nK 3 0 0\nK 0 0 0{fill}\nA 9 2B 88 78\nD "
    );
    assert!(out.starts_with(&wanted), "{out}");
}

#[test]
fn the_panel_prepares_and_starts() {
    let setup = "00 02 00 00 00 00 00 00 00 00 00 00 00 00 00 01 01 10 00";
    let script = format!("S\nF\nB 2B C3\nF {setup}\nB 3D\nS\nS\nF {setup}\nB 2B C3 3D\n");
    let (_, out) = played(&script);
    let wanted = "S 88\nF 85\nF 00\nA 2 2B 02 FE\nS 00\nS 01\nF 87\nA 5 2B 01 FF\nD ";
    assert!(out.starts_with(wanted), "{out}");
}

#[test]
fn frames_at_the_second_port() {
    let (_, out) = played("U 17 256 11 06 00 01 00 03 9A 9B\nM 2 2\nU 1 256\nU 0 1 11\n");
    let (rest, all) = (" EE".repeat(248), " EE".repeat(256));
    let wanted =
        format!("U 0 8 11 06 00 01 00 03 9A 9B{rest}\nM 2 03 00\nU 0 0{all}\nU 3 0 EE\nD ");
    assert!(out.starts_with(&wanted), "{out}");
    let (_, nothing) = played("U 0 256\n");
    assert_eq!(nothing, format!("U 9 0{all}\nD adler32 40000001\n"));
}

/// Indexes and the reader stay at a reset with tables.
#[test]
fn registering_leaves_the_other_end() {
    let (_, out) = played("E 1\nR 64 2B 00\nB 2B\nG\nR 64 07 F9\nB 2B C8 38\n");
    let rest = " EE".repeat(63);
    let wanted = format!("E 0\nG 0\nR 3 0 00 1 07{rest}\nA 3 2B 00 03 ");
    assert!(out.starts_with(&wanted), "{out}");
}

#[test]
fn a_line_that_cannot_be_read_ends_it() {
    let (result, out) = played("M 0 1\n\nQ\nM 0 1\n");
    assert_eq!(result, Err("line 3: `Q` is no operation".to_string()));
    assert_eq!(out, "M 0 00\n");
}

#[test]
fn an_empty_script_prints_nothing() {
    assert_eq!(played("# nothing\n"), (Ok(()), String::new()));
}
