//! What can be reached, written down from the paper: the statuses that answer
//! each command, the refusals of each call that a script makes, how blocks end,
//! what the panel is told and how frames at the second port end.
//!
//! Nothing here is computed from the refusals' table: a row there that refuses
//! too much or too little shows as a pair too few or too many. What the calls
//! of C are held to as well stands in one list with theirs, the rest here.

use crate::modbus::Silence;
use crate::watch::{End, Panel, Standing};

/// The list is a header of C, and a row of it a line: a kind, and in brackets
/// what it is of and its results.
const LIST: &str = include_str!("../../tests/reachable.h");

/// What stands in the brackets of the rows of a kind.
fn rows(kind: &'static str) -> impl Iterator<Item = Vec<&'static str>> {
    let brackets = move |line: &'static str| {
        let row = line.strip_prefix(kind)?.strip_prefix('(')?;
        row.strip_suffix(')')
    };
    let words = |row: &'static str| row.split(',').map(|word| word.trim().trim_matches('"'));
    LIST.lines()
        .filter_map(brackets)
        .map(move |row| words(row).collect())
}

fn number(text: &str, base: u32) -> u8 {
    let number = u8::from_str_radix(text.trim_start_matches("0x"), base);
    number.expect("the list has numbers of a byte")
}

fn numbers(text: &str, base: u32) -> Vec<u8> {
    let numbers = text.split_whitespace().map(|text| number(text, base));
    numbers.collect()
}

/// Commands served in their order, and the statuses that can answer them.
pub fn commands() -> Vec<(u8, Vec<u8>)> {
    rows("COMMAND")
        .map(|row| (number(row[0], 16), numbers(row[2], 16)))
        .collect()
}

/// The other commands, those with a length byte and those without, and the
/// statuses of either kind.
pub fn other_commands() -> Vec<(&'static str, Vec<u8>)> {
    rows("OTHER_COMMANDS")
        .map(|row| (row[0], numbers(row[1], 16)))
        .collect()
}

/// The letter of each line of a script that prints a call's refusal, and the
/// refusals it can print, 0 for none. Those of a state or a memory no script
/// can provoke: tests/fuzz/ counts them.
pub fn calls() -> Vec<(&'static str, Vec<u8>)> {
    rows("CALL")
        .filter(|row| row[1] != "-")
        .map(|row| (row[1], numbers(row[2], 10)))
        .collect()
}

/// The letter of each line with which the panel does something, and what it can
/// be told.
pub fn panel() -> Vec<(&'static str, Vec<u8>)> {
    rows("PANEL")
        .map(|row| (row[1], numbers(row[2], 16)))
        .collect()
}

/// Functions served, and the exceptions that can answer them, 0 for none.
pub fn functions() -> Vec<(u8, Vec<u8>)> {
    rows("FUNCTION")
        .map(|row| (number(row[0], 10), numbers(row[2], 10)))
        .collect()
}

/// The exceptions that can answer all others.
pub fn other_functions() -> Vec<u8> {
    rows("OTHER_FUNCTIONS")
        .flat_map(|row| numbers(row[0], 10))
        .collect()
}

/// How a block can end, and how many answers it can have had then, 3 for three
/// or more: without an answer the room is what it was at the start.
pub const BLOCKS: [(End, &[u8]); 4] = [
    (End::Empty, &[0]),
    (End::Whole, &[0, 1, 2, 3]),
    (End::WholeAndFull, &[1, 2, 3]),
    (End::Stopped, &[1, 2, 3]),
];

/// What the panel can be told, by how the recorder stands. A refused setup is
/// never 0x88: that is said of what needs one.
pub const PANEL: [(Panel, Standing, &[u8]); 10] = [
    (Panel::Prepares, Standing::NotSetUp, READ),
    (Panel::Prepares, Standing::Fresh, READ),
    (Panel::Prepares, Standing::Runs, &[0x83, 0x87]),
    (Panel::Prepares, Standing::Stopped, READ),
    (Panel::Prepares, Standing::Full, READ),
    (Panel::Starts, Standing::NotSetUp, &[0x88]),
    (Panel::Starts, Standing::Fresh, &[0x00]),
    (Panel::Starts, Standing::Runs, &[0x01]),
    (Panel::Starts, Standing::Stopped, &[0x00]),
    (Panel::Starts, Standing::Full, &[0x00]),
];

/// The statuses of a setup that is looked at to its end.
const READ: &[u8] = &[0x00, 0x83, 0x85, 0x86, 0x89];

/// Why a frame can get silence.
pub const SILENCES: [Silence; 6] = [
    Silence::Short,
    Silence::Long,
    Silence::WrongSum,
    Silence::OtherStation,
    Silence::Broadcast,
    Silence::FunctionAbove127,
];

#[cfg(test)]
mod tests {
    use super::*;
    use std::collections::BTreeSet;

    /// A row that is laid out otherwise would go unread.
    #[test]
    fn every_row_of_the_list_is_read() {
        let rows_in_all = LIST.lines().filter(|line| line.ends_with(')')).count();
        let defined = LIST.lines().filter(|line| line.starts_with("#define"));
        let read = commands().len()
            + other_commands().len()
            + rows("CALL").count()
            + panel().len()
            + functions().len()
            + rows("OTHER_FUNCTIONS").count();
        assert_eq!(read, rows_in_all - defined.count());
        assert!(commands().windows(2).all(|two| two[0].0 < two[1].0));
        assert_eq!(commands()[10], (0x10, vec![0, 0x82, 0x83, 0x85, 0x87]));
        assert_eq!(other_functions(), [1]);
    }

    /// What the panel can be told is what it can be told in some standing.
    #[test]
    fn the_standings_have_what_the_list_has() {
        for (letter, statuses) in panel() {
            let does = |row: &&(Panel, _, _)| row.0.letter().to_string() == letter;
            let standings = PANEL.iter().filter(does);
            let told: BTreeSet<u8> = standings.flat_map(|row| row.2).copied().collect();
            assert_eq!(told, statuses.into_iter().collect());
        }
    }
}
