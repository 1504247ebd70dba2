//! The rows that are counted: one for each thing that can happen, by its name.

use std::fmt::Display;

use crate::message::fast_length;
use crate::modbus::Silence;
use crate::reachable::{self, BLOCKS, PANEL, SILENCES};
use crate::watch::{End, Panel, Standing};

/// The commands that are not served, with a length byte and without.
const STANDARD: &str = "other standard";
const FAST: &str = "other fast";

/// The functions that are not served.
const OTHER: &str = "other";

/// A silence has no bytes, and can have no more.
const SILENT: &[u8] = &[0];

/// A command, a call, an end of blocks, a use of the panel or a kind of frame,
/// and how often each of its results occurred.
pub struct Row {
    pub name: String,
    pub reachable: Vec<u8>,
    /// At each result: a status, a refusal or a number of answers.
    pub counts: Vec<u64>,
}

impl Row {
    fn new(name: impl Into<String>, reachable: &[u8]) -> Row {
        Row {
            name: name.into(),
            reachable: reachable.to_vec(),
            counts: vec![0; 256],
        }
    }

    fn is_reachable(&self, result: usize) -> bool {
        self.reachable.iter().any(|r| usize::from(*r) == result)
    }

    /// A number where something was or should have been, else a dot.
    pub fn cell(&self, result: u8) -> String {
        match self.counts[usize::from(result)] {
            0 if !self.reachable.contains(&result) => ".".to_string(),
            count => count.to_string(),
        }
    }

    pub fn line(&self, results: &[u8]) -> String {
        let cells = results.iter().map(|r| format!(" {:>7}", self.cell(*r)));
        format!("{:<15}{}\n", self.name, cells.collect::<String>())
    }

    /// The results that were never reached, and those that cannot be and were.
    pub fn faults(&self, what: &str) -> Vec<String> {
        let told = |result: usize| {
            let name = &self.name;
            match (self.is_reachable(result), self.counts[result]) {
                (true, 0) => Some(format!("never reached: {name} with {what} {result:02X}\n")),
                (false, 1..) => Some(format!(
                    "not to be reached: {name} with {what} {result:02X}\n"
                )),
                _ => None,
            }
        };
        (0..256).filter_map(told).collect()
    }
}

/// The commands served in their order, then the others.
pub fn commands() -> Vec<Row> {
    let served = reachable::commands().into_iter();
    let others = reachable::other_commands().into_iter();
    served
        .map(|(command, statuses)| Row::new(format!("{command:02X}"), &statuses))
        .chain(others.map(|(kind, statuses)| Row::new(format!("other {kind}"), &statuses)))
        .collect()
}

pub fn calls() -> Vec<Row> {
    let calls = reachable::calls().into_iter();
    calls
        .map(|(letter, refusals)| Row::new(letter, &refusals))
        .collect()
}

pub fn blocks() -> Vec<Row> {
    let row = |(end, answers): &(End, &'static [u8])| Row::new(end_name(*end), answers);
    BLOCKS.iter().map(row).collect()
}

/// By how the recorder stands, then in the midst of a message.
pub fn panel() -> Vec<Row> {
    let standing = PANEL
        .iter()
        .map(|(panel, standing, statuses)| Row::new(panel_name(*panel, *standing), statuses));
    let in_message = reachable::panel().into_iter();
    standing
        .chain(in_message.map(|(letter, statuses)| Row::new(in_message_name(letter), &statuses)))
        .collect()
}

/// The functions served, then the others.
pub fn functions() -> Vec<Row> {
    let served = reachable::functions().into_iter();
    let other = Row::new(OTHER, &reachable::other_functions());
    served
        .map(|(function, exceptions)| Row::new(format!("{function:02X}"), &exceptions))
        .chain([other])
        .collect()
}

pub fn silences() -> Vec<Row> {
    let row = |silence: &Silence| Row::new(silence_name(*silence), SILENT);
    SILENCES.iter().map(row).collect()
}

/// The name of the row of its own that a number has, or of one with others.
fn own_name(rows: &[Row], number: u8, others: &str) -> String {
    let own = format!("{number:02X}");
    match rows.iter().any(|row| row.name == own) {
        true => own,
        false => others.to_string(),
    }
}

/// A command that is not served has a row with others of its kind.
pub fn command_name(rows: &[Row], command: u8) -> String {
    match fast_length(command) {
        None => own_name(rows, command, STANDARD),
        Some(_) => own_name(rows, command, FAST),
    }
}

pub fn end_name(end: End) -> &'static str {
    match end {
        End::Empty => "no bytes",
        End::Whole => "all taken",
        End::WholeAndFull => "all, no room",
        End::Stopped => "stopped",
    }
}

pub fn panel_name(panel: Panel, standing: Standing) -> String {
    let standing = match standing {
        Standing::NotSetUp => "not set up",
        Standing::Fresh => "no set",
        Standing::Runs => "runs",
        Standing::Stopped => "stopped",
        Standing::Full => "full",
    };
    format!("{}, {standing}", panel.letter())
}

/// By the letter of the panel's line.
pub fn in_message_name(letter: impl Display) -> String {
    format!("{letter} in message")
}

pub fn function_name(rows: &[Row], function: u8) -> String {
    own_name(rows, function, OTHER)
}

pub fn silence_name(silence: Silence) -> &'static str {
    match silence {
        Silence::Short => "below 4 bytes",
        Silence::Long => "above 256",
        Silence::WrongSum => "wrong sum",
        Silence::OtherStation => "other station",
        Silence::Broadcast => "broadcast",
        Silence::FunctionAbove127 => "above 127",
    }
}
