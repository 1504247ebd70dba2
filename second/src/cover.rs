//! Counts what scripts reached: which statuses answered which commands, which
//! refusals the calls gave, how blocks ended, what the panel was told and how
//! frames ended; and holds it against what can be reached.

mod rows;

use crate::modbus::Silence;
use crate::watch::{End, Panel, Standing, Watch};
use rows::Row;

/// The most answers to a block that are told apart.
const MOST_ANSWERS: usize = 3;

/// How often each pair occurred.
pub struct Counts {
    commands: Vec<Row>,
    calls: Vec<Row>,
    blocks: Vec<Row>,
    panel: Vec<Row>,
    functions: Vec<Row>,
    silences: Vec<Row>,
}

impl Counts {
    pub fn none() -> Counts {
        Counts {
            commands: rows::commands(),
            calls: rows::calls(),
            blocks: rows::blocks(),
            panel: rows::panel(),
            functions: rows::functions(),
            silences: rows::silences(),
        }
    }

    /// The tables, each with its title, what its results are, and its rows.
    fn tables(&self) -> [(&'static str, &'static str, &[Row]); 6] {
        [
            ("command", "status", &self.commands),
            ("call", "refusal", &self.calls),
            ("block, answers", "answers", &self.blocks),
            ("panel", "status", &self.panel),
            ("function", "exception", &self.functions),
            ("silence", "bytes", &self.silences),
        ]
    }

    pub fn tell(&self) -> String {
        let told = self.tables().map(|(title, _, rows)| table(title, rows));
        told.concat()
    }

    /// A line for each pair that was not reached or could not be.
    pub fn faults(&self) -> String {
        let faults = |(_, what, rows): (_, &str, &[Row])| -> String {
            rows.iter().flat_map(|row| row.faults(what)).collect()
        };
        self.tables().map(faults).concat()
    }

    /// How many pairs can be reached, of each table.
    pub fn reachable(&self) -> [usize; 6] {
        let pairs = |rows: &[Row]| rows.iter().map(|row| row.reachable.len()).sum();
        self.tables().map(|(_, _, rows)| pairs(rows))
    }
}

impl Watch for Counts {
    fn answered(&mut self, command: u8, status: u8) {
        let name = rows::command_name(&self.commands, command);
        count(&mut self.commands, &name, usize::from(status));
    }

    fn called(&mut self, letter: char, refusal: u8) {
        count(&mut self.calls, &letter.to_string(), usize::from(refusal));
    }

    fn ended(&mut self, end: End, answers: usize) {
        count(
            &mut self.blocks,
            rows::end_name(end),
            answers.min(MOST_ANSWERS),
        );
    }

    fn at_panel(&mut self, panel: Panel, standing: Standing, in_message: bool, status: u8) {
        let status = usize::from(status);
        count(&mut self.panel, &rows::panel_name(panel, standing), status);
        if in_message {
            let name = rows::in_message_name(panel.letter());
            count(&mut self.panel, &name, status);
        }
    }

    fn frame_answered(&mut self, function: u8, exception: u8) {
        let name = rows::function_name(&self.functions, function);
        count(&mut self.functions, &name, usize::from(exception));
    }

    fn frame_silent(&mut self, silence: Silence) {
        count(&mut self.silences, rows::silence_name(silence), 0);
    }
}

/// One more of a result in the row of this name; each has one.
fn count(rows: &mut [Row], name: &str, result: usize) {
    let row = rows.iter_mut().find(|row| row.name == name);
    row.expect("every name has a row").counts[result] += 1;
}

/// A column for each result that some row reached or can reach.
fn table(title: &str, rows: &[Row]) -> String {
    let shown = |result: &u8| {
        let mut cells = rows.iter().map(|row| row.cell(*result));
        cells.any(|cell| cell != ".")
    };
    let results: Vec<u8> = (0..=255).filter(shown).collect();
    let heads = results
        .iter()
        .map(|r| format!(" {:>7}", format!("{r:02X}")));
    let head = format!("{title:<15}{}\n", heads.collect::<String>());
    rows.iter()
        .fold(head, |told, row| told + &row.line(&results))
}

#[cfg(test)]
mod tests {
    use super::*;
    use crate::request::order;

    #[test]
    fn the_commands_listed_are_those_served() {
        let counts = Counts::none();
        for command in 0..=255 {
            let name = format!("{command:02X}");
            let listed = counts.commands.iter().any(|row| row.name == name);
            assert_eq!(listed, order(command).is_some(), "{name}");
        }
    }

    #[test]
    fn tells_what_is_missing_and_what_is_too_much() {
        let mut counts = Counts::none();
        counts.answered(0xC8, 0x00);
        counts.answered(0xC8, 0x89);
        counts.answered(0x12, 0x81);
        counts.called('E', 5);
        counts.ended(End::Whole, 9);
        counts.ended(End::Empty, 1);
        counts.frame_answered(3, 1);
        counts.frame_answered(4, 1);
        counts.frame_silent(Silence::Long);
        counts.at_panel(Panel::Starts, Standing::Runs, true, 0x01);
        counts.at_panel(Panel::Starts, Standing::Full, false, 0x88);
        let faults = counts.faults();
        let has = |line: &str| faults.lines().any(|l| l == line);
        assert!(has("never reached: C8 with status 82"));
        assert!(has("not to be reached: C8 with status 89"));
        assert!(has("never reached: E with refusal 00"));
        assert!(!has("never reached: C8 with status 00"));
        assert!(!has("never reached: other standard with status 81"));
        assert!(!has("never reached: E with refusal 05"));
        assert!(has("never reached: K with refusal 03"));
        assert!(has("never reached: stopped with answers 01"));
        assert!(has("not to be reached: no bytes with answers 01"));
        assert!(!has("never reached: all taken with answers 03"));
        assert!(has("not to be reached: 03 with exception 01"));
        assert!(has("never reached: 16 with exception 02"));
        assert!(!has("never reached: other with exception 01"));
        assert!(has("never reached: broadcast with bytes 00"));
        assert!(!has("never reached: above 256 with bytes 00"));
        assert!(has("never reached: F, runs with status 87"));
        assert!(has("never reached: S in message with status 00"));
        assert!(!has("never reached: S in message with status 01"));
        assert!(has("not to be reached: S, full with status 88"));
    }

    #[test]
    fn a_table_has_a_line_for_each_row() {
        let mut counts = Counts::none();
        counts.answered(0xFF, 0x81);
        let told = counts.tell();
        assert_eq!(
            told.lines().count(),
            1 + 36 + 1 + 9 + 1 + 4 + 1 + 12 + 1 + 5 + 1 + 6
        );
        let last = told.lines().find(|l| l.starts_with("other fast")).unwrap();
        let cells: Vec<&str> = last.split_whitespace().collect();
        assert_eq!(cells[2..6], [".", ".", ".", "1"]);
    }
}
