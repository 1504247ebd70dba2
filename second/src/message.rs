//! A command message, cut out of the literals behind its start.

use crate::line::{sum, Length};

/// A whole message: "Command, length if present, data and sum byte".
#[derive(Clone, Debug, PartialEq, Eq)]
pub struct Message {
    pub command: u8,
    pub data: Vec<u8>,
    /// All of it adds "up to 0 modulo 256".
    pub right_sum: bool,
}

/// "At 0xC0 and above, bits 5 and 4 give the data length as 0, 2, 4 or 6."
pub fn fast_length(command: u8) -> Option<usize> {
    (command >= 0xC0).then_some(usize::from(command >> 4 & 3) * 2)
}

/// The number of literals of a command message: by the command's value alone,
/// served or not.
pub struct CommandLength;

impl Length for CommandLength {
    fn length(&self, literals: &[u8]) -> Option<usize> {
        match fast_length(*literals.first()?) {
            Some(data) => Some(1 + data + 1),
            // "Below 0xC0 the next literal is the length"
            None => Some(2 + usize::from(*literals.get(1)?) + 1),
        }
    }
}

impl Message {
    /// A message that came whole.
    pub fn right(command: u8, data: &[u8]) -> Message {
        Message {
            command,
            data: data.to_vec(),
            right_sum: true,
        }
    }

    /// Takes apart the literals of a whole message.
    pub fn of(literals: &[u8]) -> Message {
        let command = literals[0];
        let data_from = if fast_length(command).is_some() { 1 } else { 2 };
        Message {
            command,
            data: literals[data_from..literals.len() - 1].to_vec(),
            right_sum: sum(literals) == 0,
        }
    }
}

#[cfg(test)]
mod tests {
    use super::*;

    #[test]
    fn fast_lengths() {
        assert_eq!(fast_length(0xBF), None);
        assert_eq!(fast_length(0xC9), Some(0));
        assert_eq!(fast_length(0xD4), Some(2));
        assert_eq!(fast_length(0xE6), Some(4));
        assert_eq!(fast_length(0xFF), Some(6));
    }

    #[test]
    fn takes_a_standard_message_apart() {
        let message = Message::of(&[0x01, 0x03, 0x04, 0x10, 0x00, 0xE8]);
        assert_eq!(message.command, 0x01);
        assert_eq!(message.data, [0x04, 0x10, 0x00]);
        assert!(message.right_sum);
    }
}
