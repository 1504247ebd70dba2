//! The other end of the cable: writers of messages and a reader of answers.
//!
//! The numbers of refused calls are the paper's: 3 a lent buffer too short,
//! 4 a message that can't be formed, 5 an expected length above 64, 6 a
//! finished answer whose sum is wrong.

use crate::line::{sum, wire, Heard, Length, START};
use crate::message::fast_length;
use crate::refusals::MOST_DATA;

/// "start, status, and 65 bytes that may all be doubled"
pub const ANSWER_ROOM: usize = 132;

/// The number a call refuses with.
pub type Refusal = u8;

/// Writes a command message into the lent buffer; the bytes written.
pub fn write_command(command: u8, data: &[u8], lent: &mut [u8]) -> Result<usize, Refusal> {
    // "a writer looks at 4 before 3"
    if !command_can_be_formed(command, data) {
        return Err(4);
    }
    let mut rest = data.to_vec();
    if fast_length(command).is_none() {
        rest.insert(0, data.len() as u8);
    }
    let message = wire(command, &rest);
    // "The command writer needs just the bytes it writes"
    lend(&message, message.len(), lent)
}

/// Not "command 0x2B, fast data of another length than the code gives,
/// standard data above 255".
fn command_can_be_formed(command: u8, data: &[u8]) -> bool {
    command != START
        && match fast_length(command) {
            Some(length) => data.len() == length,
            None => data.len() <= 255,
        }
}

/// Writes an answer into the lent buffer; the bytes written.
pub fn write_answer(status: u8, data: &[u8], lent: &mut [u8]) -> Result<usize, Refusal> {
    if !answer_can_be_formed(status, data) {
        return Err(4);
    }
    // "the answer writer 132", whatever it writes
    lend(&wire(status, data), ANSWER_ROOM, lent)
}

/// Not "a status other than 00 to 02 and 81 to 89, answer data above 64 or
/// beside an error".
fn answer_can_be_formed(status: u8, data: &[u8]) -> bool {
    match status {
        0x00..=0x02 => data.len() <= MOST_DATA,
        0x81..=0x89 => data.is_empty(),
        _ => false,
    }
}

/// Copies the bytes to the beginning of a buffer that has the room needed;
/// "neither changes others".
fn lend(bytes: &[u8], needed: usize, lent: &mut [u8]) -> Result<usize, Refusal> {
    if lent.len() < needed {
        return Err(3);
    }
    lent[..bytes.len()].copy_from_slice(bytes);
    Ok(bytes.len())
}

/// The number of literals of an answer: "data of the length fixed when the
/// reading began follow a clear top bit, none a set one".
struct AnswerLength {
    expected: usize,
}

impl Length for AnswerLength {
    fn length(&self, literals: &[u8]) -> Option<usize> {
        let status = literals.first()?;
        let data = if status & 0x80 == 0 { self.expected } else { 0 };
        Some(1 + data + 1)
    }
}

/// The status of a whole right answer and the number of its data bytes.
#[derive(Debug, PartialEq, Eq)]
pub struct Answer {
    pub status: u8,
    pub count: usize,
}

/// Reads answers out of the list of the bytes since the reading began.
pub struct Reader {
    rule: AnswerLength,
    heard: Heard,
}

impl Reader {
    pub fn begin(expected: u64) -> Result<Reader, Refusal> {
        match usize::try_from(expected) {
            Ok(expected) if expected <= MOST_DATA => Ok(Reader {
                rule: AnswerLength { expected },
                heard: Heard::default(),
            }),
            _ => Err(5),
        }
    }

    /// One wire byte. A refusal of 3 leaves it out of the list: such calls
    /// "consume no byte"; "6 alone consumes its byte".
    pub fn byte(&mut self, byte: u8, lent: &mut [u8]) -> Result<Option<Answer>, Refusal> {
        // "the answer reader needs 64 for data", at every call
        if lent.len() < MOST_DATA {
            return Err(3);
        }
        let Some(literals) = self.heard.hear(byte, &self.rule) else {
            return Ok(None);
        };
        if sum(&literals) != 0 {
            return Err(6);
        }
        let data = &literals[1..literals.len() - 1];
        lent[..data.len()].copy_from_slice(data);
        Ok(Some(Answer {
            status: literals[0],
            count: data.len(),
        }))
    }
}

#[cfg(test)]
mod tests {
    use super::*;

    fn command(command: u8, data: &[u8], room: usize) -> (Result<usize, Refusal>, Vec<u8>) {
        let mut lent = vec![0xEE; room];
        let result = write_command(command, data, &mut lent);
        (result, lent)
    }

    fn answer(status: u8, data: &[u8], room: usize) -> Result<usize, Refusal> {
        write_answer(status, data, &mut vec![0xEE; room])
    }

    #[test]
    fn command_writer_needs_just_its_bytes() {
        assert_eq!(command(0xC8, &[], 3), (Ok(3), vec![0x2B, 0xC8, 0x38]));
        assert_eq!(command(0xC8, &[], 2), (Err(3), vec![0xEE; 2]));
        let doubled = [0x2B, 0xD0, 0x2B, 0x2B, 0x00, 0x05, 0xEE];
        assert_eq!(command(0xD0, &[0x2B, 0x00], 7), (Ok(6), doubled.to_vec()));
    }

    #[test]
    fn command_writer_doubles_a_length_of_43() {
        let (result, lent) = command(0x02, &[0; 43], 60);
        assert_eq!(result, Ok(1 + 1 + 2 + 43 + 1));
        assert_eq!(lent[..4], [0x2B, 0x02, 0x2B, 0x2B]);
    }

    #[test]
    fn four_before_three() {
        assert_eq!(command(0x2B, &[], 0).0, Err(4));
        assert_eq!(command(0xD0, &[0], 0).0, Err(4));
        assert_eq!(command(0x01, &[0; 256], 0).0, Err(4));
        assert_eq!(command(0x01, &[0; 255], 0).0, Err(3));
        assert_eq!(answer(0x03, &[], 0), Err(4));
        assert_eq!(answer(0x8A, &[], 132), Err(4));
        assert_eq!(answer(0x00, &[0; 65], 132), Err(4));
        assert_eq!(answer(0x81, &[0], 132), Err(4));
        assert_eq!(answer(0x81, &[], 131), Err(3));
        assert_eq!(answer(0x02, &[0; 64], 132), Ok(67));
    }

    #[test]
    fn reader_takes_right_answers_only() {
        let mut reader = Reader::begin(1).ok().unwrap();
        let mut lent = [0xEE; 64];
        let mut read = |bytes: &[u8]| {
            let mut last = Ok(None);
            bytes.iter().for_each(|b| last = reader.byte(*b, &mut lent));
            (last, lent[0], lent[1])
        };
        assert_eq!(read(&[0x2B, 0x00, 0x2B, 0x2B, 0xD4]), (Err(6), 0xEE, 0xEE));
        assert_eq!(read(&[0xD5]), (Ok(None), 0xEE, 0xEE));
        let right = Answer {
            status: 0x00,
            count: 1,
        };
        let whole = [0x2B, 0x00, 0x2B, 0x2B, 0xD5];
        assert_eq!(read(&whole), (Ok(Some(right)), 0x2B, 0xEE));
        let error = Answer {
            status: 0x89,
            count: 0,
        };
        assert_eq!(read(&[0x2B, 0x89, 0x77]).0, Ok(Some(error)));
    }

    #[test]
    fn a_short_buffer_consumes_no_byte() {
        let mut reader = Reader::begin(0).ok().unwrap();
        let mut long = [0xEE; 64];
        assert_eq!(reader.byte(0x2B, &mut long), Ok(None));
        assert_eq!(reader.byte(0x00, &mut long), Ok(None));
        assert_eq!(reader.byte(0x00, &mut [0; 63]), Err(3));
        assert!(reader.byte(0x00, &mut long).unwrap().is_some());
    }

    #[test]
    fn expects_at_most_64() {
        assert!(Reader::begin(64).is_ok());
        assert_eq!(Reader::begin(65).err(), Some(5));
    }
}
