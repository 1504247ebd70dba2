//! What a message asks for: the commands served, and the fields of their data.

use crate::areas::Range;
use crate::message::Message;

/// The commands of the paper, without the width of their addresses. A number
/// beside one is the size that the command itself fixes.
#[derive(Clone, Copy, Debug, PartialEq, Eq)]
pub enum Order {
    Information,
    BriefInformation,
    ReadFixed(u8),
    WriteFixed(u8),
    MaskFixed(u8),
    Read,
    Write,
    Mask,
    ScopeSetup,
    ScopeRead,
    RecorderSetup,
    Start,
    Stop,
    Status,
    BufferQuery,
    SendCommand,
    CommandResult,
    TableQuery,
    StringLength,
}

/// The order a command value gives and the bytes of its addresses ("Addresses
/// take 2 bytes, in EX commands 4"); nothing for a command not served.
pub fn order(command: u8) -> Option<(Order, usize)> {
    Some(match command {
        0xC0 => (Order::Information, 2),
        0xC8 => (Order::BriefInformation, 2),
        0xD0 => (Order::ReadFixed(1), 2),
        0xD1 => (Order::ReadFixed(2), 2),
        0xD2 => (Order::ReadFixed(4), 2),
        0xE0 => (Order::ReadFixed(1), 4),
        0xE1 => (Order::ReadFixed(2), 4),
        0xE2 => (Order::ReadFixed(4), 4),
        0xE3 => (Order::WriteFixed(1), 2),
        0xE4 => (Order::WriteFixed(2), 2),
        0xF0 => (Order::WriteFixed(4), 2),
        0xE5 => (Order::MaskFixed(1), 2),
        0xF1 => (Order::MaskFixed(2), 2),
        0x01 => (Order::Read, 2),
        0x04 => (Order::Read, 4),
        0x02 => (Order::Write, 2),
        0x05 => (Order::Write, 4),
        0x03 => (Order::Mask, 2),
        0x06 => (Order::Mask, 4),
        0x08 => (Order::ScopeSetup, 2),
        0x0A => (Order::ScopeSetup, 4),
        0xC5 => (Order::ScopeRead, 2),
        0x09 => (Order::RecorderSetup, 2),
        0x0B => (Order::RecorderSetup, 4),
        0xC1 => (Order::Start, 2),
        0xC2 => (Order::Stop, 2),
        0xC3 => (Order::Status, 2),
        0xC4 => (Order::BufferQuery, 2),
        0xC9 => (Order::BufferQuery, 4),
        0x10 => (Order::SendCommand, 2),
        0xC6 => (Order::CommandResult, 2),
        0x11 => (Order::TableQuery, 2),
        0xD4 => (Order::StringLength, 2),
        0xE6 => (Order::StringLength, 4),
        _ => return None,
    })
}

/// The fields of a recorder setup.
#[derive(Clone, Debug, PartialEq, Eq)]
pub struct Setup {
    pub mode: u8,
    pub samples: u16,
    pub post_trigger: u16,
    pub divider: u16,
    pub trigger: Range,
    pub sign: u8,
    /// "the union at its full width"
    pub threshold: [u8; 4],
    pub variables: Vec<Range>,
}

impl Setup {
    /// "the set size is the sum of the variables' sizes"
    pub fn set_size(&self) -> usize {
        self.variables.iter().map(|v| usize::from(v.size)).sum()
    }

    /// "With mode 0 the trigger's fields are not looked at."
    pub fn has_trigger(&self) -> bool {
        self.mode != 0
    }
}

/// A message whose fields fill its data part exactly.
#[derive(Clone, Debug, PartialEq, Eq)]
pub enum Request {
    Information,
    BriefInformation,
    Read(Range),
    Write {
        range: Range,
        value: Vec<u8>,
        mask: Vec<u8>,
    },
    ScopeSetup(Vec<Range>),
    ScopeRead,
    RecorderSetup(Setup),
    Start,
    Stop,
    Status,
    BufferQuery {
        address_bytes: usize,
    },
    SendCommand(Vec<u8>),
    CommandResult,
    /// The index of a table.
    TableQuery(u16),
    /// The address of a string.
    StringLength(u32),
}

/// What is left of a data part; each field is taken from its beginning.
struct Fields<'a> {
    rest: &'a [u8],
    address_bytes: usize,
}

impl<'a> Fields<'a> {
    fn bytes(&mut self, count: usize) -> Option<&'a [u8]> {
        if count > self.rest.len() {
            return None;
        }
        let (taken, rest) = self.rest.split_at(count);
        self.rest = rest;
        Some(taken)
    }

    /// A little-endian number.
    fn number(&mut self, count: usize) -> Option<u32> {
        let bytes = self.bytes(count)?;
        Some(bytes.iter().rev().fold(0, |n, b| n << 8 | u32::from(*b)))
    }

    fn byte(&mut self) -> Option<u8> {
        Some(self.bytes(1)?[0])
    }

    fn word(&mut self) -> Option<u16> {
        Some(self.number(2)? as u16)
    }

    fn address(&mut self) -> Option<u32> {
        self.number(self.address_bytes)
    }

    /// Address alone, where the command fixes the size.
    fn fixed(&mut self, size: u8) -> Option<Range> {
        let address = self.address()?;
        Some(Range { size, address })
    }

    /// "size, address"
    fn range(&mut self) -> Option<Range> {
        let size = self.byte()?;
        self.fixed(size)
    }

    /// "count, then size and address each"
    fn definitions(&mut self) -> Option<Vec<Range>> {
        let count = self.byte()?;
        (0..count).map(|_| self.range()).collect()
    }

    fn write(&mut self, range: Range, masked: bool) -> Option<Request> {
        let size = usize::from(range.size);
        let value = self.bytes(size)?.to_vec();
        // A plain write is a masked one that takes every bit.
        let mask = if masked {
            self.bytes(size)?.to_vec()
        } else {
            vec![0xFF; size]
        };
        Some(Request::Write { range, value, mask })
    }

    /// "trigger mode 1 byte, samples 2, post-trigger 2, time divider 2, trigger
    /// address, trigger size 1, sign 1, threshold 4 ..., then as 0x08"
    fn setup(&mut self) -> Option<Setup> {
        let mode = self.byte()?;
        let samples = self.word()?;
        let post_trigger = self.word()?;
        let divider = self.word()?;
        let address = self.address()?;
        let size = self.byte()?;
        let sign = self.byte()?;
        let threshold = self.bytes(4)?.try_into().ok()?;
        let variables = self.definitions()?;
        Some(Setup {
            mode,
            samples,
            post_trigger,
            divider,
            trigger: Range { size, address },
            sign,
            threshold,
            variables,
        })
    }

    /// "one code byte and up to 63 argument bytes": nothing but the code has to
    /// be there, and all that follows belongs to it.
    fn command(&mut self) -> Option<Vec<u8>> {
        let mut command = vec![self.byte()?];
        command.extend_from_slice(self.bytes(self.rest.len())?);
        Some(command)
    }

    fn request(&mut self, order: Order) -> Option<Request> {
        Some(match order {
            Order::Information => Request::Information,
            Order::BriefInformation => Request::BriefInformation,
            Order::ReadFixed(size) => Request::Read(self.fixed(size)?),
            Order::WriteFixed(size) => {
                let range = self.fixed(size)?;
                self.write(range, false)?
            }
            Order::MaskFixed(size) => {
                let range = self.fixed(size)?;
                self.write(range, true)?
            }
            Order::Read => Request::Read(self.range()?),
            Order::Write => {
                let range = self.range()?;
                self.write(range, false)?
            }
            Order::Mask => {
                let range = self.range()?;
                self.write(range, true)?
            }
            Order::ScopeSetup => Request::ScopeSetup(self.definitions()?),
            Order::ScopeRead => Request::ScopeRead,
            Order::RecorderSetup => Request::RecorderSetup(self.setup()?),
            Order::Start => Request::Start,
            Order::Stop => Request::Stop,
            Order::Status => Request::Status,
            Order::BufferQuery => Request::BufferQuery {
                address_bytes: self.address_bytes,
            },
            Order::SendCommand => Request::SendCommand(self.command()?),
            Order::CommandResult => Request::CommandResult,
            Order::TableQuery => Request::TableQuery(self.word()?),
            Order::StringLength => Request::StringLength(self.address()?),
        })
    }
}

/// The request of a message, or nothing where its data length is "not the one
/// its fields give (or too short to hold them)", or the command is not served.
pub fn request(message: &Message) -> Option<Request> {
    let (order, address_bytes) = order(message.command)?;
    let mut fields = Fields {
        rest: &message.data,
        address_bytes,
    };
    let request = fields.request(order)?;
    // "0xE3 carries a fourth byte that is ignored."
    if order == Order::WriteFixed(1) {
        fields.byte()?;
    }
    fields.rest.is_empty().then_some(request)
}

#[cfg(test)]
mod tests {
    use super::*;
    use crate::message::fast_length;

    /// Every fast command's fields fill just the data its code gives.
    #[test]
    fn fast_fields_fill_the_length_bits() {
        for command in 0xC0..=0xFF {
            let data = vec![0; fast_length(command).unwrap()];
            let fits = request(&Message::right(command, &data)).is_some();
            assert_eq!(fits, order(command).is_some(), "{command:02X}");
        }
    }

    #[test]
    fn sizes_must_fit_the_length() {
        assert!(request(&Message::right(0x02, &[2, 0, 0, 8, 9])).is_some());
        assert!(request(&Message::right(0x02, &[2, 0, 0, 8])).is_none());
        assert!(request(&Message::right(0x03, &[1, 0, 0, 8, 9])).is_some());
        assert!(request(&Message::right(0x03, &[1, 0, 0, 8])).is_none());
        assert!(request(&Message::right(0x04, &[1, 0, 0, 0, 0])).is_some());
        assert!(request(&Message::right(0x04, &[1, 0, 0])).is_none());
        assert!(request(&Message::right(0x08, &[])).is_none());
        assert!(request(&Message::right(0x08, &[0])).is_some());
        assert!(request(&Message::right(0x0A, &[1, 1, 0, 0, 0, 0])).is_some());
        assert!(request(&Message::right(0x11, &[0, 0])).is_some());
        assert!(request(&Message::right(0x11, &[0])).is_none());
        assert!(request(&Message::right(0x11, &[0, 0, 0])).is_none());
    }

    #[test]
    fn numbers_are_little_endian() {
        let wanted = Request::Read(Range {
            size: 1,
            address: 0x0403_0201,
        });
        let read = Message::right(0xE0, &[1, 2, 3, 4]);
        assert_eq!(request(&read), Some(wanted));
    }
}
