//! The lines of a script.

use crate::areas::MEMORY;
use crate::tables::Table;

/// The most room a W, V or R line may lend, a K line, and a line of no limit of
/// its own.
const MOST_ROOM: usize = 600;
const MOST_BLOCK_ROOM: usize = 2_000;
const MOST_UNLIMITED: usize = 65_535;

/// The most bytes an F line may give, far more than a setup can have.
const MOST_SETUP: usize = 255;

/// The most bytes a frame on a U line may have, and the most room there.
const MOST_FRAME: usize = 600;

/// The most tables a G line may name, more than can be registered.
const MOST_TABLES: usize = 40;

/// One operation.
#[derive(Debug, PartialEq, Eq)]
pub enum Operation {
    Bytes(Vec<u8>),
    Ticks(u64),
    Poke(usize, Vec<u8>),
    Show(usize, usize),
    WriteCommand(Call),
    WriteAnswer(Call),
    BeginReader(u64),
    Read {
        room: usize,
        bytes: Vec<u8>,
    },
    /// The room for the command.
    Collect(usize),
    Report(u8),
    Register(Vec<Table>),
    /// A block of wire bytes, and the room for their answers.
    Block {
        room: usize,
        bytes: Vec<u8>,
    },
    /// The data part that the panel gives.
    Prepare(Vec<u8>),
    Start,
    /// A frame at the second port, for an own station.
    Frame {
        station: u16,
        room: usize,
        bytes: Vec<u8>,
    },
}

impl Operation {
    /// Whether it is one of the gate and its memory, for which the D line is
    /// printed, and not of the other end of the cable.
    pub fn is_of_gate(&self) -> bool {
        !matches!(
            self,
            Operation::WriteCommand(_)
                | Operation::WriteAnswer(_)
                | Operation::BeginReader(_)
                | Operation::Read { .. }
        )
    }
}

/// A call of a writer: command or status, room of the lent buffer, data.
#[derive(Debug, PartialEq, Eq)]
pub struct Call {
    pub first: u8,
    pub room: usize,
    pub data: Vec<u8>,
}

/// The words of a line that are not read yet.
struct Words<'a>(std::str::SplitAsciiWhitespace<'a>);

/// The operation of a line, nothing for one that is skipped, or what is wrong.
pub fn parse(line: &str) -> Result<Option<Operation>, String> {
    if line.starts_with('#') {
        return Ok(None);
    }
    let mut words = Words(line.split_ascii_whitespace());
    let Some(letter) = words.0.next() else {
        return Ok(None);
    };
    let operation = words.operation(letter)?;
    match words.0.next() {
        None => Ok(Some(operation)),
        Some(word) => Err(format!("`{word}` is one word too many")),
    }
}

impl Words<'_> {
    fn operation(&mut self, letter: &str) -> Result<Operation, String> {
        match letter {
            "B" => Ok(Operation::Bytes(self.bytes()?)),
            "T" => Ok(Operation::Ticks(self.decimal("number of ticks")?)),
            "P" => {
                let (address, bytes) = (self.size("address")?, self.bytes()?);
                within(address, bytes.len())?;
                Ok(Operation::Poke(address, bytes))
            }
            "M" => {
                let (address, length) = (self.size("address")?, self.size("length")?);
                within(address, length)?;
                Ok(Operation::Show(address, length))
            }
            "W" => Ok(Operation::WriteCommand(self.call("command")?)),
            "V" => Ok(Operation::WriteAnswer(self.call("status")?)),
            "E" => Ok(Operation::BeginReader(self.decimal("expected length")?)),
            "R" => Ok(Operation::Read {
                room: self.room()?,
                bytes: self.bytes()?,
            }),
            "C" => Ok(Operation::Collect(self.room_up_to(MOST_UNLIMITED)?)),
            "Y" => Ok(Operation::Report(hex(self.word("result")?)?)),
            "G" => Ok(Operation::Register(self.tables()?)),
            "K" => Ok(Operation::Block {
                room: self.room_up_to(MOST_BLOCK_ROOM)?,
                bytes: self.bytes()?,
            }),
            "F" => Ok(Operation::Prepare(self.bytes_up_to(MOST_SETUP)?)),
            "S" => Ok(Operation::Start),
            "U" => Ok(Operation::Frame {
                station: self.number_of_16_bits("station")?,
                room: self.room_up_to(MOST_FRAME)?,
                bytes: self.bytes_up_to(MOST_FRAME)?,
            }),
            other => Err(format!("`{other}` is no operation")),
        }
    }

    fn word(&mut self, what: &str) -> Result<&str, String> {
        self.0.next().ok_or_else(|| format!("no {what}"))
    }

    fn decimal(&mut self, what: &str) -> Result<u64, String> {
        let word = self.word(what)?;
        let digits = word.bytes().all(|b| b.is_ascii_digit());
        let number = word.parse().ok().filter(|_| digits);
        number.ok_or_else(|| format!("`{word}` is no {what}"))
    }

    fn size(&mut self, what: &str) -> Result<usize, String> {
        let number = self.decimal(what)?;
        usize::try_from(number).map_err(|_| format!("{number} is too large for a {what}"))
    }

    fn room(&mut self) -> Result<usize, String> {
        self.room_up_to(MOST_ROOM)
    }

    fn room_up_to(&mut self, most: usize) -> Result<usize, String> {
        match self.size("room")? {
            room if room <= most => Ok(room),
            room => Err(format!("a room of {room} is above {most}")),
        }
    }

    fn call(&mut self, what: &str) -> Result<Call, String> {
        Ok(Call {
            first: hex(self.word(what)?)?,
            room: self.room()?,
            data: self.bytes()?,
        })
    }

    /// All words that are left, as addresses and sizes.
    fn tables(&mut self) -> Result<Vec<Table>, String> {
        let mut tables = Vec::new();
        while self.0.clone().next().is_some() {
            tables.push(Table {
                address: self.number_of_16_bits("address")?,
                size: self.number_of_16_bits("size")?,
            });
        }
        match tables.len() {
            count if count <= MOST_TABLES => Ok(tables),
            count => Err(format!("{count} tables are more than {MOST_TABLES}")),
        }
    }

    fn number_of_16_bits(&mut self, what: &str) -> Result<u16, String> {
        let number = self.decimal(what)?;
        u16::try_from(number).map_err(|_| format!("{number} is too large for a {what}"))
    }

    /// All words that are left, as bytes.
    fn bytes(&mut self) -> Result<Vec<u8>, String> {
        self.0.by_ref().map(hex).collect()
    }

    fn bytes_up_to(&mut self, most: usize) -> Result<Vec<u8>, String> {
        match self.bytes()? {
            bytes if bytes.len() <= most => Ok(bytes),
            bytes => Err(format!("{} bytes are more than {most}", bytes.len())),
        }
    }
}

/// One or two hexadecimal digits.
fn hex(word: &str) -> Result<u8, String> {
    let digits = word.len() <= 2 && word.bytes().all(|b| b.is_ascii_hexdigit());
    let byte = u8::from_str_radix(word, 16).ok().filter(|_| digits);
    byte.ok_or_else(|| format!("`{word}` is no byte in hex"))
}

fn within(address: usize, length: usize) -> Result<(), String> {
    match address.checked_add(length) {
        Some(end) if end <= MEMORY => Ok(()),
        _ => Err(format!(
            "{length} bytes at {address} do not lie within the memory"
        )),
    }
}
