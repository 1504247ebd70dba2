//! Plays a script and prints what comes of it.

use std::io::{BufRead, Write};

use crate::adler::adler32;
use crate::host::{write_answer, write_command, Reader, Refusal};
use crate::modbus;
use crate::script::{parse, Call, Operation};
use crate::tables::Table;
use crate::target::{Block, Target};
use crate::watch::{End, Panel, Standing, Watch};

/// What every lent buffer is filled with before each call.
const FILL: u8 = 0xEE;

/// A line that cannot be read, or a failure of the files themselves.
pub type Failure = String;

/// A writer of the other end of the cable.
type Writer = fn(u8, &[u8], &mut [u8]) -> Result<usize, Refusal>;

struct Player<'a, O: Write, W: Watch> {
    target: Target,
    reader: Reader,
    /// Wire bytes given so far, on B and K lines and on R lines.
    given: u64,
    read: u64,
    /// A line came that counts for the D line.
    memory_used: bool,
    watch: &'a mut W,
    out: &'a mut O,
}

/// Plays the script in one pass, "from reset with memory all zero".
pub fn play(script: &mut impl BufRead, out: &mut impl Write) -> Result<(), Failure> {
    play_watched(script, out, &mut ())
}

/// The same, and somebody watches.
pub fn play_watched(
    script: &mut impl BufRead,
    out: &mut impl Write,
    watch: &mut impl Watch,
) -> Result<(), Failure> {
    let mut player = Player {
        target: Target::reset(),
        reader: Reader::begin(0).expect("0 is not above 64"),
        given: 0,
        read: 0,
        memory_used: false,
        watch,
        out,
    };
    let played = player.lines(script);
    // What came before a line that cannot be read is printed all the same.
    player.out.flush().map_err(|e| e.to_string())?;
    played
}

impl<O: Write, W: Watch> Player<'_, O, W> {
    fn lines(&mut self, script: &mut impl BufRead) -> Result<(), Failure> {
        let mut line = Vec::new();
        for number in 1.. {
            line.clear();
            let length = script.read_until(b'\n', &mut line);
            if length.map_err(|e| e.to_string())? == 0 {
                break;
            }
            let text = String::from_utf8_lossy(&line);
            let operation = parse(&text).map_err(|wrong| format!("line {number}: {wrong}"))?;
            if let Some(operation) = operation {
                self.operation(operation)?;
            }
        }
        if !self.memory_used {
            return Ok(());
        }
        let sum = adler32(&self.target.memory);
        self.print(&format!("D adler32 {sum:08X}"), &[])
    }

    fn operation(&mut self, operation: Operation) -> Result<(), Failure> {
        self.memory_used |= operation.is_of_gate();
        match operation {
            Operation::Bytes(bytes) => bytes.iter().try_for_each(|byte| self.wire_byte(*byte)),
            Operation::Ticks(count) => {
                self.target.ticks(count);
                Ok(())
            }
            Operation::Poke(address, bytes) => {
                self.target.memory[address..address + bytes.len()].copy_from_slice(&bytes);
                Ok(())
            }
            Operation::Show(address, length) => {
                let bytes = self.target.memory[address..address + length].to_vec();
                self.print(&format!("M {address}"), &bytes)
            }
            Operation::WriteCommand(call) => self.write('W', write_command, call),
            Operation::WriteAnswer(call) => self.write('V', write_answer, call),
            Operation::BeginReader(expected) => self.begin(expected),
            Operation::Read { room, bytes } => bytes
                .iter()
                .try_for_each(|byte| self.read_byte(*byte, room)),
            Operation::Collect(room) => self.collect(room),
            Operation::Report(result) => self.report(result),
            Operation::Register(list) => self.register(list),
            Operation::Block { room, bytes } => self.block(room, &bytes),
            Operation::Prepare(data) => self.panel(Panel::Prepares, |gate| gate.prepare(&data)),
            Operation::Start => self.panel(Panel::Starts, Target::start),
            Operation::Frame {
                station,
                room,
                bytes,
            } => self.frame(station, room, &bytes),
        }
    }

    fn wire_byte(&mut self, byte: u8) -> Result<(), Failure> {
        let index = self.given;
        self.given += 1;
        match self.target.byte(byte) {
            Some(answer) => {
                self.watch.answered(answer.command, answer.status);
                self.print(&format!("A {index}"), &answer.wire)
            }
            None => Ok(()),
        }
    }

    fn block(&mut self, room: usize, bytes: &[u8]) -> Result<(), Failure> {
        // Taken or not, they were given.
        self.given += bytes.len() as u64;
        let mut lent = vec![FILL; room];
        let (refusal, taken, written) = match self.target.block(bytes, &mut lent) {
            Ok(block) => {
                self.tell_block(&block, End::of(&block, bytes.len(), room));
                (0, block.taken, block.wire().len())
            }
            Err(refusal) => (refusal, 0, 0),
        };
        self.watch.called('K', refusal);
        self.print(&format!("K {refusal} {taken} {written}"), &lent)
    }

    fn tell_block(&mut self, block: &Block, end: End) {
        for answer in &block.answers {
            self.watch.answered(answer.command, answer.status);
        }
        self.watch.ended(end, block.answers.len());
    }

    fn panel(&mut self, panel: Panel, does: impl FnOnce(&mut Target) -> u8) -> Result<(), Failure> {
        let (standing, in_message) = (Standing::at(&self.target), self.target.is_in_message());
        let status = does(&mut self.target);
        self.watch.at_panel(panel, standing, in_message, status);
        self.print(&format!("{} {status:02X}", panel.letter()), &[])
    }

    fn frame(&mut self, station: u16, room: usize, frame: &[u8]) -> Result<(), Failure> {
        let mut lent = vec![FILL; room];
        let called = modbus::call(station, frame, &mut self.target.memory, &mut lent);
        match &called {
            Ok(Ok(answer)) => self.watch.frame_answered(answer.function, answer.exception),
            Ok(Err(silence)) => self.watch.frame_silent(*silence),
            Err(_) => {}
        }
        let length = called.map(|answer| answer.map_or(0, |answer| answer.frame.len()));
        self.print_lent('U', length, &lent)
    }

    fn write(&mut self, letter: char, writer: Writer, call: Call) -> Result<(), Failure> {
        let mut lent = vec![FILL; call.room];
        let written = writer(call.first, &call.data, &mut lent);
        self.print_lent(letter, written, &lent)
    }

    fn collect(&mut self, room: usize) -> Result<(), Failure> {
        let mut lent = vec![FILL; room];
        let collected = self.target.application.collect(&mut lent);
        self.print_lent('C', collected, &lent)
    }

    fn report(&mut self, result: u8) -> Result<(), Failure> {
        let reported = self.target.application.report(result);
        self.print_refusal('Y', reported)
    }

    fn register(&mut self, list: Vec<Table>) -> Result<(), Failure> {
        let registered = self.target.register(list);
        self.print_refusal('G', registered)
    }

    /// The refusal of a call that hands nothing out.
    fn print_refusal(&mut self, letter: char, done: Result<(), Refusal>) -> Result<(), Failure> {
        let refusal = done.err().unwrap_or(0);
        self.watch.called(letter, refusal);
        self.print(&format!("{letter} {refusal}"), &[])
    }

    /// Refusal, count and the whole lent buffer of a call.
    fn print_lent(
        &mut self,
        letter: char,
        counted: Result<usize, Refusal>,
        lent: &[u8],
    ) -> Result<(), Failure> {
        let (refusal, count) = match counted {
            Ok(count) => (0, count),
            Err(refusal) => (refusal, 0),
        };
        self.watch.called(letter, refusal);
        self.print(&format!("{letter} {refusal} {count}"), lent)
    }

    /// "refused, the old reader stays"
    fn begin(&mut self, expected: u64) -> Result<(), Failure> {
        let begun = Reader::begin(expected).map(|reader| self.reader = reader);
        self.print_refusal('E', begun)
    }

    fn read_byte(&mut self, byte: u8, room: usize) -> Result<(), Failure> {
        let index = self.read;
        self.read += 1;
        let mut lent = vec![FILL; room];
        match self.reader.byte(byte, &mut lent) {
            Ok(None) => Ok(()),
            Ok(Some(answer)) => {
                self.watch.called('R', 0);
                let (status, count) = (answer.status, answer.count);
                self.print(&format!("R {index} 0 {status:02X} {count}"), &lent)
            }
            Err(refusal) => {
                self.watch.called('R', refusal);
                self.print(&format!("R {index} {refusal}"), &[])
            }
        }
    }

    /// A line: its words, then bytes in hex.
    fn print(&mut self, words: &str, bytes: &[u8]) -> Result<(), Failure> {
        let mut line = String::with_capacity(words.len() + 3 * bytes.len() + 1);
        line.push_str(words);
        for byte in bytes {
            line.push_str(&format!(" {byte:02X}"));
        }
        line.push('\n');
        self.out
            .write_all(line.as_bytes())
            .map_err(|e| e.to_string())
    }
}
