//! The target: the bytes it heard, its memory, scope, recorder, the commands
//! for the gate's own program and its tables of names.

use crate::application::Application;
use crate::areas::{Range, MEMORY};
use crate::commands::carry_out;
use crate::host::{Refusal, ANSWER_ROOM};
use crate::line::{wire, Heard};
use crate::message::{CommandLength, Message};
use crate::recorder::Recorder;
use crate::refusals::judge;
use crate::tables::{is_bad, Table};

#[derive(Clone)]
pub struct Target {
    pub memory: Vec<u8>,
    pub scope: Option<Vec<Range>>,
    pub recorder: Option<Recorder>,
    pub application: Application,
    /// As registered: nothing of them is checked again.
    pub tables: Vec<Table>,
    heard: Heard,
}

/// An answer, and the command of the message that it answers.
pub struct Answer {
    pub command: u8,
    pub status: u8,
    pub wire: Vec<u8>,
}

/// What came of a block: "reports bytes taken and bytes written".
#[derive(Default)]
pub struct Block {
    pub taken: usize,
    pub answers: Vec<Answer>,
}

impl Block {
    /// The answers "one behind another".
    pub fn wire(&self) -> Vec<u8> {
        let wires = self.answers.iter().flat_map(|answer| &answer.wire);
        wires.copied().collect()
    }
}

impl Target {
    /// The target after reset: an idle link, nothing set up, no command and no
    /// tables.
    pub fn reset() -> Target {
        Target {
            memory: vec![0; MEMORY],
            scope: None,
            recorder: None,
            application: Application::default(),
            tables: Vec::new(),
            heard: Heard::default(),
        }
    }

    /// "The gate registers up to 16 tables at reset": a reset with tables, over
    /// the memory as it stands. "call number 8 for a bad list, nothing
    /// registered": then everything stays.
    pub fn register(&mut self, list: Vec<Table>) -> Result<(), Refusal> {
        if is_bad(&list, &self.memory) {
            return Err(8);
        }
        *self = Target {
            memory: std::mem::take(&mut self.memory),
            tables: list,
            ..Target::reset()
        };
        Ok(())
    }

    /// One wire byte; the answer that comes with it.
    pub fn byte(&mut self, byte: u8) -> Option<Answer> {
        let literals = self.heard.hear(byte, &CommandLength)?;
        let message = Message::of(&literals);
        let (status, data) = self.answer(&message);
        Some(Answer {
            command: message.command,
            status,
            wire: wire(status, &data),
        })
    }

    pub fn is_in_message(&self) -> bool {
        !self.heard.is_settled()
    }

    /// A message, refused or carried out: a status and the data beside it.
    pub fn answer(&mut self, message: &Message) -> (u8, Vec<u8>) {
        match judge(message, self) {
            Ok(request) => carry_out(request, self),
            // "A status with its top bit set carries no data."
            Err(status) => (status, Vec::new()),
        }
    }

    /// "One call takes a block and writes the answers one behind another."
    pub fn block(&mut self, bytes: &[u8], lent: &mut [u8]) -> Result<Block, Refusal> {
        // "3 when the room is below 132 at the start", whatever the block is.
        if lent.len() < ANSWER_ROOM {
            return Err(3);
        }
        let mut block = Block::default();
        for byte in bytes {
            let left = lent.len() - block.wire().len();
            // "It takes bytes while 132 bytes of room are left, and no longer":
            // whether this one would be answered is not asked.
            if left < ANSWER_ROOM {
                break;
            }
            block.taken += 1;
            block.answers.extend(self.byte(*byte));
        }
        let wire = block.wire();
        lent[..wire.len()].copy_from_slice(&wire);
        Ok(block)
    }

    /// "The gate calls a tick", so many times in a row.
    pub fn ticks(&mut self, count: u64) {
        if let Some(recorder) = &mut self.recorder {
            recorder.ticks(count, &mut self.memory);
        }
    }

    /// "the variables' bytes in that order"
    pub fn scope_bytes(&self) -> Vec<u8> {
        let variables = self.scope.iter().flatten();
        variables
            .flat_map(|v| v.of(&self.memory))
            .copied()
            .collect()
    }

    pub fn scope_size(&self) -> usize {
        let variables = self.scope.iter().flatten();
        variables.map(|v| usize::from(v.size)).sum()
    }
}
