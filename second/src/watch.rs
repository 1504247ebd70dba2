//! What a player tells whoever counts what scripts reach.

use crate::host::ANSWER_ROOM;
use crate::modbus::Silence;
use crate::target::{Block, Target};

/// How a block ended that was not refused.
#[derive(Clone, Copy, Debug, PartialEq, Eq)]
pub enum End {
    /// It had no bytes.
    Empty,
    /// All were taken, and there was room for more.
    Whole,
    /// All were taken, and no further one would have been.
    WholeAndFull,
    /// Bytes were left.
    Stopped,
}

impl End {
    /// Of a block of so many bytes, with so much room lent.
    pub fn of(block: &Block, length: usize, room: usize) -> End {
        let full = room - block.wire().len() < ANSWER_ROOM;
        match (length, length - block.taken) {
            (0, _) => End::Empty,
            (_, 1..) => End::Stopped,
            _ if full => End::WholeAndFull,
            _ => End::Whole,
        }
    }
}

/// What the panel can do.
#[derive(Clone, Copy, Debug, PartialEq, Eq)]
pub enum Panel {
    Prepares,
    Starts,
}

impl Panel {
    /// Of the line that does it.
    pub fn letter(self) -> char {
        match self {
            Panel::Prepares => 'F',
            Panel::Starts => 'S',
        }
    }
}

/// How the recorder stands when the panel does something.
#[derive(Clone, Copy, Debug, PartialEq, Eq)]
pub enum Standing {
    NotSetUp,
    /// It stands and has taken no set since it was prepared or started.
    Fresh,
    Runs,
    /// It stopped before 'samples' sets were taken.
    Stopped,
    /// The buffer is full.
    Full,
}

impl Standing {
    pub fn at(target: &Target) -> Standing {
        match &target.recorder {
            None => Standing::NotSetUp,
            Some(recorder) if recorder.runs() => Standing::Runs,
            Some(recorder) if recorder.has_no_set() => Standing::Fresh,
            Some(recorder) if recorder.is_full() => Standing::Full,
            Some(_) => Standing::Stopped,
        }
    }
}

/// Whoever is told of every answer, of every call at the other end, of how
/// blocks end, of what the panel does and of every frame at the second port.
pub trait Watch {
    /// A message of a command was answered with a status.
    fn answered(&mut self, command: u8, status: u8);
    /// A call of a line with this letter gave a refusal, or 0.
    fn called(&mut self, letter: char, refusal: u8);
    /// A block ended so, with so many answers.
    fn ended(&mut self, end: End, answers: usize);
    /// The panel got a status, in the midst of a message or not.
    fn at_panel(&mut self, panel: Panel, standing: Standing, in_message: bool, status: u8);
    /// A frame with this function was answered with an exception, or 0.
    fn frame_answered(&mut self, function: u8, exception: u8);
    /// A frame got silence.
    fn frame_silent(&mut self, silence: Silence);
}

/// Nobody.
impl Watch for () {
    fn answered(&mut self, _command: u8, _status: u8) {}
    fn called(&mut self, _letter: char, _refusal: u8) {}
    fn ended(&mut self, _end: End, _answers: usize) {}
    fn at_panel(&mut self, _panel: Panel, _standing: Standing, _in_message: bool, _status: u8) {}
    fn frame_answered(&mut self, _function: u8, _exception: u8) {}
    fn frame_silent(&mut self, _silence: Silence) {}
}
