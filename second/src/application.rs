//! Commands for the gate's own program (request 2026-01), as lists of what was
//! sent, collected and reported since reset.
//!
//! Nothing here keeps a phase: how far the last command has come is found by
//! comparing how long the lists are.

use crate::host::Refusal;

/// "into 64 lent bytes (3 when fewer)"
const COLLECT_ROOM: usize = 64;

/// "a result from 0 to 0xFD"
const MOST_RESULT: u8 = 0xFD;

#[derive(Clone, Default)]
pub struct Application {
    /// Every command accepted: "one code byte and up to 63 argument bytes".
    sent: Vec<Vec<u8>>,
    /// How many of them were collected.
    collected: usize,
    /// Their results, in the same order.
    results: Vec<u8>,
}

impl Application {
    /// From its acceptance until its result is reported, collected or not.
    pub fn is_pending(&self) -> bool {
        self.sent.len() > self.results.len()
    }

    pub fn send(&mut self, command: Vec<u8>) {
        self.sent.push(command);
    }

    /// "0xFF before any command, 0xFE until the result is in, then the result"
    pub fn result_byte(&self) -> u8 {
        match self.sent.len().checked_sub(1) {
            None => 0xFF,
            Some(last) => self.results.get(last).copied().unwrap_or(0xFE),
        }
    }

    /// "the gate's own program collects it once": the bytes of a new command,
    /// 0 when nothing is new.
    pub fn collect(&mut self, lent: &mut [u8]) -> Result<usize, Refusal> {
        // Measured at every call, whether something is new or not.
        if lent.len() < COLLECT_ROOM {
            return Err(3);
        }
        let Some(command) = self.sent.get(self.collected) else {
            return Ok(0);
        };
        // "Bytes behind the command, or all when nothing is new, keep their
        // values."
        lent[..command.len()].copy_from_slice(command);
        self.collected += 1;
        Ok(command.len())
    }

    /// "call number 7 for a result above 0xFD or with no collected command
    /// pending"
    pub fn report(&mut self, result: u8) -> Result<(), Refusal> {
        let collected_and_pending = self.collected > self.results.len();
        if result > MOST_RESULT || !collected_and_pending {
            return Err(7);
        }
        self.results.push(result);
        Ok(())
    }
}
