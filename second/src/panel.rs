//! The gate's front panel (request 2026-06): it prepares and starts the recorder
//! as commands would, but not over the line.

use crate::commands::OK;
use crate::message::Message;
use crate::recorder::Recorder;
use crate::refusals::judge;
use crate::request::Request;
use crate::target::Target;

const RECORDER_SETUP: u8 = 0x09;
const START: u8 = 0xC1;

impl Target {
    /// "The panel gives 0x09's data part (above 64 bytes 0x83) and gets the same
    /// statuses, in 01's order."
    pub fn prepare(&mut self, data: &[u8]) -> u8 {
        match judge(&Message::right(RECORDER_SETUP, data), self) {
            Ok(Request::RecorderSetup(setup)) => {
                self.recorder = Some(Recorder::prepared(setup));
                OK
            }
            Ok(other) => unreachable!("{other:?} is no recorder setup"),
            Err(status) => status,
        }
    }

    /// What 0xC1 does and answers.
    pub fn start(&mut self) -> u8 {
        let (status, _) = self.answer(&Message::right(START, &[]));
        status
    }
}
