//! Requests that nothing refuses, carried out on the target.

use crate::areas::{Range, BUFFER};
use crate::recorder::Recorder;
use crate::request::Request;
use crate::tables::{string_length, Table};
use crate::target::Target;

pub const OK: u8 = 0x00;
const RUNS: u8 = 0x01;
const STOPPED: u8 = 0x02;

/// "03 00 01 01 00 40 00 10 01 40"
const INFORMATION: [u8; 10] = [0x03, 0x00, 0x01, 0x01, 0x00, 0x40, 0x00, 0x10, 0x01, 0x40];

/// A status and the data beside it.
type Answer = (u8, Vec<u8>);

pub fn carry_out(request: Request, target: &mut Target) -> Answer {
    match request {
        Request::Information => (OK, information()),
        Request::BriefInformation => (OK, INFORMATION[..6].to_vec()),
        Request::Read(range) => (OK, range.of(&target.memory).to_vec()),
        Request::Write { range, value, mask } => {
            write(&mut target.memory, range, &value, &mask);
            (OK, Vec::new())
        }
        Request::ScopeSetup(variables) => {
            target.scope = Some(variables);
            (OK, Vec::new())
        }
        Request::ScopeRead => (OK, target.scope_bytes()),
        Request::RecorderSetup(setup) => {
            // "Commands 0x09 and 0x0B become the two in a row"
            target.recorder = Some(Recorder::prepared(setup));
            carry_out(Request::Start, target)
        }
        Request::SendCommand(command) => {
            target.application.send(command);
            (OK, Vec::new())
        }
        Request::CommandResult => (OK, vec![target.application.result_byte()]),
        Request::TableQuery(index) => (OK, table_answer(&target.tables, index)),
        Request::StringLength(address) => {
            let length = string_length(&target.memory, address);
            let length = length.expect("0x86 and 0x89 refuse others");
            (OK, length.to_le_bytes().to_vec())
        }
        recorder_request => {
            let recorder = target.recorder.as_mut();
            on_recorder(recorder_request, recorder.expect("0x88 refuses others"))
        }
    }
}

fn on_recorder(request: Request, recorder: &mut Recorder) -> Answer {
    let status = match (request, recorder.runs()) {
        (Request::BufferQuery { address_bytes }, _) => {
            return (OK, buffer_answer(recorder, address_bytes))
        }
        (Request::Start, false) => {
            recorder.start();
            OK
        }
        (Request::Stop, true) => {
            recorder.stop();
            OK
        }
        // "running answers 0x01", "stopped answers 0x02", "0x01 or 0x02"
        (_, true) => RUNS,
        (_, false) => STOPPED,
    };
    (status, Vec::new())
}

/// The first ten bytes, "then "LOG GATE" and 17 zeros (35 bytes)".
fn information() -> Vec<u8> {
    let mut bytes = INFORMATION.to_vec();
    bytes.extend_from_slice(b"LOG GATE");
    bytes.extend_from_slice(&[0; 17]);
    bytes
}

/// "A bit set in the mask takes the value's bit; every other bit stays."
fn write(memory: &mut [u8], range: Range, value: &[u8], mask: &[u8]) {
    let from = range.address as usize;
    let bytes = &mut memory[from..from + usize::from(range.size)];
    for (byte, (value, mask)) in bytes.iter_mut().zip(value.iter().zip(mask)) {
        *byte = (*byte & !mask) | (value & mask);
    }
}

/// "buffer address 12,288 and start index (2 bytes)"
fn buffer_answer(recorder: &Recorder, address_bytes: usize) -> Vec<u8> {
    let mut data = BUFFER.to_le_bytes()[..address_bytes].to_vec();
    data.extend_from_slice(&recorder.start_index().to_le_bytes());
    data
}

/// "flags 2, size and address, 2 bytes each, or six zero bytes for an index
/// beyond the last"
fn table_answer(tables: &[Table], index: u16) -> Vec<u8> {
    let words = match tables.get(usize::from(index)) {
        Some(table) => [2, table.size, table.address],
        None => [0; 3],
    };
    words.iter().flat_map(|word| word.to_le_bytes()).collect()
}
