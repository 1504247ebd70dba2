//! The second port (request 2026-07): a Modbus station on a serial line, which
//! shares the memory with the service port and nothing else.
//!
//! A frame is taken apart from the outside in: who it is for, what it asks, and
//! only then whether the memory has it. Each step has its own way to end.

use std::ops::RangeInclusive;

use crate::areas::{READ_END, WRITE_END};
use crate::host::Refusal;

/// "call number 3 for an output below 256 bytes"
const ROOM: usize = 256;

/// "9 for an own station outside 1 to 247"
const STATIONS: RangeInclusive<u16> = 1..=247;

/// "A frame below 4 or above 256 bytes ... gets silence"
const FRAMES: RangeInclusive<usize> = 4..=256;

/// "a quantity outside 1 to 125 (read) or 1 to 123 (write)"
const MOST_READ: u16 = 125;
const MOST_WRITTEN: u16 = 123;

const READ: u8 = 3;
const WRITE_ONE: u8 = 6;
const WRITE: u8 = 16;
const MASK: u8 = 22;

/// Why a frame "gets silence and no change".
#[derive(Clone, Copy, Debug, PartialEq, Eq)]
pub enum Silence {
    Short,
    Long,
    WrongSum,
    OtherStation,
    Broadcast,
    FunctionAbove127,
}

/// The code of an exception answer.
type Exception = u8;
const NOT_SERVED: Exception = 1;
const ADDRESS: Exception = 2;
const VALUE: Exception = 3;

/// An answer's bytes, what function they answer, and its exception or 0.
#[derive(Debug, PartialEq, Eq)]
pub struct Answer {
    pub function: u8,
    pub exception: Exception,
    pub frame: Vec<u8>,
}

/// What a request asks for, numbers as they stand in it. A register is named
/// by its number.
enum Asked {
    Read { from: u16, quantity: u16 },
    Write { from: u16, values: Vec<u16> },
    Mask { at: u16, and: u16, or: u16 },
}

/// CRC-16, a bit at a time as the line carries them, the lowest of each byte
/// first.
pub fn check_sum(bytes: &[u8]) -> u16 {
    let bits = bytes
        .iter()
        .flat_map(|byte| (0..8).map(move |n| byte >> n & 1));
    bits.fold(0xFFFF, |register, bit| {
        let fell_out = register & 1 ^ u16::from(bit);
        register >> 1 ^ 0xA001 * fell_out
    })
}

/// Bytes with their check sum behind them, "low byte first".
pub fn summed(mut bytes: Vec<u8>) -> Vec<u8> {
    let sum = check_sum(&bytes);
    bytes.extend(sum.to_le_bytes());
    bytes
}

/// What the call gives: its answer, which stands in the lent buffer too, or
/// silence; or it refuses, "lowest first".
pub fn call(
    station: u16,
    frame: &[u8],
    memory: &mut [u8],
    lent: &mut [u8],
) -> Result<Result<Answer, Silence>, Refusal> {
    if lent.len() < ROOM {
        return Err(3);
    }
    if !STATIONS.contains(&station) {
        return Err(9);
    }
    let answer = addressed(station as u8, frame).map(|request| answer(frame[0], request, memory));
    if let Ok(answer) = &answer {
        lent[..answer.frame.len()].copy_from_slice(&answer.frame);
    }
    Ok(answer)
}

/// Function and data of a frame that is for this station.
fn addressed(station: u8, frame: &[u8]) -> Result<&[u8], Silence> {
    if frame.len() < *FRAMES.start() {
        return Err(Silence::Short);
    }
    if frame.len() > *FRAMES.end() {
        return Err(Silence::Long);
    }
    let (body, sum) = frame.split_at(frame.len() - 2);
    if sum != check_sum(body).to_le_bytes() {
        return Err(Silence::WrongSum);
    }
    match (body[0], body[1]) {
        (0, _) => Err(Silence::Broadcast),
        (other, _) if other != station => Err(Silence::OtherStation),
        (_, 128..) => Err(Silence::FunctionAbove127),
        _ => Ok(&body[1..]),
    }
}

fn answer(station: u8, request: &[u8], memory: &mut [u8]) -> Answer {
    let function = request[0];
    let done = asked(request).and_then(|asked| carry_out(asked, request, memory));
    let (exception, told) = match done {
        Ok(data) => (0, [vec![station, function], data]),
        Err(code) => (code, [vec![station, function | 0x80], vec![code]]),
    };
    Answer {
        function,
        exception,
        frame: summed(told.concat()),
    }
}

/// "exception 1 for another function, then 3 for a quantity outside ... or a byte
/// count or frame length that doesn't fit"
fn asked(request: &[u8]) -> Result<Asked, Exception> {
    let fits = |holds: bool| holds.then_some(()).ok_or(VALUE);
    match request[0] {
        READ => {
            let [from, quantity] = words(&request[1..])?;
            fits((1..=MOST_READ).contains(&quantity))?;
            Ok(Asked::Read { from, quantity })
        }
        WRITE_ONE => {
            let [from, value] = words(&request[1..])?;
            let values = vec![value];
            Ok(Asked::Write { from, values })
        }
        WRITE => {
            fits(request.len() > 5)?;
            let [from, quantity] = words(&request[1..5])?;
            let (count, values) = (usize::from(request[5]), &request[6..]);
            fits((1..=MOST_WRITTEN).contains(&quantity))?;
            fits(count == 2 * usize::from(quantity))?;
            fits(values.len() == count)?;
            let values = values.chunks(2).map(word).collect();
            Ok(Asked::Write { from, values })
        }
        MASK => {
            let [at, and, or] = words(&request[1..])?;
            Ok(Asked::Mask { at, and, or })
        }
        _ => Err(NOT_SERVED),
    }
}

/// So many numbers and no more.
fn words<const N: usize>(bytes: &[u8]) -> Result<[u16; N], Exception> {
    let words: Vec<u16> = bytes.chunks(2).map(word).collect();
    match bytes.len() == 2 * N {
        true => Ok(words.try_into().expect("two bytes for each")),
        false => Err(VALUE),
    }
}

/// "Numbers in frames are 2 bytes, high byte first."
fn word(bytes: &[u8]) -> u16 {
    bytes
        .iter()
        .fold(0, |number, byte| number << 8 | u16::from(*byte))
}

/// The data behind the function: what was read, or how the request began.
fn carry_out(asked: Asked, request: &[u8], memory: &mut [u8]) -> Result<Vec<u8>, Exception> {
    match asked {
        Asked::Read { from, quantity } => {
            within(from, quantity, READ_END)?;
            let read = (from..from + quantity).map(|r| register(memory, r));
            let data = read.flat_map(u16::to_be_bytes);
            Ok([2 * quantity as u8].into_iter().chain(data).collect())
        }
        Asked::Write { from, values } => {
            within(from, values.len() as u16, WRITE_END)?;
            for (r, value) in (from..).zip(values) {
                set_register(memory, r, value);
            }
            Ok(request[1..5].to_vec())
        }
        Asked::Mask { at, and, or } => {
            within(at, 1, WRITE_END)?;
            let old = register(memory, at);
            set_register(memory, at, old & and | or & !and);
            Ok(request[1..].to_vec())
        }
    }
}

/// "then 2 for an address", wide enough that none can wrap.
fn within(from: u16, quantity: u16, end: u64) -> Result<(), Exception> {
    let behind = u64::from(from) + u64::from(quantity);
    (2 * behind <= end).then_some(()).ok_or(ADDRESS)
}

/// "Register r is bytes 2r and 2r+1, low byte first in memory".
fn register(memory: &[u8], r: u16) -> u16 {
    let at = 2 * usize::from(r);
    u16::from_le_bytes([memory[at], memory[at + 1]])
}

fn set_register(memory: &mut [u8], r: u16, value: u16) {
    let at = 2 * usize::from(r);
    memory[at..at + 2].copy_from_slice(&value.to_le_bytes());
}
