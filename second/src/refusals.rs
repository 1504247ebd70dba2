//! The numbers that refuse on the wire: the paper's table as a table.

use crate::areas::{Range, BUFFER_LENGTH, READ_END, RECORD_END, WRITE_END};
use crate::message::Message;
use crate::request::{order, request, Order, Request, Setup};
use crate::tables::string_length;
use crate::target::Target;

/// "A data part holds at most 64 bytes, either way."
pub const MOST_DATA: usize = 64;

/// A message beside the target it came to, with what could be read of it.
struct Case<'a> {
    message: &'a Message,
    order: Option<Order>,
    request: Option<Request>,
    target: &'a Target,
}

/// A status, and when it is given. A row is only looked at where those above
/// it do not apply, so from 0x86 on the fields fill the data part.
type Row = (u8, fn(&Case) -> bool);

/// "the first that applies in this order"
const TABLE: &[Row] = &[
    (0x82, wrong_sum),
    (0x83, too_long),
    (0x81, not_served),
    (0x88, not_set_up),
    (0x87, busy),
    (0x85, misfit),
    (0x86, wrong_size),
    (0x84, answer_too_long),
    (0x89, out_of_place),
];

/// The status that refuses the message, or the request to carry out.
pub fn judge(message: &Message, target: &Target) -> Result<Request, u8> {
    let case = Case {
        message,
        order: order(message.command).map(|(order, _)| order),
        request: request(message),
        target,
    };
    match TABLE.iter().find(|(_, applies)| applies(&case)) {
        Some((status, _)) => Err(*status),
        None => Ok(case.request.expect("0x85 refuses all others")),
    }
}

fn wrong_sum(case: &Case) -> bool {
    !case.message.right_sum
}

/// "the length byte is above 64"; fast data never are.
fn too_long(case: &Case) -> bool {
    case.message.data.len() > MOST_DATA
}

fn not_served(case: &Case) -> bool {
    case.order.is_none()
}

/// "start, stop, status or buffer query with no accepted recorder setup since
/// reset; scope read with no accepted scope setup"
fn not_set_up(case: &Case) -> bool {
    match case.order {
        Some(Order::Start | Order::Stop | Order::Status | Order::BufferQuery) => {
            case.target.recorder.is_none()
        }
        Some(Order::ScopeRead) => case.target.scope.is_none(),
        _ => false,
    }
}

/// "recorder setup or buffer query while the recorder runs"; "0x10 while one is
/// pending"
fn busy(case: &Case) -> bool {
    match case.order {
        Some(Order::RecorderSetup | Order::BufferQuery) => {
            case.target.recorder.as_ref().is_some_and(|r| r.runs())
        }
        Some(Order::SendCommand) => case.target.application.is_pending(),
        _ => false,
    }
}

/// "a data length that is not the one its fields give (or too short to hold
/// them), a trigger mode above 2, or, with mode 1 or 2, a sign field above 1";
/// of 0x10 "an empty data part"
fn misfit(case: &Case) -> bool {
    match &case.request {
        None => true,
        Some(Request::RecorderSetup(setup)) => {
            setup.mode > 2 || setup.has_trigger() && setup.sign > 1
        }
        Some(_) => false,
    }
}

/// "a size of 0; a variable count of 0 or above 8; 0 samples; samples times set
/// size above 4,096; with mode 1 or 2, a trigger size other than 1, 2, 4"; "a
/// string that begins in memory and has no zero before memory's end"
fn wrong_size(case: &Case) -> bool {
    match &case.request {
        Some(Request::Read(range) | Request::Write { range, .. }) => range.size == 0,
        Some(Request::ScopeSetup(variables)) => wrong_definitions(variables),
        Some(Request::RecorderSetup(setup)) => {
            wrong_definitions(&setup.variables) || wrong_recording(setup)
        }
        Some(Request::StringLength(address)) => {
            is_inside(*address) && string_length(&case.target.memory, *address).is_none()
        }
        _ => false,
    }
}

fn wrong_definitions(variables: &[Range]) -> bool {
    variables.is_empty() || variables.len() > 8 || variables.iter().any(|v| v.size == 0)
}

fn wrong_recording(setup: &Setup) -> bool {
    setup.samples == 0
        || usize::from(setup.samples) * setup.set_size() > BUFFER_LENGTH
        || setup.has_trigger() && ![1, 2, 4].contains(&setup.trigger.size)
}

/// "the answer's data would exceed 64 bytes"
fn answer_too_long(case: &Case) -> bool {
    match &case.request {
        Some(Request::Read(range)) => usize::from(range.size) > MOST_DATA,
        Some(Request::ScopeRead) => case.target.scope_size() > MOST_DATA,
        _ => false,
    }
}

/// "an address range not wholly where that command may go"; a string's "address
/// outside"
fn out_of_place(case: &Case) -> bool {
    match &case.request {
        Some(Request::Read(range)) => !range.ends_by(READ_END),
        Some(Request::Write { range, .. }) => !range.ends_by(WRITE_END),
        Some(Request::ScopeSetup(variables)) => !all_end_by(variables, READ_END),
        Some(Request::RecorderSetup(setup)) => {
            !all_end_by(&setup.variables, RECORD_END)
                || setup.has_trigger() && !setup.trigger.ends_by(RECORD_END)
        }
        Some(Request::StringLength(address)) => !is_inside(*address),
        _ => false,
    }
}

fn all_end_by(variables: &[Range], end: u64) -> bool {
    variables.iter().all(|variable| variable.ends_by(end))
}

/// A string may begin at every byte that can be read.
fn is_inside(address: u32) -> bool {
    u64::from(address) < READ_END
}
