//! The player alone, from standard input: what a wrong variant is built of,
//! since the rest of the program would only make its building longer.

mod adler;
mod application;
mod areas;
mod commands;
mod host;
mod line;
mod message;
mod modbus;
mod panel;
mod play;
mod recorder;
mod refusals;
mod request;
mod script;
mod tables;
mod target;
mod trigger;
mod watch;

use std::io::{self, BufWriter};
use std::process::ExitCode;

fn main() -> ExitCode {
    let mut out = BufWriter::new(io::stdout().lock());
    match play::play(&mut io::stdin().lock(), &mut out) {
        Ok(()) => ExitCode::SUCCESS,
        Err(wrong) => {
            eprintln!("{wrong}");
            ExitCode::FAILURE
        }
    }
}
