//! A second reading of the gate's serial target: it plays scripts, makes
//! random ones, compares outputs and counts what they reached.

mod adler;
mod application;
mod areas;
mod commands;
mod compare;
mod cover;
mod host;
mod line;
mod make;
mod message;
mod modbus;
mod panel;
mod play;
mod reachable;
mod recorder;
mod refusals;
mod request;
mod rng;
mod script;
mod tables;
mod target;
mod trigger;
mod watch;
mod wrong;

#[cfg(test)]
mod application_test;
#[cfg(test)]
mod block_test;
#[cfg(test)]
mod modbus_test;
#[cfg(test)]
mod order_test;
#[cfg(test)]
mod panel_test;
#[cfg(test)]
mod play_test;
#[cfg(test)]
mod recorder_test;
#[cfg(test)]
mod script_test;
#[cfg(test)]
mod staples_test;
#[cfg(test)]
mod tables_test;

use std::fs::File;
use std::io::{self, BufRead, BufReader, BufWriter, Write};
use std::process::ExitCode;

const USAGE: &str = "\
second play [FILE]               plays a script (standard input without FILE)
second make SEED [OPERATIONS]    writes a random script (1,000 operations)
second compare A B               compares two outputs byte for byte
second cover FILE..              counts what scripts reach, of what they can
second wrong LIST SOURCES BUILT FILE..
                                 tries wrong variants of itself with scripts";

fn main() -> ExitCode {
    let arguments: Vec<String> = std::env::args().skip(1).collect();
    let words: Vec<&str> = arguments.iter().map(String::as_str).collect();
    let done = match words.as_slice() {
        ["play"] => play_from(io::stdin().lock()),
        ["play", file] => open(file).and_then(play_from),
        ["make", seed] => make_script(seed, "1000"),
        ["make", seed, operations] => make_script(seed, operations),
        ["compare", first, second] => compare_files(first, second),
        ["cover", files @ ..] if !files.is_empty() => cover_scripts(files),
        ["wrong", list, sources, built, scripts @ ..] => {
            wrong::run(list, sources, built, scripts).map(passed)
        }
        _ => Err(USAGE.to_string()),
    };
    match done {
        Ok(code) => code,
        Err(wrong) => {
            eprintln!("{wrong}");
            ExitCode::FAILURE
        }
    }
}

fn open(file: &str) -> Result<BufReader<File>, String> {
    let opened = File::open(file).map_err(|e| format!("{file}: {e}"))?;
    Ok(BufReader::new(opened))
}

fn play_from(mut script: impl BufRead) -> Result<ExitCode, String> {
    let mut out = BufWriter::new(io::stdout().lock());
    play::play(&mut script, &mut out)?;
    Ok(ExitCode::SUCCESS)
}

fn make_script(seed: &str, operations: &str) -> Result<ExitCode, String> {
    let seed = seed.parse().map_err(|_| format!("`{seed}` is no seed"))?;
    let operations = operations
        .parse()
        .map_err(|_| format!("`{operations}` is no number of operations"))?;
    let script = make::script(seed, operations);
    let written = io::stdout().lock().write_all(script.as_bytes());
    written.map_err(|e| e.to_string())?;
    Ok(ExitCode::SUCCESS)
}

fn compare_files(first: &str, second: &str) -> Result<ExitCode, String> {
    let found = compare::compare(&mut open(first)?, &mut open(second)?);
    match found.map_err(|e| e.to_string())? {
        compare::Found::Same { lines } => {
            println!("same: {lines} lines");
            Ok(ExitCode::SUCCESS)
        }
        compare::Found::Different(difference) => {
            println!("{}", difference.tell([first, second]));
            Ok(ExitCode::FAILURE)
        }
    }
}

fn cover_scripts(files: &[&str]) -> Result<ExitCode, String> {
    let mut counts = cover::Counts::none();
    for file in files {
        let played = play::play_watched(&mut open(file)?, &mut io::sink(), &mut counts);
        played.map_err(|wrong| format!("{file}: {wrong}"))?;
    }
    let [commands, calls, blocks, panel, functions, silences] = counts.reachable();
    print!("{}", counts.tell());
    println!(
        "reachable: {commands} pairs of command and status, {calls} of call and refusal, \
         {blocks} of a block's end and answers, {panel} of the panel's finding and status, \
         {functions} of function and exception; {silences} silences"
    );
    let faults = counts.faults();
    print!("{faults}");
    Ok(passed(faults.is_empty()))
}

fn passed(passed: bool) -> ExitCode {
    match passed {
        true => ExitCode::SUCCESS,
        false => ExitCode::FAILURE,
    }
}
