//! A test of the tests: wrong variants of this implementation, of one changed
//! line each, that the scripts have to tell apart from the right one.

mod edits;
mod variant;

use std::collections::BTreeMap;
use std::fs;
use std::path::PathBuf;
use std::sync::atomic::{AtomicUsize, Ordering};
use std::sync::Mutex;
use std::thread;

use edits::Edit;
use variant::{Bench, Script, ToldBy};

/// Builds and plays the variants of a list, and prints what came of each;
/// whether all were told apart.
pub fn run(list: &str, sources: &str, built: &str, scripts: &[&str]) -> Result<bool, String> {
    let text = fs::read_to_string(list).map_err(|e| format!("{list}: {e}"))?;
    let edits = edits::read(&text).map_err(|wrong| format!("{list}: {wrong}"))?;
    let bench = Bench {
        sources: PathBuf::from(sources),
        built: PathBuf::from(built),
        scripts: Script::all(scripts)?,
    };
    let told = in_threads(&bench, &edits)?;
    print!("{}", tell(&edits, &told));
    Ok(told.iter().all(Option::is_some))
}

/// The variants are independent of each other: one thread for each core.
fn in_threads(bench: &Bench, edits: &[Edit]) -> Result<Vec<ToldBy>, String> {
    let next = AtomicUsize::new(0);
    let told = Mutex::new(BTreeMap::new());
    let work = || loop {
        let at = next.fetch_add(1, Ordering::Relaxed);
        let Some(edit) = edits.get(at) else { break };
        let told_by = bench.try_out(at + 1, edit);
        told.lock().expect("no thread panics").insert(at, told_by);
    };
    let cores = thread::available_parallelism().map_or(1, |n| n.get());
    thread::scope(|scope| {
        (1..cores).for_each(|_| drop(scope.spawn(work)));
        let unchanged = bench.unchanged_is_right();
        work();
        unchanged
    })?;
    let told = told.into_inner().expect("no thread panics");
    told.into_values().collect()
}

/// The variants by the script that told them, those that none did last.
fn tell(edits: &[Edit], told: &[ToldBy]) -> String {
    let mut text = String::new();
    for (edit, told_by) in edits.iter().zip(told) {
        let told_by = match told_by {
            Some(script) => format!("told by {script}"),
            None => "NOT TOLD by any script".to_string(),
        };
        text += &format!("wrong: {}: {told_by}\n", edit.name);
    }
    let apart = told.iter().flatten().count();
    text + &format!("wrong: {apart} of {} variants are told apart\n", told.len())
}
