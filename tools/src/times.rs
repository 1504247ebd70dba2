//! times FILE COMMAND WORDS..: runs the command (`rt ci`), and at its end prints the CPU seconds that the prover spent on each crate,
//! its proofs and its must-fail edits apart. What the command prints goes on to standard output, its last line to FILE too, and its
//! status is this one's. It is 1 too where the command's line `rt: ok` tells of a must-fail edit that could not be tried.
//!
//! The prover's processes are watched in /proc, those that the command started: each names in its words its crate. An edit is tried in a
//! copy of the crate, whose folder's name begins with `rt-edit-`, and so is the check of the crate as it stands with which its edits begin,
//! which keeps its work in a folder `seed`: that one is a proof. What was kept of an earlier run is not done again, and takes no time. CPU
//! seconds are the same on a busy machine and on an idle one, seconds on a clock are not.

use std::collections::BTreeMap;
use std::fs;
use std::io::{BufRead, BufReader};
use std::path::Path;
use std::process::{Child, ChildStdout, Command, ExitCode, Stdio};
use std::thread::{sleep, spawn};
use std::time::Duration;

/// How often the processes are looked at: what one does behind its last look is not counted.
const PERIOD: Duration = Duration::from_millis(50);

/// Of the kernel's clock: 100 on every machine that the toolchain runs on.
const TICKS_A_SECOND: u64 = 100;

fn main() -> ExitCode {
    let words: Vec<String> = std::env::args().skip(1).collect();
    let [file, name, rest @ ..] = &words[..] else {
        eprintln!("times: say which file takes the last line, and which command is to be timed");
        return ExitCode::from(2);
    };
    let Ok(mut child) = Command::new(name).args(rest).stdout(Stdio::piped()).spawn() else {
        eprintln!("times: {name} cannot be run");
        return ExitCode::from(2);
    };
    let printing = child.stdout.take().map(|out| spawn(move || pass_on(out)));
    let (seen, code) = watch(child);
    let said = printing.and_then(|thread| thread.join().ok()).unwrap_or_default();
    print!("{}", table(&seen));
    if fs::write(file, said.last + "\n").is_err() {
        eprintln!("times: {file} cannot be written");
        return ExitCode::from(2);
    }
    if code == 0 && said.bad > 0 {
        eprintln!("times: {} must-fail edits are bad, so nothing shows that what they say is refused", said.bad);
        return ExitCode::from(1);
    }
    ExitCode::from(code)
}

/// The last line, and how many edits could not be tried.
#[derive(Default)]
struct Said {
    last: String,
    bad: u64,
}

/// Every line as it comes.
fn pass_on(out: ChildStdout) -> Said {
    let mut said = Said::default();
    for line in BufReader::new(out).lines().map_while(Result::ok) {
        println!("{line}");
        said.bad += bad_edits(&line);
        said.last = line;
    }
    said
}

/// Of `rt: ok; .. must-fail edits: 311 refused, 2 bad; ..`: 2.
fn bad_edits(line: &str) -> u64 {
    let words = if line.starts_with("rt: ok") { line } else { "" };
    let counts = words.split([',', ';']).filter_map(|part| part.trim().strip_suffix(" bad"));
    counts.filter_map(|count| count.parse::<u64>().ok()).sum()
}

/// A process, by its number and the moment it began, so that a number that is used again is another process.
type Key = (u32, u64);

struct Work {
    crate_name: String,
    is_edit: bool,
    ticks: u64,
}

fn watch(mut child: Child) -> (BTreeMap<Key, Work>, u8) {
    let mut seen = BTreeMap::new();
    loop {
        look(child.id(), &mut seen);
        match child.try_wait() {
            Ok(None) => sleep(PERIOD),
            Ok(Some(status)) => return (seen, status.code().map_or(1, |code| code as u8)),
            Err(_) => return (seen, 1),
        }
    }
}

/// The provers below a process. They are few, so each one's parents are asked for anew.
fn look(root: u32, seen: &mut BTreeMap<Key, Work>) {
    let Ok(processes) = fs::read_dir("/proc") else {
        return;
    };
    for process in processes.flatten() {
        let Ok(number) = process.file_name().to_string_lossy().parse::<u32>() else {
            continue;
        };
        let Ok(words) = fs::read_to_string(process.path().join("cmdline")) else {
            continue;
        };
        let folder = fs::read_link(process.path().join("cwd")).unwrap_or_default();
        let Some((crate_name, is_edit)) = subject(&words, &folder) else {
            continue;
        };
        let Some(times) = stat_of(number).and_then(|text| times(&text)) else {
            continue;
        };
        if is_below(root, times.parent) {
            seen.insert((number, times.began), Work { crate_name, is_edit, ticks: times.ticks });
        }
    }
}

fn stat_of(number: u32) -> Option<String> {
    fs::read_to_string(format!("/proc/{number}/stat")).ok()
}

/// Whether a process is another or has it among its parents.
fn is_below(root: u32, number: u32) -> bool {
    let parent = |number: &u32| stat_of(*number).and_then(|text| times(&text)).map(|times| times.parent);
    std::iter::successors(Some(number), parent).take_while(|number| *number > 1).any(|number| number == root)
}

/// Of a prover's words, which end in zeros, and its folder: the crate, and whether it is an edit's copy of it.
fn subject(words: &str, folder: &Path) -> Option<(String, bool)> {
    let words: Vec<&str> = words.split('\0').collect();
    if !words.first()?.ends_with("/rattle") {
        return None;
    }
    let behind = |word: &str| words.iter().position(|one| *one == word).and_then(|at| words.get(at + 1).copied());
    let name = behind("--crate-name")?;
    let is_copy = folder.file_name().is_some_and(|name| name.to_string_lossy().starts_with("rt-edit-"));
    let is_seed = behind("--incremental").is_some_and(|kept| kept.ends_with("/seed"));
    Some((name.to_string(), is_copy && !is_seed))
}

struct Times {
    parent: u32,
    began: u64,
    ticks: u64,
}

/// Of a process's line of numbers, behind its name in brackets: its parent, when it began, and its ticks for itself and in the kernel.
fn times(stat: &str) -> Option<Times> {
    let (_, numbers) = stat.rsplit_once(')')?;
    let fields: Vec<&str> = numbers.split_whitespace().collect();
    let own: u64 = fields.get(11)?.parse().ok()?;
    let kernel: u64 = fields.get(12)?.parse().ok()?;
    Some(Times { parent: fields.get(1)?.parse().ok()?, began: fields.get(19)?.parse().ok()?, ticks: own + kernel })
}

#[derive(Default, Clone, Copy)]
struct Spent {
    proofs: u64,
    edits: u64,
    number: u64,
}

fn table(seen: &BTreeMap<Key, Work>) -> String {
    let mut crates: BTreeMap<&str, Spent> = BTreeMap::new();
    let mut all = Spent::default();
    for work in seen.values() {
        let one = crates.entry(&work.crate_name).or_default();
        for spent in [one, &mut all] {
            if work.is_edit {
                spent.edits += work.ticks;
                spent.number += 1;
            } else {
                spent.proofs += work.ticks;
            }
        }
    }
    let mut rows: Vec<(&str, Spent)> = crates.into_iter().collect();
    rows.sort_by_key(|(_, spent)| std::cmp::Reverse(spent.proofs + spent.edits));
    rows.push(("all", all));
    let width = rows.iter().map(|(name, _)| name.len()).fold(12, usize::max);
    let mut text = format!("| {:width$} | proofs | edits | number |\n|-{:-<width$}-|-------:|------:|-------:|\n", "CPU seconds", "");
    for (name, spent) in rows {
        let seconds = |ticks: u64| ticks / TICKS_A_SECOND;
        text += &format!("| {name:width$} | {:6} | {:5} | {:6} |\n", seconds(spent.proofs), seconds(spent.edits), spent.number);
    }
    text
}

#[cfg(test)]
mod tests {
    use super::*;

    #[test]
    fn a_prover_is_known_by_its_words_and_its_folder() {
        let line = |is_edit| Some(("line".to_string(), is_edit));
        let words = |kept: &str| format!("/kit/bin/rattle\0check\0--crate-name\0line\0src/lib.rt\0--incremental\0{kept}\0");
        assert_eq!(subject(&words("out/incremental"), Path::new("/house/crates/line")), line(false));
        assert_eq!(subject(&words("/tmp/rt-edits-7-x/0"), Path::new("/tmp/rt-edit-7-y")), line(true));
        assert_eq!(subject(&words("/tmp/rt-edits-7-x/seed"), Path::new("/tmp/rt-edit-7-y")), line(false));
        assert_eq!(subject("/kit/bin/rattle\0check\0--crate-name\0line\0src/lib.rt\0", Path::new("/tmp/rt-edit-7-y")), line(true));
        assert_eq!(subject("/bin/sh\0rt\0--crate-name\0line\0", Path::new("/house/crates/line")), None);
    }

    #[test]
    fn times_are_read_behind_the_name() {
        let found = times("7 (a) b) S 5 1 1 0 -1 0 0 0 0 0 250 50 0 0 20 0 1 0 900 0").unwrap();
        assert_eq!((found.parent, found.began, found.ticks), (5, 900, 300));
    }

    #[test]
    fn a_process_is_below_its_parents_and_itself() {
        let own = std::process::id();
        assert!(is_below(own, own));
        let mut child = Command::new("sleep").arg("60").spawn().unwrap();
        let (down, up) = (is_below(own, child.id()), is_below(child.id(), own));
        child.kill().unwrap();
        child.wait().unwrap();
        assert!(down && !up);
    }

    #[test]
    fn bad_edits_are_counted() {
        assert_eq!(bad_edits("rt: ok; handles allowed: none; must-fail edits: 311 refused, 2 bad; every proof was done in this run"), 2);
        assert_eq!(bad_edits("rt: ok; handles allowed: none; must-fail edits: 313 refused; every proof was done in this run"), 0);
        assert_eq!(bad_edits("rt: ok; handles allowed: none; must-fail edits: 9 refused, 2 of them only by a limit, 14 bad; x"), 14);
        assert_eq!(bad_edits("note: 3 bad"), 0);
    }

    #[test]
    fn proofs_and_edits_are_summed_apart() {
        let mut seen = BTreeMap::new();
        for (number, is_edit, ticks) in [(1, false, 1000), (2, true, 250), (3, true, 250)] {
            seen.insert((number, 0), Work { crate_name: "line".to_string(), is_edit, ticks });
        }
        let text = table(&seen);
        assert!(text.contains("| line         |     10 |     5 |      2 |"));
        assert!(text.contains("| all          |     10 |     5 |      2 |"));
    }
}
