//! Gives a mutant to the prover, in a copy of its crate.

use std::fs::{self, File};
use std::io;
use std::path::{Path, PathBuf};
use std::process::{Command, Stdio};
use std::thread::sleep;
use std::time::{Duration, Instant};

#[derive(Clone, Debug, PartialEq)]
pub enum Verdict {
    /// by which law or row first
    Refused(String),
    Survived,
    /// the mutant's own text is refused, which says nothing of what guards the definition
    NoDefinition,
    /// and why
    Untold(String),
}

/// The longest that a mutant is waited for. Right definitions take seconds.
const PATIENCE: Duration = Duration::from_secs(300);

/// A copy of a crate. It goes with its owner.
pub struct Copy {
    folder: PathBuf,
    crate_folder: PathBuf,
}

impl Copy {
    /// A repository of this crate alone, which stands on no other.
    pub fn of(source: &Path, folder: PathBuf) -> io::Result<Copy> {
        let name = source.file_name().unwrap_or_default();
        let crate_folder = folder.join("crates").join(name);
        for part in ["src", "specs", "proofs"] {
            copy_folder(&source.join(part), &crate_folder.join(part))?;
        }
        fs::write(folder.join("crates.txt"), format!("{}:\n", name.to_string_lossy()))?;
        Ok(Copy { folder, crate_folder })
    }

    /// The crate with another text for a file of its definitions; the right one is there again afterwards.
    pub fn with(&self, file: &str, text: &str) -> io::Result<Verdict> {
        let path = self.crate_folder.join("specs").join(format!("{file}.antt"));
        let right = fs::read(&path)?;
        fs::write(&path, text)?;
        let verdict = self.check();
        fs::write(&path, right)?;
        verdict
    }

    pub fn check(&self) -> io::Result<Verdict> {
        let log = self.folder.join("log");
        let out = File::create(&log)?;
        let mut command = Command::new("rt");
        command.arg("check").current_dir(&self.crate_folder);
        let mut child = command.stdin(Stdio::null()).stderr(out.try_clone()?).stdout(out).spawn()?;
        let began = Instant::now();
        while began.elapsed() < PATIENCE {
            if let Some(status) = child.try_wait()? {
                return Ok(verdict(status.code(), &String::from_utf8_lossy(&fs::read(&log)?)));
            }
            sleep(Duration::from_millis(20));
        }
        child.kill()?;
        child.wait()?;
        Ok(Verdict::Untold(format!("no verdict in {} s", PATIENCE.as_secs())))
    }
}

impl Drop for Copy {
    fn drop(&mut self) {
        let _ = fs::remove_dir_all(&self.folder);
    }
}

fn copy_folder(from: &Path, to: &Path) -> io::Result<()> {
    fs::create_dir_all(to)?;
    for entry in fs::read_dir(from)? {
        let entry = entry?;
        let target = to.join(entry.file_name());
        if entry.file_type()?.is_dir() {
            copy_folder(&entry.path(), &target)?;
        } else {
            fs::copy(entry.path(), target)?;
        }
    }
    Ok(())
}

/// By the prover's status and by what it said.
fn verdict(status: Option<i32>, said: &str) -> Verdict {
    let says = |what: &str| said.lines().any(|line| line.starts_with(what));
    let errors: Vec<&str> = said.lines().filter(|line| line.contains(".antt:") && line.contains(": error")).collect();
    let first_proof = errors.iter().find(|line| line.contains("/proofs/"));
    match status {
        Some(0) if says("logic=proved") => Verdict::Survived,
        Some(1) if errors.iter().any(|line| line.contains("/specs/")) => Verdict::NoDefinition,
        Some(1) if says("logic=not-proved") => match first_proof {
            Some(line) => Verdict::Refused(refuser(line)),
            None => Verdict::Untold("refused, and not by a proof".to_string()),
        },
        Some(1) => Verdict::NoDefinition,
        _ => Verdict::Untold(said.lines().last().unwrap_or("the prover said nothing").to_string()),
    }
}

/// `./proofs/Rows.antt:107:39: error: `rows_hold`: ..` is of `Rows.rows_hold`.
fn refuser(line: &str) -> String {
    let file = line.split_once("/proofs/").and_then(|(_, rest)| rest.split_once(".antt")).map_or("", |(file, _)| file);
    match line.split_once(": error: `").and_then(|(_, rest)| rest.split_once('`')) {
        Some((name, _)) => format!("{file}.{name}"),
        None => file.to_string(),
    }
}

#[cfg(test)]
mod tests {
    use super::*;

    const ROW: &str = "./proofs/Rows.antt:107:39: error: `rows_hold`: expected type\nlogic=not-proved\n";

    #[test]
    fn verdicts_are_read() {
        assert_eq!(verdict(Some(0), "crate document: modules\nlogic=proved functions=0\n"), Verdict::Survived);
        assert_eq!(verdict(Some(1), ROW), Verdict::Refused("Rows.rows_hold".to_string()));
        let both = format!("./specs/Gate.antt:3:1: error: `f`: expected\n{ROW}");
        assert_eq!(verdict(Some(1), &both), Verdict::NoDefinition);
        assert_eq!(verdict(Some(1), "./specs/Gate.antt:3:1: expected a term\n"), Verdict::NoDefinition);
    }

    #[test]
    fn what_is_no_verdict_is_none() {
        assert_eq!(verdict(Some(0), "nothing\n"), Verdict::Untold("nothing".to_string()));
        assert_eq!(verdict(None, ""), Verdict::Untold("the prover said nothing".to_string()));
        assert!(matches!(verdict(Some(1), "logic=not-proved\n"), Verdict::Untold(_)));
    }
}
