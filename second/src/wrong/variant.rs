//! One variant: made, built, and played until a script tells it apart.

use std::fs::{self, File};
use std::path::{Path, PathBuf};
use std::process::{Command, Stdio};

use super::edits::Edit;
use crate::play::play;

/// What goes on for longer than so many seconds goes on for ever.
const MOST_SECONDS: &str = "60";

/// A script and what the right implementation prints.
pub struct Script {
    path: PathBuf,
    name: String,
    right: Vec<u8>,
}

impl Script {
    pub fn all(paths: &[&str]) -> Result<Vec<Script>, String> {
        let read = |path: &&str| {
            let text = fs::read(path).map_err(|e| format!("{path}: {e}"))?;
            let mut right = Vec::new();
            play(&mut text.as_slice(), &mut right)?;
            Ok(Script {
                path: PathBuf::from(path),
                name: name_of(Path::new(path)),
                right,
            })
        };
        paths.iter().map(read).collect()
    }

    /// Whether a player prints anything else. One that merely breaks off, or
    /// goes on for ever, says nothing about a target that does neither.
    fn tells(&self, player: &Path) -> Result<bool, String> {
        let script = File::open(&self.path).map_err(|e| e.to_string())?;
        let mut played = Command::new("timeout");
        played.arg(MOST_SECONDS).arg(player).stdin(script);
        let played = played.stderr(Stdio::null()).output();
        let printed = played.map_err(|e| e.to_string())?.stdout;
        if printed != self.right && self.right.starts_with(&printed) {
            return Err(format!("it comes to no end with {}", self.name));
        }
        Ok(printed != self.right)
    }
}

/// The name of the first script that tells a variant apart, if one does.
pub type ToldBy = Option<String>;

/// Where variants are made and built, and what they are played with.
pub struct Bench {
    pub sources: PathBuf,
    pub built: PathBuf,
    pub scripts: Vec<Script>,
}

impl Bench {
    /// Built as the variants are but without an edit, no script may tell it.
    pub fn unchanged_is_right(&self) -> Result<(), String> {
        match self.told_by(&self.build("unchanged", None)?)? {
            None => Ok(()),
            Some(script) => Err(format!("without an edit it is told by {script}")),
        }
    }

    /// A variant that is told is not kept; one that is not can be looked at.
    pub fn try_out(&self, number: usize, edit: &Edit) -> Result<ToldBy, String> {
        let name = format!("{number:03}");
        let player = self.build(&name, Some(edit))?;
        let told_by = self.told_by(&player);
        let told_by = told_by.map_err(|wrong| format!("{}: {wrong}", edit.name))?;
        if told_by.is_some() {
            let directory = self.built.join(&name);
            fs::remove_dir_all(directory).map_err(|e| format!("{name}: {e}"))?;
        }
        Ok(told_by)
    }

    fn told_by(&self, player: &Path) -> Result<ToldBy, String> {
        for script in &self.scripts {
            if script.tells(player)? {
                return Ok(Some(script.name.clone()));
            }
        }
        Ok(None)
    }

    /// The player with an edit made, built without its optimisations: it is
    /// built more slowly than played.
    fn build(&self, name: &str, edit: Option<&Edit>) -> Result<PathBuf, String> {
        let directory = self.built.join(name);
        self.copy_sources(&directory)
            .map_err(|e| format!("{name}: {e}"))?;
        if let Some(edit) = edit {
            let file = directory.join(&edit.file);
            let told = |e| format!("{}: {}: {e}", edit.name, edit.file);
            let text = fs::read_to_string(&file).map_err(told)?;
            fs::write(&file, edit.apply(&text)?).map_err(told)?;
        }
        let player = directory.join("player");
        let mut rustc = Command::new("rustc");
        rustc.args(["--edition", "2021", "--cap-lints", "allow"]);
        rustc.args(["-C", "opt-level=0", "-C", "codegen-units=1"]);
        // An overflow is to give a wrong number, as it would in a release.
        rustc.args(["-C", "overflow-checks=off"]);
        rustc
            .arg("-o")
            .arg(&player)
            .arg(directory.join("player.rs"));
        let said = rustc.output().map_err(|e| format!("rustc: {e}"))?;
        match said.status.success() {
            true => Ok(player),
            false => {
                let name = edit.map_or(name, |edit| &edit.name);
                Err(format!("{name}: {}", String::from_utf8_lossy(&said.stderr)))
            }
        }
    }

    /// The player needs none of the directories beside its files.
    fn copy_sources(&self, directory: &Path) -> std::io::Result<()> {
        fs::create_dir_all(directory)?;
        for entry in fs::read_dir(&self.sources)? {
            let path = entry?.path();
            if path.is_file() {
                fs::copy(&path, directory.join(path.file_name().unwrap_or_default()))?;
            }
        }
        Ok(())
    }
}

/// A script's name: its file's, in words.
fn name_of(path: &Path) -> String {
    let stem = path.file_stem().unwrap_or_default().to_string_lossy();
    stem.replace('_', " ")
}
