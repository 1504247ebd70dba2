//! How well are the definitions of a crate guarded? Wrong definitions, made by rule, are given to the prover, each in a copy of the
//! crate alone: a law or a row of the crate has to refuse each.
//!
//!     mutants [N | all] [--seed S] [FILE..]
//!
//! from the repository's root: N of all mutants of crates/document/specs, or of these files of it, by a seed. Files of rows are not
//! changed: rows guard, and are not guarded. It ends with 1 if a mutant survives that tools/mutants.txt does not list, or if that list
//! has one that is refused or is no mutant.

mod change;
mod clauses;
mod definitions;
#[cfg(test)]
mod end_test;
mod known;
mod mutant;
mod names;
mod prover;
mod records;
mod rules;
mod sample;
mod score;
mod tokens;
mod tree;
mod words;

use definitions::{Definitions, File};
use mutant::Mutant;
use prover::{Copy, Verdict};
use score::Score;
use std::collections::BTreeMap;
use std::path::{Path, PathBuf};
use std::process::ExitCode;
use words::Words;

const CRATE: &str = "crates/document";
const KNOWN: &str = "tools/mutants.txt";

fn main() -> ExitCode {
    let words: Vec<String> = std::env::args().skip(1).collect();
    let words = match Words::read(&words) {
        Ok(words) => words,
        Err(fault) => return told(2, &fault),
    };
    match run(Path::new(CRATE), Path::new(KNOWN), &words) {
        Ok(faults) if faults.is_empty() => ExitCode::SUCCESS,
        Ok(faults) => told(1, &faults.join("\nmutants: ")),
        Err(fault) => told(2, &fault),
    }
}

fn told(code: u8, fault: &str) -> ExitCode {
    eprintln!("mutants: {fault}");
    ExitCode::from(code)
}

/// What is wrong with the definitions' guards, or why that cannot be told.
fn run(source: &Path, known: &Path, words: &Words) -> Result<Vec<String>, String> {
    let text = std::fs::read_to_string(known).map_err(|error| format!("{}: {error}", known.display()))?;
    let known = known::read(&text)?;
    let definitions = Definitions::of(definition_files(source)?);
    if let [first, ..] = &mutant::not_understood(&definitions)[..] {
        return Err(format!("the definition {first} is not understood, so no rule can change it"));
    }
    let all = mutant::mutants(&definitions);
    let mut faults = no_mutants(&known, &all);
    let some = of_files(all, &words.files)?;
    let count = words.count.unwrap_or(some.len()).min(some.len());
    println!("mutants: {count} of {} wrong definitions, by seed {}", some.len(), words.seed);
    let copies = copies(source)?;
    match copies[0].check().map_err(|error| error.to_string())? {
        Verdict::Survived => (),
        other => return Err(format!("{} is not proved as it is: {other:?}", source.display())),
    }
    let score = score(&copies, &sample::ordered(some, words.seed), count, &known)?;
    print!("{}", score.table());
    println!("mutants: {} more were no definitions; seed {}", score.none, words.seed);
    faults.extend(score.faults);
    Ok(faults)
}

/// Of the definitions: files of rows and of what only rows use are left out.
fn definition_files(source: &Path) -> Result<Vec<File>, String> {
    let folder = source.join("specs");
    let entries = std::fs::read_dir(&folder).map_err(|error| format!("{}: {error}", folder.display()))?;
    let mut paths: Vec<PathBuf> = entries.flatten().map(|entry| entry.path()).collect();
    paths.sort();
    let mut files = Vec::new();
    for path in paths {
        let name = path.file_stem().unwrap_or_default().to_string_lossy().into_owned();
        if !name.ends_with("Rows") && !["RefusalPairs", "Hex", "Lib"].contains(&name.as_str()) {
            let text = std::fs::read_to_string(&path).map_err(|error| format!("{}: {error}", path.display()))?;
            files.push(File { name, text });
        }
    }
    Ok(files)
}

fn no_mutants(known: &BTreeMap<String, String>, all: &[Mutant]) -> Vec<String> {
    let is_one = |name: &str| all.iter().any(|mutant| mutant.name == name);
    known.keys().filter(|name| !is_one(name)).map(|name| format!("it is listed as a survivor, and is no mutant: {name}")).collect()
}

fn of_files(all: Vec<Mutant>, files: &[String]) -> Result<Vec<Mutant>, String> {
    if let Some(file) = files.iter().find(|file| !all.iter().any(|mutant| mutant.file == **file)) {
        return Err(format!("the definitions have no file '{file}'"));
    }
    Ok(all.into_iter().filter(|mutant| files.is_empty() || files.contains(&mutant.file)).collect())
}

/// As many as the prover may run at a time: RT_JOBS, or the processors, at most 4.
fn copies(source: &Path) -> Result<Vec<Copy>, String> {
    let processors = std::thread::available_parallelism().map_or(1, |number| number.get().min(4));
    let jobs = std::env::var("RT_JOBS").ok().and_then(|text| text.parse().ok()).unwrap_or(processors).max(1);
    let folder = std::env::temp_dir();
    let copy = |job: usize| Copy::of(source, folder.join(format!("mutants.{}.{job}", std::process::id())));
    (0..jobs).map(copy).collect::<Result<_, _>>().map_err(|error| format!("no copy of the crate can be made in {}: {error}", folder.display()))
}

/// Tries mutants in their order until so many were definitions.
fn score(copies: &[Copy], order: &[Mutant], count: usize, known: &BTreeMap<String, String>) -> Result<Score, String> {
    let mut score = Score::default();
    let mut rest = order;
    while score.tried() < count && !rest.is_empty() {
        let some = copies.len().min(count - score.tried()).min(rest.len());
        let (batch, behind) = rest.split_at(some);
        rest = behind;
        for (mutant, verdict) in batch.iter().zip(verdicts(copies, batch)) {
            let verdict = verdict.map_err(|error| error.to_string())?;
            let word = score.count(&mutant.file, &mutant.name, &verdict, known.contains_key(&mutant.name));
            println!("{}: {word}", mutant.name);
        }
    }
    Ok(score)
}

/// All at the same time, each in a copy of its own.
fn verdicts(copies: &[Copy], batch: &[Mutant]) -> Vec<std::io::Result<Verdict>> {
    std::thread::scope(|scope| {
        let started: Vec<_> = batch.iter().zip(copies).map(|(mutant, copy)| scope.spawn(|| copy.with(&mutant.file, &mutant.text))).collect();
        started.into_iter().map(|thread| thread.join().expect("a copy is tried to its end")).collect()
    })
}
