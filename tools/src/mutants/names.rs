//! Rules for names: another variable, another definition, another constructor.

use crate::change::{Change, Place};
use crate::definitions::{items, Declared, Definitions, PRELUDE};
use crate::tree::Node;

pub fn changes(place: &Place, node: &Node, word: &str) -> Vec<Change> {
    if let Some(kind) = place.clause.bound.get(word) {
        return variables(place, node, word, kind);
    }
    if let Some(other) = [("true", "false"), ("false", "true")].into_iter().find(|(one, _)| *one == word) {
        return vec![place.put(node, other.1).needing(other.1, PRELUDE)];
    }
    if let Some(meant) = place.all.meant(place.file, word) {
        return definitions(place, node, meant);
    }
    constructors(place, node, word)
}

/// The others of the same type.
fn variables(place: &Place, node: &Node, word: &str, kind: &str) -> Vec<Change> {
    let others = place.clause.bound.iter().filter(|(name, of)| *name != word && *of == kind);
    others.map(|(name, _)| place.put(node, name)).collect()
}

/// The definitions before and behind it, of those in its file that have the same type and say something else.
fn definitions(place: &Place, node: &Node, meant: &Declared) -> Vec<Change> {
    let kin: Vec<&Declared> = place.all.declared.iter().filter(|one| one.file == meant.file && one.types == meant.types).collect();
    let Some(at) = kin.iter().position(|one| one.name == meant.name) else { return Vec::new() };
    let (before, behind) = (kin[(at + kin.len() - 1) % kin.len()], kin[(at + 1) % kin.len()]);
    let mut others = vec![behind, before];
    others.dedup();
    others.retain(|one| one.name != meant.name && one.name != place.clause.definition && said(place.all, one) != said(place.all, meant));
    others.into_iter().map(|one| used(place, place.put(node, &one.name), one)).collect()
}

/// What a definition says behind the names of its clauses.
fn said(all: &Definitions, one: &Declared) -> String {
    let text = all.files.iter().find(|file| file.name == one.file).map_or("", |file| &file.text);
    let begin = format!("{} ", one.name);
    let clauses = items(text).into_iter().map(|(from, to)| &text[from..to]);
    clauses.filter_map(|item| item.strip_prefix(&begin)).flat_map(str::split_whitespace).collect()
}

/// A definition of another file is to be used of there, beside the one that is.
fn used(place: &Place, change: Change, one: &Declared) -> Change {
    let module = format!(".specs.{}", one.file);
    let uses = place.file.text.lines().filter_map(|line| line.strip_prefix("use ")?.split_once(".{"));
    match uses.map(|(module, _)| module).find(|used| used.ends_with(&module)) {
        Some(module) if one.file != place.file.name => change.needing(&one.name, module),
        _ => change,
    }
}

/// The next one that takes and gives the same; of an enum's variants the next in the line that uses them.
fn constructors(place: &Place, node: &Node, word: &str) -> Vec<Change> {
    let own = place.all.constructors.iter().find(|one| one.name == word && is_at_hand(place, one));
    let kin: Vec<&str> = match own {
        Some(own) => {
            let alike = place.all.constructors.iter().filter(|one| one.file == own.file && one.types == own.types);
            alike.filter(|one| is_at_hand(place, one)).map(|one| one.name.as_str()).collect()
        }
        None => variants_beside(place, word),
    };
    let Some(at) = kin.iter().position(|one| *one == word) else { return Vec::new() };
    let next = kin[(at + 1) % kin.len()];
    if next == word {
        return Vec::new();
    }
    vec![place.put(node, next)]
}

fn is_at_hand(place: &Place, one: &Declared) -> bool {
    let is_used = |line: &str| {
        let names = line.split_once(".{").map_or("", |(_, names)| names.trim_end_matches('}'));
        line.starts_with("use ") && names.split(", ").any(|name| name == one.name)
    };
    one.file == place.file.name || place.file.text.lines().any(is_used)
}

fn variants_beside<'a>(place: &Place<'a>, word: &str) -> Vec<&'a str> {
    let lists = place.file.text.lines().filter_map(|line| line.split_once(".TheVariants.{"));
    let mut lists = lists.map(|(_, names)| names.trim_end_matches('}').split(", ").collect::<Vec<_>>());
    lists.find(|names| names.contains(&word)).unwrap_or_default()
}
