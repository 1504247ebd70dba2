//! Rules for records: two fields exchanged, a field that stays or is cleared, another field asked for.

use crate::change::{Change, Place};
use crate::definitions::PRELUDE;
use crate::tree::{Kind, Node};

pub fn changes(place: &Place, fields: &[(String, Node)]) -> Vec<Change> {
    let Some(record) = record_of(place, fields) else { return Vec::new() };
    let kind = |name: &str| place.all.field(&record, name).unwrap_or("?");
    let mut found = Vec::new();
    for (at, (name, value)) in fields.iter().enumerate() {
        for (other, other_value) in &fields[at + 1..] {
            if kind(name) == kind(other) {
                found.push(place.exchange(value, other_value));
            }
        }
        found.extend(stays(place, &record, name, value));
        found.extend(cleared(place, &record, name, value, kind(name)));
    }
    found
}

/// The record that has these fields.
fn record_of(place: &Place, fields: &[(String, Node)]) -> Option<String> {
    let is_all = |record: &str| fields.iter().all(|(name, _)| place.all.field(record, name).is_some());
    place.all.fields.iter().map(|field| &field.record).find(|record| is_all(record)).cloned()
}

/// The field as it was, where the clause is given such a record.
fn stays(place: &Place, record: &str, name: &str, value: &Node) -> Vec<Change> {
    let given = place.clause.bound.iter().filter(|(_, kind)| *kind == record);
    let changes = given.map(|(old, _)| {
        let mut change = place.put(value, &format!("{old}.{name}"));
        change.what = format!("field `{name}` stays that of `{old}`");
        change
    });
    changes.collect()
}

/// A field that is taken over from elsewhere is emptied.
fn cleared(place: &Place, record: &str, name: &str, value: &Node, kind: &str) -> Option<Change> {
    let is_taken_over = matches!(value.bare().kind, Kind::Field(..)) || value.word().is_some_and(|word| place.clause.bound.contains_key(word));
    let (new, module) = empty(place, kind)?;
    if !is_taken_over {
        return None;
    }
    let mut change = place.put(value, &new);
    change.what = format!("field `{name}` of {record} is `{new}`");
    Some(if module.is_empty() { change } else { change.needing(&new, module) })
}

/// Of numbers, truths and lists, and of a data type the first constructor that is at hand and takes nothing.
fn empty(place: &Place, kind: &str) -> Option<(String, &'static str)> {
    match kind {
        "ℕ" => return Some(("0".to_string(), "")),
        "Bool" => return Some(("false".to_string(), PRELUDE)),
        _ if kind.starts_with("List ") => return Some(("[]".to_string(), PRELUDE)),
        _ => (),
    }
    let bare = place.all.constructors.iter().filter(|one| one.types == [kind]);
    bare.filter_map(|one| called(place, &one.file, &one.name)).next().map(|name| (name, ""))
}

/// What a constructor of another file is called here.
fn called(place: &Place, file: &str, name: &str) -> Option<String> {
    if file == place.file.name {
        return Some(name.to_string());
    }
    let module = format!(".specs.{file}.");
    let uses = place.file.text.lines().filter(|line| line.starts_with("use ") && line.contains(&module));
    let names = uses.filter_map(|line| line.split_once(".{")).flat_map(|(_, names)| names.trim_end_matches('}').split(", "));
    let renamed = format!("{name} as ");
    names.filter_map(|one| if one == name { Some(one) } else { one.strip_prefix(&renamed) }).next().map(str::to_string)
}

/// The next field of the same record and type.
pub fn field_changes(place: &Place, node: &Node, of: &Node, name: &str) -> Vec<Change> {
    let known = of.word().and_then(|word| place.clause.bound.get(word));
    let owners = place.all.fields.iter().filter(|field| field.name == name && known.is_none_or(|kind| *kind == field.record));
    let mut found = Vec::new();
    for owner in owners {
        let next = place.all.next_field(owner);
        if next != name {
            let mut change = place.put_at(of.to, node.to, &format!(".{next}"));
            change.what = format!("`{}` becomes `.{next}`", place.shown(node.from, node.to));
            found.push(change);
        }
    }
    found
}
