//! Rules that make a wrong definition of a right one, by what stands there: numbers, signs and calls.

use crate::change::{Change, Place};
use crate::definitions::PRELUDE;
use crate::names;
use crate::records;
use crate::tokens::is_number;
use crate::tree::{Kind, Node};

/// All changes that the rules know at a place of an expression.
pub fn changes(place: &Place, node: &Node) -> Vec<Change> {
    match &node.kind {
        Kind::Word(word) if is_number(word) => numbers(place, node, word),
        Kind::Word(word) => names::changes(place, node, word),
        Kind::Chain(..) => chains(place, node),
        Kind::Call(parts) => calls(place, node, parts),
        Kind::Record(fields) => records::changes(place, fields),
        Kind::Field(of, name) => records::field_changes(place, node, of, name),
        Kind::Group(_) | Kind::Other(_) => Vec::new(),
    }
}

/// One more and one less.
fn numbers(place: &Place, node: &Node, word: &str) -> Vec<Change> {
    let hex = word.strip_prefix("0x");
    let Ok(value) = hex.map_or_else(|| word.parse::<u64>(), |digits| u64::from_str_radix(digits, 16)) else {
        return Vec::new();
    };
    let written = |number: u64| if hex.is_some() { format!("0x{number:02X}") } else { number.to_string() };
    let others = [Some(value + 1), value.checked_sub(1)];
    others.into_iter().flatten().map(|other| place.put(node, &written(other))).collect()
}

/// What a sign becomes.
fn other_sign(sign: &str) -> Option<&'static str> {
    Some(match sign {
        "+" => "-",
        "-" | "*" => "+",
        "/" => "%",
        "%" => "/",
        "^" => "*",
        "&&" => "||",
        "||" => "&&",
        _ => return None,
    })
}

/// Another sign, a part left out, two neighbours exchanged.
fn chains(place: &Place, node: &Node) -> Vec<Change> {
    let Kind::Chain(parts, signs) = &node.kind else { return Vec::new() };
    let sign = |at: usize| signs.get(at).map_or("", |sign| sign.text.as_str());
    let mut found = Vec::new();
    for (at, one) in signs.iter().enumerate() {
        if let Some(other) = other_sign(&one.text) {
            let mut change = place.put_at(one.from, one.to, other).needing(&format!("◌{other}◌"), PRELUDE);
            change.what = format!("{} in `{}`", change.what, place.shown(parts[at].from, parts[at + 1].to));
            found.push(change);
        }
        let is_in_list = one.text == "∷" && sign(at + 1) == "∷" || one.text == "++" && sign(at + 1) != "∷";
        let is_one_way = parts.len() == 2 && ["-", "/", "%", "^"].contains(&one.text.as_str());
        if is_in_list || is_one_way {
            found.push(place.exchange(&parts[at], &parts[at + 1]));
        }
    }
    for (at, part) in parts.iter().enumerate() {
        match parts.get(at + 1) {
            Some(next) => found.push(place.drop(part, part.from, next.from)),
            None if sign(at - 1) != "∷" => found.push(place.drop(part, parts[at - 1].to, part.to)),
            None => (),
        }
    }
    found
}

const SIGNED: &str = "Rattle.std.specs.Int.Signed";
const BITS: &str = "Rattle.std.specs.Int.Bits";

/// What a function becomes, and where that is to be had.
fn other_function(name: &str) -> Option<(&'static str, &'static str)> {
    Some(match name {
        "ltb" => ("leb", PRELUDE),
        "leb" => ("ltb", PRELUDE),
        "lt_z" => ("le_z", SIGNED),
        "le_z" => ("lt_z", SIGNED),
        "take" => ("drop", PRELUDE),
        "drop" => ("take", PRELUDE),
        "bit_and" | "bit_xor" => ("bit_or", BITS),
        "bit_or" => ("bit_and", BITS),
        _ => return None,
    })
}

/// Branches exchanged, a condition left out, another function, arguments exchanged, a call left out.
fn calls(place: &Place, node: &Node, parts: &[Node]) -> Vec<Change> {
    let Some(name) = parts[0].word() else { return Vec::new() };
    let given = &parts[1..];
    let mut found = Vec::new();
    if let ("cond", [_, yes, no]) = (name, given) {
        found.push(place.exchange(yes, no));
        found.push(place.leave(node, yes));
        found.push(place.leave(node, no));
    }
    if let ("eqb", [one, other]) = (name, given) {
        // At least as much. The other way round nothing would change beside a 0.
        found.push(place.put(node, &format!("leb {} {}", place.text(other), place.text(one))).needing("leb", PRELUDE));
    }
    if let ("not" | "suc", [of]) = (name, given) {
        found.push(place.leave(node, of));
    }
    if let Some((other, module)) = other_function(name) {
        let mut change = place.put(&parts[0], other).needing(other, module);
        change.what = format!("{} in `{}`", change.what, place.shown(node.from, node.to));
        found.push(change);
    }
    if !place.clause.bound.contains_key(name) {
        found.extend(given_changes(place, node, given, &place.all.types_of(place.file, name)));
    }
    found
}

fn given_changes(place: &Place, node: &Node, given: &[Node], types: &[String]) -> Vec<Change> {
    let mut found = Vec::new();
    let Some((result, takes)) = types.split_last() else { return found };
    for (at, (one, kind)) in given.iter().zip(takes).enumerate() {
        for (other, other_kind) in given.iter().zip(takes).skip(at + 1) {
            if kind == other_kind {
                found.push(place.exchange(one, other));
            }
        }
        if kind == result && given.len() == takes.len() {
            found.push(place.leave(node, one));
        }
    }
    found
}
