//! A change of a definition: what of its text is replaced, and in words.

use crate::clauses::Clause;
use crate::definitions::{Definitions, File};
use crate::tree::Node;

/// Where a rule looks: a clause of a file, among all definitions.
pub struct Place<'a> {
    pub all: &'a Definitions,
    pub file: &'a File,
    pub clause: &'a Clause,
}

pub struct Change {
    pub what: String,
    /// from, to, and what stands there then
    pub edits: Vec<(usize, usize, String)>,
    /// a name that the new text uses, and its module
    pub needs: Option<(String, String)>,
}

/// The longest piece of a definition that is shown of it.
const SHOWN: usize = 60;

impl Place<'_> {
    pub fn text(&self, node: &Node) -> &str {
        &self.file.text[node.from..node.to]
    }

    /// On one line, and not too long.
    pub fn shown(&self, from: usize, to: usize) -> String {
        let flat = self.file.text[from..to].split_whitespace().collect::<Vec<_>>().join(" ");
        match flat.char_indices().nth(SHOWN) {
            Some((end, _)) => flat[..end].to_string() + "..",
            None => flat,
        }
    }

    pub fn put(&self, node: &Node, new: &str) -> Change {
        self.put_at(node.from, node.to, new)
    }

    pub fn put_at(&self, from: usize, to: usize, new: &str) -> Change {
        let new_shown = new.split_whitespace().collect::<Vec<_>>().join(" ");
        let what = format!("`{}` becomes `{new_shown}`", self.shown(from, to));
        Change { what, edits: vec![(from, to, new.to_string())], needs: None }
    }

    /// Of `from..to` only this part is left.
    pub fn leave(&self, node: &Node, part: &Node) -> Change {
        let what = format!("of `{}` only `{}` is left", self.shown(node.from, node.to), self.shown(part.from, part.to));
        Change { what, edits: vec![(node.from, node.to, self.text(part).to_string())], needs: None }
    }

    pub fn drop(&self, part: &Node, from: usize, to: usize) -> Change {
        let what = format!("`{}` is left out", self.shown(part.from, part.to));
        Change { what, edits: vec![(from, to, String::new())], needs: None }
    }

    pub fn exchange(&self, one: &Node, other: &Node) -> Change {
        let what = format!("`{}` and `{}` are exchanged", self.shown(one.from, one.to), self.shown(other.from, other.to));
        let edits = vec![(one.from, one.to, self.text(other).to_string()), (other.from, other.to, self.text(one).to_string())];
        Change { what, edits, needs: None }
    }
}

impl Change {
    pub fn needing(mut self, name: &str, module: &str) -> Change {
        self.needs = Some((name.to_string(), module.to_string()));
        self
    }

    /// The text with this change made.
    pub fn made(&self, text: &str) -> String {
        let mut new = text.to_string();
        let mut edits: Vec<_> = self.edits.iter().collect();
        edits.sort_by_key(|(from, _, _)| std::cmp::Reverse(*from));
        for (from, to, put) in edits {
            new.replace_range(*from..*to, put);
        }
        match &self.needs {
            Some((name, module)) => with_use(&new, name, module),
            None => new,
        }
    }
}

fn with_use(text: &str, name: &str, module: &str) -> String {
    let used = |line: &str| line.split_once(".{").is_some_and(|(_, names)| names.trim_end_matches('}').split(", ").any(|one| one == name));
    if text.lines().any(|line| line.starts_with("use ") && used(line)) {
        return text.to_string();
    }
    let of_module = format!("use {module}.{{");
    match text.find(&of_module) {
        Some(at) => text[..at + of_module.len()].to_string() + name + ", " + &text[at + of_module.len()..],
        None => match text.find("use ") {
            Some(at) => text[..at].to_string() + &format!("{of_module}{name}}}\n") + &text[at..],
            None => text.to_string(),
        },
    }
}

#[cfg(test)]
mod tests {
    use super::*;

    #[test]
    fn edits_are_made_from_behind() {
        let edits = vec![(0, 1, "xyz".to_string()), (2, 3, String::new())];
        assert_eq!(Change { what: String::new(), edits, needs: None }.made("a b c"), "xyz  c");
    }

    #[test]
    fn a_name_that_is_not_used_yet_is() {
        assert_eq!(with_use("use std.Bits.{bit_or}\nx\n", "bit_and", "std.Bits"), "use std.Bits.{bit_and, bit_or}\nx\n");
        assert_eq!(with_use("use std.Bits.{bit_or}\nx\n", "bit_or", "std.Bits"), "use std.Bits.{bit_or}\nx\n");
        assert_eq!(with_use("-- why\nuse a.{b}\n", "take", "std.Lists"), "-- why\nuse std.Lists.{take}\nuse a.{b}\n");
    }
}
