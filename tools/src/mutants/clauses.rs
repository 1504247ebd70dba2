//! The clauses of a file's definitions: what each takes, by name and type, and what it is, as trees.

use crate::definitions::{element_of, items, Definitions, File};
use crate::tokens::{is_name, tokens, Token};
use crate::tree::{parse, Kind, Node};
use std::collections::BTreeMap;

pub struct Clause {
    pub definition: String,
    /// the names in its patterns, with their types
    pub bound: BTreeMap<String, String>,
    /// what stands behind its `=`, and that of a definition of its own behind `where`
    pub bodies: Vec<Node>,
}

pub fn clauses(all: &Definitions, file: &File) -> Vec<Clause> {
    let found = items(&file.text).into_iter();
    found.filter_map(|(from, to)| clause(all, file, &tokens(&file.text, from, to))).collect()
}

fn clause(all: &Definitions, file: &File, item: &[Token]) -> Option<Clause> {
    let definition = item.first().filter(|token| is_name(&token.text))?.text.clone();
    if ["use", "pub", "abbrev", "unfoldable", "unfolding", "mod"].contains(&definition.as_str()) {
        return None;
    }
    let equals = item.iter().position(|token| token.text == "=")?;
    let (body, own) = match item.iter().position(|token| token.text == "where") {
        Some(at) => (&item[equals + 1..at], own_body(&item[at + 1..])),
        None => (&item[equals + 1..], None),
    };
    let types = all.types_of(file, &definition);
    let bodies = [parse(body), own].into_iter().flatten().collect();
    Some(Clause { definition, bound: bound_by(all, &item[..equals], &types), bodies })
}

/// A definition behind `where` has its signature before it.
fn own_body(item: &[Token]) -> Option<Node> {
    let equals = item.iter().position(|token| token.text == "=")?;
    parse(&item[equals + 1..])
}

fn bound_by(all: &Definitions, head: &[Token], types: &[String]) -> BTreeMap<String, String> {
    let mut bound = BTreeMap::new();
    if let Some(Node { kind: Kind::Call(parts), .. }) = parse(head) {
        for (pattern, kind) in parts.iter().skip(1).zip(types) {
            bind(all, pattern, kind, &mut bound);
        }
    }
    bound
}

fn bind(all: &Definitions, pattern: &Node, kind: &str, bound: &mut BTreeMap<String, String>) {
    let is_constructor = |word: &str| all.constructors.iter().any(|one| one.name == word);
    match &pattern.kind {
        Kind::Group(inner) => bind(all, inner, kind, bound),
        Kind::Word(word) if is_name(word) && word != "zero" && !is_constructor(word) && !word.starts_with(char::is_uppercase) => {
            bound.insert(word.clone(), kind.to_string());
        }
        Kind::Chain(parts, _) => {
            let Some((last, before)) = parts.split_last() else { return };
            let element = element_of(kind).unwrap_or("?");
            before.iter().for_each(|part| bind(all, part, element, bound));
            bind(all, last, kind, bound);
        }
        Kind::Call(parts) => {
            let name = parts[0].word().unwrap_or("");
            let types = match all.constructors.iter().find(|one| one.name == name) {
                Some(constructor) => constructor.types.clone(),
                None => vec!["ℕ".to_string()],
            };
            parts[1..].iter().zip(&types).for_each(|(part, kind)| bind(all, part, kind, bound));
        }
        _ => (),
    }
}

#[cfg(test)]
mod tests {
    use super::*;

    fn bound(text: &str) -> Vec<(String, String)> {
        let all = Definitions::of(vec![File { name: "Tiny".to_string(), text: text.to_string() }]);
        let found = clauses(&all, &all.files[0]);
        found.last().map(|clause| clause.bound.clone().into_iter().collect()).unwrap_or_default()
    }

    fn pairs(some: &[(&str, &str)]) -> Vec<(String, String)> {
        some.iter().map(|(name, kind)| (name.to_string(), kind.to_string())).collect()
    }

    #[test]
    fn plain_names_have_the_types_of_the_signature() {
        assert_eq!(bound("abbrev pub f : Gate → ℕ → Bool\nf g n = true\n"), pairs(&[("g", "Gate"), ("n", "ℕ")]));
    }

    #[test]
    fn patterns_are_taken_apart() {
        let list = bound("abbrev pub f : List ℕ → ℕ → ℕ\nf (a ∷ (b ∷ bs)) (suc n) = n\n");
        assert_eq!(list, pairs(&[("a", "ℕ"), ("b", "ℕ"), ("bs", "List ℕ"), ("n", "ℕ")]));
        let asides = "pub data Aside : Type 0 where\n  tick : Aside\n  writes : ℕ → List ℕ → Aside\n\n".to_string();
        let text = asides + "abbrev pub f : Aside → ℕ\nf tick = 0\nf (writes a bytes) = a\n";
        assert_eq!(bound(&text), pairs(&[("a", "ℕ"), ("bytes", "List ℕ")]));
    }

    #[test]
    fn a_definition_behind_where_is_a_body_too() {
        let text = "abbrev pub f : ℕ → Bool\nf s = is_in s some\n  where\n    some : List ℕ\n    some = 1 ∷ []\n";
        let all = Definitions::of(vec![File { name: "Tiny".to_string(), text: text.to_string() }]);
        assert_eq!(clauses(&all, &all.files[0])[0].bodies.len(), 2);
    }
}
