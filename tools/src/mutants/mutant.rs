//! All mutants: wrong definitions, each with one change.

use crate::change::{Change, Place};
use crate::clauses::{clauses, Clause};
use crate::definitions::{Definitions, File};
use crate::rules::changes;
use crate::tree::Kind;
use std::collections::{BTreeMap, BTreeSet};

#[derive(Clone)]
pub struct Mutant {
    pub file: String,
    pub definition: String,
    /// `File.definition: what`, with a number where the same can be done at several places of a definition
    pub name: String,
    /// the whole file, with the change made
    pub text: String,
}

pub fn mutants(all: &Definitions) -> Vec<Mutant> {
    all.files.iter().flat_map(|file| mutants_of(all, file)).collect()
}

/// Definitions with a clause that is not understood, so that no rule can change it.
pub fn not_understood(all: &Definitions) -> Vec<String> {
    let mut found = Vec::new();
    for file in &all.files {
        let unread = clauses(all, file).into_iter().filter(|clause| clause.bodies.is_empty());
        found.extend(unread.map(|clause| format!("{}.{}", file.name, clause.definition)));
    }
    found
}

fn mutants_of(all: &Definitions, file: &File) -> Vec<Mutant> {
    let clauses = clauses(all, file);
    let mut texts = BTreeSet::from([file.text.clone()]);
    let mut times: BTreeMap<String, usize> = BTreeMap::new();
    let mut found = Vec::new();
    for (at, clause) in clauses.iter().enumerate() {
        let place = Place { all, file, clause };
        for change in changes_of(&place, clauses.get(at + 1)) {
            let text = change.made(&file.text);
            if !texts.insert(text.clone()) {
                continue;
            }
            let name = format!("{}.{}: {}", file.name, clause.definition, change.what);
            let number = times.entry(name.clone()).and_modify(|number| *number += 1).or_insert(1);
            let name = if *number > 1 { format!("{name} ({number})") } else { name };
            found.push(Mutant { file: file.name.clone(), definition: clause.definition.clone(), name, text });
        }
    }
    found
}

fn changes_of(place: &Place, next: Option<&Clause>) -> Vec<Change> {
    let mut found = Vec::new();
    for body in &place.clause.bodies {
        for node in body.all() {
            found.extend(changes(place, node));
        }
    }
    found.extend(next.and_then(|next| bodies_exchanged(place, next)));
    found
}

/// Two clauses of a definition, where each binds what the other says.
fn bodies_exchanged(place: &Place, next: &Clause) -> Option<Change> {
    let (one, other) = (place.clause, next);
    let says_only = |from: &Clause, to: &Clause| {
        let words = from.bodies[0].all();
        let bound = words.iter().filter(|node| matches!(&node.kind, Kind::Word(word) if from.bound.contains_key(word)));
        bound.clone().all(|node| node.word().is_some_and(|word| to.bound.contains_key(word)))
    };
    let is_alike = one.definition == other.definition && !one.bodies.is_empty() && !other.bodies.is_empty();
    (is_alike && says_only(one, other) && says_only(other, one)).then(|| place.exchange(&one.bodies[0], &other.bodies[0]))
}

#[cfg(test)]
mod tests {
    use super::*;

    fn of(text: &str) -> Vec<String> {
        let all = Definitions::of(vec![File { name: "Tiny".to_string(), text: text.to_string() }]);
        let base = text.to_string();
        let shown = |mutant: Mutant| {
            assert_ne!(mutant.text, base);
            mutant.name.strip_prefix("Tiny.").unwrap_or("").to_string()
        };
        mutants(&all).into_iter().map(shown).collect()
    }

    fn expect(text: &str, due: &[&str]) {
        let found = of(text);
        for one in due {
            assert!(found.iter().any(|name| name == one), "{one} is not among {found:#?}");
        }
    }

    #[test]
    fn numbers_signs_and_comparisons() {
        let text = "abbrev pub f : ℕ → ℕ → Bool\nf a b = ltb (a + b) 64 && eqb b 0x0F\n";
        let due = [
            "f: `64` becomes `65`",
            "f: `64` becomes `63`",
            "f: `0x0F` becomes `0x10`",
            "f: `+` becomes `-` in `a + b`",
            "f: `&&` becomes `||` in `ltb (a + b) 64 && eqb b 0x0F`",
            "f: `ltb` becomes `leb` in `ltb (a + b) 64`",
            "f: `eqb b 0x0F` becomes `leb 0x0F b`",
            "f: `eqb b 0x0F` is left out",
            "f: `ltb (a + b) 64` is left out",
            "f: `(a + b)` and `64` are exchanged",
            "f: `a` becomes `b`",
            "f: `b` becomes `a` (2)",
        ];
        expect(text, &due);
    }

    #[test]
    fn conditions_and_calls() {
        let text = "abbrev pub f : ℕ → ℕ\nf a = cond (not (g a)) (suc a) 0\n";
        let due = [
            "f: `(suc a)` and `0` are exchanged",
            "f: of `cond (not (g a)) (suc a) 0` only `0` is left",
            "f: of `not (g a)` only `(g a)` is left",
            "f: of `suc a` only `a` is left",
        ];
        expect(text, &due);
    }

    const BOX: &str = "pub record Box : Type 0 where\n  pub width : ℕ\n  pub height : ℕ\n\n";

    #[test]
    fn records_and_their_fields() {
        let text = format!("{BOX}abbrev pub wider : Box → ℕ → Box\nwider b n = record {{ width = n; height = b.height }}\n");
        let due = [
            "wider: `n` and `b.height` are exchanged",
            "wider: field `width` stays that of `b`",
            "wider: field `height` of Box is `0`",
            "wider: `b.height` becomes `.width`",
        ];
        expect(&text, &due);
    }

    #[test]
    fn names_of_the_same_type_that_say_something_else() {
        let numbers = "abbrev pub one : ℕ\none = 1\n\nabbrev pub uno : ℕ\nuno = 1\n\nabbrev pub two : ℕ\ntwo = 2\n\n";
        let text = &format!("{numbers}abbrev pub f : ℕ → ℕ\nf a = one\n");
        let found = of(text);
        assert!(found.contains(&"f: `one` becomes `two`".to_string()));
        assert!(!found.iter().any(|name| name.contains("`uno`")));
    }

    #[test]
    fn lists_constructors_and_clauses() {
        let kinds = "pub data Kind : Type 0 where\n  fast : Kind\n  slow : Kind\n  sized : ℕ → Kind\n\nabbrev pub k : Kind\nk = fast\n\n";
        let clauses = "abbrev pub f : Kind → List ℕ\nf fast = 1 ∷ 2 ∷ []\nf slow = []\nf (sized n) = n ∷ []\n";
        let text = &(kinds.to_string() + clauses);
        let due = ["f: `1` and `2` are exchanged", "f: `2` is left out", "k: `fast` becomes `slow`", "f: `1 ∷ 2 ∷ []` and `[]` are exchanged"];
        expect(text, &due);
        assert!(!of(text).iter().any(|name| name.contains("`[]` and `n ∷ []`")));
    }

    #[test]
    fn a_clause_that_cannot_be_read_is_told() {
        let file = File { name: "Tiny".to_string(), text: "abbrev pub f : ℕ\nf = (1 +\n\nabbrev pub g : ℕ\ng = 1\n".to_string() };
        assert_eq!(not_understood(&Definitions::of(vec![file])), ["Tiny.f"]);
    }

    #[test]
    fn no_two_have_the_same_name() {
        let found = of("abbrev pub f : ℕ → ℕ\nf a = a + a + a * 2 + 2\n");
        let names: BTreeSet<&String> = found.iter().collect();
        assert_eq!(names.len(), found.len());
    }
}
