//! The list of survivors that are known: each with the reason why it is no other definition.

use std::collections::BTreeMap;

/// The name of a mutant at the beginning of a line, and its reason on the lines behind it, which are indented.
pub fn read(text: &str) -> Result<BTreeMap<String, String>, String> {
    let mut found: BTreeMap<String, String> = BTreeMap::new();
    let mut last: Option<String> = None;
    for line in text.lines().filter(|line| !line.trim().is_empty() && !line.starts_with('#')) {
        if !line.starts_with(' ') {
            if found.insert(line.to_string(), String::new()).is_some() {
                return Err(format!("'{line}' is listed twice"));
            }
            last = Some(line.to_string());
        } else if let Some(reason) = last.as_ref().and_then(|name| found.get_mut(name)) {
            *reason += line.trim();
        } else {
            return Err("a reason stands before any mutant".to_string());
        }
    }
    match found.iter().find(|(_, reason)| reason.is_empty()) {
        Some((name, _)) => Err(format!("'{name}' has no reason")),
        None => Ok(found),
    }
}

#[cfg(test)]
mod tests {
    use super::*;

    #[test]
    fn names_with_their_reasons() {
        let found = read("# why\n\nA.f: x\n    the same\nB.g: y\n    also\n    the same\n").unwrap();
        assert_eq!(found["A.f: x"], "the same");
        assert_eq!(found.len(), 2);
    }

    #[test]
    fn a_reason_for_each_and_each_once() {
        assert!(read("A.f: x\n").is_err());
        assert!(read("    the same\n").is_err());
        assert!(read("A.f: x\n    a\nA.f: x\n    b\n").is_err());
    }
}
