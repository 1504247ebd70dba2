//! Checks docs/PROMISES.md: every row of its tables cites at least one name, or says after a dash why it cites none, and
//! every name that it cites exists in the crates. Of README.md and all of docs/ it checks that what is cited exists, wherever it
//! stands: names of the crates, files of the repository, and the targets of links.
//!
//! A name is one of
//! - `document.Pairing.paired`: a declaration of specs/ or proofs/ of a crate; `document.Pairing` is a file of them;
//! - `line_receiver::Receiver::take`: a function, a type or a constant of a crate's src/;
//! - `document/must-fail/signs_swapped`: a must-fail edit.

use std::fs;
use std::path::{Path, PathBuf};

fn main() {
    let root = std::env::args().nth(1).unwrap_or_else(|| ".".to_string());
    let root = Path::new(&root);
    let text = match fs::read_to_string(root.join("docs/PROMISES.md")) {
        Ok(text) => text,
        Err(error) => fail(&[format!("docs/PROMISES.md cannot be read: {error}")]),
    };
    let rows = rows(&text);
    let mut faults = Vec::new();
    let mut names = 0;
    for row in &rows {
        if let Some(fault) = row_fault(row) {
            faults.push(fault);
        }
        for name in &row.names {
            names += 1;
            if !exists(&root.join("crates"), name) {
                faults.push(format!("line {}: there is no `{name}` in the crates", row.line));
            }
        }
    }
    if rows.is_empty() {
        faults.push("docs/PROMISES.md has no row".to_string());
    }
    let mut cited = 0;
    let documents = documents(root);
    for document in &documents {
        let text = fs::read_to_string(document).unwrap_or_default();
        let shown = document.strip_prefix(root).unwrap_or(document).display();
        for (line, citation) in citations(&text) {
            match citation_stands(root, document, &citation) {
                Some(true) => cited += 1,
                Some(false) => faults.push(format!("{shown}, line {line}: there is no `{citation}`")),
                None => (),
            }
        }
    }
    if !faults.is_empty() {
        fail(&faults);
    }
    println!("promises: {} rows, {names} names cited, each one there", rows.len());
    println!("promises: {} documents cite {cited} names, files and links, each one there", documents.len());
}

/// README.md and all of docs/.
fn documents(root: &Path) -> Vec<PathBuf> {
    let mut found = vec![root.join("README.md")];
    found.extend(files(&root.join("docs"), "md"));
    found.sort();
    found
}

/// What a document has between backquotes, and behind the round brackets of its links, with the line.
fn citations(text: &str) -> Vec<(usize, String)> {
    let mut found = Vec::new();
    for (index, line) in text.lines().enumerate() {
        found.extend(line.split('`').skip(1).step_by(2).map(|span| (index + 1, span.to_string())));
        let links = line.split("](").skip(1).filter_map(|rest| rest.split_once(')'));
        found.extend(links.map(|(target, _)| (index + 1, format!("]({target})"))));
    }
    found
}

/// Whether what is cited is there; nothing where it is no name, file or link of the repository.
fn citation_stands(root: &Path, document: &Path, citation: &str) -> Option<bool> {
    if let Some(link) = citation.strip_prefix("](").and_then(|rest| rest.strip_suffix(')')) {
        let target = link.split('#').next().unwrap_or("");
        let folder = document.parent().unwrap_or(root);
        return (!target.is_empty() && !target.contains("://")).then(|| folder.join(target).exists());
    }
    if citation.contains(['*', ' ', '[', '(']) {
        return None;
    }
    let crates = root.join("crates");
    let owner = citation.split(['.', ':', '/']).next().unwrap_or("");
    let of_a_crate = !owner.is_empty() && crates.join(owner).is_dir();
    if of_a_crate && (citation.contains("::") || citation.contains("/must-fail/")) {
        return Some(exists(&crates, citation));
    }
    if of_a_crate && citation.contains('.') {
        return Some(exists(&crates, citation) || module_exists(&crates, citation));
    }
    let folders = ["crates/", "tests/", "docs/", "include/", "gate/", "tools/", "second/", "benchmark/"];
    folders.iter().any(|folder| citation.starts_with(folder)).then(|| root.join(citation).exists())
}

/// `document.Pairing`
fn module_exists(crates: &Path, name: &str) -> bool {
    let Some((owner, module)) = name.split_once('.') else {
        return false;
    };
    let file = format!("{module}.antt");
    ["specs", "proofs"].iter().any(|folder| crates.join(owner).join(folder).join(&file).is_file())
}

fn fail(faults: &[String]) -> ! {
    for fault in faults {
        eprintln!("promises: {fault}");
    }
    std::process::exit(1);
}

/// A row of a table: where it stands, what its last cell says, and the names that are cited there.
struct Row {
    line: usize,
    carried: String,
    names: Vec<String>,
}

fn rows(text: &str) -> Vec<Row> {
    let mut found = Vec::new();
    for (index, line) in text.lines().enumerate() {
        let cells: Vec<&str> = line.trim().trim_matches('|').split(" | ").collect();
        let heading = cells.last().is_some_and(|cell| cell.trim() == "Carried by");
        if !line.starts_with('|') || line.starts_with("|---") || heading {
            continue;
        }
        let carried = cells.last().unwrap_or(&"").trim().to_string();
        let names = carried.split('`').skip(1).step_by(2).map(str::to_string).collect();
        found.push(Row { line: index + 1, carried, names });
    }
    found
}

fn row_fault(row: &Row) -> Option<String> {
    if row.names.is_empty() && !row.carried.starts_with("— ") {
        return Some(format!("line {}: a row that cites no name and gives no reason", row.line));
    }
    None
}

fn exists(crates: &Path, name: &str) -> bool {
    if let Some((owner, edit)) = name.split_once("/must-fail/") {
        return crates.join(owner).join("must-fail").join(format!("{edit}.edit")).is_file();
    }
    if let Some((owner, path)) = name.split_once("::") {
        let item = path.rsplit("::").next().unwrap_or(path);
        let declared = |text: &str| text.lines().any(|line| is_function(line, item) || is_type(line, item));
        return files(&crates.join(owner).join("src"), "rt").iter().any(|file| holds(file, &declared));
    }
    let parts: Vec<&str> = name.split('.').collect();
    let [owner, module, item] = parts[..] else {
        return false;
    };
    let declared = |text: &str| text.lines().any(|line| is_declaration(line, item));
    ["specs", "proofs"].iter().any(|folder| {
        let file = crates.join(owner).join(folder).join(format!("{module}.antt"));
        holds(&file, &declared)
    })
}

fn holds(file: &Path, test: &dyn Fn(&str) -> bool) -> bool {
    fs::read_to_string(file).is_ok_and(|text| test(&text))
}

fn files(folder: &Path, ending: &str) -> Vec<PathBuf> {
    let mut found = Vec::new();
    let Ok(entries) = fs::read_dir(folder) else {
        return found;
    };
    for entry in entries.flatten() {
        let path = entry.path();
        if path.is_dir() {
            found.extend(files(&path, ending));
        } else if path.extension().is_some_and(|own| own == ending) {
            found.push(path);
        }
    }
    found
}

/// `fn NAME(` or `fn NAME<`, whatever stands before it.
fn is_function(line: &str, name: &str) -> bool {
    let Some((_, rest)) = line.split_once("fn ") else {
        return false;
    };
    rest.strip_prefix(name).is_some_and(|after| after.starts_with('(') || after.starts_with('<'))
}

/// `struct NAME`, `enum NAME` or `const NAME`.
fn is_type(line: &str, name: &str) -> bool {
    let mut words = line.split([' ', ':', '<', '{', '(', ';']).filter(|word| !word.is_empty());
    words.any(|word| ["struct", "enum", "const"].contains(&word)) && words.next() == Some(name)
}

/// A signature, a data type, a record, a constructor or a field of that name.
fn is_declaration(line: &str, name: &str) -> bool {
    let mut words = line.split_whitespace().peekable();
    while words.next_if(|word| ["unfoldable", "abbrev", "pub", "data", "record"].contains(word)).is_some() {}
    words.next() == Some(name) && words.any(|word| word == ":")
}

#[cfg(test)]
mod tests {
    use super::*;

    #[test]
    fn a_signature_a_type_a_constructor_and_a_field_are_declarations() {
        assert!(is_declaration("unfoldable pub heard : List ℕ → List Message", "heard"));
        assert!(is_declaration("pub record Message : Type 0 where", "Message"));
        assert!(is_declaration("  literal : ℕ → Token", "literal"));
        assert!(is_declaration("  pub command : ℕ", "command"));
    }

    #[test]
    fn a_use_a_clause_and_a_longer_name_are_none() {
        assert!(!is_declaration("heard bs = opened wholeMessage (paired bs)", "heard"));
        assert!(!is_declaration("unfoldable pub heardBy : List ℕ", "heard"));
        assert!(!is_declaration("-- heard : a comment", "heard"));
    }

    #[test]
    fn a_function_is_found_by_its_whole_name() {
        assert!(is_function("    pub fn take(self, byte: u8) -> Taken", "take"));
        assert!(!is_function("    pub fn take_all(self) -> Taken", "take"));
    }

    #[test]
    fn a_type_and_a_constant_are_found_by_their_whole_name() {
        assert!(is_type("pub struct Receiver {", "Receiver"));
        assert!(is_type("pub const STATE_LENGTH: usize = 181;", "STATE_LENGTH"));
        assert!(!is_type("pub struct Receivers {", "Receiver"));
        assert!(!is_type("    receiver: Receiver,", "Receiver"));
    }

    #[test]
    fn backquotes_and_links_are_cited() {
        let found = citations("one\n`a.B.c` and [there](docs/X.md#part), `d`\n");
        let expected = [(2, "a.B.c"), (2, "d"), (2, "](docs/X.md#part)")];
        assert_eq!(found, expected.map(|(line, text)| (line, text.to_string())));
    }

    #[test]
    fn only_what_could_be_there_is_looked_for() {
        let (root, document) = (Path::new("no-such-folder"), Path::new("no-such-folder/README.md"));
        assert_eq!(citation_stands(root, document, "](#part)"), None);
        assert_eq!(citation_stands(root, document, "](docs/X.md)"), Some(false));
        assert_eq!(citation_stands(root, document, "crates/*/must-fail/"), None);
        assert_eq!(citation_stands(root, document, "tests/no_such.c"), Some(false));
        assert_eq!(citation_stands(root, document, "memcpy"), None);
    }

    #[test]
    fn a_row_without_a_name_wants_a_reason() {
        let text = "| Words | Carried by |\n|---|---|\n| a | nothing |\n| b | — not built |\n| c | `x.Y.z` |\n";
        let found = rows(text);
        assert_eq!(found.len(), 3);
        assert!(row_fault(&found[0]).is_some());
        assert!(row_fault(&found[1]).is_none());
        assert_eq!(found[2].names, ["x.Y.z"]);
    }

    #[test]
    fn a_name_that_is_not_there_is_missed() {
        assert!(!exists(Path::new("no-such-folder"), "document.Pairing.paired"));
        assert!(!exists(Path::new("no-such-folder"), "document/must-fail/signs_swapped"));
        assert!(!exists(Path::new("no-such-folder"), "plain"));
    }
}
