//! What the definition files declare: types of definitions, constructors and fields.

use crate::tokens::{tokens, Token};

/// Where the library's numbers, truths and lists are to be had.
pub const PRELUDE: &str = "Rattle.std.specs.Prelude";

pub struct File {
    pub name: String,
    pub text: String,
}

/// A definition or a constructor: what it takes and, at the end, what it gives.
#[derive(Clone, Debug, PartialEq)]
pub struct Declared {
    pub file: String,
    pub name: String,
    pub types: Vec<String>,
}

#[derive(Debug, PartialEq)]
pub struct Field {
    pub record: String,
    pub name: String,
    pub kind: String,
}

pub struct Definitions {
    pub files: Vec<File>,
    pub declared: Vec<Declared>,
    pub constructors: Vec<Declared>,
    pub fields: Vec<Field>,
}

/// The parts of a text that begin in its first column, each up to the next.
pub fn items(text: &str) -> Vec<(usize, usize)> {
    let mut starts = Vec::new();
    let mut at = 0;
    for line in text.split_inclusive('\n') {
        if !line.starts_with(char::is_whitespace) {
            starts.push(at);
        }
        at += line.len();
    }
    let ends = starts.iter().skip(1).copied().chain([text.len()]);
    starts.iter().copied().zip(ends).collect()
}

/// The types between the arrows of a signature; what stands in braces is none of them.
pub fn types_of(signature: &[Token]) -> Vec<String> {
    let mut types = vec![String::new()];
    let mut depth = 0;
    for token in signature {
        match token.text.as_str() {
            "→" if depth == 0 => types.push(String::new()),
            word => {
                depth += i32::from(word == "(" || word == "{") - i32::from(word == ")" || word == "}");
                let last = types.last_mut().expect("there is a first");
                *last += if last.is_empty() { "" } else { " " };
                *last += word;
            }
        }
    }
    types.into_iter().filter(|kind| !kind.starts_with('{')).collect()
}

/// What `List X` is a list of.
pub fn element_of(kind: &str) -> Option<&str> {
    let of = kind.strip_prefix("List ")?;
    Some(of.strip_prefix("( ").and_then(|inner| inner.strip_suffix(" )")).unwrap_or(of))
}

impl Definitions {
    pub fn of(files: Vec<File>) -> Definitions {
        let mut all = Definitions { files: Vec::new(), declared: Vec::new(), constructors: Vec::new(), fields: Vec::new() };
        for file in &files {
            for (from, to) in items(&file.text) {
                all.declare(&file.name, &tokens(&file.text, from, to), &file.text[from..to]);
            }
        }
        all.files = files;
        all
    }

    fn declare(&mut self, file: &str, item: &[Token], text: &str) {
        let words: Vec<&str> = item.iter().map(|token| token.text.as_str()).collect();
        let named = words.iter().take_while(|word| ["abbrev", "unfoldable", "pub"].contains(word)).count();
        match words[named..] {
            ["record", name, ..] => self.declare_lines(file, name, text, true),
            ["data", name, ..] => self.declare_lines(file, name, text, false),
            [name, ":", ..] if named > 0 => self.declared.push(Declared {
                file: file.to_string(),
                name: name.to_string(),
                types: types_of(&item[named + 2..]),
            }),
            _ => (),
        }
    }

    /// The fields of a record, or the constructors of a data type, a line each.
    fn declare_lines(&mut self, file: &str, owner: &str, text: &str, is_record: bool) {
        for line in text.lines().skip(1) {
            let words = tokens(line, 0, line.len());
            let begin = usize::from(words.first().is_some_and(|token| token.text == "pub"));
            let [name, colon, signature @ ..] = &words[begin.min(words.len())..] else { continue };
            if colon.text != ":" {
                continue;
            }
            let (name, types) = (name.text.clone(), types_of(signature));
            if is_record {
                self.fields.push(Field { record: owner.to_string(), name, kind: types.join(" → ") });
            } else {
                self.constructors.push(Declared { file: file.to_string(), name, types });
            }
        }
    }

    /// The definition of this name that a file means: its own, or one of a file that it uses it of.
    pub fn meant(&self, file: &File, name: &str) -> Option<&Declared> {
        let own = self.declared.iter().find(|one| one.name == name && one.file == file.name);
        own.or_else(|| self.declared.iter().find(|one| one.name == name && uses(&file.text, &one.file, name)))
    }

    /// What the function of this name takes and gives.
    pub fn types_of(&self, file: &File, name: &str) -> Vec<String> {
        let constructor = || self.constructors.iter().find(|one| one.name == name);
        let found = self.meant(file, name).or_else(constructor);
        found.map_or_else(|| library_types(name), |one| one.types.clone())
    }

    /// The type of a field of a record.
    pub fn field(&self, record: &str, name: &str) -> Option<&str> {
        let found = self.fields.iter().find(|field| field.record == record && field.name == name);
        found.map(|field| field.kind.as_str())
    }

    /// The name of the next field of the same record and type; its own where it has no other.
    pub fn next_field(&self, field: &Field) -> &str {
        let kin: Vec<&Field> = self.fields.iter().filter(|one| one.record == field.record && one.kind == field.kind).collect();
        let at = kin.iter().position(|one| one.name == field.name).unwrap_or(0);
        &kin[(at + 1) % kin.len()].name
    }
}

/// Whether a text takes this name from that file of definitions.
fn uses(text: &str, from: &str, name: &str) -> bool {
    let module = format!(".specs.{from}.{{");
    text.lines().filter(|line| line.starts_with("use ")).filter_map(|line| line.split_once(&module)).any(|(_, rest)| {
        rest.trim_end_matches('}').split(", ").any(|used| used == name)
    })
}

/// Of the library's functions whose arguments can be exchanged.
fn library_types(name: &str) -> Vec<String> {
    let types: &[&str] = match name {
        "ltb" | "leb" => &["ℕ", "ℕ", "Bool"],
        "lt_z" | "le_z" => &["ℤ", "ℤ", "Bool"],
        "get_or" => &["List ℕ", "ℕ", "ℕ", "ℕ"],
        "replicate" => &["ℕ", "ℕ", "List ℕ"],
        "sets" => &["List ℕ", "ℕ", "List ℕ", "List ℕ"],
        "take" | "drop" => &["ℕ", "List ℕ", "List ℕ"],
        _ => &[],
    };
    types.iter().map(|kind| kind.to_string()).collect()
}

#[cfg(test)]
mod tests {
    use super::*;

    fn one(text: &str) -> Definitions {
        Definitions::of(vec![File { name: "Tiny".to_string(), text: text.to_string() }])
    }

    #[test]
    fn signatures_are_read() {
        let all = one("abbrev pub opened : {A : Type 0} → (List ℕ → List A) → List (Placed A)\nopened f = f []\n");
        assert_eq!(all.declared.len(), 1);
        assert_eq!(all.declared[0].types, ["( List ℕ → List A )", "List ( Placed A )"]);
        assert_eq!(element_of("List ( Placed A )"), Some("Placed A"));
        assert_eq!(element_of("ℕ"), None);
    }

    #[test]
    fn fields_and_constructors_are_read() {
        let record = "pub record Box : Type 0 where\n  -- why : here\n  pub width : ℕ\n\n".to_string();
        let all = one(&(record + "pub data Aside : Type 0 where\n  tick : Aside\n  writes : ℕ → Aside\n"));
        assert_eq!(all.field("Box", "width"), Some("ℕ"));
        assert_eq!(all.fields.len(), 1);
        let names: Vec<&str> = all.constructors.iter().map(|one| one.name.as_str()).collect();
        assert_eq!(names, ["tick", "writes"]);
        assert_eq!(all.constructors[1].types, ["ℕ", "Aside"]);
    }

    #[test]
    fn a_name_is_its_own_files_or_one_that_is_used() {
        let file = |name: &str, text: &str| File { name: name.to_string(), text: text.to_string() };
        let far = file("Far", "abbrev pub done : ℕ\ndone = 0\n\nabbrev pub busy : ℕ\nbusy = 1\n");
        let near = file("Near", "use Rattle.x.specs.Far.{done}\nabbrev pub f : ℕ\nf = done\n");
        let all = Definitions::of(vec![far, near]);
        assert_eq!(all.meant(&all.files[1], "done").map(|one| one.file.as_str()), Some("Far"));
        assert!(all.meant(&all.files[1], "f").is_some());
        assert!(all.meant(&all.files[1], "busy").is_none());
    }
}
