//! The list of the edits that make wrong variants.
//!
//! An edit is what it makes wrong, in words, then indented the file, behind `-`
//! the text that is replaced and behind `+` what replaces it.

/// One changed line.
#[derive(Debug, PartialEq, Eq)]
pub struct Edit {
    pub name: String,
    pub file: String,
    pub old: String,
    pub new: String,
}

/// Every edit of a list; blank lines and lines that begin with `#` are skipped.
pub fn read(list: &str) -> Result<Vec<Edit>, String> {
    let kept = |line: &&str| !line.trim().is_empty() && !line.starts_with('#');
    let lines: Vec<&str> = list.lines().filter(kept).collect();
    let edits: Vec<Edit> = lines.chunks(4).map(edit).collect::<Result<_, _>>()?;
    for (index, edit) in edits.iter().enumerate() {
        if edits[..index].iter().any(|before| before.name == edit.name) {
            return Err(format!("two edits are named `{}`", edit.name));
        }
    }
    Ok(edits)
}

fn edit(lines: &[&str]) -> Result<Edit, String> {
    let wrong = || format!("no edit begins with `{}`", lines[0]);
    let [name, file, old, new] = lines else {
        return Err(wrong());
    };
    let part = |line: &str, sign: &str| {
        let text = line.trim().strip_prefix(sign).ok_or_else(wrong)?;
        Ok::<String, String>(text.trim().to_string())
    };
    if name.starts_with(' ') || !file.starts_with(' ') {
        return Err(wrong());
    }
    Ok(Edit {
        name: name.trim().to_string(),
        file: file.trim().to_string(),
        old: part(old, "-")?,
        new: part(new, "+")?,
    })
}

impl Edit {
    /// The text with the edit made, which must find its old text just once.
    pub fn apply(&self, text: &str) -> Result<String, String> {
        match text.matches(&self.old).count() {
            1 => Ok(text.replacen(&self.old, &self.new, 1)),
            count => Err(format!(
                "{}: `{}` stands {count} times in {}",
                self.name, self.old, self.file
            )),
        }
    }
}

#[cfg(test)]
mod tests {
    use super::*;

    const LIST: &str = "# why\n\none is two\n    a.rs\n    - = 1;\n    + = 2;\n";

    #[test]
    fn reads_and_applies() {
        let edits = read(LIST).unwrap();
        assert_eq!(edits.len(), 1);
        assert_eq!(edits[0].name, "one is two");
        assert_eq!(
            edits[0].apply("let x = 1;\n"),
            Ok("let x = 2;\n".to_string())
        );
    }

    #[test]
    fn the_old_text_stands_just_once() {
        let edits = read(LIST).unwrap();
        assert!(edits[0].apply("let x = 3;").is_err());
        assert!(edits[0].apply("let x = 1; let y = 1;").is_err());
    }

    /// An edit that the sources have outgrown shows before it is built.
    #[test]
    fn every_edit_of_the_list_can_be_made() {
        for edit in read(include_str!("../../wrong.txt")).unwrap() {
            let file = format!("{}/src/{}", env!("CARGO_MANIFEST_DIR"), edit.file);
            let text = std::fs::read_to_string(file).unwrap();
            assert_ne!(edit.apply(&text).unwrap(), text, "{}", edit.name);
        }
    }

    #[test]
    fn lists_that_are_none() {
        assert!(read("one\n    a.rs\n    - x\n").is_err());
        assert!(read("one\n    a.rs\n    x\n    + y\n").is_err());
        assert!(read("one\na.rs\n    - x\n    + y\n").is_err());
        assert!(read(&LIST.repeat(2)).is_err());
    }
}
