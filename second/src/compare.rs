//! Compares two outputs line by line.

use std::io::{self, BufRead};

/// What the comparison found.
#[derive(Debug, PartialEq, Eq)]
pub enum Found {
    Same { lines: u64 },
    Different(Difference),
}

/// The first line that differs; nothing where an output has no such line.
#[derive(Debug, PartialEq, Eq)]
pub struct Difference {
    pub line: u64,
    pub first: Option<Vec<u8>>,
    pub second: Option<Vec<u8>>,
}

/// Byte for byte: an end of line that is missing counts as well.
pub fn compare(first: &mut impl BufRead, second: &mut impl BufRead) -> io::Result<Found> {
    let mut lines = 0;
    loop {
        let (one, other) = (next_line(first)?, next_line(second)?);
        if one != other {
            return Ok(Found::Different(Difference {
                line: lines + 1,
                first: one,
                second: other,
            }));
        }
        if one.is_none() {
            return Ok(Found::Same { lines });
        }
        lines += 1;
    }
}

fn next_line(from: &mut impl BufRead) -> io::Result<Option<Vec<u8>>> {
    let mut line = Vec::new();
    let length = from.read_until(b'\n', &mut line)?;
    Ok((length > 0).then_some(line))
}

impl Difference {
    /// The two lines, and the first word in which they differ.
    pub fn tell(&self, names: [&str; 2]) -> String {
        let (one, other) = (shown(&self.first), shown(&self.second));
        let words = one.split(' ').zip(other.split(' '));
        let alike = words.take_while(|(a, b)| a == b).count();
        let [first, second] = names;
        format!(
            "different in line {}, from word {} on\n{first}: {}\n{second}: {}",
            self.line,
            alike + 1,
            excerpt(&one, alike),
            excerpt(&other, alike),
        )
    }
}

fn shown(line: &Option<Vec<u8>>) -> String {
    match line {
        None => "(no such line)".to_string(),
        Some(bytes) => match bytes.strip_suffix(b"\n") {
            Some(bytes) => String::from_utf8_lossy(bytes).into_owned(),
            None => format!("{} (no end of line)", String::from_utf8_lossy(bytes)),
        },
    }
}

/// A short line whole; of a long one its beginning and the words around the
/// one that differs.
fn excerpt(line: &str, differs: usize) -> String {
    let words: Vec<&str> = line.split(' ').collect();
    if words.len() <= 80 {
        return line.to_string();
    }
    let from = differs.saturating_sub(8).max(3).min(words.len());
    let to = (differs + 24).min(words.len());
    let beginning = words[..3].join(" ");
    format!("{beginning} .. {} ..", words[from..to.max(from)].join(" "))
}

#[cfg(test)]
mod tests {
    use super::*;

    fn compared(one: &str, other: &str) -> Found {
        compare(&mut one.as_bytes(), &mut other.as_bytes()).unwrap()
    }

    #[test]
    fn counts_the_same_lines() {
        assert_eq!(compared("A 1\nD\n", "A 1\nD\n"), Found::Same { lines: 2 });
    }

    #[test]
    fn finds_the_first_difference() {
        let Found::Different(found) = compared("A\nM 0 01 02\nD\n", "A\nM 0 01 03\nD\n") else {
            panic!("they differ");
        };
        let told = "different in line 2, from word 4 on\na: M 0 01 02\nb: M 0 01 03";
        assert_eq!(found.tell(["a", "b"]), told);
    }

    #[test]
    fn a_missing_line_or_end_counts() {
        assert!(matches!(compared("A\n", "A\nD\n"), Found::Different(_)));
        assert!(matches!(compared("A\n", "A"), Found::Different(_)));
    }
}
