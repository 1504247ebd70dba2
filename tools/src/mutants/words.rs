//! The words behind the tool's name.

use std::time::{SystemTime, UNIX_EPOCH};

const USUAL: usize = 50;

#[derive(Debug, PartialEq)]
pub struct Words {
    /// nothing for all
    pub count: Option<usize>,
    pub seed: u64,
    /// none for all
    pub files: Vec<String>,
}

impl Words {
    pub fn read(words: &[String]) -> Result<Words, String> {
        let mut found = Words { count: Some(USUAL), seed: fresh_seed(), files: Vec::new() };
        let mut words = words.iter().peekable();
        if let Some(word) = words.next_if(|word| *word == "all" || word.starts_with(|c: char| c.is_ascii_digit())) {
            found.count = if word == "all" { None } else { Some(number(word)? as usize) };
        }
        while let Some(word) = words.next() {
            match word.strip_prefix("--") {
                Some("seed") => found.seed = number(words.next().map_or("", |seed| seed))?,
                Some(_) => return Err(format!("it does not know the word '{word}'")),
                None => found.files.push(word.trim_end_matches(".antt").to_string()),
            }
        }
        Ok(found)
    }
}

fn number(word: &str) -> Result<u64, String> {
    word.parse().map_err(|_| format!("'{word}' is no number"))
}

fn fresh_seed() -> u64 {
    SystemTime::now().duration_since(UNIX_EPOCH).map_or(1, |since| since.as_millis() as u64 % 1_000_000)
}

#[cfg(test)]
mod tests {
    use super::*;

    fn read(words: &str) -> Result<Words, String> {
        Words::read(&words.split_whitespace().map(str::to_string).collect::<Vec<_>>())
    }

    #[test]
    fn a_number_a_seed_and_files() {
        let due = Words { count: Some(7), seed: 3, files: vec!["Gate".to_string(), "Run".to_string()] };
        assert_eq!(read("7 --seed 3 Gate Run.antt"), Ok(due));
        assert_eq!(read("all --seed 3").map(|words| words.count), Ok(None));
        assert_eq!(read("Gate").map(|words| words.count), Ok(Some(USUAL)));
    }

    #[test]
    fn other_words_are_refused() {
        assert!(read("--fast").is_err());
        assert!(read("7 --seed").is_err());
        assert!(read("7x").is_err());
    }
}
