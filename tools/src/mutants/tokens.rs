//! The words of a definition's text, and where each stands. Comments are none.

#[derive(Clone, Debug, PartialEq)]
pub struct Token {
    pub text: String,
    pub from: usize,
    pub to: usize,
}

/// Of the part of a text that begins at `from` and ends before `to`.
pub fn tokens(text: &str, from: usize, to: usize) -> Vec<Token> {
    let mut found = Vec::new();
    let mut at = from;
    while let Some(first) = text[at..to].chars().next() {
        let length = length_of_first(&text[at..to]);
        let word = &text[at..at + length];
        if !first.is_whitespace() && !word.starts_with("--") {
            found.push(Token { text: word.to_string(), from: at, to: at + length });
        }
        at += length;
    }
    found
}

fn length_of_first(rest: &str) -> usize {
    let mut chars = rest.chars();
    let (first, second) = (chars.next().unwrap_or(' '), chars.next().unwrap_or(' '));
    if rest.starts_with("--") {
        return rest.find('\n').unwrap_or(rest.len());
    }
    if first == '"' {
        return rest[1..].find('"').map_or(rest.len(), |end| end + 2);
    }
    if is_of_word(first) || first == '.' && second.is_alphabetic() {
        let behind = &rest[first.len_utf8()..];
        return first.len_utf8() + behind.find(|c| !is_of_word(c)).unwrap_or(behind.len());
    }
    let pair = ["++", "&&", "||", "[]"].into_iter().find(|pair| rest.starts_with(pair));
    pair.map_or(first.len_utf8(), str::len)
}

pub fn is_of_word(c: char) -> bool {
    c.is_alphanumeric() && c != 'λ' || "_'·".contains(c)
}

pub fn is_number(word: &str) -> bool {
    word.starts_with(|c: char| c.is_ascii_digit())
}

/// A name, not a number nor a sign.
pub fn is_name(word: &str) -> bool {
    word.starts_with(is_of_word) && !is_number(word)
}

#[cfg(test)]
mod tests {
    use super::*;

    fn words(text: &str) -> Vec<String> {
        tokens(text, 0, text.len()).into_iter().map(|token| token.text).collect()
    }

    #[test]
    fn names_numbers_signs_and_fields() {
        assert_eq!(words("f g = 0x2B ∷ g.memory ++ []"), ["f", "g", "=", "0x2B", "∷", "g", ".memory", "++", "[]"]);
        assert_eq!(words("(λ a. record { x = a; })"), ["(", "λ", "a", ".", "record", "{", "x", "=", "a", ";", "}", ")"]);
    }

    #[test]
    fn comments_are_passed_over() {
        assert_eq!(words("a -- b c\n  - 1"), ["a", "-", "1"]);
    }

    #[test]
    fn places_are_those_of_the_text() {
        let text = "x = ℕ + 12";
        let last = tokens(text, 4, text.len()).pop().unwrap();
        assert_eq!(&text[last.from..last.to], "12");
    }
}
