//! The line: wire bytes paired into tokens, and literals put back on the wire.
//!
//! Nothing here remembers where in a message it stands. What a byte means is
//! found by reading the list of bytes again, by the pairing rule.

/// The byte that is doubled inside a message and single before one.
pub const START: u8 = 0x2B;

/// What the pairing makes of the wire bytes.
#[derive(Clone, Copy, Debug, PartialEq, Eq)]
pub enum Token {
    Start,
    Literal(u8),
}

/// A list of bytes, paired: each token with the index of its first wire byte.
pub struct Paired {
    pub tokens: Vec<(usize, Token)>,
    /// "A last 0x2B without a follower waits."
    pub waits: bool,
}

/// "Bytes since reset are paired from the left."
pub fn pair(bytes: &[u8]) -> Paired {
    let mut tokens = Vec::with_capacity(bytes.len());
    let mut at = 0;
    while at < bytes.len() {
        match (bytes[at], bytes.get(at + 1)) {
            (START, None) => {
                return Paired {
                    tokens,
                    waits: true,
                }
            }
            (START, Some(&START)) => tokens.push((at, Token::Literal(START))),
            (START, Some(&other)) => {
                // "a start, and that other byte is a literal"
                tokens.push((at, Token::Start));
                tokens.push((at + 1, Token::Literal(other)));
            }
            (other, _) => tokens.push((at, Token::Literal(other))),
        }
        at += if bytes[at] == START { 2 } else { 1 };
    }
    Paired {
        tokens,
        waits: false,
    }
}

/// How many literals a message has in all, as far as its first ones tell.
///
/// Command messages and answers differ in this rule and in nothing else.
pub trait Length {
    fn length(&self, literals: &[u8]) -> Option<usize>;
}

/// The place of the last start and the literals behind it: "A start drops any
/// unfinished message", so nothing before it can count.
fn since_last_start(tokens: &[(usize, Token)]) -> Option<(usize, Vec<u8>)> {
    let start = tokens.iter().rposition(|(_, t)| *t == Token::Start)?;
    let literals = tokens[start + 1..].iter().map(|(_, token)| match token {
        Token::Literal(value) => *value,
        Token::Start => unreachable!("the last start has no start behind it"),
    });
    Some((tokens[start].0, literals.collect()))
}

/// The literals of the message that the last byte of the list finishes, if it
/// finishes one. A message that is over has too many literals behind its
/// start, one with a waiting 0x2B did not end with this byte: the answer thus
/// comes "with the sum byte's last wire byte, once".
pub fn finished(bytes: &[u8], rule: &impl Length) -> Option<Vec<u8>> {
    let paired = pair(bytes);
    if paired.waits {
        return None;
    }
    let (_, literals) = since_last_start(&paired.tokens)?;
    (rule.length(&literals) == Some(literals.len())).then_some(literals)
}

/// How many of the first bytes can never matter again.
///
/// Where no 0x2B waits, what follows pairs as after reset. If no message is
/// open there either, all bytes so far are settled; if one is, those before its
/// start are.
fn settled(bytes: &[u8], rule: &impl Length) -> usize {
    let paired = pair(bytes);
    if paired.waits {
        return 0;
    }
    match since_last_start(&paired.tokens) {
        None => bytes.len(),
        Some((start, literals)) => match rule.length(&literals) {
            Some(length) if literals.len() >= length => bytes.len(),
            _ => start,
        },
    }
}

/// The list of bytes since reset (or since a reading began), and the place
/// from which it has to be read again.
#[derive(Clone, Default)]
pub struct Heard {
    bytes: Vec<u8>,
    from: usize,
}

impl Heard {
    /// One more byte; the literals of the message it finishes, if it does.
    pub fn hear(&mut self, byte: u8, rule: &impl Length) -> Option<Vec<u8>> {
        self.bytes.push(byte);
        let unsettled = &self.bytes[self.from..];
        let message = finished(unsettled, rule);
        self.from += settled(unsettled, rule);
        message
    }

    /// Neither is a message open nor does a 0x2B wait.
    pub fn is_settled(&self) -> bool {
        self.from == self.bytes.len()
    }
}

/// The byte that makes the bytes before it "add up to 0 modulo 256".
pub fn sum_byte(bytes: &[u8]) -> u8 {
    sum(bytes).wrapping_neg()
}

/// The sum of the bytes modulo 256.
pub fn sum(bytes: &[u8]) -> u8 {
    bytes.iter().fold(0, |sum, byte| sum.wrapping_add(*byte))
}

/// The wire bytes of a start, a first literal and the rest with its sum byte;
/// the sum is taken first, then "every 0x2B ... is doubled".
pub fn wire(first: u8, rest: &[u8]) -> Vec<u8> {
    let mut literals = vec![first];
    literals.extend_from_slice(rest);
    literals.push(sum_byte(&literals));
    stuffed(&literals)
}

/// A start, the first literal, and the others with every 0x2B doubled.
pub fn stuffed(literals: &[u8]) -> Vec<u8> {
    let mut wire = vec![START];
    for (index, literal) in literals.iter().enumerate() {
        wire.push(*literal);
        if index > 0 && *literal == START {
            wire.push(START);
        }
    }
    wire
}

#[cfg(test)]
mod tests {
    use super::*;
    use crate::message::CommandLength;
    use crate::rng::Rng;

    fn tokens(bytes: &[u8]) -> Vec<Token> {
        pair(bytes).tokens.iter().map(|(_, token)| *token).collect()
    }

    #[test]
    fn pairs_from_the_left() {
        use Token::*;
        assert_eq!(tokens(&[0x2B, 0x2B]), [Literal(0x2B)]);
        assert_eq!(tokens(&[0x2B, 0x07]), [Start, Literal(0x07)]);
        assert_eq!(
            tokens(&[0x2B, 0x2B, 0x2B, 0x07, 0x08]),
            [Literal(0x2B), Start, Literal(0x07), Literal(0x08)]
        );
        assert!(pair(&[0x07, 0x2B]).waits);
        assert!(!pair(&[0x2B, 0x2B]).waits);
    }

    /// What is left out as settled changes nothing: the whole list, read again
    /// from reset at every byte, finishes the same messages.
    #[test]
    fn settled_bytes_never_matter() {
        let mut rng = Rng::new(7);
        for _ in 0..200 {
            let mut heard = Heard::default();
            let mut all = Vec::new();
            for _ in 0..300 {
                let byte = *rng.pick(&[0x2B, 0x2B, 0x2B, 0xC8, 0x38, 0xD0, 0x01, 0x00, 0x03]);
                all.push(byte);
                let cached = heard.hear(byte, &CommandLength);
                assert_eq!(cached, finished(&all, &CommandLength));
            }
        }
    }

    #[test]
    fn doubles_behind_the_first_literal_only() {
        assert_eq!(
            wire(0x00, &[0x2B]),
            [0x2B, 0x00, 0x2B, 0x2B, 0xD5],
            "the sum is taken over single bytes"
        );
    }
}
