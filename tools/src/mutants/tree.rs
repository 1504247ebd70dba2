//! An expression as a tree, as far as the rules need one.

use crate::tokens::{is_name, is_number, Token};

#[derive(Clone, Debug)]
pub struct Node {
    pub from: usize,
    pub to: usize,
    pub kind: Kind,
}

#[derive(Clone, Debug)]
pub enum Kind {
    /// a name, a number, `[]` or a text
    Word(String),
    /// `g.memory`: of what, and the field's name
    Field(Box<Node>, String),
    Group(Box<Node>),
    /// the fields of `record { .. }` with their values
    Record(Vec<(String, Node)>),
    /// what is called, and what it is given
    Call(Vec<Node>),
    /// what stands between signs that bind alike, and these signs
    Chain(Vec<Node>, Vec<Token>),
    /// what no rule looks into but for its parts
    Other(Vec<Node>),
}

impl Node {
    pub fn word(&self) -> Option<&str> {
        match &self.kind {
            Kind::Word(word) => Some(word),
            _ => None,
        }
    }

    /// Without the brackets around it.
    pub fn bare(&self) -> &Node {
        match &self.kind {
            Kind::Group(inner) => inner.bare(),
            _ => self,
        }
    }

    pub fn parts(&self) -> Vec<&Node> {
        match &self.kind {
            Kind::Word(_) => Vec::new(),
            Kind::Field(of, _) => vec![of],
            Kind::Group(inner) => vec![inner],
            Kind::Record(fields) => fields.iter().map(|(_, value)| value).collect(),
            Kind::Call(parts) | Kind::Chain(parts, _) | Kind::Other(parts) => parts.iter().collect(),
        }
    }

    /// This node and all below it.
    pub fn all(&self) -> Vec<&Node> {
        let mut found = vec![self];
        for part in self.parts() {
            found.extend(part.all());
        }
        found
    }
}

/// The tree of a whole expression; nothing where it is none.
pub fn parse(tokens: &[Token]) -> Option<Node> {
    let mut reader = Reader { tokens, at: 0 };
    let node = reader.chain()?;
    (reader.at == tokens.len()).then_some(node)
}

struct Reader<'a> {
    tokens: &'a [Token],
    at: usize,
}

impl Reader<'_> {
    fn text(&self) -> &str {
        self.tokens.get(self.at).map_or("", |token| &token.text)
    }

    fn take(&mut self) -> Option<&Token> {
        self.at += 1;
        self.tokens.get(self.at - 1)
    }

    /// Goes past this word, which must come.
    fn pass(&mut self, word: &str) -> Option<usize> {
        self.take().filter(|token| token.text == word).map(|token| token.to)
    }

    fn is_at_sign(&self) -> bool {
        !["", ")", "}", ";", "=", ":", "where"].contains(&self.text())
    }

    fn chain(&mut self) -> Option<Node> {
        let mut operands = vec![self.call()?];
        let mut signs = Vec::new();
        while self.is_at_sign() {
            signs.push(self.take()?.clone());
            operands.push(self.call()?);
        }
        Some(bound(operands, signs))
    }

    fn call(&mut self) -> Option<Node> {
        let mut parts = vec![self.atom()?];
        loop {
            if self.text().starts_with('.') && self.text().len() > 1 {
                let of = parts.pop()?;
                let field = self.take()?;
                let (name, to) = (field.text[1..].to_string(), field.to);
                parts.push(Node { from: of.from, to, kind: Kind::Field(Box::new(of), name) });
            } else if self.is_at_atom() {
                parts.push(self.atom()?);
            } else {
                return Some(joined(parts));
            }
        }
    }

    fn is_at_atom(&self) -> bool {
        let text = self.text();
        text != "where" && (is_name(text) || is_number(text) || ["(", "{", "[]", "λ"].contains(&text) || text.starts_with('"'))
    }

    fn atom(&mut self) -> Option<Node> {
        if !self.is_at_atom() {
            return None;
        }
        let first = self.take()?.clone();
        let from = first.from;
        match first.text.as_str() {
            "(" => {
                let inner = self.chain()?;
                let to = self.pass(")")?;
                Some(Node { from, to, kind: Kind::Group(Box::new(inner)) })
            }
            "{" => {
                let inner = self.chain()?;
                let to = self.pass("}")?;
                Some(Node { from, to, kind: Kind::Other(vec![inner]) })
            }
            "λ" => {
                while self.text() != "." {
                    self.take()?;
                }
                self.pass(".")?;
                let inner = self.chain()?;
                Some(Node { from, to: inner.to, kind: Kind::Other(vec![inner]) })
            }
            "record" => self.record(from),
            _ => Some(Node { from, to: first.to, kind: Kind::Word(first.text) }),
        }
    }

    fn record(&mut self, from: usize) -> Option<Node> {
        let mut fields = Vec::new();
        self.pass("{")?;
        while self.text() != "}" {
            let name = self.take()?.text.clone();
            self.pass("=")?;
            fields.push((name, self.chain()?));
            if self.text() == ";" {
                self.take();
            }
        }
        let to = self.pass("}")?;
        Some(Node { from, to, kind: Kind::Record(fields) })
    }
}

fn joined(mut parts: Vec<Node>) -> Node {
    if parts.len() == 1 {
        return parts.remove(0);
    }
    let (from, to) = (parts[0].from, parts[parts.len() - 1].to);
    Node { from, to, kind: Kind::Call(parts) }
}

/// How strongly a sign binds.
fn strength(sign: &str) -> usize {
    let strengths = [&["||"][..], &["&&"], &["∷", "++"], &["+", "-"], &["*", "/", "%"], &["^"]];
    strengths.iter().position(|signs| signs.contains(&sign)).map_or(0, |place| place + 1)
}

/// Operands with signs between them, parted at those that bind most weakly.
fn bound(operands: Vec<Node>, signs: Vec<Token>) -> Node {
    let Some(weakest) = signs.iter().map(|sign| strength(&sign.text)).min() else {
        return joined(operands);
    };
    let (mut parts, mut between) = (Vec::new(), Vec::new());
    let (mut some, mut inner) = (Vec::new(), Vec::new());
    let mut signs = signs.into_iter();
    for operand in operands {
        some.push(operand);
        match signs.next() {
            Some(sign) if strength(&sign.text) > weakest => inner.push(sign),
            sign => {
                parts.push(bound(std::mem::take(&mut some), std::mem::take(&mut inner)));
                between.extend(sign);
            }
        }
    }
    let (from, to) = (parts[0].from, parts[parts.len() - 1].to);
    Node { from, to, kind: Kind::Chain(parts, between) }
}

#[cfg(test)]
mod tests {
    use super::*;
    use crate::tokens::tokens;

    /// With all that binds in brackets.
    fn shown(node: &Node) -> String {
        let parts = |nodes: &[Node]| nodes.iter().map(shown).collect::<Vec<_>>();
        match &node.kind {
            Kind::Word(word) => word.clone(),
            Kind::Field(of, name) => format!("{}.{name}", shown(of)),
            Kind::Group(inner) => shown(inner),
            Kind::Record(fields) => fields.iter().map(|(name, value)| format!("{name}={};", shown(value))).collect(),
            Kind::Call(all) => format!("[{}]", parts(all).join(" ")),
            Kind::Chain(all, signs) => format!("({})", parts(all).join(&signs[0].text)),
            Kind::Other(all) => format!("<{}>", parts(all).join(" ")),
        }
    }

    fn of(text: &str) -> String {
        parse(&tokens(text, 0, text.len())).map_or("none".to_string(), |node| shown(&node))
    }

    #[test]
    fn calls_and_fields() {
        assert_eq!(of("f g.memory 3"), "[f g.memory 3]");
        assert_eq!(of("(panel_prepares g body).gate.memory"), "[panel_prepares g body].gate.memory");
    }

    #[test]
    fn signs_bind_by_their_strength() {
        assert_eq!(of("a || b && c || d"), "(a||(b&&c)||d)");
        assert_eq!(of("2 * n ∷ f x ++ []"), "((2*n)∷[f x]∷[])");
        assert_eq!(of("c / 16 % 4"), "(c/16/4)");
    }

    #[test]
    fn records_and_functions() {
        assert_eq!(of("record { x = 1; y = f a; }"), "x=1;y=[f a];");
        assert_eq!(of("map (λ a. a + 1) xs"), "[map <(a+1)> xs]");
    }

    #[test]
    fn what_is_no_expression_gives_none() {
        assert_eq!(of("f ("), "none");
        assert_eq!(of("a +"), "none");
    }
}
