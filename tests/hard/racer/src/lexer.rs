//! Text to tokens.

use crate::refusal::{Refusal, Result};

/// From the first byte to the first behind.
#[derive(Clone, Copy, Debug, PartialEq, Eq)]
pub struct Span {
    pub start: u32,
    pub end: u32,
}

impl Span {
    pub fn to(self, other: Span) -> Span {
        Span { start: self.start, end: other.end }
    }
}

#[derive(Clone, Copy, Debug, PartialEq, Eq)]
pub enum Word {
    Interface,
    Def,
    Let,
    In,
    If,
    Else,
    Print,
    New,
    Spawn,
    Guard,
    Free,
    Fail,
    Receive,
    From,
    True,
    False,
    Unit,
    Bool,
    Int,
    String,
}

#[derive(Clone, Debug, PartialEq)]
pub enum Kind<'a> {
    Name(&'a str),
    Word(Word),
    Integer(i64),
    Text(String),
    /// One of the marks of one character.
    Mark(u8),
    Equal,
    Arrow,
    End,
}

#[derive(Clone, Debug)]
pub struct Token<'a> {
    pub kind: Kind<'a>,
    pub at: Span,
}

/// The tokens of the text, and the end behind them.
pub fn tokens(text: &str) -> Result<Vec<Token<'_>>> {
    let mut lexer = Lexer { text, bytes: text.as_bytes(), place: 0 };
    let mut tokens = Vec::with_capacity(text.len() / 4);
    loop {
        let token = lexer.next()?;
        let is_end = token.kind == Kind::End;
        tokens.push(token);
        if is_end {
            return Ok(tokens);
        }
    }
}

/// Why a text is refused that goes on with a byte that is none of a character.
pub fn refused_before(text: &[u8]) -> Refusal {
    let text = std::str::from_utf8(text).unwrap_or_default();
    let mut lexer = Lexer { text, bytes: text.as_bytes(), place: 0 };
    loop {
        let before = lexer.place;
        match lexer.next() {
            Err(refusal) => return refusal,
            Ok(token) if token.kind == Kind::End => {
                // A comment that the byte stands in begins behind the last token.
                let line = text[before..].rfind('\n').map_or(before, |at| before + at + 1);
                return Refusal::syntax(text[line..].find("//").map_or(text.len(), |at| line + at));
            }
            Ok(_) => {}
        }
    }
}

struct Lexer<'a> {
    text: &'a str,
    bytes: &'a [u8],
    place: usize,
}

impl<'a> Lexer<'a> {
    fn next(&mut self) -> Result<Token<'a>> {
        self.skip_blanks();
        let start = self.place;
        let kind = self.kind()?;
        Ok(Token { kind, at: Span { start: start as u32, end: self.place as u32 } })
    }

    fn peek(&self, ahead: usize) -> u8 {
        self.bytes.get(self.place + ahead).copied().unwrap_or(0)
    }

    fn skip_blanks(&mut self) {
        loop {
            match self.peek(0) {
                b' ' | b'\t' | b'\r' | b'\n' => self.place += 1,
                b'/' if self.peek(1) == b'/' => {
                    while self.place < self.bytes.len() && self.bytes[self.place] != b'\n' {
                        self.place += 1;
                    }
                }
                _ => return,
            }
        }
    }

    fn kind(&mut self) -> Result<Kind<'a>> {
        let first = match self.text[self.place..].chars().next() {
            None => return Ok(Kind::End),
            Some(first) => first,
        };
        match first {
            '0'..='9' => self.integer(),
            '"' => self.string(),
            '=' if self.peek(1) == b'=' => Ok(self.mark(2, Kind::Equal)),
            '-' if self.peek(1) == b'>' => Ok(self.mark(2, Kind::Arrow)),
            '(' | ')' | '{' | '}' | '[' | ']' | ',' | ';' | ':' | '.' | '+' | '-' | '*' | '<' | '!' | '?' | '=' => {
                Ok(self.mark(1, Kind::Mark(first as u8)))
            }
            // The standard library's classes: a few characters, as U+07A6, begin a name here and none in `pat`.
            _ if first == '_' || first.is_alphabetic() => Ok(self.name()),
            _ => Err(Refusal::syntax(self.place)),
        }
    }

    fn mark(&mut self, length: usize, kind: Kind<'a>) -> Kind<'a> {
        self.place += length;
        kind
    }

    fn integer(&mut self) -> Result<Kind<'a>> {
        let start = self.place;
        let mut value: i64 = 0;
        while self.peek(0).is_ascii_digit() {
            let digit = (self.peek(0) - b'0') as i64;
            value = match value.checked_mul(10).and_then(|it| it.checked_add(digit)) {
                Some(value) => value,
                None => return Err(Refusal::new(format!("number too wide at {start}"))),
            };
            self.place += 1;
        }
        Ok(Kind::Integer(value))
    }

    fn string(&mut self) -> Result<Kind<'a>> {
        let start = self.place;
        let mut value = String::new();
        let mut rest = self.text[start + 1..].char_indices();
        while let Some((at, next)) = rest.next() {
            match next {
                '"' => {
                    self.place = start + 1 + at + 1;
                    return Ok(Kind::Text(value));
                }
                '\\' => match rest.next() {
                    Some((_, escaped @ ('"' | '\\'))) => value.push(escaped),
                    _ => break,
                },
                _ if next >= ' ' => value.push(next),
                _ => break,
            }
        }
        Err(Refusal::syntax(start))
    }

    fn name(&mut self) -> Kind<'a> {
        let start = self.place;
        let rest = &self.text[start..];
        let length = rest.find(|c: char| c != '_' && !c.is_alphanumeric()).unwrap_or(rest.len());
        self.place += length;
        let text = &rest[..length];
        match reserved(text) {
            Some(word) => Kind::Word(word),
            None => Kind::Name(text),
        }
    }
}

fn reserved(text: &str) -> Option<Word> {
    Some(match text {
        "interface" => Word::Interface,
        "def" => Word::Def,
        "let" => Word::Let,
        "in" => Word::In,
        "if" => Word::If,
        "else" => Word::Else,
        "print" => Word::Print,
        "new" => Word::New,
        "spawn" => Word::Spawn,
        "guard" => Word::Guard,
        "free" => Word::Free,
        "fail" => Word::Fail,
        "receive" => Word::Receive,
        "from" => Word::From,
        "true" => Word::True,
        "false" => Word::False,
        "Unit" => Word::Unit,
        "Bool" => Word::Bool,
        "Int" => Word::Int,
        "String" => Word::String,
        _ => return None,
    })
}
