//! Why a program is refused.

use crate::lexer::Span;

/// The line that says why.
#[derive(Debug)]
pub struct Refusal {
    pub line: String,
}

pub type Result<T> = std::result::Result<T, Refusal>;

impl Refusal {
    pub fn new(line: String) -> Refusal {
        Refusal { line }
    }

    pub fn syntax(place: usize) -> Refusal {
        Refusal::new(format!("syntax error at {place}"))
    }

    pub fn at(what: &str, span: Span) -> Refusal {
        Refusal::new(format!("{what} at {}-{}", span.start, span.end))
    }

    pub fn untypable(rule: &str, span: Span) -> Refusal {
        Refusal::new(format!("untypable at {}-{}: {rule}", span.start, span.end))
    }
}
