//! Types of mailboxes and terms, in whose patterns variables may stand, and the types of signatures.

use crate::environment::Environment;
use crate::lexer::Span;
use crate::pattern::{Pattern, Table};
use crate::program::{Kind, Program, Sort, Tag};
use crate::tree::{Base, Polarity};

/// Whether a mailbox may be handed back, or only used.
#[derive(Clone, Copy, Debug, PartialEq, Eq, Hash)]
pub enum Usage {
    Second,
    Returnable,
}

/// The type of a variable that names a mailbox.
#[derive(Clone, Copy, Debug, PartialEq, Eq, Hash)]
pub struct MailboxType {
    pub interface: u32,
    pub polarity: Polarity,
    pub usage: Usage,
    pub pattern: Pattern,
}

/// The type of a term.
#[derive(Clone, Copy, Debug, PartialEq, Eq)]
pub enum TermType {
    Base(Base),
    Mailbox { interface: u32, polarity: Polarity, pattern: Pattern },
}

/// The type of a node, and those of the variables that it needs.
#[derive(Clone)]
pub struct NodeType {
    pub result: TermType,
    pub needs: Environment,
}

/// A variable of patterns.
#[derive(Debug)]
pub struct Variable {
    pub interface: u32,
    pub polarity: Polarity,
    pub at: Span,
}

/// The types of a function's parameters, for those that are mailboxes, and of its result.
pub struct Signature {
    pub parameters: Vec<Option<MailboxType>>,
    pub result: TermType,
}

impl Usage {
    /// Whether a mailbox of this usage may stand for one of the other.
    pub fn fits(self, other: Usage) -> bool {
        self == Usage::Returnable || other == Usage::Second
    }
}

impl MailboxType {
    pub fn is_receiving(&self) -> bool {
        self.polarity == Polarity::Receiving
    }

    pub fn second(&self) -> MailboxType {
        MailboxType { usage: Usage::Second, ..*self }
    }

    pub fn returnable(&self) -> MailboxType {
        MailboxType { usage: Usage::Returnable, ..*self }
    }

    pub fn as_term(&self) -> TermType {
        TermType::Mailbox { interface: self.interface, polarity: self.polarity, pattern: self.pattern }
    }
}

impl TermType {
    pub fn kind(&self) -> Kind {
        match self {
            TermType::Base(base) => Kind::Base(*base),
            TermType::Mailbox { interface, .. } => Kind::Mailbox(*interface),
        }
    }

    /// The type of a variable that is a term of this type.
    pub fn as_variable(&self) -> Option<MailboxType> {
        match self {
            TermType::Base(_) => None,
            TermType::Mailbox { interface, polarity, pattern } => {
                Some(MailboxType { interface: *interface, polarity: *polarity, usage: Usage::Returnable, pattern: *pattern })
            }
        }
    }
}

/// The types of a tag's payloads, for those that are mailboxes.
pub fn payload_types(tag: &Tag) -> Vec<Option<MailboxType>> {
    let payload = |sort: &Sort| match sort {
        Sort::Mailbox { interface, polarity, pattern: Some(pattern) } => {
            Some(MailboxType { interface: *interface, polarity: *polarity, usage: Usage::Second, pattern: *pattern })
        }
        _ => None,
    };
    tag.payloads.iter().map(payload).collect()
}

/// The types of all signatures, with a variable, numbered from 1, for each pattern that isn't written; and these variables.
pub fn signatures(program: &Program, table: &Table) -> (Vec<Signature>, Vec<Variable>) {
    let mut variables = Vec::new();
    let mut signatures = Vec::new();
    for function in &program.functions {
        let mut written = function.written.iter();
        let mut open = |sort: &Sort| open_type(sort, *written.next()?, table, &mut variables);
        let parameters = function.parameters.iter().map(&mut open).collect();
        let result = match (&function.result, open(&function.result)) {
            (Sort::Base(base), _) => TermType::Base(*base),
            (_, Some(result)) => result.as_term(),
            (_, None) => unreachable!("a mailbox has an open type"),
        };
        signatures.push(Signature { parameters, result });
    }
    (signatures, variables)
}

fn open_type(sort: &Sort, at: Span, table: &Table, variables: &mut Vec<Variable>) -> Option<MailboxType> {
    let Sort::Mailbox { interface, polarity, pattern } = sort else {
        return None;
    };
    let pattern = pattern.unwrap_or_else(|| {
        variables.push(Variable { interface: *interface, polarity: *polarity, at });
        table.variable(variables.len() as u32)
    });
    let usage = match polarity {
        Polarity::Sending => Usage::Second,
        Polarity::Receiving => Usage::Returnable,
    };
    Some(MailboxType { interface: *interface, polarity: *polarity, usage, pattern })
}
