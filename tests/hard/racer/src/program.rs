//! Programs in numbered form: terms are nodes, numbered in the order of the text, and variables are numbers.

use crate::lexer::Span;
use crate::pattern::Pattern;
use crate::tree::{Base, Operator, Polarity};
use std::rc::Rc;

#[derive(Clone, Copy, Debug, PartialEq, Eq)]
pub enum Kind {
    Base(Base),
    Mailbox(u32),
}

/// A type as it is written.
#[derive(Clone, Debug)]
pub enum Sort {
    Base(Base),
    Mailbox { interface: u32, polarity: Polarity, pattern: Option<Pattern> },
}

pub struct Tag {
    pub name: String,
    pub payloads: Vec<Sort>,
}

pub struct Interface {
    pub name: String,
    pub tags: Vec<Tag>,
}

pub struct Function {
    pub parameters: Vec<Sort>,
    pub result: Sort,
    /// The kinds of its variables, parameters first, and where their names stand.
    pub variables: Vec<(Kind, Span)>,
    pub body: u32,
    /// Where the types of its parameters and of its result are written.
    pub written: Vec<Span>,
}

#[derive(Clone, Debug)]
pub enum Constant {
    Unit,
    Bool(bool),
    Integer(i64),
    Text(Rc<str>),
}

#[derive(Clone, Debug)]
pub enum Expression {
    Variable(u32),
    Constant(Constant),
    Operator(Operator, Box<Expression>, Box<Expression>),
}

#[derive(Debug)]
pub struct Clause {
    pub tag: u8,
    pub names: Vec<u32>,
    pub from: u32,
    pub body: u32,
}

#[derive(Debug)]
pub enum Core {
    Value(Expression),
    Let { variable: Option<u32>, bound: u32, body: u32 },
    Call { function: u32, arguments: Vec<Expression> },
    If { test: Expression, yes: u32, no: u32 },
    Print(Expression),
    New(u32),
    Send { target: u32, tag: u8, arguments: Vec<Expression> },
    Spawn(u32),
    Guard { variable: u32, pattern: Pattern, free: Option<u32>, clauses: Vec<Clause> },
}

#[derive(Debug)]
pub struct Node {
    pub core: Core,
    pub kind: Kind,
    pub function: u32,
    pub at: Span,
}

pub struct Program {
    pub interfaces: Vec<Interface>,
    pub functions: Vec<Function>,
    pub main: u32,
    pub nodes: Vec<Node>,
}

impl Sort {
    pub fn kind(&self) -> Kind {
        match self {
            Sort::Base(base) => Kind::Base(*base),
            Sort::Mailbox { interface, .. } => Kind::Mailbox(*interface),
        }
    }
}

impl Program {
    pub fn node(&self, number: u32) -> &Node {
        &self.nodes[number as usize]
    }

    pub fn function(&self, number: u32) -> &Function {
        &self.functions[number as usize]
    }

    pub fn tag(&self, interface: u32, tag: u8) -> &Tag {
        &self.interfaces[interface as usize].tags[tag as usize]
    }

    pub fn tag_count(&self, interface: u32) -> usize {
        self.interfaces[interface as usize].tags.len()
    }

    pub fn tag_names(&self, interface: u32) -> Vec<String> {
        self.interfaces[interface as usize].tags.iter().map(|tag| tag.name.clone()).collect()
    }

    /// The kind of a variable of the function.
    pub fn kind_of(&self, function: u32, variable: u32) -> Option<Kind> {
        self.function(function).variables.get(variable as usize).map(|it| it.0)
    }

    /// The interface of a variable that names a mailbox.
    pub fn interface_of(&self, function: u32, variable: u32) -> u32 {
        match self.kind_of(function, variable) {
            Some(Kind::Mailbox(interface)) => interface,
            _ => unreachable!("the resolver lets only mailboxes be guarded and sent to"),
        }
    }
}

impl Clause {
    pub fn binds(&self, variable: u32) -> bool {
        self.from == variable || self.names.contains(&variable)
    }
}

/// The tags that clauses receive, each a bit.
pub fn received_tags(clauses: &[Clause]) -> u32 {
    clauses.iter().fold(0, |tags, clause| tags | 1 << clause.tag)
}

/// The bodies of a guard in the order of the program, each with its clause if it is that of a receive clause.
pub fn bodies<'a>(free: Option<u32>, clauses: &'a [Clause]) -> Vec<(u32, Option<&'a Clause>)> {
    let mut bodies: Vec<_> = clauses.iter().map(|clause| (clause.body, Some(clause))).collect();
    bodies.extend(free.map(|body| (body, None)));
    bodies.sort_by_key(|it| it.0);
    bodies
}

/// For each node the first one behind its parts.
pub fn ends_of(program: &Program) -> Vec<u32> {
    let mut ends = vec![0; program.nodes.len()];
    for number in (0..program.nodes.len()).rev() {
        let last = match &program.nodes[number].core {
            Core::Let { body, .. } | Core::If { no: body, .. } | Core::Spawn(body) => Some(*body),
            Core::Guard { free, clauses, .. } => bodies(*free, clauses).last().map(|it| it.0),
            _ => None,
        };
        ends[number] = last.map_or(number as u32 + 1, |last| ends[last as usize]);
    }
    ends
}
