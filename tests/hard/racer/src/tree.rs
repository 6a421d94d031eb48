//! The tree of a program's text. Names are borrowed from the text.

use crate::lexer::Span;

#[derive(Clone, Copy, Debug)]
pub struct Name<'a> {
    pub text: &'a str,
    pub at: Span,
}

#[derive(Clone, Copy, Debug, PartialEq, Eq)]
pub enum Base {
    Unit,
    Bool,
    Int,
    String,
}

#[derive(Clone, Copy, Debug, PartialEq, Eq, Hash)]
pub enum Polarity {
    Sending,
    Receiving,
}

#[derive(Clone, Copy, Debug, PartialEq, Eq)]
pub enum Operator {
    Add,
    Subtract,
    Multiply,
    Equal,
    Less,
}

pub enum Declaration<'a> {
    Interface { name: Name<'a>, messages: Vec<Message<'a>> },
    Function(Definition<'a>),
}

pub struct Message<'a> {
    pub name: Name<'a>,
    pub payloads: Vec<WrittenType<'a>>,
}

pub struct Definition<'a> {
    pub name: Name<'a>,
    pub parameters: Vec<(Name<'a>, WrittenType<'a>)>,
    pub result: WrittenType<'a>,
    pub body: Term<'a>,
}

pub struct WrittenType<'a> {
    pub form: TypeForm<'a>,
    pub at: Span,
}

pub enum TypeForm<'a> {
    Base(Base),
    Mailbox { interface: Name<'a>, polarity: Polarity, pattern: Option<WrittenPattern<'a>> },
}

pub enum WrittenPattern<'a> {
    Zero,
    One,
    Tag(Name<'a>),
    Sum(Box<WrittenPattern<'a>>, Box<WrittenPattern<'a>>),
    Product(Box<WrittenPattern<'a>>, Box<WrittenPattern<'a>>),
    Star(Box<WrittenPattern<'a>>),
}

pub struct Term<'a> {
    pub form: Form<'a>,
    pub at: Span,
}

pub enum Form<'a> {
    /// A `let`, or a sequence where there is no name.
    Let {
        name: Option<Name<'a>>,
        bound: Box<Term<'a>>,
        body: Box<Term<'a>>,
    },
    If {
        test: Expression<'a>,
        yes: Box<Term<'a>>,
        no: Box<Term<'a>>,
    },
    Print(Expression<'a>),
    New(Name<'a>),
    Spawn(Box<Term<'a>>),
    Free(Name<'a>),
    Guard {
        name: Name<'a>,
        pattern: WrittenPattern<'a>,
        clauses: Vec<Clause<'a>>,
    },
    Send {
        target: Name<'a>,
        tag: Name<'a>,
        arguments: Vec<Expression<'a>>,
    },
    Call {
        function: Name<'a>,
        arguments: Vec<Expression<'a>>,
    },
    Value(Expression<'a>),
}

pub enum Clause<'a> {
    Fail(Span),
    Free(Span, Term<'a>),
    Receive { at: Span, tag: Name<'a>, names: Vec<Name<'a>>, from: Name<'a>, body: Term<'a> },
}

pub struct Expression<'a> {
    pub form: ExpressionForm<'a>,
    pub at: Span,
}

pub enum ExpressionForm<'a> {
    Variable(&'a str),
    Unit,
    Bool(bool),
    Integer(i64),
    Text(String),
    Operator(Operator, Box<Expression<'a>>, Box<Expression<'a>>),
}
