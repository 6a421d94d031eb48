//! Tokens to a tree, by recursive descent.

use crate::lexer::{Kind, Span, Token, Word};
use crate::refusal::{Refusal, Result};
use crate::tree::*;

const MOST_OPEN_TOKENS: u32 = 255;
const MOST_OPEN_STATEMENTS: u32 = 4095;

/// The declarations of a program.
pub fn parse<'a>(tokens: &[Token<'a>]) -> Result<Vec<Declaration<'a>>> {
    let mut parser = Parser { tokens, place: 0, open: 0, statements: 0 };
    let mut declarations = vec![parser.declaration()?];
    while parser.kind() != &Kind::End {
        declarations.push(parser.declaration()?);
    }
    Ok(declarations)
}

struct Parser<'t, 'a> {
    tokens: &'t [Token<'a>],
    place: usize,
    /// How many brackets and operators are open.
    open: u32,
    /// How many `in` and `;` are.
    statements: u32,
}

impl<'t, 'a> Parser<'t, 'a> {
    fn kind(&self) -> &'t Kind<'a> {
        &self.tokens[self.place].kind
    }

    fn kind_ahead(&self) -> &'t Kind<'a> {
        &self.tokens[(self.place + 1).min(self.tokens.len() - 1)].kind
    }

    fn at(&self) -> Span {
        self.tokens[self.place].at
    }

    /// Where the token before this one is.
    fn before(&self) -> Span {
        self.tokens[self.place - 1].at
    }

    fn refused<T>(&self) -> Result<T> {
        Err(Refusal::syntax(self.at().start as usize))
    }

    fn is_mark(&self, mark: u8) -> bool {
        matches!(self.kind(), Kind::Mark(own) if *own == mark)
    }

    fn takes_mark(&mut self, mark: u8) -> bool {
        let is_there = self.is_mark(mark);
        if is_there {
            self.place += 1;
        }
        is_there
    }

    fn mark(&mut self, mark: u8) -> Result<()> {
        if self.takes_mark(mark) {
            return Ok(());
        }
        self.refused()
    }

    fn word(&mut self, word: Word) -> Result<()> {
        if self.kind() == &Kind::Word(word) {
            self.place += 1;
            return Ok(());
        }
        self.refused()
    }

    fn name(&mut self) -> Result<Name<'a>> {
        match self.kind() {
            Kind::Name(text) => {
                let name = Name { text, at: self.at() };
                self.place += 1;
                Ok(name)
            }
            _ => self.refused(),
        }
    }

    /// One more open token, the one before this.
    fn opens(&mut self) -> Result<()> {
        self.open += 1;
        if self.open > MOST_OPEN_TOKENS {
            return Err(Refusal::new(format!("too deep at {}", self.before().start)));
        }
        Ok(())
    }

    fn opening(&mut self, mark: u8) -> Result<()> {
        self.mark(mark)?;
        self.opens()
    }

    fn closing(&mut self, mark: u8) -> Result<()> {
        self.mark(mark)?;
        self.open -= 1;
        Ok(())
    }

    /// What stands between round brackets, with commas between.
    fn listed<T>(&mut self, mut item: impl FnMut(&mut Self) -> Result<T>) -> Result<Vec<T>> {
        let mut items = Vec::new();
        self.opening(b'(')?;
        if !self.is_mark(b')') {
            items.push(item(self)?);
            while self.takes_mark(b',') {
                items.push(item(self)?);
            }
        }
        self.closing(b')')?;
        Ok(items)
    }

    // ---- declarations and types

    fn declaration(&mut self) -> Result<Declaration<'a>> {
        match self.kind() {
            Kind::Word(Word::Interface) => self.interface(),
            Kind::Word(Word::Def) => self.definition(),
            _ => self.refused(),
        }
    }

    fn interface(&mut self) -> Result<Declaration<'a>> {
        self.place += 1;
        let name = self.name()?;
        self.opening(b'{')?;
        let mut messages = vec![self.message()?];
        while self.takes_mark(b',') {
            messages.push(self.message()?);
        }
        self.closing(b'}')?;
        Ok(Declaration::Interface { name, messages })
    }

    fn message(&mut self) -> Result<Message<'a>> {
        let name = self.name()?;
        let payloads = self.listed(|parser| parser.written_type(true))?;
        Ok(Message { name, payloads })
    }

    fn definition(&mut self) -> Result<Declaration<'a>> {
        self.place += 1;
        let name = self.name()?;
        let parameters = self.listed(|parser| {
            let name = parser.name()?;
            parser.mark(b':')?;
            Ok((name, parser.written_type(false)?))
        })?;
        self.mark(b':')?;
        let result = self.written_type(false)?;
        let body = self.block()?;
        Ok(Declaration::Function(Definition { name, parameters, result, body }))
    }

    fn written_type(&mut self, needs_pattern: bool) -> Result<WrittenType<'a>> {
        let base = match self.kind() {
            Kind::Word(Word::Unit) => Base::Unit,
            Kind::Word(Word::Bool) => Base::Bool,
            Kind::Word(Word::Int) => Base::Int,
            Kind::Word(Word::String) => Base::String,
            _ => return self.mailbox_type(needs_pattern),
        };
        self.place += 1;
        Ok(WrittenType { form: TypeForm::Base(base), at: self.before() })
    }

    fn mailbox_type(&mut self, needs_pattern: bool) -> Result<WrittenType<'a>> {
        let interface = self.name()?;
        let polarity = match self.kind() {
            Kind::Mark(b'!') => Polarity::Sending,
            Kind::Mark(b'?') => Polarity::Receiving,
            _ => return self.refused(),
        };
        self.place += 1;
        let begins = matches!(self.kind(), Kind::Name(_) | Kind::Integer(_) | Kind::Mark(b'*') | Kind::Mark(b'('));
        let pattern = if needs_pattern || begins { Some(self.pattern()?) } else { None };
        let at = interface.at.to(self.before());
        Ok(WrittenType { form: TypeForm::Mailbox { interface, polarity, pattern }, at })
    }

    // ---- patterns

    fn pattern(&mut self) -> Result<WrittenPattern<'a>> {
        let open = self.open;
        let mut pattern = self.product()?;
        while self.takes_mark(b'+') {
            self.opens()?;
            pattern = WrittenPattern::Sum(Box::new(pattern), Box::new(self.product()?));
        }
        self.open = open;
        Ok(pattern)
    }

    fn product(&mut self) -> Result<WrittenPattern<'a>> {
        let mut pattern = self.factor()?;
        while self.takes_mark(b'.') {
            self.opens()?;
            pattern = WrittenPattern::Product(Box::new(pattern), Box::new(self.factor()?));
        }
        Ok(pattern)
    }

    fn factor(&mut self) -> Result<WrittenPattern<'a>> {
        let pattern = match self.kind() {
            Kind::Name(_) => return Ok(WrittenPattern::Tag(self.name()?)),
            Kind::Integer(0) => WrittenPattern::Zero,
            Kind::Integer(1) => WrittenPattern::One,
            Kind::Mark(b'*') => {
                self.place += 1;
                self.opens()?;
                return Ok(WrittenPattern::Star(Box::new(self.factor()?)));
            }
            Kind::Mark(b'(') => {
                self.opening(b'(')?;
                let pattern = self.pattern()?;
                self.closing(b')')?;
                return Ok(pattern);
            }
            _ => return self.refused(),
        };
        self.place += 1;
        Ok(pattern)
    }

    // ---- terms

    fn block(&mut self) -> Result<Term<'a>> {
        self.opening(b'{')?;
        let term = self.term()?;
        self.closing(b'}')?;
        Ok(term)
    }

    /// A term: statements in a row, gone through in a loop, since there may be thousands.
    fn term(&mut self) -> Result<Term<'a>> {
        let statements = self.statements;
        let mut before = Vec::new();
        let last = loop {
            let start = self.at();
            let name = self.let_name()?;
            let simple = self.simple()?;
            if name.is_some() {
                self.word(Word::In)?;
            } else if !self.takes_mark(b';') {
                break simple;
            }
            self.statements += 1;
            if self.statements > MOST_OPEN_STATEMENTS {
                return Err(Refusal::new(format!("too deep at {}", self.before().start)));
            }
            before.push((start, name, simple));
        };
        self.statements = statements;
        Ok(joined(before, last))
    }

    fn let_name(&mut self) -> Result<Option<Name<'a>>> {
        if self.kind() != &Kind::Word(Word::Let) {
            return Ok(None);
        }
        self.place += 1;
        let name = self.name()?;
        self.mark(b'=')?;
        Ok(Some(name))
    }

    fn simple(&mut self) -> Result<Term<'a>> {
        let start = self.at();
        let form = match self.kind() {
            Kind::Mark(b'{') => return self.block(),
            Kind::Word(Word::If) => self.choice()?,
            Kind::Word(Word::Print) => {
                self.place += 1;
                self.opening(b'(')?;
                let expression = self.expression()?;
                self.closing(b')')?;
                Form::Print(expression)
            }
            Kind::Word(Word::New) => {
                self.place += 1;
                self.opening(b'[')?;
                let name = self.name()?;
                self.closing(b']')?;
                Form::New(name)
            }
            Kind::Word(Word::Spawn) => {
                self.place += 1;
                Form::Spawn(Box::new(self.block()?))
            }
            Kind::Word(Word::Free) => {
                self.place += 1;
                self.opening(b'(')?;
                let name = self.name()?;
                self.closing(b')')?;
                Form::Free(name)
            }
            Kind::Word(Word::Guard) => self.guard()?,
            Kind::Name(_) if self.kind_ahead() == &Kind::Mark(b'!') => {
                let target = self.name()?;
                self.place += 1;
                let tag = self.name()?;
                let arguments = self.listed(|parser| parser.expression())?;
                Form::Send { target, tag, arguments }
            }
            Kind::Name(_) if self.kind_ahead() == &Kind::Mark(b'(') => {
                let function = self.name()?;
                let arguments = self.listed(|parser| parser.expression())?;
                Form::Call { function, arguments }
            }
            _ => {
                let expression = self.expression()?;
                return Ok(Term { at: start.to(self.before()), form: Form::Value(expression) });
            }
        };
        Ok(Term { form, at: start.to(self.before()) })
    }

    fn choice(&mut self) -> Result<Form<'a>> {
        self.place += 1;
        let test = self.expression()?;
        let yes = Box::new(self.block()?);
        self.word(Word::Else)?;
        let no = Box::new(self.block()?);
        Ok(Form::If { test, yes, no })
    }

    fn guard(&mut self) -> Result<Form<'a>> {
        self.place += 1;
        let name = self.name()?;
        self.mark(b':')?;
        let pattern = self.pattern()?;
        self.opening(b'{')?;
        let mut clauses = vec![self.clause()?];
        while !self.is_mark(b'}') {
            clauses.push(self.clause()?);
        }
        self.closing(b'}')?;
        Ok(Form::Guard { name, pattern, clauses })
    }

    fn clause(&mut self) -> Result<Clause<'a>> {
        let at = self.at();
        let kind = self.kind();
        self.place += 1;
        match kind {
            Kind::Word(Word::Fail) => Ok(Clause::Fail(at)),
            Kind::Word(Word::Free) => {
                self.arrow()?;
                Ok(Clause::Free(at, self.term()?))
            }
            Kind::Word(Word::Receive) => {
                let tag = self.name()?;
                let names = self.listed(|parser| parser.name())?;
                self.word(Word::From)?;
                let from = self.name()?;
                self.arrow()?;
                Ok(Clause::Receive { at, tag, names, from, body: self.term()? })
            }
            _ => {
                self.place -= 1;
                self.refused()
            }
        }
    }

    fn arrow(&mut self) -> Result<()> {
        if self.kind() == &Kind::Arrow {
            self.place += 1;
            return Ok(());
        }
        self.refused()
    }

    // ---- expressions

    fn expression(&mut self) -> Result<Expression<'a>> {
        let (open, start) = (self.open, self.at());
        let left = self.sum()?;
        let operator = match self.kind() {
            Kind::Equal => Operator::Equal,
            Kind::Mark(b'<') => Operator::Less,
            _ => {
                self.open = open;
                return Ok(left);
            }
        };
        self.place += 1;
        self.opens()?;
        let right = self.sum()?;
        self.open = open;
        Ok(operation(operator, left, right, start.to(self.before())))
    }

    fn sum(&mut self) -> Result<Expression<'a>> {
        let start = self.at();
        let mut left = self.times()?;
        loop {
            let operator = match self.kind() {
                Kind::Mark(b'+') => Operator::Add,
                Kind::Mark(b'-') => Operator::Subtract,
                _ => return Ok(left),
            };
            self.place += 1;
            self.opens()?;
            let right = self.times()?;
            left = operation(operator, left, right, start.to(self.before()));
        }
    }

    fn times(&mut self) -> Result<Expression<'a>> {
        let start = self.at();
        let mut left = self.atom()?;
        while self.takes_mark(b'*') {
            self.opens()?;
            let right = self.atom()?;
            left = operation(Operator::Multiply, left, right, start.to(self.before()));
        }
        Ok(left)
    }

    fn atom(&mut self) -> Result<Expression<'a>> {
        let at = self.at();
        let form = match self.kind() {
            Kind::Name(text) => ExpressionForm::Variable(text),
            Kind::Integer(value) => ExpressionForm::Integer(*value),
            Kind::Text(value) => ExpressionForm::Text(value.clone()),
            Kind::Word(Word::True) => ExpressionForm::Bool(true),
            Kind::Word(Word::False) => ExpressionForm::Bool(false),
            Kind::Mark(b'(') => return self.bracketed(at),
            _ => return self.refused(),
        };
        self.place += 1;
        Ok(Expression { form, at })
    }

    fn bracketed(&mut self, at: Span) -> Result<Expression<'a>> {
        self.opening(b'(')?;
        if self.is_mark(b')') {
            self.closing(b')')?;
            return Ok(Expression { form: ExpressionForm::Unit, at: at.to(self.before()) });
        }
        let inside = self.expression()?;
        self.closing(b')')?;
        Ok(inside)
    }
}

fn operation<'a>(operator: Operator, left: Expression<'a>, right: Expression<'a>, at: Span) -> Expression<'a> {
    Expression { form: ExpressionForm::Operator(operator, Box::new(left), Box::new(right)), at }
}

/// Statements and the term behind them as one term.
fn joined<'a>(statements: Vec<(Span, Option<Name<'a>>, Term<'a>)>, last: Term<'a>) -> Term<'a> {
    let mut term = last;
    for (start, name, bound) in statements.into_iter().rev() {
        let at = start.to(term.at);
        term = Term { form: Form::Let { name, bound: Box::new(bound), body: Box::new(term) }, at };
    }
    term
}
