//! The canonical text of a tree: brackets and braces only where the grammar needs them, a declaration a line.

use crate::tree::*;
use std::fmt::Write;

/// How loosely an operator, or a pattern's, may stand without brackets: an atom stands anywhere.
#[derive(Clone, Copy, PartialEq, PartialOrd)]
enum Level {
    Comparison,
    Sum,
    Product,
    Atom,
}

pub fn print(tree: &[Declaration], length: usize) -> String {
    let mut printing = Printing { out: String::with_capacity(length) };
    for declaration in tree {
        printing.declaration(declaration);
        printing.put("\n");
    }
    printing.out
}

struct Printing {
    out: String,
}

impl Printing {
    fn put(&mut self, text: &str) {
        self.out.push_str(text);
    }

    fn listed<T>(&mut self, items: &[T], mut put: impl FnMut(&mut Printing, &T)) {
        for (place, item) in items.iter().enumerate() {
            if place > 0 {
                self.put(", ");
            }
            put(self, item);
        }
    }

    fn declaration(&mut self, declaration: &Declaration) {
        match declaration {
            Declaration::Interface { name, messages } => {
                self.put("interface ");
                self.put(name.text);
                self.put(" { ");
                self.listed(messages, |printing, message| {
                    printing.put(message.name.text);
                    printing.put("(");
                    printing.listed(&message.payloads, |printing, payload| printing.written_type(payload));
                    printing.put(")");
                });
                self.put(" }");
            }
            Declaration::Function(definition) => {
                self.put("def ");
                self.put(definition.name.text);
                self.put("(");
                self.listed(&definition.parameters, |printing, (name, own)| {
                    printing.put(name.text);
                    printing.put(": ");
                    printing.written_type(own);
                });
                self.put("): ");
                self.written_type(&definition.result);
                self.put(" ");
                self.block(&definition.body);
            }
        }
    }

    fn written_type(&mut self, own: &WrittenType) {
        match &own.form {
            TypeForm::Base(base) => self.put(match base {
                Base::Unit => "Unit",
                Base::Bool => "Bool",
                Base::Int => "Int",
                Base::String => "String",
            }),
            TypeForm::Mailbox { interface, polarity, pattern } => {
                self.put(interface.text);
                self.put(if *polarity == Polarity::Sending { "!" } else { "?" });
                if let Some(pattern) = pattern {
                    self.pattern(pattern, Level::Sum);
                }
            }
        }
    }

    // ---- patterns

    /// The pattern where one of this level is wanted.
    fn pattern(&mut self, pattern: &WrittenPattern, wanted: Level) {
        let level = match pattern {
            WrittenPattern::Sum(..) => Level::Sum,
            WrittenPattern::Product(..) => Level::Product,
            _ => Level::Atom,
        };
        if level < wanted {
            self.put("(");
        }
        match pattern {
            WrittenPattern::Zero => self.put("0"),
            WrittenPattern::One => self.put("1"),
            WrittenPattern::Tag(name) => self.put(name.text),
            WrittenPattern::Sum(left, right) => {
                self.pattern(left, Level::Sum);
                self.put(" + ");
                self.pattern(right, Level::Product);
            }
            WrittenPattern::Product(left, right) => {
                self.pattern(left, Level::Product);
                self.put(".");
                self.pattern(right, Level::Atom);
            }
            WrittenPattern::Star(part) => {
                self.put("*");
                self.pattern(part, Level::Atom);
            }
        }
        if level < wanted {
            self.put(")");
        }
    }

    // ---- expressions

    fn expression(&mut self, expression: &Expression, wanted: Level) {
        match &expression.form {
            ExpressionForm::Variable(name) => self.put(name),
            ExpressionForm::Unit => self.put("()"),
            ExpressionForm::Bool(value) => self.put(if *value { "true" } else { "false" }),
            ExpressionForm::Integer(value) => {
                let _ = write!(self.out, "{value}");
            }
            ExpressionForm::Text(text) => self.string(text),
            ExpressionForm::Operator(operator, left, right) => {
                let (word, level, own_left, own_right) = match operator {
                    Operator::Add => (" + ", Level::Sum, Level::Sum, Level::Product),
                    Operator::Subtract => (" - ", Level::Sum, Level::Sum, Level::Product),
                    Operator::Multiply => (" * ", Level::Product, Level::Product, Level::Atom),
                    Operator::Equal => (" == ", Level::Comparison, Level::Sum, Level::Sum),
                    Operator::Less => (" < ", Level::Comparison, Level::Sum, Level::Sum),
                };
                if level < wanted {
                    self.put("(");
                }
                self.expression(left, own_left);
                self.put(word);
                self.expression(right, own_right);
                if level < wanted {
                    self.put(")");
                }
            }
        }
    }

    fn string(&mut self, text: &str) {
        self.put("\"");
        for character in text.chars() {
            if matches!(character, '"' | '\\') {
                self.put("\\");
            }
            self.out.push(character);
        }
        self.put("\"");
    }

    // ---- terms

    fn block(&mut self, term: &Term) {
        self.put("{ ");
        self.term(term);
        self.put(" }");
    }

    /// A term where a simple one is wanted.
    fn simple(&mut self, term: &Term) {
        match term.form {
            Form::Let { .. } => self.block(term),
            _ => self.term(term),
        }
    }

    /// A term; statements in a row are gone through in a loop.
    fn term(&mut self, term: &Term) {
        let mut term = term;
        while let Form::Let { name, bound, body } = &term.form {
            if let Some(name) = name {
                self.put("let ");
                self.put(name.text);
                self.put(" = ");
            }
            self.simple(bound);
            self.put(if name.is_some() { " in " } else { "; " });
            term = body;
        }
        self.last(term);
    }

    fn last(&mut self, term: &Term) {
        match &term.form {
            Form::Let { .. } => unreachable!("statements stand before"),
            Form::If { test, yes, no } => {
                self.put("if ");
                self.expression(test, Level::Comparison);
                self.put(" ");
                self.block(yes);
                self.put(" else ");
                self.block(no);
            }
            Form::Print(expression) => {
                self.put("print(");
                self.expression(expression, Level::Comparison);
                self.put(")");
            }
            Form::New(name) => {
                self.put("new[");
                self.put(name.text);
                self.put("]");
            }
            Form::Spawn(body) => {
                self.put("spawn ");
                self.block(body);
            }
            Form::Free(name) => {
                self.put("free(");
                self.put(name.text);
                self.put(")");
            }
            Form::Guard { name, pattern, clauses } => self.guard(name, pattern, clauses),
            Form::Send { target, tag, arguments } => {
                self.put(target.text);
                self.put(" ! ");
                self.put(tag.text);
                self.arguments(arguments);
            }
            Form::Call { function, arguments } => {
                self.put(function.text);
                self.arguments(arguments);
            }
            Form::Value(expression) => self.expression(expression, Level::Comparison),
        }
    }

    fn arguments(&mut self, arguments: &[Expression]) {
        self.put("(");
        self.listed(arguments, |printing, argument| printing.expression(argument, Level::Comparison));
        self.put(")");
    }

    fn guard(&mut self, name: &Name, pattern: &WrittenPattern, clauses: &[Clause]) {
        self.put("guard ");
        self.put(name.text);
        self.put(" : ");
        self.pattern(pattern, Level::Sum);
        self.put(" { ");
        for clause in clauses {
            match clause {
                Clause::Fail(_) => self.put("fail"),
                Clause::Free(_, body) => {
                    self.put("free -> ");
                    self.term(body);
                }
                Clause::Receive { tag, names, from, body, .. } => {
                    self.put("receive ");
                    self.put(tag.text);
                    self.put("(");
                    self.listed(names, |printing, name| printing.put(name.text));
                    self.put(") from ");
                    self.put(from.text);
                    self.put(" -> ");
                    self.term(body);
                }
            }
            self.put(" ");
        }
        self.put("}");
    }
}
