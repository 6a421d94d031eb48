//! A tree to a program in numbered form: what names stand for, and the kinds of terms.

use crate::hashing::{Map, Set};
use crate::lexer::Span;
use crate::pattern::{Pattern, Table, ONE, ZERO};
use crate::program::{Clause, Constant, Core, Expression, Function, Interface, Kind, Node, Program, Sort, Tag};
use crate::refusal::{Refusal, Result};
use crate::tree;
use crate::tree::{Base, Declaration, Definition, ExpressionForm, Form, Name, Operator, TypeForm, WrittenPattern, WrittenType};

const MOST_TAGS: usize = 32;
const UNIT: Kind = Kind::Base(Base::Unit);

/// The program of these declarations of a text of so many bytes.
pub fn resolve(declarations: &[Declaration], length: u32, table: &Table) -> Result<Program> {
    let mut heads =
        Heads { table, interfaces: Map::default(), tags: Vec::new(), functions: Map::default(), signatures: Vec::new() };
    heads.name_interfaces(declarations);
    let interfaces = heads.examine(declarations)?;
    let main = heads.main(declarations, length)?;
    let mut program = Program { interfaces, functions: Vec::new(), main, nodes: Vec::new() };
    for definition in definitions(declarations) {
        let function = program.functions.len() as u32;
        let (parameters, result) = heads.signatures[function as usize].clone();
        let mut body = Body {
            heads: &heads,
            interfaces: &program.interfaces,
            nodes: &mut program.nodes,
            function,
            variables: Vec::new(),
            scope: Map::default(),
        };
        let first = body.nodes.len() as u32;
        for ((name, _), sort) in definition.parameters.iter().zip(&parameters) {
            let number = body.declare(name, sort.kind());
            body.enter(name, number);
        }
        body.term(&definition.body, Some(result.kind()))?;
        let variables = body.variables;
        let written = definition.parameters.iter().map(|it| it.1.at).chain([definition.result.at]).collect();
        program.functions.push(Function { parameters, result, variables, body: first, written });
    }
    Ok(program)
}

fn definitions<'t, 'a>(declarations: &'t [Declaration<'a>]) -> impl Iterator<Item = &'t Definition<'a>> {
    declarations.iter().filter_map(|declaration| match declaration {
        Declaration::Function(definition) => Some(definition),
        Declaration::Interface { .. } => None,
    })
}

fn wrong<T>(what: &str, at: Span) -> Result<T> {
    Err(Refusal::at(what, at))
}

// ---- heads

/// What the names of declarations stand for.
struct Heads<'a> {
    table: &'a Table,
    interfaces: Map<&'a str, u32>,
    /// The names of each interface's tags.
    tags: Vec<Vec<&'a str>>,
    functions: Map<&'a str, u32>,
    signatures: Vec<(Vec<Sort>, Sort)>,
}

impl<'a> Heads<'a> {
    /// Names interfaces and their tags before anything else, since they may be used before they are declared.
    fn name_interfaces(&mut self, declarations: &[Declaration<'a>]) {
        for declaration in declarations {
            if let Declaration::Interface { name, messages } = declaration {
                let number = self.tags.len() as u32;
                self.interfaces.entry(name.text).or_insert(number);
                self.tags.push(messages.iter().map(|message| message.name.text).collect());
            }
        }
    }

    fn examine(&mut self, declarations: &[Declaration<'a>]) -> Result<Vec<Interface>> {
        let mut interfaces = Vec::new();
        for declaration in declarations {
            match declaration {
                Declaration::Interface { name, messages } => {
                    if self.interfaces[name.text] != interfaces.len() as u32 {
                        return wrong("twice", name.at);
                    }
                    interfaces.push(self.interface(name, messages)?);
                }
                Declaration::Function(definition) => self.signature(definition)?,
            }
        }
        Ok(interfaces)
    }

    fn interface(&self, name: &Name<'a>, messages: &[tree::Message<'a>]) -> Result<Interface> {
        let mut seen = Set::default();
        let mut tags = Vec::new();
        for message in messages {
            if !seen.insert(message.name.text) {
                return wrong("twice", message.name.at);
            }
            if tags.len() == MOST_TAGS {
                return wrong("too many tags", message.name.at);
            }
            let payloads = message.payloads.iter().map(|it| self.sort(it)).collect::<Result<_>>()?;
            tags.push(Tag { name: message.name.text.to_string(), payloads });
        }
        Ok(Interface { name: name.text.to_string(), tags })
    }

    fn signature(&mut self, definition: &Definition<'a>) -> Result<()> {
        let name = &definition.name;
        if self.functions.insert(name.text, self.signatures.len() as u32).is_some() {
            return wrong("twice", name.at);
        }
        let mut seen = Set::default();
        let mut parameters = Vec::new();
        for (parameter, written) in &definition.parameters {
            if !seen.insert(parameter.text) {
                return wrong("twice", parameter.at);
            }
            parameters.push(self.sort(written)?);
        }
        let result = self.sort(&definition.result)?;
        self.signatures.push((parameters, result));
        Ok(())
    }

    fn main(&self, declarations: &[Declaration<'a>], length: u32) -> Result<u32> {
        let Some(&number) = self.functions.get("main") else {
            return wrong("unknown name", Span { start: length, end: length });
        };
        let (parameters, result) = &self.signatures[number as usize];
        let at = definitions(declarations).nth(number as usize).map_or(Span { start: 0, end: 0 }, |it| it.name.at);
        if !parameters.is_empty() {
            return wrong("wrong arity", at);
        }
        if result.kind() != UNIT {
            return wrong("wrong kind", at);
        }
        Ok(number)
    }

    fn sort(&self, written: &WrittenType<'a>) -> Result<Sort> {
        match &written.form {
            TypeForm::Base(base) => Ok(Sort::Base(*base)),
            TypeForm::Mailbox { interface, polarity, pattern } => {
                let number = self.interface_named(interface)?;
                let pattern = match pattern {
                    Some(pattern) => Some(self.pattern(number, pattern)?),
                    None => None,
                };
                let is_sending = *polarity == tree::Polarity::Sending;
                if is_sending && pattern.is_some_and(|it| !self.table.is_inhabited(it, &|_| false)) {
                    return wrong("empty sending type", written.at);
                }
                Ok(Sort::Mailbox { interface: number, polarity: *polarity, pattern })
            }
        }
    }

    fn interface_named(&self, name: &Name) -> Result<u32> {
        match self.interfaces.get(name.text) {
            Some(number) => Ok(*number),
            None => wrong("unknown name", name.at),
        }
    }

    fn tag(&self, interface: u32, name: &Name) -> Result<u8> {
        match self.tags[interface as usize].iter().position(|tag| *tag == name.text) {
            Some(number) => Ok(number as u8),
            None => wrong("foreign tag", name.at),
        }
    }

    fn pattern(&self, interface: u32, written: &WrittenPattern) -> Result<Pattern> {
        Ok(match written {
            WrittenPattern::Zero => ZERO,
            WrittenPattern::One => ONE,
            WrittenPattern::Tag(name) => self.table.tag(self.tag(interface, name)?),
            WrittenPattern::Sum(left, right) => {
                self.table.plain_sum(self.pattern(interface, left)?, self.pattern(interface, right)?)
            }
            WrittenPattern::Product(left, right) => {
                self.table.plain_product(self.pattern(interface, left)?, self.pattern(interface, right)?)
            }
            WrittenPattern::Star(part) => self.table.plain_star(self.pattern(interface, part)?),
        })
    }
}

// ---- bodies

/// The body of a function, as far as it is numbered.
struct Body<'h, 'a> {
    heads: &'h Heads<'a>,
    interfaces: &'h [Interface],
    nodes: &'h mut Vec<Node>,
    function: u32,
    variables: Vec<(Kind, Span)>,
    scope: Map<&'a str, u32>,
}

impl<'h, 'a> Body<'h, 'a> {
    /// A new variable of the name, which isn't in scope yet.
    fn declare(&mut self, name: &Name<'a>, kind: Kind) -> u32 {
        self.variables.push((kind, name.at));
        self.variables.len() as u32 - 1
    }

    /// The name stands for the variable from now on; answers what it stood for before.
    fn enter(&mut self, name: &Name<'a>, variable: u32) -> (&'a str, Option<u32>) {
        (name.text, self.scope.insert(name.text, variable))
    }

    fn leave(&mut self, entered: (&'a str, Option<u32>)) {
        match entered.1 {
            Some(before) => self.scope.insert(entered.0, before),
            None => self.scope.remove(entered.0),
        };
    }

    fn variable(&self, name: &str, at: Span) -> Result<(u32, Kind)> {
        match self.scope.get(name) {
            Some(&number) => Ok((number, self.variables[number as usize].0)),
            None => wrong("unknown name", at),
        }
    }

    /// A variable that is guarded, freed or sent to: a mailbox, with its interface.
    fn mailbox(&self, name: &Name, whole: Span) -> Result<(u32, u32)> {
        match self.variable(name.text, name.at)? {
            (number, Kind::Mailbox(interface)) => Ok((number, interface)),
            _ => wrong("wrong kind", whole),
        }
    }

    fn push(&mut self, core: Core, kind: Kind, at: Span) -> u32 {
        self.nodes.push(Node { core, kind, function: self.function, at });
        self.nodes.len() as u32 - 1
    }

    /// A place for a node whose parts come before it is known.
    fn reserve(&mut self, at: Span) -> u32 {
        self.push(Core::Value(Expression::Constant(Constant::Unit)), UNIT, at)
    }

    fn fill(&mut self, number: u32, core: Core, kind: Kind) {
        let node = &mut self.nodes[number as usize];
        node.core = core;
        node.kind = kind;
    }

    fn next(&self) -> u32 {
        self.nodes.len() as u32
    }

    /// Numbers a term of which a kind is needed, or any; answers its kind.
    fn term(&mut self, term: &tree::Term<'a>, needed: Option<Kind>) -> Result<Kind> {
        let kind = match &term.form {
            Form::Let { name, bound, body } => return self.let_term(term.at, name, bound, body, needed),
            Form::If { test, yes, no } => {
                let node = self.reserve(term.at);
                let test = self.expression_of(test, Kind::Base(Base::Bool))?;
                let first = self.next();
                let kind = self.term(yes, needed)?;
                let second = self.next();
                self.term(no, Some(kind))?;
                self.fill(node, Core::If { test, yes: first, no: second }, kind);
                return Ok(kind);
            }
            Form::Guard { name, pattern, clauses } => return self.guard(term.at, name, pattern, clauses, needed),
            Form::Spawn(body) => {
                let node = self.reserve(term.at);
                let first = self.next();
                self.term(body, Some(UNIT))?;
                self.fill(node, Core::Spawn(first), UNIT);
                UNIT
            }
            Form::Print(expression) => {
                let (made, kind) = self.expression(expression)?;
                if kind == UNIT || matches!(kind, Kind::Mailbox(_)) {
                    return wrong("wrong kind", expression.at);
                }
                self.push(Core::Print(made), UNIT, term.at);
                UNIT
            }
            Form::New(name) => {
                let interface = self.heads.interface_named(name)?;
                self.push(Core::New(interface), Kind::Mailbox(interface), term.at);
                Kind::Mailbox(interface)
            }
            Form::Free(name) => {
                let (variable, _) = self.mailbox(name, term.at)?;
                let body = Some(self.next() + 1);
                self.push(Core::Guard { variable, pattern: ONE, free: body, clauses: Vec::new() }, UNIT, term.at);
                self.push(Core::Value(Expression::Constant(Constant::Unit)), UNIT, term.at);
                UNIT
            }
            Form::Send { target, tag, arguments } => {
                let (variable, interface) = self.mailbox(target, term.at)?;
                let number = self.heads.tag(interface, tag)?;
                let payloads = &self.interfaces[interface as usize].tags[number as usize].payloads;
                let arguments = self.arguments(arguments, payloads, tag.at)?;
                self.push(Core::Send { target: variable, tag: number, arguments }, UNIT, term.at);
                UNIT
            }
            Form::Call { function, arguments } => {
                let Some(&number) = self.heads.functions.get(function.text) else {
                    return wrong("unknown name", function.at);
                };
                let heads = self.heads;
                let (parameters, result) = &heads.signatures[number as usize];
                let arguments = self.arguments(arguments, parameters, function.at)?;
                self.push(Core::Call { function: number, arguments }, result.kind(), term.at);
                result.kind()
            }
            Form::Value(expression) => {
                let (made, kind) = self.expression(expression)?;
                self.push(Core::Value(made), kind, term.at);
                kind
            }
        };
        if needed.is_some_and(|needed| needed != kind) {
            return wrong("wrong kind", term.at);
        }
        Ok(kind)
    }

    fn let_term(
        &mut self,
        at: Span,
        name: &Option<Name<'a>>,
        bound: &tree::Term<'a>,
        body: &tree::Term<'a>,
        needed: Option<Kind>,
    ) -> Result<Kind> {
        let node = self.reserve(at);
        let first = self.next();
        let Some(name) = name else {
            self.term(bound, Some(UNIT))?;
            let second = self.next();
            let kind = self.term(body, needed)?;
            self.fill(node, Core::Let { variable: None, bound: first, body: second }, kind);
            return Ok(kind);
        };
        let variable = self.declare(name, UNIT);
        let bound_kind = self.term(bound, None)?;
        self.variables[variable as usize].0 = bound_kind;
        let second = self.next();
        let entered = self.enter(name, variable);
        let kind = self.term(body, needed)?;
        self.leave(entered);
        self.fill(node, Core::Let { variable: Some(variable), bound: first, body: second }, kind);
        Ok(kind)
    }

    fn guard(
        &mut self,
        at: Span,
        name: &Name<'a>,
        pattern: &WrittenPattern<'a>,
        clauses: &[tree::Clause<'a>],
        needed: Option<Kind>,
    ) -> Result<Kind> {
        let node = self.reserve(at);
        let (variable, interface) = self.mailbox(name, at)?;
        let pattern = self.heads.pattern(interface, pattern)?;
        let mut kind = needed;
        let mut free = None;
        let mut fails = false;
        let mut receives: Vec<Clause> = Vec::new();
        for clause in clauses {
            match clause {
                tree::Clause::Fail(at) => {
                    if fails {
                        return wrong("twice", *at);
                    }
                    fails = true;
                }
                tree::Clause::Free(at, body) => {
                    if free.is_some() {
                        return wrong("twice", *at);
                    }
                    free = Some(self.next());
                    kind = Some(self.term(body, kind)?);
                }
                tree::Clause::Receive { at, tag, names, from, body } => {
                    let known = self.heads.tags[interface as usize].iter().position(|it| *it == tag.text);
                    if receives.iter().any(|it| Some(it.tag as usize) == known) {
                        return wrong("twice", *at);
                    }
                    let (receive, own) = self.receive(interface, tag, names, from, body, kind)?;
                    receives.push(receive);
                    kind = Some(own);
                }
            }
        }
        let kind = match kind {
            Some(kind) if free.is_some() || !receives.is_empty() || kind == UNIT => kind,
            None => UNIT,
            Some(_) => return wrong("wrong kind", at),
        };
        self.fill(node, Core::Guard { variable, pattern, free, clauses: receives }, kind);
        Ok(kind)
    }

    fn receive(
        &mut self,
        interface: u32,
        tag: &Name<'a>,
        names: &[Name<'a>],
        from: &Name<'a>,
        body: &tree::Term<'a>,
        needed: Option<Kind>,
    ) -> Result<(Clause, Kind)> {
        let number = self.heads.tag(interface, tag)?;
        let payloads = &self.interfaces[interface as usize].tags[number as usize].payloads;
        if payloads.len() != names.len() {
            return wrong("wrong arity", tag.at);
        }
        let kinds = payloads.iter().map(|payload| payload.kind()).chain([Kind::Mailbox(interface)]);
        let mut numbers = Vec::new();
        let mut entered: Vec<(&str, Option<u32>)> = Vec::new();
        for (name, kind) in names.iter().chain([from]).zip(kinds) {
            if entered.iter().any(|it| it.0 == name.text) {
                return wrong("twice", name.at);
            }
            let variable = self.declare(name, kind);
            entered.push(self.enter(name, variable));
            numbers.push(variable);
        }
        let from = numbers.pop().unwrap_or(0);
        let first = self.next();
        let kind = self.term(body, needed)?;
        while let Some(name) = entered.pop() {
            self.leave(name);
        }
        Ok((Clause { tag: number, names: numbers, from, body: first }, kind))
    }

    fn arguments(&self, arguments: &[tree::Expression<'a>], sorts: &[Sort], at: Span) -> Result<Vec<Expression>> {
        if arguments.len() != sorts.len() {
            return wrong("wrong arity", at);
        }
        arguments.iter().zip(sorts).map(|(argument, sort)| self.expression_of(argument, sort.kind())).collect()
    }

    fn expression_of(&self, expression: &tree::Expression<'a>, needed: Kind) -> Result<Expression> {
        let (made, kind) = self.expression(expression)?;
        if kind != needed {
            return wrong("wrong kind", expression.at);
        }
        Ok(made)
    }

    fn expression(&self, expression: &tree::Expression<'a>) -> Result<(Expression, Kind)> {
        Ok(match &expression.form {
            ExpressionForm::Variable(name) => {
                let (number, kind) = self.variable(name, expression.at)?;
                (Expression::Variable(number), kind)
            }
            ExpressionForm::Unit => (Expression::Constant(Constant::Unit), UNIT),
            ExpressionForm::Bool(value) => (Expression::Constant(Constant::Bool(*value)), Kind::Base(Base::Bool)),
            ExpressionForm::Integer(value) => (Expression::Constant(Constant::Integer(*value)), Kind::Base(Base::Int)),
            ExpressionForm::Text(value) => {
                (Expression::Constant(Constant::Text(value.as_str().into())), Kind::Base(Base::String))
            }
            ExpressionForm::Operator(operator, left, right) => {
                let (made_left, kind) = self.operand(*operator, left)?;
                let made_right = self.expression_of(right, kind)?;
                (Expression::Operator(*operator, Box::new(made_left), Box::new(made_right)), result_of(*operator))
            }
        })
    }

    /// The left operand, with a kind that the operator takes.
    fn operand(&self, operator: Operator, left: &tree::Expression<'a>) -> Result<(Expression, Kind)> {
        let (made, kind) = self.expression(left)?;
        let is_taken = match operator {
            Operator::Equal => matches!(kind, Kind::Base(Base::Int | Base::Bool | Base::String)),
            _ => kind == Kind::Base(Base::Int),
        };
        if !is_taken {
            return wrong("wrong kind", left.at);
        }
        Ok((made, kind))
    }
}

fn result_of(operator: Operator) -> Kind {
    match operator {
        Operator::Equal | Operator::Less => Kind::Base(Base::Bool),
        Operator::Add | Operator::Subtract | Operator::Multiply => Kind::Base(Base::Int),
    }
}
