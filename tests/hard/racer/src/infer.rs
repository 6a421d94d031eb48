//! What each node needs, and the constraints between patterns: a walk from the uses of mailboxes back to where they are made.

use crate::environment::{walk, Environment};
use crate::lexer::Span;
use crate::pattern::{Pattern, Table, ONE};
use crate::program::{bodies, received_tags, Clause, Core, Expression, Kind, Program};
use crate::refusal::{Refusal, Result};
use crate::tree::{Base, Polarity};
use crate::types::*;

/// Each word of the left pattern is one of the right, which is one variable or has none.
#[derive(Debug)]
pub struct Constraint {
    pub interface: u32,
    pub left: Pattern,
    pub right: Pattern,
    pub at: Span,
}

pub struct Problem {
    pub signatures: Vec<Signature>,
    /// How many variables the signatures have; these come first.
    pub signature_variables: usize,
    /// All variables; they are numbered from 1.
    pub variables: Vec<Variable>,
    pub constraints: Vec<Constraint>,
    /// What stands at each node.
    pub nodes: Vec<NodeType>,
}

/// The problem of a program, or the first rule that it breaks.
pub fn infer(program: &Program, table: &Table) -> Result<Problem> {
    let (signatures, variables) = signatures(program, table);
    let signature_variables = variables.len();
    let nothing = NodeType { result: TermType::Base(Base::Unit), needs: Environment::new() };
    let mut walk = Walk {
        program,
        table,
        signatures: &signatures,
        nodes: vec![nothing; program.nodes.len()],
        found: Found { table, variables, constraints: Vec::new() },
    };
    for (function, signature) in program.functions.iter().zip(&signatures) {
        walk.node(function.body, signature.result)?;
        let needs = &walk.nodes[function.body as usize].needs;
        let binders: Vec<_> = (signature.parameters.iter().enumerate())
            .filter_map(|(place, own)| Some(Binder::new(place as u32, (*own)?, needs, function.variables[place].1)))
            .collect();
        walk.found.bind(&binders)?;
    }
    let Walk { nodes, found: Found { variables, constraints, .. }, .. } = walk;
    Ok(Problem { signatures, signature_variables, variables, constraints, nodes })
}

struct Walk<'p> {
    program: &'p Program,
    table: &'p Table,
    signatures: &'p [Signature],
    nodes: Vec<NodeType>,
    found: Found<'p>,
}

struct Found<'p> {
    table: &'p Table,
    variables: Vec<Variable>,
    constraints: Vec<Constraint>,
}

/// A name that is bound with a type, and what is needed of it.
struct Binder {
    own: MailboxType,
    need: Option<MailboxType>,
    at: Span,
}

impl Binder {
    fn new(variable: u32, own: MailboxType, needs: &Environment, at: Span) -> Binder {
        Binder { own, need: needs.get(variable), at }
    }
}

impl<'p> Walk<'p> {
    /// Walks a node that is asked for a type, parts first.
    fn node(&mut self, number: u32, asked: TermType) -> Result<()> {
        let needs = self.core(number, asked)?;
        self.nodes[number as usize] = NodeType { result: asked, needs };
        Ok(())
    }

    fn needs(&self, number: u32) -> &Environment {
        &self.nodes[number as usize].needs
    }

    fn core(&mut self, number: u32, asked: TermType) -> Result<Environment> {
        let program = self.program;
        let node = program.node(number);
        match &node.core {
            Core::Value(Expression::Variable(variable)) => {
                Ok(asked.as_variable().map_or_else(Environment::new, |need| Environment::one(*variable, need)))
            }
            Core::Value(_) | Core::Print(_) => Ok(Environment::new()),
            Core::New(interface) => self.new_mailbox(*interface, asked, node.at),
            Core::Call { function, arguments } => self.call(*function, arguments, asked, node.at),
            Core::Send { target, tag, arguments } => {
                let interface = program.interface_of(node.function, *target);
                let payloads = payload_types(program.tag(interface, *tag));
                check_alias(Some(*target), &payloads, arguments, node.at)?;
                let own = sent_type(self.table, interface, *tag);
                Ok(argument_needs(&payloads, arguments).with(*target, own))
            }
            Core::Spawn(body) => {
                self.node(*body, TermType::Base(Base::Unit))?;
                Ok(self.needs(*body).mapped(&|need| need.second()))
            }
            Core::Let { variable, bound, body } => self.let_parts(*variable, *bound, *body, asked, node.at),
            Core::If { yes, no, .. } => {
                self.node(*yes, asked)?;
                self.node(*no, asked)?;
                let arms = [self.needs(*yes).clone(), self.needs(*no).clone()];
                self.found.join_arms(&arms, node.at)
            }
            Core::Guard { variable, pattern, free, clauses } => self.guard(number, asked, *variable, *pattern, *free, clauses),
        }
    }

    fn let_parts(&mut self, variable: Option<u32>, bound: u32, body: u32, asked: TermType, at: Span) -> Result<Environment> {
        self.node(body, asked)?;
        let need = variable.and_then(|variable| self.needs(body).get(variable));
        let bound_type = asked_as(self.program.node(bound).kind, need);
        self.node(bound, bound_type)?;
        let (bound, body) = (&self.nodes[bound as usize].needs, &self.nodes[body as usize].needs);
        let body = variable.map_or_else(|| body.clone(), |name| body.without(name));
        check_parts(bound, &body, at)?;
        let found = &mut self.found;
        Ok(bound.joined(&body, &mut |_, bound, body| found.join_both(bound, body, at)))
    }

    fn new_mailbox(&mut self, interface: u32, asked: TermType, at: Span) -> Result<Environment> {
        match asked {
            TermType::Mailbox { polarity: Polarity::Receiving, pattern, .. } => {
                self.found.constrain(interface, ONE, pattern, at);
                Ok(Environment::new())
            }
            _ => Err(Refusal::untypable("Polarity", at)),
        }
    }

    fn call(&mut self, function: u32, arguments: &[Expression], asked: TermType, at: Span) -> Result<Environment> {
        let signature = &self.signatures[function as usize];
        check_alias(None, &signature.parameters, arguments, at)?;
        if let (
            TermType::Mailbox { interface, polarity, pattern },
            TermType::Mailbox { polarity: asked_polarity, pattern: asked_pattern, .. },
        ) = (signature.result, asked)
        {
            if polarity != asked_polarity {
                return Err(Refusal::untypable("Polarity", at));
            }
            match polarity {
                Polarity::Receiving => self.found.constrain(interface, pattern, asked_pattern, at),
                Polarity::Sending => self.found.constrain(interface, asked_pattern, pattern, at),
            }
        }
        Ok(argument_needs(&signature.parameters, arguments))
    }

    fn guard(
        &mut self,
        number: u32,
        asked: TermType,
        variable: u32,
        pattern: Pattern,
        free: Option<u32>,
        clauses: &[Clause],
    ) -> Result<Environment> {
        let program = self.program;
        let node = program.node(number);
        let bodies = bodies(free, clauses);
        for (body, _) in &bodies {
            self.node(*body, asked)?;
        }
        if bodies.iter().any(|(body, _)| self.needs(*body).get(variable).is_some()) {
            return Err(Refusal::untypable("Order", node.at));
        }
        let outer: Vec<_> = bodies.iter().map(|(body, clause)| outer_needs(self.needs(*body), *clause)).collect();
        check_branches(&outer, node.at)?;
        let interface = program.interface_of(node.function, variable);
        for ((_, clause), outer) in bodies.iter().zip(&outer) {
            let Some(clause) = clause else { continue };
            let payloads = payload_types(program.tag(interface, clause.tag));
            if payloads.iter().any(|it| it.is_some()) && !outer.is_empty() {
                return Err(Refusal::untypable("Payload", node.at));
            }
        }
        if !self.table.is_covered(pattern, received_tags(clauses), free.is_some()) {
            return Err(Refusal::untypable("Covers", node.at));
        }
        let mut binders = Vec::new();
        for (body, clause) in &bodies {
            if let Some(clause) = clause {
                self.clause_binders(node.function, interface, pattern, *body, clause, &mut binders);
            }
        }
        self.found.bind(&binders)?;
        Ok(self.found.join_checked(&outer, node.at).with(variable, guarded_type(interface, pattern)))
    }

    fn clause_binders(
        &self,
        function: u32,
        interface: u32,
        pattern: Pattern,
        body: u32,
        clause: &Clause,
        binders: &mut Vec<Binder>,
    ) {
        let variables = &self.program.function(function).variables;
        let needs = self.needs(body);
        let rest = guarded_type(interface, self.table.residual(pattern, clause.tag));
        binders.push(Binder::new(clause.from, rest, needs, variables[clause.from as usize].1));
        let payloads = payload_types(self.program.tag(interface, clause.tag));
        for (name, payload) in clause.names.iter().zip(payloads) {
            if let Some(payload) = payload {
                binders.push(Binder::new(*name, payload, needs, variables[*name as usize].1));
            }
        }
    }
}

/// The right to send one message.
pub fn sent_type(table: &Table, interface: u32, tag: u8) -> MailboxType {
    MailboxType { interface, polarity: Polarity::Sending, usage: Usage::Second, pattern: table.tag(tag) }
}

/// The right to receive by a pattern.
pub fn guarded_type(interface: u32, pattern: Pattern) -> MailboxType {
    MailboxType { interface, polarity: Polarity::Receiving, usage: Usage::Returnable, pattern }
}

/// The type that the bound part of a `let` is asked for, where this is needed of its name.
fn asked_as(kind: Kind, need: Option<MailboxType>) -> TermType {
    match (kind, need) {
        (Kind::Base(base), _) => TermType::Base(base),
        (Kind::Mailbox(_), Some(need)) => need.as_term(),
        (Kind::Mailbox(interface), None) => TermType::Mailbox { interface, polarity: Polarity::Sending, pattern: ONE },
    }
}

/// The variables at places of mailbox types, each with its type.
pub fn mailbox_arguments<'a>(
    types: &'a [Option<MailboxType>],
    arguments: &'a [Expression],
) -> impl Iterator<Item = (u32, MailboxType)> + 'a {
    types.iter().zip(arguments).filter_map(|(own, argument)| match (own, argument) {
        (Some(own), Expression::Variable(variable)) => Some((*variable, *own)),
        _ => None,
    })
}

pub fn argument_needs(types: &[Option<MailboxType>], arguments: &[Expression]) -> Environment {
    mailbox_arguments(types, arguments).collect()
}

/// No mailbox stands twice among the arguments and the target, if there is one.
pub fn has_alias(target: Option<u32>, types: &[Option<MailboxType>], arguments: &[Expression]) -> bool {
    let mut names: Vec<u32> = mailbox_arguments(types, arguments).map(|it| it.0).chain(target).collect();
    let count = names.len();
    names.sort_unstable();
    names.dedup();
    names.len() < count
}

fn check_alias(target: Option<u32>, types: &[Option<MailboxType>], arguments: &[Expression], at: Span) -> Result<()> {
    if has_alias(target, types, arguments) {
        return Err(Refusal::untypable("Alias", at));
    }
    Ok(())
}

fn outer_needs(needs: &Environment, clause: Option<&Clause>) -> Environment {
    let Some(clause) = clause else {
        return needs.clone();
    };
    clause.names.iter().chain([&clause.from]).fold(needs.clone(), |left, name| left.without(*name))
}

/// The rules of a `let`: what is given away isn't needed afterwards, and not both parts receive.
fn check_parts(bound: &Environment, body: &Environment, at: Span) -> Result<()> {
    let (mut gives_away, mut receives_twice) = (false, false);
    walk([bound, body], &|twigs| twigs.iter().any(|it| it.is_none()), &mut |_, both| {
        if let [Some(before), Some(after)] = both {
            gives_away |= before.usage == Usage::Returnable;
            receives_twice |= before.is_receiving() && after.is_receiving();
        }
    });
    match (gives_away, receives_twice) {
        (true, _) => Err(Refusal::untypable("Order", at)),
        (false, true) => Err(Refusal::untypable("Double", at)),
        (false, false) => Ok(()),
    }
}

/// What each branch needs of one variable.
type Row = Vec<Option<MailboxType>>;

/// The variables that some branch needs, each with what all of them need of it.
fn rows_of(arms: &[Environment]) -> Vec<(u32, Row)> {
    if let [one, other] = arms {
        let mut rows = Vec::new();
        walk([one, other], &|_| false, &mut |variable, row| rows.push((variable, row.to_vec())));
        return rows;
    }
    let mut entries = Vec::new();
    for (arm, needs) in arms.iter().enumerate() {
        needs.each(&mut |variable, need| entries.push((variable, arm, need)));
    }
    entries.sort_by_key(|it| (it.0, it.1));
    let mut rows: Vec<(u32, Row)> = Vec::new();
    for (variable, arm, need) in entries {
        if rows.last().is_none_or(|it| it.0 != variable) {
            rows.push((variable, vec![None; arms.len()]));
        }
        if let Some(row) = rows.last_mut() {
            row.1[arm] = Some(need);
        }
    }
    rows
}

/// What one branch receives from, each of them receives from.
fn check_branches(arms: &[Environment], at: Span) -> Result<()> {
    let receives = |need: &Option<MailboxType>| need.is_some_and(|need| need.is_receiving());
    if !are_shared(arms) && rows_of(arms).iter().any(|(_, row)| row.iter().any(receives) && !row.iter().all(receives)) {
        return Err(Refusal::untypable("Branch", at));
    }
    Ok(())
}

fn are_shared(arms: &[Environment]) -> bool {
    arms.windows(2).all(|it| it[0].is_shared_with(&it[1]))
}

impl Found<'_> {
    fn constrain(&mut self, interface: u32, left: Pattern, right: Pattern, at: Span) {
        self.constraints.push(Constraint { interface, left, right, at });
    }

    /// A new variable of what is received.
    fn received(&mut self, interface: u32, at: Span) -> Pattern {
        self.variables.push(Variable { interface, polarity: Polarity::Receiving, at });
        self.table.variable(self.variables.len() as u32)
    }

    /// The rules of names, one after another, and their constraints.
    fn bind(&mut self, binders: &[Binder]) -> Result<()> {
        let rules: [(&str, fn(&Binder) -> bool); 3] = [
            ("Unused", |it| it.own.is_receiving() && it.need.is_none()),
            ("Polarity", |it| it.need.is_some_and(|need| need.polarity != it.own.polarity)),
            ("Second", |it| it.need.is_some_and(|need| !it.own.usage.fits(need.usage))),
        ];
        for (rule, is_broken) in rules {
            if let Some(binder) = binders.iter().find(|binder| is_broken(binder)) {
                return Err(Refusal::untypable(rule, binder.at));
            }
        }
        for binder in binders {
            let own = &binder.own;
            let need = binder.need.map_or(ONE, |need| need.pattern);
            match own.polarity {
                Polarity::Sending => self.constrain(own.interface, need, own.pattern, binder.at),
                Polarity::Receiving => self.constrain(own.interface, own.pattern, need, binder.at),
            }
        }
        Ok(())
    }

    /// What a variable is needed as that both parts of a `let` need, not both of them to receive.
    fn join_both(&mut self, bound: MailboxType, body: MailboxType, at: Span) -> MailboxType {
        let (sent, got) = match (bound.polarity, body.polarity) {
            (Polarity::Sending, Polarity::Sending) => {
                return MailboxType { pattern: self.table.product(bound.pattern, body.pattern), ..body };
            }
            (Polarity::Sending, Polarity::Receiving) => (bound.pattern, body.pattern),
            (Polarity::Receiving, _) => (body.pattern, bound.pattern),
        };
        let rest = self.received(body.interface, at);
        self.constrain(body.interface, self.table.product(sent, rest), got, at);
        MailboxType { interface: body.interface, polarity: Polarity::Receiving, usage: body.usage, pattern: rest }
    }

    fn join_arms(&mut self, arms: &[Environment], at: Span) -> Result<Environment> {
        check_branches(arms, at)?;
        Ok(self.join_checked(arms, at))
    }

    /// What branches need of each variable.
    fn join_checked(&mut self, arms: &[Environment], at: Span) -> Environment {
        match arms {
            [] => Environment::new(),
            [first, ..] if are_shared(arms) => first.clone(),
            _ => rows_of(arms).into_iter().map(|(name, row)| (name, self.join_row(&row, at))).collect(),
        }
    }

    fn join_row(&mut self, row: &Row, at: Span) -> MailboxType {
        let mut there = row.iter().flatten();
        let first = there.next().expect("some branch needs it");
        let pattern = if first.is_receiving() { self.received_by_all(row, first, at) } else { self.sum_of(row) };
        let is_returned = row.iter().flatten().any(|need| need.usage == Usage::Returnable);
        let usage = if is_returned { Usage::Returnable } else { Usage::Second };
        MailboxType { interface: first.interface, polarity: first.polarity, usage, pattern }
    }

    /// The pattern by which all branches receive: the one that they have in common, or a new one.
    fn received_by_all(&mut self, row: &Row, first: &MailboxType, at: Span) -> Pattern {
        if row.iter().flatten().all(|need| need.pattern == first.pattern) {
            return first.pattern;
        }
        let pattern = self.received(first.interface, at);
        for need in row.iter().flatten() {
            self.constrain(first.interface, pattern, need.pattern, at);
        }
        pattern
    }

    /// The sum of what branches send; 1 for one that sends nothing.
    fn sum_of(&self, row: &Row) -> Pattern {
        let mut patterns = row.iter().map(|need| need.map_or(ONE, |need| need.pattern));
        let first = patterns.next().unwrap_or(ONE);
        patterns.fold(first, |left, right| self.table.sum(left, right))
    }
}
