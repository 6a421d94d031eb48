//! What a node of a derivation asks of the types that stand around it.

use crate::environment::{are_shared, walk, Environment};
use crate::infer::{guarded_type, mailbox_arguments, sent_type};
use crate::linear::Cover;
use crate::pattern::{Pattern, Table, ONE};
use crate::program::{bodies, Clause, Core, Expression, Kind, Program};
use crate::solve::Value;
use crate::tree::Polarity;
use crate::types::*;
use std::rc::Rc;

/// What shows an inclusion: a direct cover of closed forms, or the bound of a grid.
#[derive(Clone)]
pub enum Cert {
    Cover(Rc<Cover>),
    Grid(u32),
}

pub struct Line {
    pub of: NodeType,
    pub certs: Vec<Cert>,
}

/// A value for each pattern variable, with the variable's interface, and what stands at each node.
pub struct Derivation {
    pub values: Vec<(u32, Value)>,
    pub lines: Vec<Line>,
}

/// Each word of the left pattern is to be one of the right, both of one interface.
pub struct Inclusion {
    pub interface: Option<u32>,
    pub left: Pattern,
    pub right: Pattern,
}

/// What is asked of one variable, or of a result. What is the same on both sides and in memory asks nothing.
#[derive(Clone, Copy)]
pub enum Demand {
    /// What is there passes to what is asked.
    Pass { given: Option<MailboxType>, asked: Option<MailboxType> },
    /// What is there is divided among the bound part and the body of a `let`.
    Divide { given: Option<MailboxType>, bound: Option<MailboxType>, body: Option<MailboxType> },
    /// The name of a `let` has the bound part's type in the body, or the body does without it.
    Name { bound: TermType, body: Option<MailboxType> },
    /// What one part of a `let` names is there, where the other part has no line.
    There { given: Option<MailboxType> },
}

/// Asks all that nodes ask, in order.
pub struct Asking<'a> {
    pub program: &'a Program,
    pub table: &'a Table,
    pub signatures: &'a [Signature],
    /// The parameters of each function that name mailboxes.
    parameters: Vec<Environment>,
    pub demands: Vec<Demand>,
}

impl<'a> Asking<'a> {
    pub fn new(program: &'a Program, table: &'a Table, signatures: &'a [Signature]) -> Asking<'a> {
        let parameters = signatures
            .iter()
            .map(|it| it.parameters.iter().enumerate().filter_map(|(place, own)| Some((place as u32, (*own)?))).collect());
        Asking { program, table, signatures, parameters: parameters.collect(), demands: Vec::new() }
    }

    /// Notes what a node asks that has a line.
    pub fn ask(&mut self, lines: &[Line], number: u32) {
        let node = self.program.node(number);
        let line = &lines[number as usize].of;
        self.demands.clear();
        if self.program.function(node.function).body == number {
            let parameters = std::mem::take(&mut self.parameters[node.function as usize]);
            self.pass(&parameters, &line.needs);
        }
        self.core(node.function, &node.core, line, lines);
    }

    fn pass(&mut self, given: &Environment, asked: &Environment) {
        let demands = &mut self.demands;
        walk([given, asked], &|[given, asked]| are_shared(given, asked), &mut |_, [given, asked]| {
            demands.push(Demand::Pass { given, asked });
        });
    }

    /// A term's type passes to another's.
    fn result(&mut self, given: &TermType, asked: &TermType) {
        if let (Some(given), Some(asked)) = (given.as_variable(), asked.as_variable()) {
            self.demands.push(Demand::Pass { given: Some(given), asked: Some(asked) });
        }
    }

    /// What is there passes to these arguments, in their order; the others are dropped.
    fn arguments(&mut self, needs: &Environment, arguments: &[(u32, MailboxType)]) {
        let asked: Environment = arguments.iter().copied().collect();
        for (variable, asked) in arguments {
            self.demands.push(Demand::Pass { given: needs.get(*variable), asked: Some(*asked) });
        }
        let demands = &mut self.demands;
        walk([needs, &asked], &|[_, _]| false, &mut |_, [given, asked]| {
            if asked.is_none() {
                demands.push(Demand::Pass { given, asked });
            }
        });
    }

    fn core(&mut self, function: u32, core: &Core, line: &NodeType, lines: &[Line]) {
        let needs = &line.needs;
        let part = |number: &u32| lines.get(*number as usize).map(|it| &it.of);
        match core {
            Core::Value(Expression::Variable(variable)) => {
                let asked = line.result.as_variable().map_or_else(Environment::new, |own| Environment::one(*variable, own));
                self.pass(needs, &asked);
            }
            Core::Value(_) | Core::Print(_) => self.pass(needs, &Environment::new()),
            Core::New(interface) => {
                let made = TermType::Mailbox { interface: *interface, polarity: Polarity::Receiving, pattern: ONE };
                self.result(&made, &line.result);
                self.pass(needs, &Environment::new());
            }
            Core::Call { function, arguments } => {
                let signature = &self.signatures[*function as usize];
                let asked: Vec<_> = mailbox_arguments(&signature.parameters, arguments).collect();
                self.arguments(needs, &asked);
                self.result(&signature.result, &line.result);
            }
            Core::Send { target, tag, arguments } => {
                let interface = self.program.interface_of(function, *target);
                let payloads = payload_types(self.program.tag(interface, *tag));
                let mut asked = vec![(*target, sent_type(self.table, interface, *tag))];
                asked.extend(mailbox_arguments(&payloads, arguments));
                self.arguments(needs, &asked);
            }
            Core::If { yes, no, .. } => {
                for body in [yes, no].into_iter().filter_map(part) {
                    self.pass(needs, &body.needs);
                }
            }
            Core::Spawn(body) => {
                if let Some(body) = part(body) {
                    let demands = &mut self.demands;
                    walk([needs, &body.needs], &|[given, asked]| are_shared(given, asked), &mut |_, [given, asked]| {
                        demands.push(Demand::Pass { given: given.map(|it| it.returnable()), asked });
                    });
                }
            }
            Core::Let { variable, bound, body } => self.let_parts(function, *variable, needs, part(bound), part(body)),
            Core::Guard { variable, pattern, free, clauses } => {
                self.guard(function, *variable, *pattern, bodies(*free, clauses), needs, lines)
            }
        }
    }

    fn let_parts(
        &mut self,
        function: u32,
        variable: Option<u32>,
        needs: &Environment,
        bound: Option<&NodeType>,
        body: Option<&NodeType>,
    ) {
        let outer = |body: &NodeType| variable.map_or_else(|| body.needs.clone(), |name| body.needs.without(name));
        let demands = &mut self.demands;
        let (bound, body) = match (bound, body) {
            (Some(bound), Some(body)) => (bound, body),
            (one, other) => {
                let part = one.map(|it| it.needs.clone()).or(other.map(outer)).unwrap_or_default();
                walk([needs, &part], &|[_, part]| part.is_none(), &mut |_, [given, part]| {
                    demands.extend(part.map(|_| Demand::There { given }));
                });
                return;
            }
        };
        let body_needs = outer(body);
        walk(
            [needs, &bound.needs, &body_needs],
            &|[given, bound, body]| bound.is_none() && are_shared(given, body) || body.is_none() && are_shared(given, bound),
            &mut |_, [given, bound, body]| demands.push(Demand::Divide { given, bound, body }),
        );
        if let Some(name) = variable {
            if let Some(Kind::Mailbox(_)) = self.program.kind_of(function, name) {
                demands.push(Demand::Name { bound: bound.result, body: body.needs.get(name) });
            }
        }
    }

    fn guard(
        &mut self,
        function: u32,
        variable: u32,
        pattern: Pattern,
        bodies: Vec<(u32, Option<&Clause>)>,
        needs: &Environment,
        lines: &[Line],
    ) {
        let interface = self.program.interface_of(function, variable);
        self.demands.push(Demand::Pass { given: needs.get(variable), asked: Some(guarded_type(interface, pattern)) });
        let rest = needs.without(variable);
        if bodies.is_empty() {
            self.pass(&rest, &Environment::new());
        }
        for (body, clause) in bodies {
            let Some(line) = lines.get(body as usize) else { continue };
            let Some(clause) = clause else {
                self.pass(&rest, &line.of.needs);
                continue;
            };
            let own = self.clause(interface, pattern, clause);
            let mut asked = line.of.needs.clone();
            for (name, _) in &own {
                asked = asked.without(*name);
            }
            self.pass(&rest, &asked);
            for (name, given) in own {
                self.demands.push(Demand::Pass { given: Some(given), asked: line.of.needs.get(name) });
            }
        }
    }

    /// What a clause's own names have, the mailbox's first.
    fn clause(&self, interface: u32, pattern: Pattern, clause: &Clause) -> Vec<(u32, MailboxType)> {
        let mut own = vec![(clause.from, guarded_type(interface, self.table.residual(pattern, clause.tag)))];
        let payloads = payload_types(self.program.tag(interface, clause.tag));
        own.extend(clause.names.iter().zip(payloads).filter_map(|(name, payload)| Some((*name, payload?))));
        own
    }
}

impl Demand {
    /// What is used is there, and polarity and usage fit.
    pub fn is_used_well(&self) -> bool {
        match *self {
            Demand::Pass { given, asked } => is_fit(given, asked),
            Demand::Divide { given, bound: Some(bound), body: Some(body) } => {
                given.is_some_and(|given| uses_join(given, bound, body))
            }
            Demand::Divide { given, bound, body } => is_fit(given, bound.or(body)),
            Demand::Name { bound, body } => body.is_none_or(|body| bound == body.as_term()),
            Demand::There { given } => given.is_some(),
        }
    }

    /// What isn't passed on is what this says may be dropped.
    pub fn is_dropped_well(&self, mut may_drop: impl FnMut(&MailboxType) -> bool) -> bool {
        match *self {
            Demand::Pass { given: Some(given), asked: None } => may_drop(&given),
            Demand::Divide { given: Some(given), bound: None, body: None } => may_drop(&given),
            Demand::Name { bound, body: None } => bound.as_variable().is_some_and(|bound| may_drop(&bound)),
            _ => true,
        }
    }

    /// The inclusion that it needs, if it needs one.
    pub fn inclusion(&self, table: &Table) -> Option<Inclusion> {
        match *self {
            Demand::Pass { given, asked } => Some(fit(given?, asked?)),
            Demand::Divide { given, bound: Some(bound), body: Some(body) } => join(table, given?, bound, body),
            Demand::Divide { given, bound, body } => Some(fit(given?, bound.or(body)?)),
            Demand::Name { .. } | Demand::There { .. } => None,
        }
    }
}

fn is_fit(given: Option<MailboxType>, asked: Option<MailboxType>) -> bool {
    match (given, asked) {
        (_, None) => true,
        (None, Some(_)) => false,
        (Some(given), Some(asked)) => given.polarity == asked.polarity && given.usage.fits(asked.usage),
    }
}

/// The uses of both parts of a `let` join to one of what is there.
fn uses_join(given: MailboxType, bound: MailboxType, body: MailboxType) -> bool {
    let one_receives = bound.is_receiving() ^ body.is_receiving() == given.is_receiving();
    let not_both = !(bound.is_receiving() && body.is_receiving());
    bound.usage == Usage::Second && given.usage.fits(body.usage) && one_receives && not_both
}

/// More may be sent than is needed, and less may be received than is allowed.
fn fit(given: MailboxType, asked: MailboxType) -> Inclusion {
    let interface = (given.interface == asked.interface).then_some(asked.interface);
    let (left, right) = match asked.polarity {
        Polarity::Sending => (asked, given),
        Polarity::Receiving => (given, asked),
    };
    Inclusion { interface, left: left.pattern, right: right.pattern }
}

fn join(table: &Table, given: MailboxType, bound: MailboxType, body: MailboxType) -> Option<Inclusion> {
    let (first, second, right) = match (bound.polarity, body.polarity) {
        (Polarity::Sending, Polarity::Sending) => (bound, body, given),
        (Polarity::Sending, Polarity::Receiving) => (bound, given, body),
        (Polarity::Receiving, Polarity::Sending) => (body, given, bound),
        (Polarity::Receiving, Polarity::Receiving) => return None,
    };
    let is_one = bound.interface == given.interface && body.interface == given.interface;
    Some(Inclusion {
        interface: is_one.then_some(given.interface),
        left: table.product(first.pattern, second.pattern),
        right: right.pattern,
    })
}
