//! Programs as they are run: variables are places on a stack, by how many stand in scope before them, and each step says which names of
//! mailboxes it is the last to use.

use crate::program::{bodies, ends_of, received_tags, Clause, Constant, Core, Expression, Kind, Program};
use crate::tree::Operator;
use crate::values::Value;
use std::ops::Range;

pub enum Code {
    Place(u32),
    Constant(Value),
    Operator(Operator, Box<(Code, Code)>),
}

/// Places whose mailboxes nobody behind the step uses.
pub type Places = Vec<u32>;

pub enum Op {
    Value(Code, Places),
    /// The bound part comes first; then its value is put at the depth, if it is named.
    Let {
        bound: u32,
        body: u32,
        depth: u32,
        is_named: bool,
        is_used: bool,
    },
    Call {
        function: u32,
        arguments: Vec<Code>,
        last: Places,
    },
    If {
        test: Code,
        yes: (u32, Places),
        no: (u32, Places),
    },
    Print(Code),
    New,
    Send {
        target: u32,
        tag: u8,
        arguments: Vec<Code>,
        last: Places,
    },
    Spawn {
        body: u32,
        captured: Vec<u32>,
        last: Places,
    },
    Guard {
        place: u32,
        tags: u32,
        free: Option<(u32, Places)>,
        clauses: Vec<Receive>,
        depth: u32,
    },
}

pub struct Receive {
    pub tag: u8,
    pub body: u32,
    /// Which names are used: those of payloads, and then that of the mailbox.
    pub are_used: Vec<bool>,
    pub last: Places,
}

pub struct Function {
    pub body: u32,
    /// Which parameters are used.
    pub are_used: Vec<bool>,
}

pub struct Executable {
    pub ops: Vec<Op>,
    pub functions: Vec<Function>,
    pub main: u32,
}

impl Executable {
    pub fn new(program: &Program) -> Executable {
        let ends = ends_of(program);
        let mut functions = Vec::new();
        let mut ops: Vec<Op> = Vec::new();
        ops.resize_with(program.nodes.len(), || Op::New);
        for number in 0..program.functions.len() as u32 {
            let function = program.function(number);
            let count = function.variables.len();
            let (places, uses) = (vec![0; count], vec![0; count]);
            let mut making = Making { program, ends: &ends, function: number, ops, places, uses, used: Vec::new() };
            let parameters = function.parameters.len() as u32;
            (0..parameters).for_each(|it| making.places[it as usize] = it);
            making.node(function.body, parameters);
            let are_used = (0..parameters as usize).map(|it| making.uses[it] > 0).collect();
            functions.push(Function { body: function.body, are_used });
            ops = making.ops;
        }
        Executable { ops, functions, main: program.main }
    }
}

/// A function's code, made from behind, so that what is used later is known.
struct Making<'p> {
    program: &'p Program,
    /// For each node the first one behind its parts.
    ends: &'p [u32],
    function: u32,
    ops: Vec<Op>,
    places: Vec<u32>,
    /// For each variable of the function that names a mailbox how often it is noted as used from here on, and these notes in order.
    uses: Vec<u32>,
    used: Vec<u32>,
}

impl Making<'_> {
    fn code(&self, expression: &Expression) -> Code {
        match expression {
            Expression::Variable(variable) => Code::Place(self.places[*variable as usize]),
            Expression::Constant(constant) => Code::Constant(match constant {
                Constant::Unit => Value::Unit,
                Constant::Bool(value) => Value::Bool(*value),
                Constant::Integer(value) => Value::Integer(*value),
                Constant::Text(value) => Value::Text(value.clone()),
            }),
            Expression::Operator(operator, left, right) => {
                Code::Operator(*operator, Box::new((self.code(left), self.code(right))))
            }
        }
    }

    fn is_mailbox(&self, variable: u32) -> bool {
        matches!(self.program.kind_of(self.function, variable), Some(Kind::Mailbox(_)))
    }

    fn note(&mut self, variable: u32) {
        self.uses[variable as usize] += 1;
        self.used.push(variable);
    }

    /// Takes back the notes from a place on.
    fn forget(&mut self, from: usize) -> Vec<u32> {
        let notes = self.used.split_off(from);
        notes.iter().for_each(|variable| self.uses[*variable as usize] -= 1);
        notes
    }

    fn remember(&mut self, notes: &[u32]) {
        notes.iter().for_each(|variable| self.note(*variable));
    }

    /// The places of those of these variables that nothing behind uses, if they are in scope at the depth. The variables are noted.
    fn last_uses(&mut self, variables: impl Iterator<Item = u32>, depth: u32) -> Places {
        let mut last = Places::new();
        let variables: Vec<u32> = variables.filter(|it| self.is_mailbox(*it)).collect();
        for variable in &variables {
            let place = self.places[*variable as usize];
            if self.uses[*variable as usize] == 0 && place < depth {
                last.push(place);
            }
        }
        last.sort_unstable();
        last.dedup();
        self.remember(&variables);
        last
    }

    /// Makes a node's code, with so many variables in scope.
    fn node(&mut self, number: u32, depth: u32) {
        let program = self.program;
        let op = match &program.node(number).core {
            Core::Value(expression) => {
                let last = self.last_uses(named(expression).into_iter(), depth);
                Op::Value(self.code(expression), last)
            }
            Core::Let { variable, bound, body } => {
                if let Some(variable) = variable {
                    self.places[*variable as usize] = depth;
                }
                self.node(*body, depth + variable.is_some() as u32);
                let is_used = variable.is_some_and(|it| self.uses[it as usize] > 0);
                self.node(*bound, depth);
                Op::Let { bound: *bound, body: *body, depth, is_named: variable.is_some(), is_used }
            }
            Core::Call { function, arguments } => {
                let last = self.last_uses(arguments.iter().filter_map(named), depth);
                Op::Call { function: *function, arguments: arguments.iter().map(|it| self.code(it)).collect(), last }
            }
            Core::If { test, yes, no } => {
                let mut last = self.branches(&[(*yes, depth, Vec::new()), (*no, depth, Vec::new())], depth);
                let (for_no, for_yes) = (last.pop().unwrap_or_default().1, last.pop().unwrap_or_default().1);
                Op::If { test: self.code(test), yes: (*yes, for_yes), no: (*no, for_no) }
            }
            Core::Print(expression) => Op::Print(self.code(expression)),
            Core::New(_) => Op::New,
            Core::Send { target, tag, arguments } => {
                let last = self.last_uses(arguments.iter().filter_map(named).chain([*target]), depth);
                let arguments = arguments.iter().map(|it| self.code(it)).collect();
                Op::Send { target: self.places[*target as usize], tag: *tag, arguments, last }
            }
            Core::Spawn(body) => self.spawn(*body, depth),
            Core::Guard { variable, free, clauses, .. } => self.guard(*variable, *free, clauses, depth),
        };
        self.ops[number as usize] = op;
    }

    /// Makes the code of bodies of which one is taken, each with so many variables in scope, some of them its own names. Answers for
    /// each which of these it uses, and what the other bodies alone use.
    fn branches(&mut self, bodies: &[(u32, u32, Vec<u32>)], depth: u32) -> Vec<(Vec<bool>, Places)> {
        let from = self.used.len();
        let mut notes = Vec::new();
        let mut are_used = Vec::new();
        for (body, inner, names) in bodies {
            self.node(*body, *inner);
            are_used.push(names.iter().map(|name| self.uses[*name as usize] > 0).collect());
            let mut own = self.forget(from);
            own.retain(|it| self.places[*it as usize] < depth);
            own.sort_unstable();
            own.dedup();
            notes.push(own);
        }
        let mut all = notes.concat();
        all.sort_unstable();
        all.dedup();
        let mut last = Vec::new();
        for (own, are_used) in notes.iter().zip(are_used) {
            let is_last = |variable: &u32| self.uses[*variable as usize] == 0 && own.binary_search(variable).is_err();
            last.push((are_used, all.iter().copied().filter(is_last).map(|it| self.places[it as usize]).collect()));
        }
        self.remember(&all);
        last
    }

    /// A spawned body has a stack of its own, on which the variables that it uses come first.
    fn spawn(&mut self, body: u32, depth: u32) -> Op {
        let free = free_variables(self.program, body..self.ends[body as usize]);
        let captured: Vec<u32> = free.iter().map(|it| self.places[*it as usize]).collect();
        for (place, variable) in free.iter().enumerate() {
            self.places[*variable as usize] = place as u32;
        }
        let uses: Vec<u32> = free.iter().map(|it| std::mem::take(&mut self.uses[*it as usize])).collect();
        let from = self.used.len();
        self.node(body, free.len() as u32);
        self.forget(from);
        for ((variable, place), uses) in free.iter().zip(&captured).zip(uses) {
            self.places[*variable as usize] = *place;
            self.uses[*variable as usize] = uses;
        }
        let last = self.last_uses(free.iter().copied(), depth);
        Op::Spawn { body, captured, last }
    }

    fn guard(&mut self, variable: u32, free: Option<u32>, clauses: &[Clause], depth: u32) -> Op {
        let ordered = bodies(free, clauses);
        let mut inner = Vec::new();
        for (body, clause) in &ordered {
            let names: Vec<u32> = clause.iter().flat_map(|it| it.names.iter().chain([&it.from])).copied().collect();
            for (at, name) in names.iter().enumerate() {
                self.places[*name as usize] = depth + at as u32;
            }
            inner.push((*body, depth + names.len() as u32, names));
        }
        let found = self.branches(&inner, depth);
        let own = self.last_uses([variable].into_iter(), depth);
        let (mut free, mut receives) = (None, Vec::new());
        for ((body, clause), (are_used, mut last)) in ordered.iter().zip(found) {
            last.extend(&own);
            match clause {
                None => free = Some((*body, last)),
                Some(clause) => receives.push(Receive { tag: clause.tag, body: *body, are_used, last }),
            }
        }
        let place = self.places[variable as usize];
        Op::Guard { place, tags: received_tags(clauses), free, clauses: receives, depth }
    }
}

fn named(expression: &Expression) -> Option<u32> {
    match expression {
        Expression::Variable(variable) => Some(*variable),
        _ => None,
    }
}

/// The variables that these nodes use and don't bind, in ascending order.
fn free_variables(program: &Program, nodes: Range<u32>) -> Vec<u32> {
    let (mut used, mut bound) = (Vec::new(), Vec::new());
    for node in &program.nodes[nodes.start as usize..nodes.end as usize] {
        match &node.core {
            Core::Value(expression) | Core::Print(expression) | Core::If { test: expression, .. } => {
                occurring(expression, &mut used)
            }
            Core::Let { variable, .. } => bound.extend(variable),
            Core::Call { arguments, .. } => arguments.iter().for_each(|it| occurring(it, &mut used)),
            Core::Send { target, arguments, .. } => {
                used.push(*target);
                arguments.iter().for_each(|it| occurring(it, &mut used));
            }
            Core::Guard { variable, clauses, .. } => {
                used.push(*variable);
                clauses.iter().for_each(|it| bound.extend(it.names.iter().chain([&it.from])));
            }
            Core::New(_) | Core::Spawn(_) => {}
        }
    }
    bound.sort_unstable();
    used.sort_unstable();
    used.dedup();
    used.retain(|variable| bound.binary_search(variable).is_err());
    used
}

fn occurring(expression: &Expression, names: &mut Vec<u32>) {
    match expression {
        Expression::Variable(variable) => names.push(*variable),
        Expression::Constant(_) => {}
        Expression::Operator(_, left, right) => {
            occurring(left, names);
            occurring(right, names);
        }
    }
}
