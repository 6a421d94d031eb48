//! The judge: whether a derivation is valid, by eight rules at each node; and the derivation of a solved problem.

use crate::demands::{Asking, Derivation, Line};
use crate::environment::{Environment, Twig};
use crate::hashing::Map;
use crate::infer::{has_alias, Problem};
use crate::linear::Forms;
use crate::pattern::{Pattern, Table};
use crate::program::{bodies, ends_of, received_tags, Clause, Core, Kind, Program};
use crate::refusal::{Refusal, Result};
use crate::scope::Scope;
use crate::solve::Solution;
use crate::tree::{Base, Polarity};
use crate::types::*;
use std::ops::Range;
use std::rc::Rc;

/// The derivation of a solved problem.
pub fn derivation_of<'t>(
    program: &Program,
    table: &'t Table,
    forms: &mut Forms<'t>,
    problem: Problem,
    solution: Solution,
) -> Result<(Derivation, Vec<Signature>)> {
    let Problem { signatures, variables, nodes, .. } = problem;
    let values: Vec<_> = variables.iter().map(|it| it.interface).zip(solution.values).collect();
    let mut lines: Vec<Line> = nodes.into_iter().map(|of| Line { of, certs: Vec::new() }).collect();
    let mut scope = Scope::new(program, table, forms, &values);
    let mut asking = Asking::new(program, table, &signatures);
    for number in 0..lines.len() {
        asking.ask(&lines, number as u32);
        for inclusion in asking.demands.iter().filter_map(|demand| demand.inclusion(table)) {
            match scope.cert_for(&inclusion, &solution.bounds) {
                Some(cert) => lines[number].certs.extend(cert),
                None => return Err(Refusal::at("undecided", program.nodes[number].at)),
            }
        }
    }
    drop((scope, asking));
    Ok((Derivation { values, lines }, signatures))
}

/// Judges the derivation: the number of the first bad node and the first rule that is broken there are the refusal.
pub fn judge<'t>(
    program: &Program,
    table: &'t Table,
    forms: &mut Forms<'t>,
    signatures: &[Signature],
    derivation: &Derivation,
) -> Result<()> {
    let mut judge = Judge {
        program,
        table,
        signatures,
        derivation,
        scope: Scope::new(program, table, forms, &derivation.values),
        asking: Asking::new(program, table, signatures),
        ranges: ranges_of(program),
        summaries: Map::default(),
    };
    for number in 0..program.nodes.len().max(derivation.lines.len()) {
        if let Err(rule) = judge.node(number as u32) {
            return Err(Refusal::new(format!("rejected at node {number}: {rule}")));
        }
    }
    Ok(())
}

// ---- scopes

/// For each variable of each function the nodes at which it is in scope.
fn ranges_of(program: &Program) -> Vec<Vec<Range<u32>>> {
    let ends = ends_of(program);
    let part = |number: u32| number..ends[number as usize];
    let mut ranges: Vec<Vec<Range<u32>>> =
        program.functions.iter().map(|function| vec![part(function.body); function.variables.len()]).collect();
    for node in &program.nodes {
        let own = &mut ranges[node.function as usize];
        match &node.core {
            Core::Let { variable: Some(variable), body, .. } => own[*variable as usize] = part(*body),
            Core::Guard { clauses, .. } => {
                for clause in clauses {
                    for name in clause.names.iter().chain([&clause.from]) {
                        own[*name as usize] = part(clause.body);
                    }
                }
            }
            _ => {}
        }
    }
    ranges
}

// ---- rules

struct Judge<'s, 't> {
    program: &'s Program,
    table: &'t Table,
    signatures: &'s [Signature],
    derivation: &'s Derivation,
    scope: Scope<'s, 't>,
    asking: Asking<'s>,
    ranges: Vec<Vec<Range<u32>>>,
    /// What was found of parts of environments that several lines have.
    summaries: Map<(u32, *const Twig), Summary>,
}

/// What is alike for all that an environment's part names.
#[derive(Clone, Copy)]
struct Summary {
    /// The nodes at which all are in scope.
    from: u32,
    to: u32,
    /// Whether all are mailboxes of their interfaces, with patterns that are formed.
    is_formed: bool,
    /// Whether each sending pattern has a word.
    has_words: bool,
}

type Judged = std::result::Result<(), &'static str>;

fn unless(passes: bool, rule: &'static str) -> Judged {
    if passes {
        Ok(())
    } else {
        Err(rule)
    }
}

impl Judge<'_, '_> {
    /// Looks at all rules at one number.
    fn node(&mut self, number: u32) -> Judged {
        let (program, derivation, table) = (self.program, self.derivation, self.table);
        let (Some(node), Some(line)) = (program.nodes.get(number as usize), derivation.lines.get(number as usize)) else {
            return Err("Shape");
        };
        let summary = self.summary_of(node.function, &line.of.needs);
        unless(self.has_shape(number, line, summary), "Shape")?;
        unless(self.has_words(number, line, summary), "Empty")?;
        unless(!self.has_alias(number), "Alias")?;
        self.asking.ask(&derivation.lines, number);
        let demands = std::mem::take(&mut self.asking.demands);
        unless(demands.iter().all(|it| it.is_used_well()), "Use")?;
        let is_dropped = |scope: &mut Scope| demands.iter().all(|demand| demand.is_dropped_well(|own| scope.may_drop(own)));
        unless(is_dropped(&mut self.scope), "Drop")?;
        if let Core::Guard { variable, pattern, free, clauses } = &node.core {
            let interface = program.interface_of(node.function, *variable);
            unless(clauses.iter().all(|clause| self.keeps_apart(interface, clause)), "Payload")?;
            unless(table.is_covered(*pattern, received_tags(clauses), free.is_some()), "Covers")?;
        }
        let mut certs = line.certs.iter();
        let mut inclusions = demands.iter().filter_map(|demand| demand.inclusion(table));
        unless(inclusions.all(|inclusion| self.scope.is_shown(&inclusion, &mut certs)) && certs.next().is_none(), "Cert")?;
        drop(inclusions);
        self.asking.demands = demands;
        Ok(())
    }

    fn is_first(&self, number: u32) -> bool {
        self.program.function(self.program.node(number).function).body == number
    }

    fn signature(&self, number: u32) -> &Signature {
        &self.signatures[self.program.node(number).function as usize]
    }

    // ---- environments

    fn summary_of(&mut self, function: u32, environment: &Environment) -> Summary {
        match &environment.0 {
            Some(twig) => self.summary(function, twig),
            None => Summary { from: 0, to: u32::MAX, is_formed: true, has_words: true },
        }
    }

    /// Parts that stand in several lines are looked at once.
    fn summary(&mut self, function: u32, twig: &Rc<Twig>) -> Summary {
        let is_kept = Rc::strong_count(twig) > 1;
        if let Some(known) = self.summaries.get(&(function, Rc::as_ptr(twig))).filter(|_| is_kept) {
            return *known;
        }
        let summary = match &**twig {
            Twig::Leaf(variable, own) => self.leaf(function, *variable, own),
            Twig::Fork { low, high, .. } => {
                let (one, other) = (self.summary(function, low), self.summary(function, high));
                Summary {
                    from: one.from.max(other.from),
                    to: one.to.min(other.to),
                    is_formed: one.is_formed && other.is_formed,
                    has_words: one.has_words && other.has_words,
                }
            }
        };
        if is_kept {
            self.summaries.insert((function, Rc::as_ptr(twig)), summary);
        }
        summary
    }

    fn leaf(&mut self, function: u32, variable: u32, own: &MailboxType) -> Summary {
        let range = self.ranges[function as usize].get(variable as usize).cloned().unwrap_or(0..0);
        Summary {
            from: range.start,
            to: range.end,
            is_formed: self.program.kind_of(function, variable) == Some(Kind::Mailbox(own.interface))
                && self.scope.is_formed(own.interface, own.pattern),
            has_words: has_word(&mut self.scope, own.polarity, own.pattern),
        }
    }

    // ---- Shape

    fn has_shape(&mut self, number: u32, line: &Line, summary: Summary) -> bool {
        let node = self.program.node(number);
        let result = &line.of.result;
        result.kind() == node.kind
            && summary.is_formed
            && (summary.from..summary.to).contains(&number)
            && self.is_formed(result)
            && self.tails_agree(&node.core, result)
            && (!self.is_first(number) || *result == self.signature(number).result)
            && (number != 0 || self.starts_well())
    }

    fn is_formed(&mut self, result: &TermType) -> bool {
        match result {
            TermType::Base(_) => true,
            TermType::Mailbox { interface, pattern, .. } => self.scope.is_formed(*interface, *pattern),
        }
    }

    /// The parts whose result is the term's have its type. Those without a line break the rule at their own numbers.
    fn tails_agree(&self, core: &Core, result: &TermType) -> bool {
        let gives =
            |part: u32, own: &TermType| self.derivation.lines.get(part as usize).is_none_or(|line| line.of.result == *own);
        match core {
            Core::Let { body, .. } => gives(*body, result),
            Core::If { yes, no, .. } => gives(*yes, result) && gives(*no, result),
            Core::Spawn(body) => gives(*body, &TermType::Base(Base::Unit)),
            Core::Guard { free, clauses, .. } => bodies(*free, clauses).iter().all(|(body, _)| gives(*body, result)),
            _ => true,
        }
    }

    fn starts_well(&self) -> bool {
        let patterns = self.signatures.iter().flat_map(|it| it.parameters.iter().flatten().map(|own| own.pattern));
        let results = self.signatures.iter().filter_map(|it| match it.result {
            TermType::Mailbox { pattern, .. } => Some(pattern),
            TermType::Base(_) => None,
        });
        patterns.chain(results).all(|it| self.table.variables(it).iter().all(|it| self.scope.has_value(*it)))
            && self.derivation.values.iter().all(|it| self.scope.value_fits(it))
    }

    // ---- Empty, Alias, Payload

    /// Each sending pattern has a word.
    fn has_words(&mut self, number: u32, line: &Line, summary: Summary) -> bool {
        if !summary.has_words || !self.result_has_word(&line.of.result) {
            return false;
        }
        let signature = &self.signatures[self.program.node(number).function as usize];
        !self.is_first(number)
            || (signature.parameters.iter().flatten().all(|own| has_word(&mut self.scope, own.polarity, own.pattern))
                && self.result_has_word(&signature.result))
    }

    fn result_has_word(&mut self, result: &TermType) -> bool {
        match result {
            TermType::Base(_) => true,
            TermType::Mailbox { polarity, pattern, .. } => has_word(&mut self.scope, *polarity, *pattern),
        }
    }

    fn has_alias(&self, number: u32) -> bool {
        let node = self.program.node(number);
        match &node.core {
            Core::Call { function, arguments } => has_alias(None, &self.signatures[*function as usize].parameters, arguments),
            Core::Send { target, tag, arguments } => {
                let interface = self.program.interface_of(node.function, *target);
                has_alias(Some(*target), &payload_types(self.program.tag(interface, *tag)), arguments)
            }
            _ => false,
        }
    }

    /// Beside a mailbox payload the body of a clause names the clause's own names alone.
    fn keeps_apart(&self, interface: u32, clause: &Clause) -> bool {
        let payloads = payload_types(self.program.tag(interface, clause.tag));
        let Some(line) = self.derivation.lines.get(clause.body as usize).filter(|_| payloads.iter().any(|it| it.is_some()))
        else {
            return true;
        };
        let mut are_own = true;
        line.of.needs.each(&mut |variable, _| are_own &= clause.binds(variable));
        are_own
    }
}

fn has_word(scope: &mut Scope, polarity: Polarity, pattern: Pattern) -> bool {
    polarity == Polarity::Receiving || scope.is_inhabited(pattern)
}
