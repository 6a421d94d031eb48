//! The text of a derivation, written and read.

use crate::demands::{Cert, Derivation, Line};
use crate::environment::{Builder, Environment};
use crate::hashing::Map;
use crate::linear::{Cover, CoverEntry};
use crate::pattern::{Form, Pattern, Table, ONE, ZERO};
use crate::points::{grid_fits, Space};
use crate::program::Program;
use crate::refusal::{Refusal, Result};
use crate::run::push_number;
use crate::solve::Value;
use crate::tree::{Base, Polarity};
use crate::types::{MailboxType, NodeType, TermType, Usage};
use std::rc::Rc;

// ---- writing

pub fn write(program: &Program, table: &Table, derivation: &Derivation) -> String {
    let names = (0..program.interfaces.len() as u32).map(|it| program.tag_names(it)).collect();
    let mut writer = Writer { program, table, names, known: Map::default(), out: "%%derivation\n".to_string() };
    for (place, (interface, value)) in derivation.values.iter().enumerate() {
        writer.variable(place as u32 + 1, *interface, value);
    }
    for (number, line) in derivation.lines.iter().enumerate() {
        writer.line(number as u32, line);
    }
    writer.out
}

/// The most nodes of a pattern whose text is kept.
const KEPT_NODES: u32 = 64;

struct Writer<'a> {
    program: &'a Program,
    table: &'a Table,
    names: Vec<Vec<String>>,
    known: Map<(u32, Pattern), Rc<str>>,
    out: String,
}

impl Writer<'_> {
    fn pattern(&mut self, interface: u32, pattern: Pattern) {
        if self.table.nodes(pattern) > KEPT_NODES {
            return self.table.write(pattern, &self.names[interface as usize], &mut self.out);
        }
        if let Some(known) = self.known.get(&(interface, pattern)) {
            return self.out.push_str(known);
        }
        let from = self.out.len();
        self.table.write(pattern, &self.names[interface as usize], &mut self.out);
        self.known.insert((interface, pattern), self.out[from..].into());
    }

    fn mailbox(&mut self, interface: u32, polarity: Polarity, pattern: Pattern) {
        self.out.push_str(&self.program.interfaces[interface as usize].name);
        self.out.push(if polarity == Polarity::Sending { '!' } else { '?' });
        self.pattern(interface, pattern);
    }

    fn variable(&mut self, number: u32, interface: u32, value: &Value) {
        self.out.push_str("var ");
        push_number(&mut self.out, number);
        self.out.push(' ');
        self.out.push_str(&self.program.interfaces[interface as usize].name);
        self.out.push(' ');
        match value {
            Value::Pattern(pattern) => self.pattern(interface, *pattern),
            Value::Grid { bound, points } => {
                self.out.push('@');
                push_number(&mut self.out, *bound);
                let space = Space::new(*bound, self.program.tag_count(interface));
                let out = &mut self.out;
                space.each(points, &mut |point| {
                    out.push(' ');
                    push_numbers(out, &space.counts(point));
                });
            }
        }
        self.out.push('\n');
    }

    fn line(&mut self, number: u32, line: &Line) {
        self.out.push_str("node ");
        push_number(&mut self.out, number);
        self.out.push(' ');
        match line.of.result {
            TermType::Base(base) => self.out.push_str(name_of(base)),
            TermType::Mailbox { interface, polarity, pattern } => self.mailbox(interface, polarity, pattern),
        }
        self.out.push_str(" {");
        let mut is_first = true;
        line.of.needs.each(&mut |variable, own| {
            self.out.push_str(if std::mem::take(&mut is_first) { "v" } else { ", v" });
            push_number(&mut self.out, variable);
            self.out.push_str(": ");
            self.mailbox(own.interface, own.polarity, own.pattern);
            self.out.push_str(if own.usage == Usage::Second { " sec" } else { " ret" });
        });
        self.out.push('}');
        line.certs.iter().for_each(|cert| self.cert(cert));
        self.out.push('\n');
    }

    fn cert(&mut self, cert: &Cert) {
        match cert {
            Cert::Grid(bound) => {
                self.out.push_str(" g");
                push_number(&mut self.out, *bound);
            }
            Cert::Cover(cover) => {
                self.out.push_str(" c(");
                for (place, entry) in cover.iter().enumerate() {
                    if place > 0 {
                        self.out.push('|');
                    }
                    push_number(&mut self.out, entry.set as u32);
                    self.out.push(':');
                    push_numbers(&mut self.out, &entry.base);
                    for period in &entry.periods {
                        self.out.push(';');
                        push_numbers(&mut self.out, period);
                    }
                }
                self.out.push(')');
            }
        }
    }
}

fn push_numbers(out: &mut String, numbers: &[u32]) {
    for (place, number) in numbers.iter().enumerate() {
        if place > 0 {
            out.push(',');
        }
        push_number(out, *number);
    }
}

fn name_of(base: Base) -> &'static str {
    match base {
        Base::Unit => "Unit",
        Base::Bool => "Bool",
        Base::Int => "Int",
        Base::String => "String",
    }
}

// ---- reading

/// The derivation of a text that stands at an offset in the input.
pub fn read<'a>(program: &'a Program, table: &'a Table, text: &'a [u8], offset: usize) -> Result<Derivation> {
    let mut reader = Reader::new(program, table);
    let mut derivation = Derivation { values: Vec::new(), lines: Vec::new() };
    let mut from = 0;
    while from < text.len() {
        let bad = || Refusal::new(format!("bad text at {}", offset + from));
        let length = text[from..].iter().position(|it| *it == b'\n').ok_or_else(bad)?;
        let line = std::str::from_utf8(&text[from..from + length]).map_err(|_| bad())?;
        reader.line(line, &mut derivation).ok_or_else(bad)?;
        from += length + 1;
    }
    Ok(derivation)
}

struct Reader<'a> {
    program: &'a Program,
    table: &'a Table,
    interfaces: Map<&'a str, u32>,
    tags: Vec<Map<&'a str, u8>>,
    /// Environments and covers that stand in several lines are read once, and parts of environments are kept once.
    environments: Map<&'a str, Environment>,
    builder: Builder,
    covers: Map<&'a str, Rc<Cover>>,
}

/// What of a line is left to read.
struct Rest<'l> {
    text: &'l str,
}

impl<'l> Rest<'l> {
    fn take(&mut self, start: &str) -> Option<()> {
        self.text = self.text.strip_prefix(start)?;
        Some(())
    }

    fn takes(&mut self, start: &str) -> bool {
        self.take(start).is_some()
    }

    fn number(&mut self) -> Option<u32> {
        let length = self.text.bytes().take_while(|it| it.is_ascii_digit()).count();
        let (digits, rest) = self.text.split_at(length);
        self.text = rest;
        crate::replay::number_of(digits.as_bytes())
    }

    /// Numbers with commas between, or none.
    fn numbers(&mut self) -> Option<Vec<u32>> {
        let mut numbers = Vec::new();
        if !self.text.starts_with(|it: char| it.is_ascii_digit()) {
            return Some(numbers);
        }
        numbers.push(self.number()?);
        while self.takes(",") {
            numbers.push(self.number()?);
        }
        Some(numbers)
    }

    fn name(&mut self) -> &'l str {
        let end = self.text.find(|it: char| it != '_' && !it.is_alphanumeric()).unwrap_or(self.text.len());
        let (name, rest) = self.text.split_at(end);
        self.text = rest;
        name
    }
}

impl<'a> Reader<'a> {
    fn new(program: &'a Program, table: &'a Table) -> Reader<'a> {
        let interfaces = program.interfaces.iter().enumerate().map(|(number, it)| (it.name.as_str(), number as u32)).collect();
        let tags_of = |it: &'a crate::program::Interface| {
            it.tags.iter().enumerate().map(|(tag, it)| (it.name.as_str(), tag as u8)).collect()
        };
        let tags = program.interfaces.iter().map(tags_of).collect();
        let (environments, builder, covers) = Default::default();
        Reader { program, table, interfaces, tags, environments, builder, covers }
    }

    fn line(&mut self, line: &'a str, derivation: &mut Derivation) -> Option<()> {
        let mut rest = Rest { text: line };
        if rest.takes("var ") && derivation.lines.is_empty() {
            if rest.number()? as usize != derivation.values.len() + 1 {
                return None;
            }
            derivation.values.push(self.variable(&mut rest)?);
        } else {
            rest = Rest { text: line };
            rest.take("node ")?;
            if rest.number()? as usize != derivation.lines.len() {
                return None;
            }
            rest.take(" ")?;
            derivation.lines.push(self.node(&mut rest)?);
        }
        rest.text.is_empty().then_some(())
    }

    fn interface(&self, rest: &mut Rest) -> Option<u32> {
        self.interfaces.get(rest.name()).copied()
    }

    fn variable(&self, rest: &mut Rest) -> Option<(u32, Value)> {
        rest.take(" ")?;
        let interface = self.interface(rest)?;
        rest.take(" ")?;
        if !rest.takes("@") {
            let pattern = self.pattern(interface, rest)?;
            return self.table.is_closed(pattern).then_some((interface, Value::Pattern(pattern)));
        }
        let (bound, tags) = (rest.number()?, self.program.tag_count(interface));
        if !grid_fits(bound, tags) {
            return None;
        }
        let space = Space::new(bound, tags);
        let mut points: Vec<u32> = Vec::new();
        while rest.takes(" ") {
            let counts = rest.numbers()?;
            let number = space.number_of(&counts);
            if counts.len() != tags || counts.iter().any(|it| *it > bound) || points.last().is_some_and(|it| *it >= number) {
                return None;
            }
            points.push(number);
        }
        Some((interface, Value::Grid { bound, points: Rc::new(space.from_list(points)) }))
    }

    fn mailbox(&self, rest: &mut Rest) -> Option<(u32, Polarity, Pattern)> {
        let interface = self.interface(rest)?;
        let polarity = if rest.takes("!") {
            Polarity::Sending
        } else {
            rest.take("?")?;
            Polarity::Receiving
        };
        Some((interface, polarity, self.pattern(interface, rest)?))
    }

    fn node(&mut self, rest: &mut Rest<'a>) -> Option<Line> {
        let base = [Base::Unit, Base::Bool, Base::Int, Base::String]
            .into_iter()
            .find(|base| rest.takes(&format!("{} ", name_of(*base))));
        let result = match base {
            Some(base) => TermType::Base(base),
            None => {
                let (interface, polarity, pattern) = self.mailbox(rest)?;
                rest.take(" ")?;
                TermType::Mailbox { interface, polarity, pattern }
            }
        };
        let needs = self.needs(rest)?;
        let mut certs = Vec::new();
        while rest.takes(" ") {
            certs.push(self.cert(rest)?);
        }
        Some(Line { of: NodeType { result, needs }, certs })
    }

    fn needs(&mut self, rest: &mut Rest<'a>) -> Option<Environment> {
        let end = rest.text.find('}')? + 1;
        let (text, behind) = rest.text.split_at(end);
        if let Some(known) = self.environments.get(text) {
            rest.text = behind;
            return Some(known.clone());
        }
        rest.take("{")?;
        let mut entries: Vec<(u32, MailboxType)> = Vec::new();
        while !rest.takes("}") {
            if !entries.is_empty() {
                rest.take(", ")?;
            }
            rest.take("v")?;
            let variable = rest.number()?;
            rest.take(": ")?;
            let (interface, polarity, pattern) = self.mailbox(rest)?;
            let usage = if rest.takes(" sec") {
                Usage::Second
            } else {
                rest.take(" ret")?;
                Usage::Returnable
            };
            entries.push((variable, MailboxType { interface, polarity, usage, pattern }));
        }
        if entries.windows(2).any(|pair| pair[0].0 >= pair[1].0) {
            return None;
        }
        let environment = self.builder.of(&entries);
        self.environments.insert(text, environment.clone());
        Some(environment)
    }

    fn cert(&mut self, rest: &mut Rest<'a>) -> Option<Cert> {
        if rest.takes("g") {
            return Some(Cert::Grid(rest.number()?));
        }
        rest.take("c(")?;
        let end = rest.text.find(')')?;
        let (text, behind) = rest.text.split_at(end);
        rest.text = &behind[1..];
        if let Some(known) = self.covers.get(text) {
            return Some(Cert::Cover(known.clone()));
        }
        let cover = Rc::new(cover_of(text)?);
        self.covers.insert(text, cover.clone());
        Some(Cert::Cover(cover))
    }

    // ---- patterns, in brackets just where they couldn't be read back without

    fn pattern(&self, interface: u32, rest: &mut Rest) -> Option<Pattern> {
        let pattern = self.sum(interface, rest)?;
        self.table.has_few_levels(pattern).then_some(pattern)
    }

    fn sum(&self, interface: u32, rest: &mut Rest) -> Option<Pattern> {
        let (mut sum, is_bracketed) = self.product(interface, rest)?;
        if is_bracketed {
            return None;
        }
        while rest.takes(" + ") {
            let (right, is_bracketed) = self.product(interface, rest)?;
            if is_bracketed && !matches!(self.table.form(right), Form::Sum(..)) {
                return None;
            }
            sum = self.table.plain_sum(sum, right);
        }
        Some(sum)
    }

    /// A product, and whether it is but one part, in brackets.
    fn product(&self, interface: u32, rest: &mut Rest) -> Option<(Pattern, bool)> {
        let (mut product, mut is_bracketed) = self.factor(interface, rest)?;
        while rest.takes(".") {
            if is_bracketed && !matches!(self.table.form(product), Form::Sum(..)) {
                return None;
            }
            let (right, right_is_bracketed) = self.factor(interface, rest)?;
            if right_is_bracketed && !matches!(self.table.form(right), Form::Sum(..) | Form::Product(..)) {
                return None;
            }
            product = self.table.plain_product(product, right);
            is_bracketed = false;
        }
        Some((product, is_bracketed))
    }

    fn factor(&self, interface: u32, rest: &mut Rest) -> Option<(Pattern, bool)> {
        if rest.takes("(") {
            let inside = self.sum(interface, rest)?;
            rest.take(")")?;
            return Some((inside, true));
        }
        if rest.takes("*") {
            let (part, is_bracketed) = self.factor(interface, rest)?;
            if is_bracketed && !matches!(self.table.form(part), Form::Sum(..) | Form::Product(..)) {
                return None;
            }
            return Some((self.table.plain_star(part), false));
        }
        if rest.takes("$") {
            return Some((self.table.variable(rest.number()?), false));
        }
        let pattern = match rest.name() {
            "0" => ZERO,
            "1" => ONE,
            name => self.table.tag(*self.tags[interface as usize].get(name)?),
        };
        Some((pattern, false))
    }
}

fn cover_of(text: &str) -> Option<Cover> {
    if text.is_empty() {
        return Some(Cover::new());
    }
    text.split('|').map(entry_of).collect()
}

fn entry_of(text: &str) -> Option<CoverEntry> {
    let mut rest = Rest { text };
    let set = rest.number()? as usize;
    rest.take(":")?;
    let base = rest.numbers()?;
    let mut periods = Vec::new();
    while rest.takes(";") {
        periods.push(rest.numbers()?);
    }
    rest.text.is_empty().then_some(CoverEntry { set, base, periods })
}
