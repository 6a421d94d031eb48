//! `racer`: programs of actors with mailbox types, printed, checked, derived, run, replayed and put in order by one worker, as a plain program does it.
//!
//! It answers as `pat` does, by the best algorithms that are known for each part. Want of memory ends the program, and the walks
//! recurse on a large stack.
//!
//! `cargo build --release` here, and then `tests/hard/speed --against tests/hard/racer/target/release/racer` at the top runs both.

mod code;
mod demands;
mod derivation;
mod environment;
mod grid;
mod hashing;
mod infer;
mod judge;
mod least;
mod lexer;
mod linear;
mod machine;
mod numbers;
mod order;
mod parser;
mod pattern;
mod points;
mod print;
mod program;
mod refusal;
mod replay;
mod resolver;
mod run;
mod scope;
mod solve;
mod tree;
mod types;
mod values;

use code::Executable;
use demands::Derivation;
use linear::Forms;
use pattern::Table;
use program::Program;
use refusal::{Refusal, Result};
use replay::Entry;
use std::io::{Read, Write};
use tree::Declaration;
use types::Signature;

const MOST_BYTES: usize = 1_048_576;
const MOST_BYTES_WITH_LINES: usize = 67_108_864;
/// How many steps a run may take, and how many messages may be pending in it, where the words don't say so.
const MOST_STEPS: u32 = 100_000;
const MOST_MESSAGES: u32 = 1_000_000;
/// Statements stand in one another as deep as a program is long, and the walks along them recurse.
const STACK: usize = 512 << 20;

/// The program of a text.
fn resolved(text: &[u8], table: &Table) -> Result<Program> {
    read(text, table, |_, program| program)
}

/// What comes of the tree and the program of a text.
fn read<T>(text: &[u8], table: &Table, then: impl FnOnce(&[Declaration], Program) -> T) -> Result<T> {
    if text.len() > MOST_BYTES {
        return Err(Refusal::new("too long".to_string()));
    }
    let text = match std::str::from_utf8(text) {
        Ok(text) => text,
        Err(error) => return Err(lexer::refused_before(&text[..error.valid_up_to()])),
    };
    let tokens = kept(lexer::tokens(text)?);
    let tree = kept(parser::parse(tokens)?);
    let program = resolver::resolve(tree, text.len() as u32, table)?;
    Ok(then(tree, program))
}

/// A value that stays until the program ends: taking large ones apart just before that would be needless work.
fn kept<'a, T: 'a>(value: T) -> &'a T {
    Box::leak(Box::new(value))
}

fn print(text: &[u8]) -> Result<(i32, String)> {
    let printed = |tree: &[Declaration], program| {
        kept(program);
        print::print(tree, text.len())
    };
    Ok((0, read(text, kept(Table::new()), printed)?))
}

/// The derivation of a program, which has been judged.
fn derived<'a>(program: &Program, table: &'a Table) -> Result<(&'a Derivation, &'a [Signature])> {
    let mut forms = Forms::new(table);
    let problem = infer::infer(program, table)?;
    let solution = solve::solve(program, table, &problem, &mut forms)?;
    let (derivation, signatures) = judge::derivation_of(program, table, &mut forms, problem, solution)?;
    let (derivation, signatures) = (kept(derivation), kept(signatures));
    judge::judge(program, table, &mut forms, signatures, derivation)?;
    std::mem::forget(forms);
    Ok((derivation, signatures))
}

fn check(text: &[u8]) -> Result<(i32, String)> {
    let table = kept(Table::new());
    derived(kept(resolved(text, table)?), table)?;
    Ok((0, "accepted\n".to_string()))
}

fn derive(text: &[u8]) -> Result<(i32, String)> {
    let table = kept(Table::new());
    let program = kept(resolved(text, table)?);
    let (derivation, _) = derived(program, table)?;
    Ok((0, derivation::write(program, table, derivation)))
}

fn verify(text: &[u8]) -> Result<(i32, String)> {
    let table = kept(Table::new());
    let (program, offset, lines) = split(text, "%%derivation")?;
    let program = kept(resolved(program, table)?);
    let derivation = kept(derivation::read(program, table, lines, offset)?);
    let (signatures, _) = types::signatures(program, table);
    judge::judge(program, table, &mut Forms::new(table), &signatures, derivation)?;
    Ok((0, "accepted\n".to_string()))
}

fn replay(text: &[u8]) -> Result<(i32, String)> {
    Ok((0, replayed(text)?.1))
}

fn order(text: &[u8]) -> Result<(i32, String)> {
    let (entries, printed) = replayed(text)?;
    if entries.len() > order::MOST_ENTRIES {
        return Err(Refusal::new("too many entries".to_string()));
    }
    let mut text = "%%history\n".to_string();
    for Entry { worker, thread, local, act } in order::in_order(entries) {
        run::push_entry(&mut text, worker, thread, local, act);
    }
    Ok((0, text + "%%output\n" + &printed))
}

/// The entries of the history behind a program, and what a replay of them prints, with its end.
fn replayed(text: &[u8]) -> Result<(Vec<Entry>, String)> {
    let table = kept(Table::new());
    let (program, offset, lines) = split(text, "%%history")?;
    let program = kept(resolved(program, table)?);
    let lines = place_of_line(lines, "%%output").map_or(lines, |at| &lines[..at]);
    replay::replay(kept(Executable::new(program)), lines, offset)
}

fn run(text: &[u8], steps: u32, messages: u32) -> Result<(i32, String)> {
    let told = told(text, steps, messages)?;
    Ok((told.status, format!("%%history\n{}%%output\n{}{}", told.history, told.output, told.end)))
}

fn told(text: &[u8], steps: u32, messages: u32) -> Result<run::Told> {
    let table = kept(Table::new());
    let program = kept(resolved(text, table)?);
    derived(program, table)?;
    Ok(run::run(kept(Executable::new(program)), steps, messages))
}

fn load(count: u32, steps: u32, messages: u32) -> Result<(i32, String)> {
    let told = told(generated(count).as_bytes(), steps, messages)?;
    Ok((told.status, told.output + &told.end))
}

/// The program that `load` runs.
fn generated(count: u32) -> String {
    let mut text = "interface Sum { Part(Int) }\ninterface Work { Job(Int, Sum!Part) }\n".to_string();
    for i in 1..=count {
        text += &format!(
            "def w{i}(self: Work?): Unit {{ guard self : Job {{ receive Job(x, to) from self -> free(self); to ! Part(x * 3 + 1) }} }}\n"
        );
    }
    text += "def gather(self: Sum?, sum: Int): Unit { guard self : *Part { free -> print(sum) \
             receive Part(x) from self -> gather(self, sum + x) } }\n";
    text += "def main(): Unit { let all = new[Sum] in ";
    for i in 1..=count {
        text += &format!("let b{i} = new[Work] in spawn {{ w{i}(b{i}) }}; b{i} ! Job({i}, all); ");
    }
    text + "gather(all, 0) }\n"
}

/// The program before the first line that is just the mark, and what stands behind that line, with its offset.
fn split<'t>(text: &'t [u8], mark: &str) -> Result<(&'t [u8], usize, &'t [u8])> {
    let at = place_of_line(text, mark);
    if text.len() > MOST_BYTES_WITH_LINES || at.unwrap_or(text.len()) > MOST_BYTES {
        return Err(Refusal::new("too long".to_string()));
    }
    let at = at.ok_or_else(|| Refusal::new(format!("bad text at {}", text.len())))?;
    let from = (at + mark.len() + 1).min(text.len());
    Ok((&text[..at], from, &text[from..]))
}

fn place_of_line(text: &[u8], mark: &str) -> Option<usize> {
    let mut from = 0;
    for line in text.split(|it| *it == b'\n') {
        if line == mark.as_bytes() {
            return Some(from);
        }
        from += line.len() + 1;
    }
    None
}

/// The status and the text of a call.
fn answer(words: &[String], text: &[u8]) -> (i32, String) {
    let words: Vec<&str> = words.iter().map(String::as_str).collect();
    let result = match words.as_slice() {
        ["print"] => print(text),
        ["check"] => check(text),
        ["derive"] => derive(text),
        ["verify"] => verify(text),
        ["replay"] => replay(text),
        ["order"] => order(text),
        ["load", count, options @ ..] => match (count.parse(), options_of(options)) {
            (Ok(count @ 1..=1000), Some((steps, messages))) => load(count, steps, messages),
            _ => return usage(),
        },
        ["run", options @ ..] => match options_of(options) {
            Some((steps, messages)) => run(text, steps, messages),
            None => return usage(),
        },
        _ => return usage(),
    };
    result.unwrap_or_else(|refusal| (1, refusal.line + "\n"))
}

/// How many steps a run may take, and how many messages may be pending in it.
fn options_of(words: &[&str]) -> Option<(u32, u32)> {
    let (mut steps, mut messages) = (None, None);
    let mut words = words.iter();
    while let Some(name) = words.next() {
        let number: u32 = words.next()?.parse().ok().filter(|it| *it <= 1_000_000)?;
        let before = match *name {
            "--steps" => steps.replace(number),
            "--messages" if number > 0 => messages.replace(number),
            _ => return None,
        };
        if before.is_some() {
            return None;
        }
    }
    Some((steps.unwrap_or(MOST_STEPS), messages.unwrap_or(MOST_MESSAGES)))
}

fn usage() -> (i32, String) {
    (2, "usage: racer print | check | derive | verify | run [--steps N] [--messages N] | replay | order | load N\n".to_string())
}

fn call() -> i32 {
    let words: Vec<String> = std::env::args().skip(1).collect();
    let mut text = Vec::new();
    if words.first().is_none_or(|it| it != "load") && std::io::stdin().read_to_end(&mut text).is_err() {
        return 3;
    }
    let (status, line) = answer(&words, &text);
    match std::io::stdout().write_all(line.as_bytes()) {
        Ok(()) => status,
        Err(_) => 4,
    }
}

fn main() {
    let thread = std::thread::Builder::new().stack_size(STACK).spawn(call);
    let status = thread.map(|it| it.join().unwrap_or(5)).unwrap_or(5);
    std::process::exit(status);
}
