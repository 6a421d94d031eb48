//! Histories read, and their steps taken again.

use crate::code::Executable;
use crate::machine::{Act, Config};
use crate::refusal::{Refusal, Result};
use crate::run::end_line;

pub struct Entry {
    pub worker: u32,
    pub thread: u32,
    pub local: u32,
    pub act: Option<Act>,
}

/// The entries of the history's lines, which stand at an offset in the input, and what a replay of them prints, with its end.
pub fn replay(code: &Executable, lines: &[u8], offset: usize) -> Result<(Vec<Entry>, String)> {
    let entries = entries_of(lines, offset)?;
    let mut config = Config::new(code);
    let mut steps = 0u32;
    for (number, entry) in entries.iter().enumerate() {
        if take(&mut config, entry).is_none() {
            return Err(Refusal::new(format!("refused at entry {number}")));
        }
        steps = steps.wrapping_add(entry.local).wrapping_add(entry.act.is_some() as u32);
    }
    let mut left = config.threads.iter().flatten().peekable();
    let (word, names_threads) = if left.peek().is_none() {
        ("done", false)
    } else if left.any(|thread| config.is_local(thread) || config.open_act(thread).is_some()) {
        ("open", false)
    } else {
        ("waiting", true)
    };
    let end = end_line(&config, word, steps, names_threads);
    Ok((entries, config.output + &end))
}

fn take(config: &mut Config, entry: &Entry) -> Option<()> {
    if entry.local == 0 && entry.act.is_none() {
        return None;
    }
    let mut thread = config.threads.get_mut(entry.thread as usize)?.take()?;
    if config.local_steps(&mut thread, entry.local) < entry.local {
        return None;
    }
    match entry.act {
        None => config.threads[entry.thread as usize] = Some(thread),
        Some(act) => {
            let is_open = match act {
                Act::Receive(message) => config.takes(&thread, message),
                act => config.open_act(&thread) == Some(act),
            };
            if !is_open {
                return None;
            }
            config.shared_step(entry.thread, thread, act);
        }
    }
    config.woken.clear();
    Some(())
}

// ---- reading

fn entries_of(text: &[u8], offset: usize) -> Result<Vec<Entry>> {
    let mut entries = Vec::new();
    let mut from = 0;
    while from < text.len() {
        let bad = || Refusal::new(format!("bad text at {}", offset + from));
        let length = text[from..].iter().position(|it| *it == b'\n').ok_or_else(bad)?;
        entries.push(entry_of(&text[from..from + length]).ok_or_else(bad)?);
        from += length + 1;
    }
    Ok(entries)
}

fn entry_of(line: &[u8]) -> Option<Entry> {
    let mut words = line.split(|it| *it == b' ');
    let worker = number_of(words.next()?)?;
    let thread = number_of(words.next()?)?;
    let local = number_of(words.next()?)?;
    let act = match words.next()? {
        b"-" => None,
        b"new" => Some(Act::New),
        b"send" => Some(Act::Send),
        b"spawn" => Some(Act::Spawn),
        b"print" => Some(Act::Print),
        b"end" => Some(Act::End),
        b"free" => Some(Act::Free),
        b"receive" => Some(Act::Receive(number_of(words.next()?)?)),
        _ => return None,
    };
    words.next().is_none().then_some(Entry { worker, thread, local, act })
}

/// A number of 32 bits in decimal, without a zero in front.
pub fn number_of(digits: &[u8]) -> Option<u32> {
    if digits.is_empty() || digits.len() > 10 || (digits[0] == b'0' && digits.len() > 1) {
        return None;
    }
    let mut number = 0u64;
    for digit in digits {
        number = number * 10 + (*digit as char).to_digit(10)? as u64;
    }
    u32::try_from(number).ok()
}
