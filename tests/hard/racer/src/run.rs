//! Runs: jobs of a thread after another up to how the run ends.

use crate::code::{Executable, Op};
use crate::machine::{Act, Config, Thread};
use crate::numbers::Numbers;
use std::fmt::Write;

/// The most steps of a job.
const ALLOWANCE: u32 = 256;

/// How a run ends.
pub enum Outcome {
    Done,
    Waiting,
    Full,
    Budget,
}

pub struct Run<'c> {
    config: Config<'c>,
    /// Threads that may go on, threads that the limit on messages holds back, and all others that are left sleep.
    awake: Numbers,
    held: Numbers,
    last: Option<u32>,
    steps: u32,
    budget: u32,
    limit: u32,
    history: String,
}

/// The text of a run in which something was done, and its status.
pub struct Told {
    pub history: String,
    pub output: String,
    pub end: String,
    pub status: i32,
}

pub fn run(code: &Executable, budget: u32, limit: u32) -> Told {
    let mut awake = Numbers::default();
    awake.insert(0);
    let (config, held) = (Config::new(code), Numbers::default());
    let run = Run { config, awake, held, last: None, steps: 0, budget, limit, history: String::new() };
    run.told()
}

impl Run<'_> {
    fn told(mut self) -> Told {
        let outcome = self.outcome();
        let (status, word) = match outcome {
            Outcome::Done => (0, "done"),
            Outcome::Budget => (6, "budget"),
            Outcome::Waiting => (7, "waiting"),
            Outcome::Full => (8, "full"),
        };
        let left = matches!(outcome, Outcome::Waiting);
        let end = end_line(&self.config, word, self.steps, left);
        Told { history: self.history, output: self.config.output, end, status }
    }

    /// Runs one job after another.
    fn outcome(&mut self) -> Outcome {
        loop {
            for thread in self.config.woken.drain(..) {
                self.awake.insert(thread);
            }
            let Some((thread, act)) = self.next_ready() else {
                return self.standstill();
            };
            if self.steps == self.budget {
                return Outcome::Budget;
            }
            self.last = Some(thread);
            self.job(thread, act, ALLOWANCE.min(self.budget - self.steps));
        }
    }

    /// How a run ends in which nobody can go on.
    fn standstill(&self) -> Outcome {
        if self.config.threads.iter().all(|it| it.is_none()) {
            Outcome::Done
        } else if !self.held.is_empty() {
            Outcome::Full
        } else {
            Outcome::Waiting
        }
    }

    // ---- whose turn it is

    /// The first ready thread above the one last taken, or else the first of all; with its shared step, if that is what comes next.
    fn next_ready(&mut self) -> Option<(u32, Option<Act>)> {
        let above = self.last.map_or(0, |last| last + 1);
        self.ready_from(above).or_else(|| self.ready_from(0))
    }

    /// The first ready thread from this number on. Those that can't go on go to sleep on the way.
    fn ready_from(&mut self, number: u32) -> Option<(u32, Option<Act>)> {
        let mut from = number;
        loop {
            let may_send = self.config.pending < self.limit;
            let held = self.held.next(from).filter(|_| may_send);
            let awake = self.awake.next(from);
            let candidate = held.into_iter().chain(awake).min()?;
            let thread = self.config.threads[candidate as usize].as_ref()?;
            if self.config.is_local(thread) {
                return Some((candidate, None));
            }
            match self.config.open_act(thread) {
                Some(Act::Send) if !may_send => {
                    self.awake.remove(candidate);
                    self.held.insert(candidate);
                }
                Some(act) => return Some((candidate, Some(act))),
                None => self.sleep(candidate),
            }
            from = candidate + 1;
        }
    }

    /// The thread sleeps at its guard until something changes about the mailbox, if no other one does.
    fn sleep(&mut self, number: u32) {
        let Some(thread) = &self.config.threads[number as usize] else { return };
        if let Some(Op::Guard { place, .. }) = self.config.op(thread) {
            let mailbox = thread.at_place(*place).mailbox();
            let sleeper = &mut self.config.mailbox(mailbox).sleeper;
            if sleeper.is_none() {
                *sleeper = Some(number);
                self.awake.remove(number);
            }
        }
    }

    // ---- jobs

    /// The thread's local steps, up to the allowance, and then the shared one that is open, if the allowance isn't used up.
    fn job(&mut self, number: u32, act: Option<Act>, allowance: u32) {
        let Some(mut thread) = self.config.threads[number as usize].take() else { return };
        self.held.remove(number);
        self.awake.insert(number);
        let (local, act) = match act {
            Some(act) => (0, Some(act)),
            None => self.local_part(&mut thread, allowance),
        };
        self.steps += local + act.is_some() as u32;
        self.note(number, local, act);
        let made = self.config.threads.len() as u32;
        match act {
            Some(Act::End) => self.awake.remove(number),
            Some(act) => self.config.shared_step(number, thread, act),
            None => self.config.threads[number as usize] = Some(thread),
        }
        if self.config.threads.len() as u32 > made {
            self.awake.insert(made);
        }
    }

    fn local_part(&mut self, thread: &mut Thread, allowance: u32) -> (u32, Option<Act>) {
        let local = self.config.local_steps(thread, allowance);
        if local == allowance {
            return (local, None);
        }
        let is_held = |act: &Act| *act == Act::Send && self.config.pending >= self.limit;
        (local, self.config.open_act(thread).filter(|act| !is_held(act)))
    }

    fn note(&mut self, thread: u32, local: u32, act: Option<Act>) {
        push_entry(&mut self.history, 0, thread, local, act);
    }
}

/// Appends the line of an entry.
pub fn push_entry(history: &mut String, worker: u32, thread: u32, local: u32, act: Option<Act>) {
    push_number(history, worker);
    history.push(' ');
    push_number(history, thread);
    history.push(' ');
    push_number(history, local);
    history.push(' ');
    match act {
        None => history.push('-'),
        Some(Act::Receive(message)) => {
            history.push_str("receive ");
            push_number(history, message);
        }
        Some(act) => history.push_str(word_of(act)),
    }
    history.push('\n');
}

pub fn push_number(text: &mut String, number: u32) {
    let mut digits = [0u8; 10];
    let mut at = digits.len();
    let mut left = number;
    loop {
        at -= 1;
        digits[at] = b'0' + (left % 10) as u8;
        left /= 10;
        if left == 0 {
            break;
        }
    }
    text.push_str(std::str::from_utf8(&digits[at..]).unwrap_or_default());
}

pub fn word_of(act: Act) -> &'static str {
    match act {
        Act::New => "new",
        Act::Send => "send",
        Act::Spawn => "spawn",
        Act::Print => "print",
        Act::End => "end",
        Act::Free => "free",
        Act::Receive(_) => "receive",
    }
}

/// The line that says how a configuration stands: in the word, after so many steps, with the threads that are left if they are asked for.
pub fn end_line(config: &Config, word: &str, steps: u32, names_threads: bool) -> String {
    let mut end = format!("{word} {steps}");
    if word == "done" && config.live > 0 {
        let _ = write!(end, " left {}", config.live);
    }
    if names_threads {
        for (number, _) in config.threads.iter().enumerate().filter(|(_, thread)| thread.is_some()) {
            let _ = write!(end, " {number}");
        }
    }
    end.push('\n');
    end
}
