//! Configurations: threads by number, each with a stack of values, and mailboxes, each with a queue for each tag and with a count of
//! the names of it that somebody has.

use crate::code::{Code, Executable, Op, Places, Receive};
use crate::values::{evaluate, Value};
use std::collections::VecDeque;

/// What a thread does next: a node, or it has a value.
pub enum Control {
    At(u32),
    Returned(Value),
}

/// A `let` that waits for the value of its bound part, with the place at which its function's values begin.
struct Frame {
    node: u32,
    base: u32,
}

pub struct Thread {
    pub control: Control,
    frames: Vec<Frame>,
    values: Vec<Value>,
    base: u32,
}

pub struct Message {
    pub number: u32,
    values: Vec<Value>,
}

#[derive(Default)]
pub struct Mailbox {
    is_live: bool,
    /// How many names of it threads and messages have.
    names: u32,
    pending: u32,
    queues: Vec<(u8, VecDeque<Message>)>,
    /// The thread that sleeps until something changes.
    pub sleeper: Option<u32>,
}

/// What a shared step was.
#[derive(Clone, Copy, Debug, PartialEq, Eq)]
pub enum Act {
    New,
    Send,
    Spawn,
    Print,
    End,
    Free,
    Receive(u32),
}

pub struct Config<'c> {
    pub code: &'c Executable,
    /// By number; those that have ended are gone.
    pub threads: Vec<Option<Thread>>,
    mailboxes: Vec<Mailbox>,
    pub live: usize,
    pub pending: u32,
    messages_made: u32,
    pub output: String,
    /// Threads that have something to look at again.
    pub woken: Vec<u32>,
    arguments: Vec<Value>,
}

impl<'c> Config<'c> {
    pub fn new(code: &'c Executable) -> Config<'c> {
        let body = code.functions[code.main as usize].body;
        Config {
            code,
            threads: vec![Some(Thread::at(body, Vec::new()))],
            mailboxes: Vec::new(),
            live: 0,
            pending: 0,
            messages_made: 0,
            output: String::new(),
            woken: Vec::new(),
            arguments: Vec::new(),
        }
    }

    pub fn op(&self, thread: &Thread) -> Option<&'c Op> {
        match thread.control {
            Control::At(node) => Some(&self.code.ops[node as usize]),
            Control::Returned(_) => None,
        }
    }

    pub fn mailbox(&mut self, number: u32) -> &mut Mailbox {
        &mut self.mailboxes[number as usize]
    }

    // ---- what is enabled

    /// The shared step that is open for the thread, where its next step is one. Of messages it is the first.
    pub fn open_act(&self, thread: &Thread) -> Option<Act> {
        let Some(op) = self.op(thread) else {
            return thread.frames.is_empty().then_some(Act::End);
        };
        match op {
            Op::Value(..) => thread.frames.is_empty().then_some(Act::End),
            Op::Let { .. } | Op::Call { .. } | Op::If { .. } => None,
            Op::New => Some(Act::New),
            Op::Print(_) => Some(Act::Print),
            Op::Spawn { .. } => Some(Act::Spawn),
            Op::Send { .. } => Some(Act::Send),
            Op::Guard { place, tags, free, .. } => {
                let number = thread.at_place(*place).mailbox();
                match self.mailboxes[number as usize].first(*tags) {
                    Some(message) => Some(Act::Receive(message)),
                    None => (free.is_some() && self.may_free(number, thread)).then_some(Act::Free),
                }
            }
        }
    }

    /// Whether the mailbox is live, no message is there, and nobody but the thread has a name of it.
    fn may_free(&self, number: u32, thread: &Thread) -> bool {
        let mailbox = &self.mailboxes[number as usize];
        if !mailbox.is_live || mailbox.pending > 0 {
            return false;
        }
        mailbox.names == 1 || {
            let own = thread.values.iter().filter(|value| matches!(value, Value::Mailbox(own) if *own == number)).count();
            own == mailbox.names as usize
        }
    }

    pub fn is_local(&self, thread: &Thread) -> bool {
        match self.op(thread) {
            None | Some(Op::Value(..)) => !thread.frames.is_empty(),
            Some(Op::Let { .. } | Op::Call { .. } | Op::If { .. }) => true,
            Some(_) => false,
        }
    }

    // ---- names of mailboxes

    fn name(&mut self, value: &Value) {
        if let Value::Mailbox(number) = value {
            self.mailboxes[*number as usize].names += 1;
        }
    }

    fn forget(&mut self, value: &Value) {
        if let Value::Mailbox(number) = value {
            let mailbox = &mut self.mailboxes[*number as usize];
            mailbox.names -= 1;
            self.woken.extend(mailbox.sleeper.take());
        }
    }

    /// Nobody uses what stands at these places any more.
    fn forget_places(&mut self, thread: &mut Thread, places: &Places) {
        for place in places {
            let value = std::mem::replace(thread.place(*place), Value::Unit);
            self.forget(&value);
        }
    }

    // ---- local steps

    /// Takes local steps, up to so many; answers how many.
    pub fn local_steps(&mut self, thread: &mut Thread, most: u32) -> u32 {
        let mut taken = 0;
        while taken < most && self.local_step(thread) {
            taken += 1;
        }
        taken
    }

    fn local_step(&mut self, thread: &mut Thread) -> bool {
        let Control::At(node) = thread.control else {
            return self.resume(thread);
        };
        match &self.code.ops[node as usize] {
            Op::Let { bound, .. } => {
                thread.frames.push(Frame { node, base: thread.base });
                thread.control = Control::At(*bound);
                true
            }
            Op::Call { function, arguments, last } => {
                self.call(thread, *function, arguments, last);
                true
            }
            Op::If { test, yes, no } => {
                let (body, last) = if evaluate(thread.own(), test).truth() { yes } else { no };
                self.forget_places(thread, last);
                thread.control = Control::At(*body);
                true
            }
            Op::Value(code, last) if !thread.frames.is_empty() => {
                let value = evaluate(thread.own(), code);
                self.name(&value);
                self.forget_places(thread, last);
                thread.control = Control::Returned(value);
                self.resume(thread)
            }
            _ => false,
        }
    }

    /// The `let` on top goes on with the value that was returned, if there is one.
    fn resume(&mut self, thread: &mut Thread) -> bool {
        let Some(frame) = thread.frames.pop() else {
            return false;
        };
        let Op::Let { body, depth, is_named, is_used, .. } = self.code.ops[frame.node as usize] else {
            unreachable!("a frame is that of a let");
        };
        thread.base = frame.base;
        thread.values.truncate((frame.base + depth) as usize);
        let control = std::mem::replace(&mut thread.control, Control::At(body));
        if let (true, Control::Returned(value)) = (is_named, control) {
            if is_used || !matches!(value, Value::Mailbox(_)) {
                thread.values.push(value);
            } else {
                self.forget(&value);
                thread.values.push(Value::Unit);
            }
        }
        true
    }

    /// The values of what a call or a send hands on, of which each mailbox has a name more.
    fn handed_on(&mut self, thread: &mut Thread, arguments: &[Code], are_used: Option<&[bool]>, last: &Places) -> Vec<Value> {
        let mut values = std::mem::take(&mut self.arguments);
        for (at, argument) in arguments.iter().enumerate() {
            let value = evaluate(thread.own(), argument);
            let is_used = are_used.is_none_or(|it| it[at]) || !matches!(value, Value::Mailbox(_));
            let value = if is_used { value } else { Value::Unit };
            self.name(&value);
            values.push(value);
        }
        self.forget_places(thread, last);
        values
    }

    fn call(&mut self, thread: &mut Thread, function: u32, arguments: &[Code], last: &Places) {
        let code = self.code;
        let called = &code.functions[function as usize];
        let mut values = self.handed_on(thread, arguments, Some(&called.are_used), last);
        if thread.frames.last().is_some_and(|frame| frame.base == thread.base) {
            thread.base = thread.values.len() as u32;
        } else {
            thread.values.truncate(thread.base as usize);
        }
        thread.values.append(&mut values);
        self.arguments = values;
        thread.control = Control::At(called.body);
    }

    // ---- shared steps

    /// Takes the shared step of the thread, which was taken out, if it is this one.
    pub fn shared_step(&mut self, number: u32, mut thread: Thread, act: Act) {
        let Some(op) = self.op(&thread).filter(|_| act != Act::End) else {
            return;
        };
        match op {
            Op::New => {
                thread.control = Control::Returned(Value::Mailbox(self.mailboxes.len() as u32));
                self.mailboxes.push(Mailbox { is_live: true, names: 1, ..Mailbox::default() });
                self.live += 1;
            }
            Op::Print(code) => {
                self.output.push_str("out ");
                evaluate(thread.own(), code).write(&mut self.output);
                self.output.push('\n');
                thread.control = Control::Returned(Value::Unit);
            }
            Op::Send { target, tag, arguments, last } => {
                let mailbox = thread.at_place(*target).mailbox();
                let mut handed = self.handed_on(&mut thread, arguments, None, last);
                let values = handed.drain(..).collect();
                self.arguments = handed;
                self.send(mailbox, *tag, values);
                thread.control = Control::Returned(Value::Unit);
            }
            Op::Spawn { body, captured, last } => {
                let values: Vec<Value> = captured.iter().map(|place| thread.at_place(*place).clone()).collect();
                values.iter().for_each(|value| self.name(value));
                self.forget_places(&mut thread, last);
                self.threads.push(Some(Thread::at(*body, values)));
                thread.control = Control::Returned(Value::Unit);
            }
            Op::Guard { place, free, clauses, depth, .. } => match (act, free) {
                (Act::Receive(message), _) => self.receive(&mut thread, *place, *depth, message, clauses),
                (_, Some((body, last))) => {
                    let mailbox = thread.at_place(*place).mailbox();
                    self.mailbox(mailbox).is_live = false;
                    self.live -= 1;
                    self.forget_places(&mut thread, last);
                    thread.control = Control::At(*body);
                }
                _ => unreachable!("the guard has a clause for freeing"),
            },
            Op::Value(..) | Op::Let { .. } | Op::Call { .. } | Op::If { .. } => unreachable!("the step is shared"),
        }
        self.threads[number as usize] = Some(thread);
    }

    fn send(&mut self, number: u32, tag: u8, values: Vec<Value>) {
        let message = Message { number: self.messages_made, values };
        let mailbox = &mut self.mailboxes[number as usize];
        match mailbox.queues.iter_mut().find(|it| it.0 == tag) {
            Some(queue) => queue.1.push_back(message),
            None => mailbox.queues.push((tag, VecDeque::from([message]))),
        }
        mailbox.pending += 1;
        self.woken.extend(mailbox.sleeper.take());
        self.messages_made += 1;
        self.pending += 1;
    }

    fn receive(&mut self, thread: &mut Thread, place: u32, depth: u32, message: u32, clauses: &[Receive]) {
        let number = thread.at_place(place).mailbox();
        let Some((tag, message)) = self.mailboxes[number as usize].take(message) else {
            unreachable!("the message is pending");
        };
        self.pending -= 1;
        let Some(clause) = clauses.iter().find(|it| it.tag == tag) else {
            unreachable!("a clause takes the message");
        };
        thread.values.truncate((thread.base + depth) as usize);
        self.name(&Value::Mailbox(number));
        let values = message.values.into_iter().chain([Value::Mailbox(number)]);
        for (value, is_used) in values.zip(&clause.are_used) {
            if *is_used || !matches!(value, Value::Mailbox(_)) {
                thread.values.push(value);
            } else {
                self.forget(&value);
                thread.values.push(Value::Unit);
            }
        }
        self.forget_places(thread, &clause.last);
        thread.control = Control::At(clause.body);
    }

    /// Whether the message is pending where the thread's guard takes it.
    pub fn takes(&self, thread: &Thread, message: u32) -> bool {
        match self.op(thread) {
            Some(Op::Guard { place, tags, .. }) => {
                let mailbox = &self.mailboxes[thread.at_place(*place).mailbox() as usize];
                mailbox.queues.iter().any(|(tag, queue)| tags & (1 << tag) != 0 && place_of(queue, message).is_some())
            }
            _ => false,
        }
    }
}

fn place_of(queue: &VecDeque<Message>, message: u32) -> Option<usize> {
    queue.binary_search_by_key(&message, |it| it.number).ok()
}

impl Mailbox {
    /// The number of the first message that has one of the tags.
    fn first(&self, tags: u32) -> Option<u32> {
        if self.pending == 0 {
            return None;
        }
        let firsts = self.queues.iter().filter(|(tag, _)| tags & (1 << tag) != 0).filter_map(|(_, queue)| queue.front());
        firsts.map(|it| it.number).min()
    }

    fn take(&mut self, message: u32) -> Option<(u8, Message)> {
        let (tag, queue) = self.queues.iter_mut().find(|(_, queue)| place_of(queue, message).is_some())?;
        let found = queue.remove(place_of(queue, message)?)?;
        self.pending -= 1;
        Some((*tag, found))
    }
}

impl Thread {
    fn at(node: u32, values: Vec<Value>) -> Thread {
        Thread { control: Control::At(node), frames: Vec::new(), values, base: 0 }
    }

    /// The values of the function that is run.
    fn own(&self) -> &[Value] {
        &self.values[self.base as usize..]
    }

    pub fn at_place(&self, place: u32) -> &Value {
        &self.values[(self.base + place) as usize]
    }

    fn place(&mut self, place: u32) -> &mut Value {
        &mut self.values[(self.base + place) as usize]
    }
}
