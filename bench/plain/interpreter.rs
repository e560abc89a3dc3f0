//! What the threads of a process do by their code (docs/CODE.md): values, exceptions, actions, and the threads' turns.
//!
//! The machine runs its threads until the fuel is spent, one asks for an action, or none can go on. An action is performed outside, and its
//! outcome is given to the thread.

// not each program gives each outcome
#![allow(dead_code)]

use std::collections::VecDeque;
use std::rc::Rc;

use crate::compiler::{Code, Exception, Instruction, Literal};
use crate::module::{Module, Type};

const MOST_THREADS: usize = 32;
const MOST_TEXT: usize = 64;
const MOST_ROW: usize = 16;

// ---------------------------------------------------------------- values

pub struct Text {
    length: u8,
    bytes: [u8; MOST_TEXT],
}

impl Text {
    pub fn of(text: &[u8]) -> Text {
        let mut bytes = [0; MOST_TEXT];
        bytes[..text.len()].copy_from_slice(text);
        Text { length: text.len() as u8, bytes }
    }

    pub fn as_slice(&self) -> &[u8] {
        &self.bytes[..usize::from(self.length)]
    }
}

#[derive(Clone)]
pub struct Row {
    length: u8,
    cells: [i64; MOST_ROW],
}

impl Row {
    pub fn of(numbers: &[i64]) -> Row {
        let mut cells = [0; MOST_ROW];
        cells[..numbers.len()].copy_from_slice(numbers);
        Row { length: numbers.len() as u8, cells }
    }

    pub fn as_slice(&self) -> &[i64] {
        &self.cells[..usize::from(self.length)]
    }

    fn member(&mut self, index: i64) -> Result<&mut i64, Exception> {
        let index = usize::try_from(index).ok().filter(|&index| index < usize::from(self.length));
        index.map(|index| &mut self.cells[index]).ok_or(Exception::RANGE)
    }
}

#[derive(Clone)]
pub enum Value {
    Int(i64),
    Bool(bool),
    Text(Rc<Text>),
    Row(Box<Row>),
    /// 0 is none.
    Link(u32),
}

/// In code of a module that obeys the typing rules each operand is there, and of its kind.
#[cold]
fn stuck() -> ! {
    unreachable!("an operand is missing or of a wrong kind")
}

// ---------------------------------------------------------------- threads

/// An open try.
struct Opened {
    handlers: u16,
    height: usize,
    accepts: u32,
}

/// What a thread does when it goes on.
enum Phase {
    Runs,
    /// The accepts that an exception leaves are closed, and then its handlers run or the thread ends.
    Raises(Exception),
    Ends,
}

/// What a thread has asked for, and waits for.
#[derive(Clone, Copy, PartialEq)]
enum Asked {
    Nothing,
    Accept,
    Connect,
    Other,
}

struct Thread {
    is_entry: bool,
    address: u16,
    stack: Vec<Value>,
    locals: Vec<Value>,
    tries: Vec<Opened>,
    accepts: u32,
    pending: Option<Exception>,
    phase: Phase,
    asked: Asked,
    /// An await found false, and no await has found true since.
    tries_again: bool,
}

impl Thread {
    fn new(start: u16, is_entry: bool, locals: Vec<Value>) -> Thread {
        Thread {
            is_entry,
            address: start,
            stack: Vec::new(),
            locals,
            tries: Vec::new(),
            accepts: 0,
            pending: None,
            phase: Phase::Runs,
            asked: Asked::Nothing,
            tries_again: false,
        }
    }

    fn raise(&mut self, exception: Exception) {
        self.tries_again = false;
        self.phase = Phase::Raises(exception);
    }

    fn pop(&mut self) -> Value {
        self.stack.pop().unwrap_or_else(|| stuck())
    }

    fn int(&mut self) -> i64 {
        match self.pop() {
            Value::Int(number) => number,
            _ => stuck(),
        }
    }

    fn truth(&mut self) -> bool {
        match self.pop() {
            Value::Bool(truth) => truth,
            _ => stuck(),
        }
    }

    fn link(&mut self) -> u32 {
        match self.pop() {
            Value::Link(link) => link,
            _ => stuck(),
        }
    }

    /// So many values, in the order in which they came on the stack.
    fn values(&mut self, count: usize) -> Vec<Value> {
        let from = self.stack.len() - count;
        self.stack.split_off(from)
    }

    /// The result of two numbers in place of these.
    #[inline(always)]
    fn arithmetic(&mut self, operator: impl Fn(i64, i64) -> Result<i64, Exception>) -> Result<(), Exception> {
        let second = self.int();
        let Some(Value::Int(first)) = self.stack.last_mut() else { stuck() };
        *first = operator(*first, second)?;
        Ok(())
    }

    #[inline(always)]
    fn compare(&mut self, test: impl Fn(i64, i64) -> bool) {
        let second = self.int();
        let Some(last) = self.stack.last_mut() else { stuck() };
        let Value::Int(first) = *last else { stuck() };
        *last = Value::Bool(test(first, second));
    }

    fn alike(&mut self, wanted: bool) {
        let second = self.pop();
        let are_equal = match (self.pop(), second) {
            (Value::Int(first), Value::Int(second)) => first == second,
            (Value::Bool(first), Value::Bool(second)) => first == second,
            (Value::Text(first), Value::Text(second)) => first.as_slice() == second.as_slice(),
            _ => stuck(),
        };
        self.stack.push(Value::Bool(are_equal == wanted));
    }

    /// Whether the truth on the stack decides a chain: then it stays.
    fn decides(&mut self, deciding: bool) -> bool {
        let decides = matches!(self.stack.last(), Some(&Value::Bool(truth)) if truth == deciding);
        if !decides {
            self.pop();
        }
        decides
    }
}

fn quotient(first: i64, second: i64) -> Result<i64, Exception> {
    if second == 0 {
        return Err(Exception::DIVIDE);
    }
    first.checked_div(second).ok_or(Exception::OVERFLOW)
}

fn remainder(first: i64, second: i64) -> Result<i64, Exception> {
    if second == 0 {
        return Err(Exception::DIVIDE);
    }
    first.checked_rem(second).ok_or(Exception::OVERFLOW)
}

fn written(value: Value) -> Vec<u8> {
    match value {
        Value::Int(number) => number.to_string().into_bytes(),
        Value::Bool(truth) => truth.to_string().into_bytes(),
        Value::Text(text) => text.as_slice().to_vec(),
        _ => stuck(),
    }
}

// ---------------------------------------------------------------- the machine

pub enum Action {
    New,
    Destroy(u32),
    Bind(u32, u32),
    Unbind(u32, u32),
    Connect(u32, u32, Vec<Value>),
    Accept(u32, u32),
    Close,
    Reply(Vec<Value>),
    Write(Vec<u8>),
    StopAll,
}

pub enum Stop {
    /// The fuel is 0, and a thread can go on.
    Spent,
    Act {
        thread: usize,
        action: Action,
    },
    /// Threads stand, and none can go on.
    AllBlocked,
    /// No thread stands.
    Finished,
}

pub enum Given {
    Values(Vec<Value>),
    Raise(Exception),
}

/// What comes in place of the next instruction.
enum Event {
    Raise(Exception),
    Over(Turn),
}

impl From<Exception> for Event {
    fn from(exception: Exception) -> Event {
        Event::Raise(exception)
    }
}

/// Why a thread's turn is over.
enum Turn {
    Spent,
    Acts(Action),
    /// An await found false.
    Waits,
    Ends,
}

pub struct Machine<'a> {
    module: &'a Module,
    code: &'a Code,
    texts: Vec<Rc<Text>>,
    globals: Vec<Value>,
    threads: [Option<Box<Thread>>; MOST_THREADS],
    running: Option<usize>,
    ready: VecDeque<usize>,
    /// Those whose await found false, in the order of their last turns; no thread has blocked or ended since.
    awaiting: Vec<usize>,
}

fn start_value(kind: Type) -> Value {
    match kind {
        Type::Int => Value::Int(0),
        Type::Bool => Value::Bool(false),
        Type::Text => Value::Text(Rc::new(Text::of(b""))),
        Type::Link => Value::Link(0),
        Type::Row(length) => Value::Row(Box::new(Row { length: length as u8, cells: [0; MOST_ROW] })),
    }
}

impl<'a> Machine<'a> {
    /// The module's body is the first thread. Its params are no links, until they are set.
    pub fn start(source: &[u8], module: &'a Module, code: &'a Code) -> Machine<'a> {
        let inside = |text: &[u8]| Rc::new(Text::of(&text[1..text.len() - 1]));
        let mut threads = [const { None }; MOST_THREADS];
        threads[0] = Some(Box::new(Thread::new(0, false, Vec::new())));
        Machine {
            module,
            code,
            texts: code.texts.iter().map(|text| inside(text.of(source))).collect(),
            globals: module.params.iter().chain(&module.vars).map(|var| start_value(var.kind.kind)).collect(),
            threads,
            running: None,
            ready: VecDeque::from([0]),
            awaiting: Vec::new(),
        }
    }

    /// The params hold these links.
    pub fn set_links(&mut self, links: impl Iterator<Item = u32>) {
        for (global, link) in self.globals.iter_mut().zip(links) {
            *global = Value::Link(link);
        }
    }

    /// How many threads stand.
    pub fn standing(&self) -> usize {
        self.threads.iter().filter(|thread| thread.is_some()).count()
    }

    /// A thread on an entry, by the entry's number. There is none where as many threads stand as may.
    pub fn spawn(&mut self, entry: usize, mut values: Vec<Value>) -> Option<usize> {
        let thread = self.threads.iter().position(Option::is_none)?;
        values.extend(self.module.entries[entry].vars.iter().map(|var| start_value(var.kind.kind)));
        self.threads[thread] = Some(Box::new(Thread::new(self.code.parts[entry + 1].start, true, values)));
        self.ready.push_back(thread);
        Some(thread)
    }

    /// A thread that connects or accepts goes to the end of those that are ready; any other goes on as the running one.
    pub fn give(&mut self, number: usize, given: Given) {
        let thread = self.threads[number].as_mut().unwrap_or_else(|| stuck());
        match given {
            Given::Values(values) => {
                thread.accepts += u32::from(thread.asked == Asked::Accept);
                thread.stack.extend(values);
            }
            // the close of an entry's own request changes nothing, whatever it is given
            Given::Raise(_) if matches!(thread.phase, Phase::Ends) => {}
            Given::Raise(exception) => thread.raise(exception),
        }
        if matches!(thread.asked, Asked::Accept | Asked::Connect) {
            self.ready.push_back(number);
        } else {
            self.running = Some(number);
        }
        thread.asked = Asked::Nothing;
    }

    /// Runs the threads by so much fuel, and tells how it stopped and what fuel is left.
    pub fn run(&mut self, mut fuel: u32) -> (Stop, u32) {
        loop {
            let Some(number) = self.running.take().or_else(|| self.ready.pop_front()) else {
                let is_over = self.threads.iter().all(Option::is_none);
                return (if is_over { Stop::Finished } else { Stop::AllBlocked }, fuel);
            };
            let mut thread = self.threads[number].take().unwrap_or_else(|| stuck());
            let turn = if fuel == 0 { Turn::Spent } else { self.turn(&mut thread, &mut fuel) };
            match turn {
                Turn::Spent => {
                    self.threads[number] = Some(thread);
                    self.running = Some(number);
                    return (Stop::Spent, fuel);
                }
                Turn::Acts(action) => {
                    thread.asked = asked(&action);
                    if thread.asked != Asked::Other {
                        self.wake();
                    }
                    self.threads[number] = Some(thread);
                    return (Stop::Act { thread: number, action }, fuel);
                }
                Turn::Waits => {
                    // one that only tries again wakes no other
                    if !std::mem::replace(&mut thread.tries_again, true) {
                        self.wake();
                    }
                    self.threads[number] = Some(thread);
                    self.awaiting.push(number);
                }
                Turn::Ends => self.wake(),
            }
        }
    }

    /// A thread has blocked or ended: those that await try again.
    fn wake(&mut self) {
        self.ready.extend(self.awaiting.drain(..));
    }

    fn turn(&mut self, thread: &mut Thread, fuel: &mut u32) -> Turn {
        loop {
            let event = match thread.phase {
                Phase::Runs => self.steps(thread, fuel),
                Phase::Ends => return Turn::Ends,
                Phase::Raises(exception) => match unwind(thread, exception) {
                    Some(turn) => return turn,
                    None => continue,
                },
            };
            match event {
                Event::Raise(exception) => thread.raise(exception),
                Event::Over(turn) => return turn,
            }
        }
    }

    /// Performs instructions until something else comes.
    fn steps(&mut self, thread: &mut Thread, fuel: &mut u32) -> Event {
        let instructions = &self.code.instructions[..];
        let (mut address, mut left) = (thread.address, *fuel);
        let event = loop {
            if left == 0 {
                break Event::Over(Turn::Spent);
            }
            left -= 1;
            let instruction = instructions[usize::from(address)];
            address += 1;
            if let Err(event) = self.step(thread, &mut address, instruction) {
                break event;
            }
        };
        (thread.address, *fuel) = (address, left);
        event
    }

    /// Performs one instruction. The address is that of the next one.
    #[inline(always)]
    fn step(&mut self, thread: &mut Thread, address: &mut u16, instruction: Instruction) -> Result<(), Event> {
        use Instruction::*;
        match instruction {
            Push(literal) => thread.stack.push(self.value(literal)),
            LoadG(slot) => thread.stack.push(self.globals[slot as usize].clone()),
            LoadL(slot) => thread.stack.push(thread.locals[slot as usize].clone()),
            StoreG(slot) => self.globals[slot as usize] = thread.pop(),
            StoreL(slot) => thread.locals[slot as usize] = thread.pop(),
            AtG(slot) => {
                let index = thread.int();
                thread.stack.push(Value::Int(*member(&mut self.globals, slot, index)?));
            }
            AtL(slot) => {
                let index = thread.int();
                let number = *member(&mut thread.locals, slot, index)?;
                thread.stack.push(Value::Int(number));
            }
            PutG(slot) => {
                let (value, index) = (thread.int(), thread.int());
                *member(&mut self.globals, slot, index)? = value;
            }
            PutL(slot) => {
                let (value, index) = (thread.int(), thread.int());
                *member(&mut thread.locals, slot, index)? = value;
            }
            Add => thread.arithmetic(|a, b| a.checked_add(b).ok_or(Exception::OVERFLOW))?,
            Sub => thread.arithmetic(|a, b| a.checked_sub(b).ok_or(Exception::OVERFLOW))?,
            Mul => thread.arithmetic(|a, b| a.checked_mul(b).ok_or(Exception::OVERFLOW))?,
            Div => thread.arithmetic(quotient)?,
            Mod => thread.arithmetic(remainder)?,
            Neg => {
                let negative = thread.int().checked_neg().ok_or(Exception::OVERFLOW)?;
                thread.stack.push(Value::Int(negative));
            }
            Eq => thread.alike(true),
            Ne => thread.alike(false),
            Lt => thread.compare(|a, b| a < b),
            Le => thread.compare(|a, b| a <= b),
            Gt => thread.compare(|a, b| a > b),
            Ge => thread.compare(|a, b| a >= b),
            Not => {
                let truth = thread.truth();
                thread.stack.push(Value::Bool(!truth));
            }
            AndJ(behind) if thread.decides(false) => *address = behind,
            OrJ(behind) if thread.decides(true) => *address = behind,
            AndJ(_) | OrJ(_) => {}
            JumpF(other) => {
                if !thread.truth() {
                    *address = other;
                }
            }
            Jump(other) => *address = other,
            Await(again) => {
                if !thread.truth() {
                    *address = again;
                    return Err(Event::Over(Turn::Waits));
                }
                thread.tries_again = false;
            }
            Try(handlers) => thread.tries.push(Opened { handlers, height: thread.stack.len(), accepts: thread.accepts }),
            Untry => drop(thread.tries.pop()),
            Case(exception, other) => {
                if thread.pending != Some(exception) {
                    *address = other;
                }
            }
            Again => return Err(Event::Raise(thread.pending.unwrap_or_else(|| stuck()))),
            Raise(exception) => return Err(Event::Raise(exception)),
            End => return Err(Event::Over(end(thread))),
            _ => return Err(Event::Over(Turn::Acts(self.action(thread, instruction)))),
        }
        Ok(())
    }

    /// The action of an instruction that asks for one.
    fn action(&mut self, thread: &mut Thread, instruction: Instruction) -> Action {
        match instruction {
            Instruction::Write => Action::Write(written(thread.pop())),
            Instruction::New => Action::New,
            Instruction::Destroy => Action::Destroy(thread.link()),
            Instruction::Bind(entry) => Action::Bind(thread.link(), entry),
            Instruction::Unbind(entry) => Action::Unbind(thread.link(), entry),
            Instruction::Connect(op) => {
                let link = thread.link();
                Action::Connect(link, op, thread.values(self.module.ops[op as usize].arguments.len()))
            }
            Instruction::Accept(op) => Action::Accept(thread.link(), op),
            Instruction::Reply(count) => Action::Reply(thread.values(count as usize)),
            Instruction::Close => {
                thread.accepts -= 1;
                Action::Close
            }
            _ => Action::StopAll,
        }
    }

    fn value(&self, literal: Literal) -> Value {
        match literal {
            Literal::Int(number) => Value::Int(number),
            Literal::Bool(truth) => Value::Bool(truth),
            Literal::Text(number) => Value::Text(self.texts[number as usize].clone()),
        }
    }
}

fn asked(action: &Action) -> Asked {
    match action {
        Action::Accept(..) => Asked::Accept,
        Action::Connect(..) => Asked::Connect,
        _ => Asked::Other,
    }
}

fn member(variables: &mut [Value], slot: u32, index: i64) -> Result<&mut i64, Exception> {
    match &mut variables[slot as usize] {
        Value::Row(row) => row.member(index),
        _ => stuck(),
    }
}

/// A thread of an entry closes its own request first.
fn end(thread: &mut Thread) -> Turn {
    thread.phase = Phase::Ends;
    if thread.is_entry {
        Turn::Acts(Action::Close)
    } else {
        Turn::Ends
    }
}

/// The next thing that an exception does: it closes an accept that it leaves, goes to handlers, or ends the thread.
fn unwind(thread: &mut Thread, exception: Exception) -> Option<Turn> {
    if thread.accepts > thread.tries.last().map_or(0, |opened| opened.accepts) {
        thread.accepts -= 1;
        return Some(Turn::Acts(Action::Close));
    }
    let Some(opened) = thread.tries.pop() else {
        return Some(end(thread));
    };
    thread.stack.truncate(opened.height);
    thread.address = opened.handlers;
    thread.pending = Some(exception);
    thread.phase = Phase::Runs;
    None
}
