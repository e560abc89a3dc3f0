//! What a process of LYNX does with its links (docs/PROCESS.md): the packets of its requests and replies, and the calls of its kernel.
//!
//! It makes steps as its kernel lets it: each ends with a call, a pause, or the end of the process.

use std::collections::{BTreeSet, HashMap, VecDeque};
use std::mem;

use crate::compiler::{Code, Exception};
use crate::interpreter::{Action, Given, Machine, Row, Stop, Text, Value};
use crate::module::{Module, Type};
use crate::packet::{self, decode, encode, Packet};
use crate::{Answer, Call, End, Message, Program, Report, Step};

const MOST_THREADS: usize = 32;
const MOST_INSTRUCTIONS: u32 = 1000;
/// The ends that travel behind the first in packets of their own.
const MOST_FURTHER: usize = 7;

// ---------------------------------------------------------------- deeds

#[derive(Clone, Copy, Debug, PartialEq)]
pub enum What {
    /// A connect passed its tests.
    Issued,
    /// A thread goes on with a request, or begins with one.
    Accepted,
    /// A reply passed its tests, or a close failed a request.
    Replied,
    /// A connect goes on with its reply.
    Returned,
}

/// What a process did on an end; a request has a signature, a reply a status.
pub struct Deed {
    pub what: What,
    pub on: End,
    pub number: u32,
    pub signature: Vec<u8>,
    pub status: u8,
    pub values: Vec<packet::Value>,
    pub ends: Vec<End>,
}

// ---------------------------------------------------------------- what is kept for an end

/// A packet that is queued, with the ends that travel with it.
pub struct Queued {
    pub packet: Packet,
    pub ends: Vec<End>,
}

#[derive(Clone, Copy, Default, PartialEq)]
pub enum Sending {
    #[default]
    Idle,
    /// The ends of the packet were the process's own.
    Own,
    Back,
}

#[derive(Clone, Copy, Default, PartialEq)]
pub enum Receiving {
    #[default]
    Idle,
    Started,
    /// Its Cancel was answered Late or Dead.
    Late,
}

/// A thread that connects, with the ends that are in no packet.
pub struct Connect {
    pub thread: usize,
    pub number: u32,
    pub op: usize,
    pub values: Vec<packet::Value>,
    pub ends: Vec<End>,
}

pub struct Response {
    pub number: u32,
    pub status: u8,
    pub values: Vec<packet::Value>,
    pub ends: Vec<End>,
}

#[derive(Clone, Copy)]
pub enum Taker {
    Thread(usize),
    Entry(usize),
}

/// A request that is wanted.
pub struct Wanted {
    pub by: Taker,
    pub number: u32,
    pub signature: Vec<u8>,
    pub values: Vec<packet::Value>,
    pub ends: Vec<End>,
}

#[derive(Default)]
pub struct Kept {
    pub queue: VecDeque<Queued>,
    pub sending: Sending,
    pub receiving: Receiving,
    /// The number of the last request.
    pub last: u32,
    pub outstanding: Option<Connect>,
    /// The outstanding request was forbidden.
    pub barred: bool,
    pub behind: VecDeque<Connect>,
    /// The number of the request that is owed a reply.
    pub owed: Option<u32>,
    /// Number and signature of a request that was forbidden.
    pub forbade: Option<(u32, Vec<u8>)>,
    /// A request and a reply in part.
    pub request: Option<Wanted>,
    pub reply: Option<Response>,
    /// Threads, and the operations that they accept.
    pub accepts: Vec<(usize, usize)>,
    pub bindings: Vec<usize>,
    pub dead: bool,
}

impl Kept {
    fn queue(&mut self, packet: Packet, ends: Vec<End>) {
        self.queue.push_back(Queued { packet, ends });
    }

    /// Whether the process has to wait for it when no thread stands.
    fn is_in_use(&self) -> bool {
        !self.bindings.is_empty() || !self.queue.is_empty() || self.sending != Sending::Idle
    }

    /// Whether a request in part is for an entry.
    fn is_coming(&self) -> bool {
        matches!(self.request, Some(Wanted { by: Taker::Entry(_), .. }))
    }

    fn is_busy(&self) -> bool {
        self.is_in_use()
            || self.receiving != Receiving::Idle
            || self.outstanding.is_some()
            || self.owed.is_some()
            || self.forbade.is_some()
            || !self.accepts.is_empty()
    }

    fn is_needed(&self, room: bool) -> bool {
        let is_open = (self.owed.is_none() && !self.accepts.is_empty()) || (!self.bindings.is_empty() && room);
        !self.dead && (self.outstanding.is_some() || self.request.is_some() || self.reply.is_some() || is_open)
    }

    /// The request of a connect is queued, and is outstanding from then on.
    fn ask(&mut self, most: usize, signature: &[u8], mut connect: Connect) {
        let rest = connect.ends.split_off(connect.ends.len().min(most));
        let ends = mem::replace(&mut connect.ends, rest);
        let packet = Packet::Request { number: connect.number, signature: signature.to_vec(), values: connect.values.clone() };
        self.queue(packet, ends);
        self.outstanding = Some(connect);
        self.barred = false;
    }

    fn further(&mut self, kind: u8, number: u32, ends: impl Iterator<Item = End>) {
        for (index, end) in (2..).zip(ends.take(MOST_FURTHER)) {
            self.queue(Packet::Enc { kind, number, index }, vec![end]);
        }
    }

    /// A reply, or the failed reply of a close, to the request that is owed one.
    fn reply(&mut self, most: usize, response: Response) {
        let Response { number, status, values, mut ends } = response;
        if self.owed != Some(number) {
            return;
        }
        self.owed = None;
        if !self.dead {
            let rest = ends.split_off(ends.len().min(most));
            self.queue(Packet::Reply { number, status, values }, ends);
            self.further(2, number, rest.into_iter());
        }
    }

    /// The number is that of the outstanding request.
    fn is_outstanding(&self, number: u32) -> bool {
        self.outstanding.as_ref().is_some_and(|connect| connect.number == number)
    }

    fn is_awaited(&self, number: u32) -> bool {
        self.is_outstanding(number) && !self.barred
    }
}

fn links_among(values: &[packet::Value]) -> usize {
    values.iter().filter(|value| matches!(value, packet::Value::Link)).count()
}

struct Place {
    end: End,
    kept: Option<Box<Kept>>,
    /// Where it is not held: a send was started on it whose ends were the process's own.
    own: bool,
}

// ---------------------------------------------------------------- processes

#[derive(Clone, Copy, PartialEq)]
enum Asked {
    Nothing,
    Make(usize),
    Print(usize),
    Destroy,
    Send(u32),
    Receive(u32),
    Cancel(u32),
    Wait,
    Exit,
}

/// A request that is open in a thread.
struct Open {
    on: u32,
    number: u32,
    is_answered: bool,
}

pub struct Process<'a> {
    version: u8,
    machine: Machine<'a>,
    /// Of each operation its signature and the types of its results, and of each entry its operation.
    ops: Vec<(Vec<u8>, Vec<Type>)>,
    entries: Vec<usize>,
    places: Vec<Place>,
    numbers: HashMap<End, u32>,
    opened: [Vec<Open>; MOST_THREADS],
    doomed: VecDeque<End>,
    asked: Asked,
    over: bool,
    /// Ends that changed, and those on which a call may be due.
    unsettled: Vec<u32>,
    agenda: BTreeSet<u32>,
    bound: BTreeSet<u32>,
    in_use: usize,
    coming: usize,
    had_room: bool,
    /// What it did since its deeds were last taken out, where somebody wants to know.
    pub deeds: Option<Vec<Deed>>,
}

fn type_text(kind: Type) -> String {
    match kind {
        Type::Int => "int".into(),
        Type::Bool => "bool".into(),
        Type::Text => "text".into(),
        Type::Link => "link".into(),
        Type::Row(length) => format!("row{length}"),
    }
}

/// The two lists of types of an operation, as its signature has them.
fn signature(name: &[u8], arguments: &[Type], results: &[Type]) -> Vec<u8> {
    let list = |kinds: &[Type]| kinds.iter().map(|kind| type_text(*kind)).collect::<Vec<_>>().join(",");
    let mut text = name.to_vec();
    text.extend(format!("({}):({})", list(arguments), list(results)).bytes());
    text
}

fn packed(value: &Value) -> packet::Value {
    match value {
        Value::Int(number) => packet::Value::Int(*number),
        Value::Bool(truth) => packet::Value::Bool(*truth),
        Value::Text(text) => packet::Value::Text(text.as_slice().to_vec()),
        Value::Row(row) => packet::Value::Row(row.as_slice().to_vec()),
        Value::Link(_) => packet::Value::Link,
    }
}

fn links_in(values: &[Value]) -> Vec<u32> {
    let link = |value: &Value| if let Value::Link(number) = value { Some(*number) } else { None };
    values.iter().filter_map(link).collect()
}

fn fits(value: &packet::Value, kind: Type) -> bool {
    match (value, kind) {
        (packet::Value::Row(row), Type::Row(length)) => row.len() as i64 == length,
        (packet::Value::Int(_), Type::Int)
        | (packet::Value::Bool(_), Type::Bool)
        | (packet::Value::Text(_), Type::Text)
        | (packet::Value::Link, Type::Link) => true,
        _ => false,
    }
}

impl<'a> Process<'a> {
    /// A process before its first step, with an end for each param.
    pub fn start(version: u8, source: &'a [u8], module: &'a Module, code: &'a Code, ends: &[End]) -> Process<'a> {
        let mut machine = Machine::start(source, module, code);
        machine.set_links(1..=ends.len() as u32);
        let kinds = |types: &[crate::module::TypeName]| types.iter().map(|kind| kind.kind).collect::<Vec<_>>();
        let op = |op: &crate::module::OpDecl| {
            let (arguments, results) = (kinds(&op.arguments), kinds(&op.results));
            (signature(op.name.of(source), &arguments, &results), results)
        };
        let number_of = |name: &[u8]| module.ops.iter().position(|op| op.name.of(source) == name).expect("the operation is declared");
        let mut process = Process {
            version,
            machine,
            ops: module.ops.iter().map(op).collect(),
            entries: module.entries.iter().map(|entry| number_of(entry.op.of(source))).collect(),
            places: Vec::new(),
            numbers: HashMap::new(),
            opened: [const { Vec::new() }; MOST_THREADS],
            doomed: VecDeque::new(),
            asked: Asked::Nothing,
            over: false,
            unsettled: Vec::new(),
            agenda: BTreeSet::new(),
            bound: BTreeSet::new(),
            in_use: 0,
            coming: 0,
            had_room: true,
            deeds: None,
        };
        process.get(ends);
        process
    }

    /// How many ends travel with a packet.
    fn most(&self) -> usize {
        if self.version == 1 {
            1
        } else {
            8
        }
    }

    fn room(&self) -> bool {
        self.machine.standing() + self.coming < MOST_THREADS
    }

    fn note_request(&mut self, what: What, on: u32, number: u32, signature: &[u8], values: &[packet::Value], ends: &[End]) {
        let on = self.end(on);
        if let Some(deeds) = &mut self.deeds {
            deeds.push(Deed { what, on, number, signature: signature.to_vec(), status: 0, values: values.to_vec(), ends: ends.to_vec() });
        }
    }

    fn note_reply(&mut self, what: What, on: u32, response: &Response) {
        let on = self.end(on);
        if let Some(deeds) = &mut self.deeds {
            let Response { number, status, values, ends } = response;
            deeds.push(Deed {
                what,
                on,
                number: *number,
                signature: Vec::new(),
                status: *status,
                values: values.clone(),
                ends: ends.clone(),
            });
        }
    }

    // ------------------------------------------------------------ ends

    fn kept(&self, number: u32) -> Option<&Kept> {
        self.places.get((number as usize).checked_sub(1)?)?.kept.as_deref()
    }

    /// Changes what is kept for an end that is held, or lets it go.
    fn replace(&mut self, number: u32, own: bool, change: impl FnOnce(Option<Box<Kept>>) -> Option<Box<Kept>>) {
        let Some(place) = (number as usize).checked_sub(1).and_then(|at| self.places.get_mut(at)) else { return };
        let count =
            |kept: &Option<Box<Kept>>| kept.as_ref().map_or((0, 0), |kept| (usize::from(kept.is_in_use()), usize::from(kept.is_coming())));
        let before = count(&place.kept);
        place.kept = change(place.kept.take());
        place.own = own;
        let after = count(&place.kept);
        self.in_use = self.in_use + after.0 - before.0;
        self.coming = self.coming + after.1 - before.1;
        let is_bound = place.kept.as_ref().is_some_and(|kept| !kept.bindings.is_empty());
        if is_bound {
            self.bound.insert(number)
        } else {
            self.bound.remove(&number)
        };
        self.unsettled.push(number);
    }

    fn change<R>(&mut self, number: u32, change: impl FnOnce(&mut Kept) -> R) -> Option<R> {
        self.kept(number)?;
        let mut result = None;
        self.replace(number, false, |kept| {
            kept.map(|mut kept| {
                result = Some(change(&mut kept));
                kept
            })
        });
        result
    }

    fn let_go(&mut self, number: u32, own: bool) -> Option<Box<Kept>> {
        let mut result = None;
        self.replace(number, own, |kept| {
            result = kept;
            None
        });
        result
    }

    fn get(&mut self, ends: &[End]) {
        for &end in ends {
            self.places.push(Place { end, kept: None, own: false });
            let number = self.places.len() as u32;
            self.numbers.insert(end, number);
            self.replace(number, false, |_| Some(Box::default()));
        }
    }

    fn number(&self, end: End) -> u32 {
        self.numbers.get(&end).copied().unwrap_or(0)
    }

    /// What is kept for an end, if the process holds it.
    pub fn kept_for(&self, end: End) -> Option<&Kept> {
        self.kept(self.number(end))
    }

    /// Whether the process is about to destroy the end.
    pub fn is_doomed(&self, end: End) -> bool {
        self.doomed.contains(&end)
    }

    /// The end on which its last call is a Send.
    pub fn sends_on(&self) -> Option<End> {
        match self.asked {
            Asked::Send(number) => Some(self.end(number)),
            _ => None,
        }
    }

    pub fn signature_of(&self, connect: &Connect) -> &[u8] {
        &self.ops[connect.op].0
    }

    fn hold_again(&mut self, ends: &[End]) {
        for &end in ends {
            self.replace(self.number(end), false, |_| Some(Box::default()));
        }
    }

    fn end(&self, number: u32) -> End {
        self.places[number as usize - 1].end
    }

    /// The ends of links, which are held no longer.
    fn send_away(&mut self, links: &[u32]) -> Vec<End> {
        let ends = links.iter().map(|&link| self.end(link)).collect();
        for &link in links {
            self.let_go(link, false);
        }
        ends
    }

    // ------------------------------------------------------------ outcomes

    fn give(&mut self, thread: usize, values: Vec<Value>) {
        self.machine.give(thread, Given::Values(values));
    }

    fn does(&mut self, thread: usize) {
        self.give(thread, Vec::new());
    }

    fn raise(&mut self, thread: usize, exception: Exception) {
        self.machine.give(thread, Given::Raise(exception));
    }

    /// Values that came: the links have the next numbers.
    fn unpacked(&self, values: Vec<packet::Value>) -> Vec<Value> {
        let mut last = self.places.len() as u32;
        let value = |value| match value {
            packet::Value::Int(number) => Value::Int(number),
            packet::Value::Bool(truth) => Value::Bool(truth),
            packet::Value::Text(text) => Value::Text(std::rc::Rc::new(Text::of(&text))),
            packet::Value::Row(row) => Value::Row(Box::new(Row::of(&row))),
            packet::Value::Link => {
                last += 1;
                Value::Link(last)
            }
        };
        values.into_iter().map(value).collect()
    }

    fn go_on_with(&mut self, thread: usize, values: Vec<packet::Value>, ends: &[End]) {
        let values = self.unpacked(values);
        self.get(ends);
        self.give(thread, values);
    }

    // ------------------------------------------------------------ deaths

    /// What falls with an end that dies or is destroyed.
    fn fall(&mut self, kept: Kept) {
        for queued in &kept.queue {
            if !matches!(queued.packet, Packet::Retry(_) | Packet::Forbid(_)) {
                self.hold_again(&queued.ends);
            }
        }
        let connects = || kept.outstanding.iter().chain(&kept.behind);
        for connect in connects() {
            self.hold_again(&connect.ends);
        }
        self.doomed.extend(kept.request.iter().flat_map(|wanted| &wanted.ends).chain(kept.reply.iter().flat_map(|reply| &reply.ends)));
        for thread in connects().map(|connect| connect.thread).chain(kept.accepts.iter().map(|accept| accept.0)) {
            self.raise(thread, Exception::DEADLINK);
        }
    }

    fn die(&mut self, number: u32) {
        let fallen = self.change(number, |kept| {
            let Kept { sending, receiving, last, owed, ref mut forbade, .. } = *kept;
            let forbade = forbade.take();
            mem::replace(kept, Kept { sending, receiving, last, owed, forbade, dead: true, ..Kept::default() })
        });
        if let Some(kept) = fallen {
            self.fall(kept);
        }
    }

    fn destroy(&mut self, number: u32) {
        let Some(own) = self.kept(number).map(|kept| kept.sending == Sending::Own) else { return };
        let Some(kept) = self.let_go(number, own) else { return };
        self.doomed.push_back(self.end(number));
        self.fall(*kept);
    }

    // ------------------------------------------------------------ actions

    fn act(&mut self, thread: usize, action: Action) {
        match action {
            Action::Destroy(link) if self.kept(link).is_none() => self.raise(thread, Exception::NOLINK),
            Action::Destroy(link) => {
                self.destroy(link);
                self.does(thread);
            }
            Action::Unbind(link, _) if self.kept(link).is_none() => self.raise(thread, Exception::NOLINK),
            Action::Unbind(link, entry) => {
                self.change(link, |kept| kept.bindings.retain(|&bound| bound != entry as usize));
                self.does(thread);
            }
            Action::Bind(link, entry) => self.unless(thread, self.dead_fault(link), |process| {
                process.change(link, |kept| {
                    if !kept.bindings.contains(&(entry as usize)) {
                        kept.bindings.push(entry as usize);
                    }
                });
                process.does(thread);
            }),
            Action::Accept(link, op) => self.unless(thread, self.dead_fault(link), |process| {
                process.change(link, |kept| kept.accepts.push((thread, op as usize)));
            }),
            Action::Connect(link, op, values) => {
                let links = links_in(&values);
                let fault = self.dead_fault(link).or_else(|| self.link_fault(link, &links));
                self.unless(thread, fault, |process| process.connect(thread, link, op as usize, &values, &links));
            }
            Action::Reply(values) => self.reply(thread, &values),
            Action::Close => self.close(thread),
            Action::StopAll => self.over = true,
            Action::New | Action::Write(_) => unreachable!("it is a call"),
        }
    }

    fn unless(&mut self, thread: usize, fault: Option<Exception>, next: impl FnOnce(&mut Self)) {
        match fault {
            Some(exception) => self.raise(thread, exception),
            None => next(self),
        }
    }

    fn dead_fault(&self, link: u32) -> Option<Exception> {
        match self.kept(link) {
            None => Some(Exception::NOLINK),
            Some(kept) => kept.dead.then_some(Exception::DEADLINK),
        }
    }

    /// What is raised for the first of these links that may not go on the end.
    fn link_fault(&self, on: u32, links: &[u32]) -> Option<Exception> {
        for (place, &link) in links.iter().enumerate() {
            let Some(kept) = self.kept(link) else { return Some(Exception::NOLINK) };
            if links[..place].contains(&link) || self.end(link).is_of_link_of(self.end(on)) || kept.is_busy() {
                return Some(Exception::BUSYLINK);
            }
        }
        None
    }

    fn connect(&mut self, thread: usize, link: u32, op: usize, values: &[Value], links: &[u32]) {
        let ends = self.send_away(links);
        let (most, signature) = (self.most(), self.ops[op].0.clone());
        let values: Vec<packet::Value> = values.iter().map(packed).collect();
        let number = self.kept(link).map_or(0, |kept| kept.last.saturating_add(1));
        self.note_request(What::Issued, link, number, &signature, &values, &ends);
        self.change(link, |kept| {
            kept.last = number;
            let connect = Connect { thread, number, op, values, ends };
            if kept.outstanding.is_some() {
                kept.behind.push_back(connect);
            } else {
                kept.ask(most, &signature, connect);
            }
        });
    }

    fn reply(&mut self, thread: usize, values: &[Value]) {
        let Some(&Open { on, number, is_answered }) = self.opened[thread].last() else { return self.does(thread) };
        let links = links_in(values);
        let fault = match self.kept(on) {
            _ if is_answered => Some(Exception::REPLIED),
            Some(kept) if !kept.dead => self.link_fault(on, &links),
            _ => Some(Exception::DEADLINK),
        };
        self.unless(thread, fault, |process| {
            let ends = process.send_away(&links);
            process.respond(on, Response { number, status: 0, values: values.iter().map(packed).collect(), ends });
            process.opened[thread].last_mut().expect("it is open").is_answered = true;
            process.does(thread);
        });
    }

    fn close(&mut self, thread: usize) {
        if let Some(Open { on, number, is_answered: false }) = self.opened[thread].pop() {
            self.respond(on, Response { number, status: 1, values: Vec::new(), ends: Vec::new() });
        }
        self.does(thread);
    }

    /// The reply to a request that was accepted on the end, if that is held.
    fn respond(&mut self, on: u32, response: Response) {
        let Some(kept) = self.kept(on) else { return };
        if kept.owed == Some(response.number) && !kept.dead {
            self.note_reply(What::Replied, on, &response);
        }
        let most = self.most();
        self.change(on, |kept| kept.reply(most, response));
    }

    // ------------------------------------------------------------ messages

    /// Who takes a request of this signature.
    fn taker(&self, room: bool, signature: &[u8], kept: &Kept) -> Option<Taker> {
        let accepts = kept.accepts.iter().find(|accept| self.ops[accept.1].0 == signature);
        let bound = || kept.bindings.iter().find(|&&entry| self.ops[self.entries[entry]].0 == signature);
        accepts.map(|accept| Taker::Thread(accept.0)).or_else(|| if room { bound().map(|&entry| Taker::Entry(entry)) } else { None })
    }

    /// How many ends a packet brings, if it answers what stands on the end.
    fn brings(&self, packet: &Packet, kept: &Kept) -> Option<usize> {
        let carried = |values: &[packet::Value]| links_among(values).min(self.most());
        let outstanding = kept.outstanding.as_ref();
        let back = || outstanding.map_or(0, |connect| carried(&connect.values));
        match packet {
            Packet::Request { values, .. } => (kept.owed.is_none() && kept.request.is_none()).then(|| carried(values)),
            Packet::Reply { number, status, values } => {
                let has_results = |connect: &Connect| {
                    let results = &self.ops[connect.op].1;
                    *status != 0 || (values.len() == results.len() && values.iter().zip(results).all(|(value, kind)| fits(value, *kind)))
                };
                (kept.is_awaited(*number) && kept.reply.is_none() && outstanding.is_some_and(has_results)).then(|| carried(values))
            }
            Packet::Retry(number) | Packet::Forbid(number) => kept.is_awaited(*number).then(back),
            Packet::Allow(number) => (kept.is_outstanding(*number) && kept.barred).then_some(0),
            Packet::GoAhead(number) => {
                (kept.is_awaited(*number) && outstanding.is_some_and(|connect| links_among(&connect.values) >= 2)).then_some(0)
            }
            Packet::Enc { kind: 1, number, index } => {
                let is_next = |wanted: &Wanted| wanted.number == *number && usize::from(*index) == wanted.ends.len() + 1;
                kept.request.as_ref().is_some_and(is_next).then_some(1)
            }
            Packet::Enc { number, index, .. } => {
                let is_next = |reply: &Response| reply.number == *number && usize::from(*index) == reply.ends.len() + 1;
                kept.reply.as_ref().is_some_and(is_next).then_some(1)
            }
        }
    }

    /// A message came on an end that is held.
    fn hear(&mut self, on: u32, report: Report) {
        let ends = report.enclosed.into_vec();
        let packet = decode(self.version, &report.bytes);
        self.change(on, |kept| kept.receiving = Receiving::Idle);
        let kept = self.kept(on).expect("the end is held");
        match packet {
            Some(Packet::Request { number, ref values, .. }) if kept.dead && ends.len() == links_among(values).min(self.most()) => {
                self.change(on, |kept| kept.queue(Packet::Retry(number), ends));
            }
            _ if kept.dead => self.doomed.extend(ends),
            Some(packet) if self.brings(&packet, kept) == Some(ends.len()) => self.read(on, packet, ends),
            _ => {
                self.destroy(on);
                self.doomed.extend(ends);
            }
        }
    }

    fn read(&mut self, on: u32, packet: Packet, ends: Vec<End>) {
        match packet {
            Packet::Request { number, signature, values } => self.request(on, number, signature, values, ends),
            Packet::Reply { number, status, values } => self.response(on, Response { number, status, values, ends }),
            Packet::Retry(_) | Packet::Allow(_) => self.ask_again(on, ends),
            Packet::Forbid(_) => {
                self.change(on, |kept| {
                    kept.barred = true;
                    came_back(kept.outstanding.as_mut(), ends);
                });
            }
            Packet::GoAhead(number) => {
                self.change(on, |kept| {
                    let Some(connect) = &mut kept.outstanding else { return };
                    let ends: Vec<End> = connect.ends.drain(..connect.ends.len().min(MOST_FURTHER)).collect();
                    kept.further(1, number, ends.into_iter());
                });
            }
            Packet::Enc { kind: 1, .. } => {
                if let Some(Some(mut wanted)) = self.change(on, |kept| kept.request.take()) {
                    wanted.ends.extend(ends);
                    self.want(on, wanted, false);
                }
            }
            Packet::Enc { .. } => {
                if let Some(Some(mut reply)) = self.change(on, |kept| kept.reply.take()) {
                    reply.ends.extend(ends);
                    self.response(on, reply);
                }
            }
        }
    }

    fn request(&mut self, on: u32, number: u32, signature: Vec<u8>, values: Vec<packet::Value>, ends: Vec<End>) {
        let room = self.room();
        let taker = self.kept(on).and_then(|kept| self.taker(room, &signature, kept));
        match taker {
            Some(by) => self.want(on, Wanted { by, number, signature, values, ends }, true),
            None => self.send_back(on, number, signature, ends),
        }
    }

    /// A request that nobody wants goes back: it is forbidden where other messages are still to come, else it may be tried again.
    fn send_back(&mut self, on: u32, number: u32, signature: Vec<u8>, ends: Vec<End>) {
        let room = self.room();
        self.change(on, |kept| {
            if kept.is_needed(room) {
                kept.forbade = Some((number, signature));
                kept.queue(Packet::Forbid(number), ends);
            } else {
                kept.queue(Packet::Retry(number), ends);
            }
        });
    }

    /// A request that is wanted is accepted where all of its ends are there.
    fn want(&mut self, on: u32, wanted: Wanted, is_first: bool) {
        if wanted.ends.len() == links_among(&wanted.values) {
            self.change(on, |kept| {
                kept.owed = Some(wanted.number);
                if let Taker::Thread(thread) = wanted.by {
                    kept.accepts.retain(|accept| accept.0 != thread);
                }
            });
            return self.take(on, wanted);
        }
        self.change(on, |kept| {
            if is_first {
                kept.queue(Packet::GoAhead(wanted.number), Vec::new());
            }
            kept.request = Some(wanted);
        });
    }

    fn take(&mut self, on: u32, wanted: Wanted) {
        let open = Open { on, number: wanted.number, is_answered: false };
        self.note_request(What::Accepted, on, wanted.number, &wanted.signature, &wanted.values, &wanted.ends);
        match wanted.by {
            Taker::Thread(thread) => {
                self.opened[thread].push(open);
                self.go_on_with(thread, wanted.values, &wanted.ends);
            }
            Taker::Entry(entry) => {
                let values = self.unpacked(wanted.values);
                let Some(thread) = self.machine.spawn(entry, values) else { return };
                self.get(&wanted.ends);
                self.opened[thread] = vec![open];
            }
        }
    }

    fn response(&mut self, on: u32, reply: Response) {
        if reply.ends.len() != links_among(&reply.values) {
            self.change(on, |kept| kept.reply = Some(reply));
            return;
        }
        let (most, ops) = (self.most(), mem::take(&mut self.ops));
        let first = self.change(on, |kept| {
            let first = kept.outstanding.take();
            kept.barred = false;
            if let Some(next) = kept.behind.pop_front() {
                let op = next.op;
                kept.ask(most, &ops[op].0, next);
            }
            first
        });
        self.ops = ops;
        let Some(Some(Connect { thread, .. })) = first else { return };
        self.note_reply(What::Returned, on, &reply);
        if reply.status == 0 {
            self.go_on_with(thread, reply.values, &reply.ends);
        } else {
            self.raise(thread, Exception::FAILED);
        }
    }

    /// The outstanding request is queued again.
    fn ask_again(&mut self, on: u32, ends: Vec<End>) {
        let (most, ops) = (self.most(), mem::take(&mut self.ops));
        self.change(on, |kept| {
            came_back(kept.outstanding.as_mut(), ends);
            if let Some(connect) = kept.outstanding.take() {
                let op = connect.op;
                kept.ask(most, &ops[op].0, connect);
            }
        });
        self.ops = ops;
    }

    // ------------------------------------------------------------ answers

    fn hear_answer(&mut self, answer: Option<Answer>) {
        match (self.asked, answer) {
            (Asked::Make(thread), Some(Answer::Made(a, b))) => {
                self.go_on_with(thread, vec![packet::Value::Link, packet::Value::Link], &[a, b])
            }
            (Asked::Make(thread), _) => self.raise(thread, Exception::LINKSFULL),
            (Asked::Print(thread), _) => self.does(thread),
            (Asked::Send(on), Some(Answer::Ok)) => {
                self.change(on, |kept| {
                    let sent = kept.queue.pop_front();
                    let is_back = sent.is_some_and(|sent| matches!(sent.packet, Packet::Retry(_) | Packet::Forbid(_)));
                    kept.sending = if is_back { Sending::Back } else { Sending::Own };
                });
            }
            (Asked::Receive(on), Some(Answer::Ok)) => drop(self.change(on, |kept| kept.receiving = Receiving::Started)),
            (Asked::Cancel(on), Some(Answer::Ok)) => drop(self.change(on, |kept| kept.receiving = Receiving::Idle)),
            (Asked::Cancel(on), Some(Answer::Refused(cause))) if cause == b" Late" || cause == b" Dead" => {
                self.change(on, |kept| kept.receiving = Receiving::Late);
                if cause == b" Dead" {
                    self.die(on);
                }
            }
            (Asked::Send(on) | Asked::Receive(on), Some(Answer::Refused(b" Dead"))) => self.die(on),
            (Asked::Wait, Some(Answer::Reported(report))) => self.hear_report(report),
            (Asked::Wait, _) => self.over = true,
            _ => {}
        }
    }

    fn hear_report(&mut self, report: Report) {
        let on = self.number(report.on);
        let Some(kept) = self.kept(on) else {
            let is_own = on != 0 && self.places[on as usize - 1].own;
            if report.is_inward {
                self.doomed.extend(report.enclosed);
            } else if is_own {
                self.hold_again(&report.enclosed);
            }
            return;
        };
        let is_own = kept.sending == Sending::Own;
        match (report.is_inward, report.is_done) {
            (true, true) => self.hear(on, report),
            (true, false) => {
                self.change(on, |kept| kept.receiving = Receiving::Idle);
                self.die(on);
            }
            (false, is_done) => {
                self.change(on, |kept| kept.sending = Sending::Idle);
                if !is_done {
                    self.die(on);
                    if is_own {
                        self.hold_again(&report.enclosed);
                    }
                }
            }
        }
    }

    // ------------------------------------------------------------ steps

    /// Each allow that is due is queued, and then comes the first call that is due.
    fn due(&mut self) -> Option<Call> {
        let room = self.room();
        if room != self.had_room {
            self.had_room = room;
            self.unsettled.extend(&self.bound);
        }
        for number in mem::take(&mut self.unsettled) {
            self.settle(number, room);
            self.agenda.insert(number);
        }
        self.unsettled.clear();
        if let Some(end) = self.doomed.pop_front() {
            self.asked = Asked::Destroy;
            return Some(Call::Destroy(end));
        }
        while let Some(&number) = self.agenda.first() {
            if let Some(call) = self.due_on(number, room) {
                return Some(call);
            }
            self.agenda.pop_first();
        }
        None
    }

    fn settle(&mut self, number: u32, room: bool) {
        let Some(kept) = self.kept(number) else { return };
        let Some((request, signature)) = &kept.forbade else { return };
        if self.taker(room, signature, kept).is_some() || !kept.is_needed(room) {
            let request = *request;
            self.change(number, |kept| {
                kept.forbade = None;
                kept.queue(Packet::Allow(request), Vec::new());
            });
        }
    }

    fn due_on(&mut self, number: u32, room: bool) -> Option<Call> {
        let (most, end) = (self.most(), self.end(number));
        let kept = self.kept(number)?;
        let (asked, call) = if let (Sending::Idle, Some(first)) = (kept.sending, kept.queue.front()) {
            let bytes = encode(&first.packet)?.as_slice().into();
            let enclosed = first.ends[..first.ends.len().min(most)].into();
            (Asked::Send(number), Call::Send(end, Box::new(Message { bytes, enclosed })))
        } else if kept.receiving == Receiving::Idle && kept.is_needed(room) {
            (Asked::Receive(number), Call::Receive(end))
        } else if kept.receiving == Receiving::Started && !kept.is_needed(room) {
            (Asked::Cancel(number), Call::CancelIn(end))
        } else {
            return None;
        };
        self.asked = asked;
        Some(call)
    }

    fn ask(&mut self, asked: Asked, call: Call) -> Step {
        self.asked = asked;
        Step::Ask(call)
    }

    fn exit(&mut self) -> Step {
        self.over = true;
        self.ask(Asked::Exit, Call::Exit)
    }

    fn pause(&mut self) -> Step {
        self.asked = Asked::Nothing;
        Step::Pause
    }

    /// The process goes on until it asks a call, or its slice is spent.
    fn slice(&mut self) -> Step {
        let mut fuel = MOST_INSTRUCTIONS;
        loop {
            if let Some(call) = self.due() {
                return Step::Ask(call);
            }
            if self.over {
                return self.exit();
            }
            let (stop, left) = self.machine.run(fuel);
            fuel = left;
            match stop {
                Stop::Act { thread, action: Action::New } => return self.ask(Asked::Make(thread), Call::Make),
                Stop::Act { thread, action: Action::Write(bytes) } => return self.ask(Asked::Print(thread), Call::Print(bytes.into())),
                Stop::Act { thread, action } => self.act(thread, action),
                Stop::Spent => return self.pause(),
                Stop::AllBlocked => return self.due().map(Step::Ask).unwrap_or_else(|| self.ask(Asked::Wait, Call::Wait)),
                Stop::Finished => {
                    return match self.due() {
                        Some(call) => Step::Ask(call),
                        None if self.in_use > 0 => self.ask(Asked::Wait, Call::Wait),
                        None => self.exit(),
                    };
                }
            }
        }
    }
}

/// Ends of the request came back.
fn came_back(connect: Option<&mut Connect>, mut ends: Vec<End>) {
    if let Some(connect) = connect {
        ends.append(&mut connect.ends);
        connect.ends = ends;
    }
}

impl Program for Process<'_> {
    fn next(&mut self, answer: Option<Answer>) -> Step {
        if self.asked == Asked::Exit {
            return Step::Ended;
        }
        self.hear_answer(answer);
        self.slice()
    }
}

// SAFETY: a process owns its machine, and all that counts references to a text of the machine is in the machine.
unsafe impl Send for Process<'_> {}
