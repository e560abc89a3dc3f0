//! A checker of histories without proofs: the work of the program `lynx_service`, with its answers to the letter but for the words behind `form:`.
//!
//!     history FILE

use std::collections::{HashMap, HashSet, VecDeque};
use std::env;
use std::fs;
use std::io::Write;
use std::process::ExitCode;

const MOST_LINKS: u32 = 65_536;
/// The end of a name that no link has, in a call.
const NO_END: usize = usize::MAX;

// ---------------------------------------------------------------- the service

#[derive(Clone, Copy, PartialEq)]
enum Place {
    Owned(usize),
    InMessage(usize, u32),
    Destroyed,
}

#[derive(Clone, Copy, PartialEq)]
enum Outward {
    Idle,
    Waiting,
    Matched,
    Taken,
    Unreported,
}

#[derive(Clone, Copy, PartialEq)]
enum Inward {
    Idle,
    Posted,
    Withdrawn,
    Matched,
    Unreported,
}

struct End {
    place: Place,
    outward: Outward,
    inward: Inward,
    sent: u32,
    noticed: bool,
    bytes: Box<[u8]>,
    carried: Box<[usize]>,
}

impl End {
    fn new(p: usize) -> End {
        End { place: Place::Owned(p), outward: Outward::Idle, inward: Inward::Idle, sent: 0, noticed: false, bytes: Box::new([]), carried: Box::new([]) }
    }

    fn sends(&self) -> bool {
        matches!(self.outward, Outward::Waiting | Outward::Matched | Outward::Taken)
    }

    fn receives(&self) -> bool {
        matches!(self.inward, Inward::Posted | Inward::Withdrawn | Inward::Matched)
    }

    fn started(&self) -> usize {
        usize::from(self.sends()) + usize::from(self.receives())
    }

    fn idle(&self) -> bool {
        self.outward == Outward::Idle && self.inward == Inward::Idle
    }
}

#[derive(Clone, Copy, PartialEq)]
enum Phase {
    Running,
    Waiting,
    Cancelling(usize),
    Ended,
}

#[derive(PartialEq)]
struct Report {
    on: usize,
    inward: bool,
    done: bool,
    bytes: Box<[u8]>,
    ends: Box<[usize]>,
}

struct Process {
    home: usize,
    phase: Phase,
    reports: VecDeque<Report>,
    owned: HashSet<usize>,
    started: usize,
}

enum Call<'t> {
    Make,
    Destroy(usize),
    Send(usize, &'t [u8], Vec<usize>),
    Receive(usize),
    Cancel(usize, bool),
    Wait,
    Exit,
}

#[derive(Clone, Copy, PartialEq)]
enum Cause {
    NoEnd,
    Busy,
    Dead,
    EncloseNoEnd,
    EncloseBusy,
    EncloseSame,
    Late,
    NoActivity,
    LinksFull,
    EncloseTwice,
}

const CAUSES: [(&str, Cause); 10] = [
    ("NoEnd", Cause::NoEnd),
    ("Busy", Cause::Busy),
    ("Dead", Cause::Dead),
    ("EncloseNoEnd", Cause::EncloseNoEnd),
    ("EncloseBusy", Cause::EncloseBusy),
    ("EncloseSame", Cause::EncloseSame),
    ("Late", Cause::Late),
    ("NoActivity", Cause::NoActivity),
    ("LinksFull", Cause::LinksFull),
    ("EncloseTwice", Cause::EncloseTwice),
];

enum Stop {
    Form,
    No(String),
}

type Step = Result<(), Stop>;

fn formed(is_so: bool) -> Step {
    if is_so { Ok(()) } else { Err(Stop::Form) }
}

fn no<T>(why: String) -> Result<T, Stop> {
    Err(Stop::No(why))
}

struct Checker<'t> {
    stage: u8,
    most_carried: usize,
    processes: Vec<Process>,
    ends: Vec<End>,
    made: [u32; 8],
    process_names: HashMap<&'t [u8], usize>,
    link_names: HashMap<&'t [u8], usize>,
    names_of_links: Vec<&'t [u8]>,
    names_of_processes: Vec<&'t [u8]>,
    wires: usize,
}

impl<'t> Checker<'t> {
    fn new() -> Checker<'t> {
        Checker {
            stage: 0,
            most_carried: 1,
            processes: Vec::new(),
            ends: Vec::new(),
            made: [0; 8],
            process_names: HashMap::new(),
            link_names: HashMap::new(),
            names_of_links: Vec::new(),
            names_of_processes: Vec::new(),
            wires: 0,
        }
    }

    fn p(&self, p: usize) -> String {
        String::from_utf8_lossy(self.names_of_processes[p]).into_owned()
    }

    fn e(&self, e: usize) -> String {
        format!("{}.{}", String::from_utf8_lossy(self.names_of_links[e / 2]), if e % 2 == 0 { 'a' } else { 'b' })
    }

    fn add_link(&mut self, name: &'t [u8], first: usize, second: usize) {
        self.link_names.insert(name, self.names_of_links.len());
        self.names_of_links.push(name);
        self.made[self.processes[first].home] += 1;
        for p in [first, second] {
            self.processes[p].owned.insert(self.ends.len());
            self.ends.push(End::new(p));
        }
    }

    fn owns(&self, p: usize, e: usize) -> bool {
        e != NO_END && self.ends[e].place == Place::Owned(p)
    }

    fn owner(&self, e: usize) -> Option<usize> {
        match self.ends[e].place {
            Place::Owned(p) => Some(p),
            _ => None,
        }
    }

    fn cancels(&self, e: usize) -> bool {
        self.owner(e).is_some_and(|p| self.processes[p].phase == Phase::Cancelling(e))
    }

    fn place(&self, e: usize) -> String {
        if e == NO_END {
            return "there is no such link".to_string();
        }
        match self.ends[e].place {
            Place::Owned(p) => format!("{} is owned by {}", self.e(e), self.p(p)),
            Place::InMessage(f, n) => format!("{} is in message {n} of {}", self.e(e), self.e(f)),
            Place::Destroyed => format!("{} is destroyed", self.e(e)),
        }
    }

    fn noticed(&self, e: usize) -> String {
        format!("the death of the link was noticed at {}", self.e(e))
    }

    fn runs(&self, p: usize) -> Step {
        match self.processes[p].phase {
            Phase::Running => Ok(()),
            Phase::Waiting => no(format!("{} waits", self.p(p))),
            Phase::Cancelling(e) => no(format!("{} cancels {}", self.p(p), self.e(e))),
            Phase::Ended => no(format!("{} has ended", self.p(p))),
        }
    }

    /// The first cause of a call that holds, and the end that it is about where that is owned by another.
    fn cause(&self, p: usize, call: &Call) -> Option<(Cause, usize)> {
        let at = |e: usize| &self.ends[e];
        match call {
            Call::Make => (self.made[self.processes[p].home] >= MOST_LINKS).then_some((Cause::LinksFull, 0)),
            Call::Destroy(e) => (!self.owns(p, *e)).then_some((Cause::NoEnd, *e)),
            Call::Receive(e) if !self.owns(p, *e) => Some((Cause::NoEnd, *e)),
            Call::Receive(e) if at(*e).inward != Inward::Idle => Some((Cause::Busy, 0)),
            Call::Receive(e) => at(*e).noticed.then_some((Cause::Dead, 0)),
            Call::Cancel(e, _) if !self.owns(p, *e) => Some((Cause::NoEnd, *e)),
            Call::Cancel(e, _) if at(*e).noticed => Some((Cause::Dead, 0)),
            Call::Cancel(e, true) if at(*e).inward == Inward::Unreported => Some((Cause::Late, 0)),
            Call::Cancel(e, true) => (at(*e).inward == Inward::Idle).then_some((Cause::NoActivity, 0)),
            Call::Cancel(e, false) => match at(*e).outward {
                Outward::Waiting => None,
                Outward::Idle => Some((Cause::NoActivity, 0)),
                Outward::Matched | Outward::Taken | Outward::Unreported => Some((Cause::Late, 0)),
            },
            Call::Send(e, _, xs) => self.send_cause(p, *e, xs),
            Call::Wait => (self.processes[p].reports.is_empty() && self.processes[p].started == 0).then_some((Cause::NoActivity, 0)),
            Call::Exit => None,
        }
    }

    fn send_cause(&self, p: usize, e: usize, xs: &[usize]) -> Option<(Cause, usize)> {
        if !self.owns(p, e) {
            return Some((Cause::NoEnd, e));
        }
        if self.ends[e].outward != Outward::Idle {
            return Some((Cause::Busy, 0));
        }
        if self.ends[e].noticed {
            return Some((Cause::Dead, 0));
        }
        if let Some(x) = xs.iter().find(|x| !self.owns(p, **x)) {
            return Some((Cause::EncloseNoEnd, *x));
        }
        if xs.iter().any(|x| !self.ends[*x].idle()) {
            return Some((Cause::EncloseBusy, 0));
        }
        if xs.iter().any(|x| x / 2 == e / 2) {
            return Some((Cause::EncloseSame, 0));
        }
        let twice = xs.iter().enumerate().any(|(at, x)| xs[..at].contains(x));
        twice.then_some((Cause::EncloseTwice, 0))
    }

    fn refusal(&self, (cause, e): (Cause, usize)) -> String {
        let name = CAUSES.iter().find(|row| row.1 == cause).map_or("", |row| row.0);
        match cause {
            Cause::NoEnd | Cause::EncloseNoEnd => format!("this call is refused: {name}, {}", self.place(e)),
            _ => format!("this call is refused: {name}"),
        }
    }

    /// The process runs, and no cause of the call holds.
    fn allowed(&self, p: usize, call: &Call) -> Step {
        self.runs(p)?;
        match self.cause(p, call) {
            Some(cause) => no(self.refusal(cause)),
            None => Ok(()),
        }
    }

    fn refuse(&self, p: usize, cause: Cause, call: &Call) -> Step {
        self.runs(p)?;
        match self.cause(p, call) {
            Some(first) if first.0 == cause => Ok(()),
            Some(first) => no(self.refusal(first)),
            None => no("this call is not refused".to_string()),
        }
    }

    fn place_each(&mut self, xs: &[usize], place: Place) {
        for x in xs {
            if let Place::Owned(p) = self.ends[*x].place {
                self.processes[p].owned.remove(x);
            }
            self.ends[*x].place = place;
            if let Place::Owned(p) = place {
                self.processes[p].owned.insert(*x);
            }
        }
    }

    fn destroy(&mut self, p: usize, e: usize) {
        self.processes[p].started -= self.ends[e].started();
        self.place_each(&[e], Place::Destroyed);
        if self.ends[e].outward == Outward::Waiting {
            self.ends[e].outward = Outward::Idle;
            let xs = std::mem::take(&mut self.ends[e].carried);
            self.place_each(&xs, Place::Destroyed);
        }
    }

    fn exit(&mut self, p: usize) {
        for e in std::mem::take(&mut self.processes[p].owned) {
            self.destroy(p, e);
        }
        self.processes[p].reports.clear();
        self.processes[p].phase = Phase::Ended;
    }

    fn send(&mut self, p: usize, e: usize, n: u32, text: &[u8], xs: Vec<usize>) -> Step {
        if n != self.ends[e].sent.wrapping_add(1) || n == 0 {
            return no(format!("the next message of {} is {}", self.e(e), u64::from(self.ends[e].sent) + 1));
        }
        self.place_each(&xs, Place::InMessage(e, n));
        let end = &mut self.ends[e];
        end.sent = n;
        end.outward = Outward::Waiting;
        end.bytes = text.into();
        end.carried = xs.into();
        self.processes[p].started += 1;
        Ok(())
    }

    fn cancel(&mut self, p: usize, e: usize, inward: bool) {
        if inward {
            self.processes[p].phase = Phase::Cancelling(e);
            return;
        }
        self.ends[e].outward = Outward::Idle;
        self.processes[p].started -= 1;
        let xs = std::mem::take(&mut self.ends[e].carried);
        self.place_each(&xs, Place::Owned(p));
    }

    fn over(&mut self, p: usize, report: Report) {
        self.processes[p].started -= 1;
        self.processes[p].reports.push_back(report);
    }

    fn wake(&mut self, p: usize, e: usize) {
        if self.processes[p].phase == Phase::Cancelling(e) {
            self.processes[p].phase = Phase::Running;
        }
    }

    fn report(&mut self, p: usize, report: Report) -> Step {
        if self.processes[p].phase != Phase::Waiting {
            return no(format!("{} does not wait", self.p(p)));
        }
        match self.processes[p].reports.front() {
            None => return no(format!("no report of {} stands", self.p(p))),
            Some(oldest) if *oldest != report => return no(format!("the oldest report of {} is {}", self.p(p), self.report_text(oldest))),
            Some(_) => {}
        }
        self.processes[p].reports.pop_front();
        self.processes[p].phase = Phase::Running;
        if report.inward {
            self.ends[report.on].inward = Inward::Idle;
        } else {
            self.ends[report.on].outward = Outward::Idle;
        }
        Ok(())
    }

    fn report_text(&self, report: &Report) -> String {
        let ends: String = report.ends.iter().map(|x| format!(" +{}", self.e(*x))).collect();
        match (report.inward, report.done) {
            (false, true) => format!("{} out done", self.e(report.on)),
            (false, false) => format!("{} out destroyed{ends}", self.e(report.on)),
            (true, true) => format!("{} in done {}{ends}", self.e(report.on), spelled(&report.bytes)),
            (true, false) => format!("{} in destroyed", self.e(report.on)),
        }
    }

    /// The message of this number is so far.
    fn message(&self, e: usize, n: u32, wanted: &str) -> Step {
        let end = &self.ends[e];
        let state = match end.outward {
            _ if n == 0 || n > end.sent => "not sent",
            _ if n < end.sent => "over",
            Outward::Idle | Outward::Unreported => "over",
            Outward::Waiting => "waiting",
            Outward::Matched => "matched",
            Outward::Taken => "taken",
        };
        if state == wanted {
            return Ok(());
        }
        no(format!("message {n} of {} is {state}, not {wanted}", self.e(e)))
    }

    fn receive_is(&self, e: usize, wanted: &str) -> Step {
        let state = match self.ends[e].inward {
            Inward::Idle => "idle",
            Inward::Posted => "posted",
            Inward::Withdrawn => "withdrawn",
            Inward::Matched => "matched",
            Inward::Unreported => "over",
        };
        if state == wanted {
            return Ok(());
        }
        no(format!("the receive of {} is {state}, not {wanted}", self.e(e)))
    }

    fn flag(&self, e: usize, told: bool, is_so: bool) -> Step {
        match (told, is_so) {
            (false, true) => no(format!("a Cancel of {} waits", self.e(e))),
            (true, false) => no(format!("no Cancel of {} waits", self.e(e))),
            _ => Ok(()),
        }
    }

    fn matches(&mut self, e: usize, n: u32) -> Step {
        self.message(e, n, "waiting")?;
        if self.ends[e].noticed {
            return no(self.noticed(e));
        }
        self.receive_is(e ^ 1, "posted")?;
        self.ends[e].outward = Outward::Matched;
        self.ends[e ^ 1].inward = Inward::Matched;
        Ok(())
    }

    fn take(&mut self, e: usize, n: u32, p: usize, late: bool) -> Step {
        let o = e ^ 1;
        self.message(e, n, "matched")?;
        if !self.owns(p, o) {
            return no(self.place(o));
        }
        if self.ends[o].noticed {
            return no(self.noticed(o));
        }
        self.flag(o, late, self.cancels(o))?;
        self.ends[e].outward = Outward::Taken;
        self.ends[o].inward = Inward::Unreported;
        let bytes = std::mem::take(&mut self.ends[e].bytes);
        let ends = std::mem::take(&mut self.ends[e].carried);
        self.place_each(&ends, Place::Owned(p));
        self.over(p, Report { on: o, inward: true, done: true, bytes, ends });
        self.wake(p, o);
        Ok(())
    }

    fn complete(&mut self, e: usize, n: u32) -> Step {
        self.message(e, n, "taken")?;
        let Some(p) = self.owner(e) else {
            return no(self.place(e));
        };
        self.ends[e].outward = Outward::Unreported;
        self.over(p, Report { on: e, inward: false, done: true, bytes: Box::new([]), ends: Box::new([]) });
        Ok(())
    }

    fn waits_for(&self, e: usize, wanted: &str) -> Step {
        if !self.cancels(e) {
            return no(format!("no Cancel of {} waits", self.e(e)));
        }
        self.receive_is(e, wanted)
    }

    fn free(&mut self, e: usize) -> Step {
        self.waits_for(e, "withdrawn")?;
        self.ends[e].inward = Inward::Idle;
        if let Some(p) = self.owner(e) {
            self.processes[p].started -= 1;
            self.wake(p, e);
        }
        Ok(())
    }

    fn notice(&mut self, e: usize, dead: bool) -> Step {
        if self.ends[e ^ 1].place != Place::Destroyed {
            return no(self.place(e ^ 1));
        }
        if self.ends[e].place == Place::Destroyed {
            return no(self.place(e));
        }
        if self.ends[e].noticed {
            return no(self.noticed(e));
        }
        self.flag(e, dead, self.cancels(e))?;
        if self.ends[e].outward == Outward::Waiting {
            self.returned(e);
        }
        self.mark(e);
        Ok(())
    }

    /// The send of an owned end comes back with its ends.
    fn returned(&mut self, e: usize) {
        self.ends[e].outward = Outward::Unreported;
        let ends = std::mem::take(&mut self.ends[e].carried);
        if let Some(p) = self.owner(e) {
            self.place_each(&ends, Place::Owned(p));
            self.over(p, Report { on: e, inward: false, done: false, bytes: Box::new([]), ends });
        }
    }

    /// The death of the link is noticed at an end, whose receive is over.
    fn mark(&mut self, e: usize) {
        self.ends[e].noticed = true;
        let Some(p) = self.owner(e) else {
            return;
        };
        if self.ends[e].receives() {
            self.ends[e].inward = Inward::Unreported;
            self.over(p, Report { on: e, inward: true, done: false, bytes: Box::new([]), ends: Box::new([]) });
        }
        self.wake(p, e);
    }

    fn back(&mut self, e: usize, n: u32, dead: bool) -> Step {
        self.message(e, n, "matched")?;
        let o = e ^ 1;
        if self.ends[o].place != Place::Destroyed && !self.ends[o].noticed {
            return no(self.place(o));
        }
        self.flag(e, dead, !self.ends[e].noticed && self.cancels(e))?;
        if self.ends[e].place == Place::Destroyed {
            self.ends[e].outward = Outward::Idle;
            let xs = std::mem::take(&mut self.ends[e].carried);
            self.place_each(&xs, Place::Destroyed);
            return Ok(());
        }
        self.returned(e);
        if !self.ends[e].noticed {
            self.mark(e);
        }
        Ok(())
    }

    // ---------------------------------------------------------------- lines

    fn line(&mut self, line: &'t [u8]) -> Step {
        if line.is_empty() || line[0] == b'#' {
            return Ok(());
        }
        let mut words = Words(Some(line));
        let first = words.next()?;
        match first {
            b"history" => self.begin(words),
            _ if self.stage == 0 => Err(Stop::Form),
            b"process" => self.tell_process(words),
            b"wire" => self.tell_wire(words),
            _ => {
                self.step(first, words)?;
                self.stage = 3;
                Ok(())
            }
        }
    }

    fn begin(&mut self, mut words: Words<'t>) -> Step {
        formed(self.stage == 0)?;
        self.most_carried = match words.next()? {
            b"1" => 1,
            b"2" => 8,
            _ => return Err(Stop::Form),
        };
        self.stage = 1;
        words.end()
    }

    fn tell_process(&mut self, mut words: Words<'t>) -> Step {
        let name = words.name()?;
        let mut home = 0;
        if words.0.is_some() {
            words.this(b"on")?;
            home = words.number(7)? as usize;
        }
        words.end()?;
        formed(self.stage == 1 && !self.process_names.contains_key(name) && self.processes.len() < 64)?;
        self.process_names.insert(name, self.processes.len());
        self.names_of_processes.push(name);
        self.processes.push(Process { home, phase: Phase::Running, reports: VecDeque::new(), owned: HashSet::new(), started: 0 });
        Ok(())
    }

    fn tell_wire(&mut self, mut words: Words<'t>) -> Step {
        let first = self.process(words.next()?)?;
        let second = self.process(words.next()?)?;
        words.this(b"as")?;
        let name = words.name()?;
        words.end()?;
        formed(self.stage <= 2 && !self.link_names.contains_key(name) && self.wires < 4096)?;
        self.wires += 1;
        self.stage = 2;
        self.add_link(name, first, second);
        Ok(())
    }

    fn process(&self, word: &[u8]) -> Result<usize, Stop> {
        self.process_names.get(word).copied().ok_or(Stop::Form)
    }

    /// An end of a link that was told, and in a call of any.
    fn end(&self, word: &[u8], in_call: bool) -> Result<usize, Stop> {
        let [name @ .., b'.', side @ (b'a' | b'b')] = word else {
            return Err(Stop::Form);
        };
        match self.link_names.get(name) {
            Some(link) => Ok(link * 2 + usize::from(*side == b'b')),
            None if in_call && is_name(name) => Ok(NO_END),
            None => Err(Stop::Form),
        }
    }

    fn ends(&self, mut words: Words<'t>, in_call: bool) -> Result<Vec<usize>, Stop> {
        let mut ends = Vec::new();
        while words.0.is_some() {
            let word = words.next()?.strip_prefix(b"+").ok_or(Stop::Form)?;
            ends.push(self.end(word, in_call)?);
            formed(ends.len() <= self.most_carried)?;
        }
        Ok(ends)
    }

    fn step(&mut self, first: &'t [u8], mut words: Words<'t>) -> Step {
        if let Some(name) = first.strip_suffix(b":") {
            let p = self.process(name)?;
            return self.act(p, words);
        }
        formed(matches!(first, b"match" | b"take" | b"complete" | b"withdraw" | b"free" | b"notice" | b"back"))?;
        let e = self.end(words.next()?, false)?;
        if matches!(first, b"withdraw" | b"free") {
            words.end()?;
            if first == b"free" {
                return self.free(e);
            }
            self.waits_for(e, "posted")?;
            self.ends[e].inward = Inward::Withdrawn;
            return Ok(());
        }
        if first == b"notice" {
            let dead = words.flag(b"dead")?;
            return self.notice(e, dead);
        }
        let n = words.number(u32::MAX)?;
        match first {
            b"back" => {
                let dead = words.flag(b"dead")?;
                self.back(e, n, dead)
            }
            b"take" => {
                words.this(b"by")?;
                let p = self.process(words.next()?)?;
                let late = words.flag(b"late")?;
                self.take(e, n, p, late)
            }
            b"match" => {
                words.end()?;
                self.matches(e, n)
            }
            _ => {
                words.end()?;
                self.complete(e, n)
            }
        }
    }

    fn act(&mut self, p: usize, mut words: Words<'t>) -> Step {
        let verb = words.next()?;
        match verb {
            b"make" => {
                let name = words.name()?;
                words.end()?;
                formed(!self.link_names.contains_key(name))?;
                self.allowed(p, &Call::Make)?;
                self.add_link(name, p, p);
                Ok(())
            }
            b"refuse" => {
                let word = words.next()?;
                let cause = CAUSES.iter().find(|row| row.0.as_bytes() == word).ok_or(Stop::Form)?.1;
                let verb = words.next()?;
                let call = self.call(verb, words, true, None)?.0;
                self.refuse(p, cause, &call)
            }
            b"report" => {
                let report = self.read_report(words)?;
                self.report(p, report)
            }
            _ => {
                let (call, n) = self.call(verb, words, false, Some(()))?;
                self.make(p, call, n)
            }
        }
    }

    fn make(&mut self, p: usize, call: Call, n: u32) -> Step {
        self.allowed(p, &call)?;
        match call {
            Call::Make => {}
            Call::Destroy(e) => self.destroy(p, e),
            Call::Send(e, text, xs) => return self.send(p, e, n, text, xs),
            Call::Receive(e) => {
                self.ends[e].inward = Inward::Posted;
                self.processes[p].started += 1;
            }
            Call::Cancel(e, inward) => self.cancel(p, e, inward),
            Call::Wait => self.processes[p].phase = Phase::Waiting,
            Call::Exit => self.exit(p),
        }
        Ok(())
    }

    /// A call, and with `numbered` the number of its message. Two that are equal have equal texts, so a text stays as it is spelled.
    fn call(&self, verb: &[u8], mut words: Words<'t>, in_call: bool, numbered: Option<()>) -> Result<(Call<'t>, u32), Stop> {
        let call = match verb {
            b"make" if in_call => Call::Make,
            b"wait" => Call::Wait,
            b"exit" => Call::Exit,
            b"destroy" => Call::Destroy(self.end(words.next()?, in_call)?),
            b"receive" => Call::Receive(self.end(words.next()?, in_call)?),
            b"cancel" => {
                let e = self.end(words.next()?, in_call)?;
                Call::Cancel(e, words.inward()?)
            }
            b"send" => {
                let e = self.end(words.next()?, in_call)?;
                let n = if numbered.is_some() { words.number(u32::MAX)? } else { 0 };
                let text = words.text()?;
                return Ok((Call::Send(e, text, self.ends(words, in_call)?), n));
            }
            _ => return Err(Stop::Form),
        };
        words.end()?;
        Ok((call, 0))
    }

    fn read_report(&self, mut words: Words<'t>) -> Result<Report, Stop> {
        let on = self.end(words.next()?, false)?;
        let inward = words.inward()?;
        let done = match words.next()? {
            b"done" => true,
            b"destroyed" => false,
            _ => return Err(Stop::Form),
        };
        let mut report = Report { on, inward, done, bytes: Box::new([]), ends: Box::new([]) };
        if inward && done {
            report.bytes = words.text()?.into();
        }
        if inward == done {
            report.ends = self.ends(words, false)?.into();
        } else {
            words.end()?;
        }
        Ok(report)
    }
}

// ---------------------------------------------------------------- words

fn is_name(word: &[u8]) -> bool {
    (1..=32).contains(&word.len()) && word.iter().all(|byte| byte.is_ascii_alphanumeric() || matches!(byte, b'_' | b'-'))
}

fn is_plain(byte: u8) -> bool {
    byte.is_ascii_alphanumeric() || matches!(byte, b'_' | b'.')
}

/// Texts are kept as they are spelled.
fn spelled(text: &[u8]) -> String {
    String::from_utf8_lossy(text).into_owned()
}

struct Words<'t>(Option<&'t [u8]>);

impl<'t> Words<'t> {
    fn next(&mut self) -> Result<&'t [u8], Stop> {
        let text = self.0.ok_or(Stop::Form)?;
        match text.iter().position(|byte| *byte == b' ') {
            Some(at) => {
                self.0 = Some(&text[at + 1..]);
                Ok(&text[..at])
            }
            None => {
                self.0 = None;
                Ok(text)
            }
        }
    }

    fn end(&self) -> Step {
        formed(self.0.is_none())
    }

    fn this(&mut self, word: &[u8]) -> Step {
        formed(self.next()? == word)
    }

    fn name(&mut self) -> Result<&'t [u8], Stop> {
        let word = self.next()?;
        formed(is_name(word))?;
        Ok(word)
    }

    fn flag(&mut self, word: &[u8]) -> Result<bool, Stop> {
        if self.0.is_none() {
            return Ok(false);
        }
        self.this(word)?;
        self.end()?;
        Ok(true)
    }

    fn inward(&mut self) -> Result<bool, Stop> {
        match self.next()? {
            b"in" => Ok(true),
            b"out" => Ok(false),
            _ => Err(Stop::Form),
        }
    }

    fn number(&mut self, most: u32) -> Result<u32, Stop> {
        let word = self.next()?;
        let digits = !word.is_empty() && word.iter().all(u8::is_ascii_digit) && (word.len() == 1 || word[0] != b'0');
        formed(digits && word.len() <= 10)?;
        let number = word.iter().fold(0u64, |number, digit| number * 10 + u64::from(digit - b'0'));
        formed(number <= u64::from(most))?;
        Ok(number as u32)
    }

    /// A text of at most 256 bytes, as it is spelled.
    fn text(&mut self) -> Result<&'t [u8], Stop> {
        let word = self.next()?;
        if word == b"-" {
            return Ok(word);
        }
        let (mut rest, mut bytes) = (word, 0);
        while let [first, behind @ ..] = rest {
            rest = behind;
            if *first == b'%' {
                let [high, low, behind @ ..] = rest else {
                    return Err(Stop::Form);
                };
                let digit = |byte: u8| (byte as char).to_digit(16).filter(|_| !byte.is_ascii_lowercase()).ok_or(Stop::Form);
                formed(!is_plain((digit(*high)? * 16 + digit(*low)?) as u8))?;
                rest = behind;
            } else {
                formed(is_plain(*first))?;
            }
            bytes += 1;
        }
        formed((1..=256).contains(&bytes))?;
        Ok(word)
    }
}

// ---------------------------------------------------------------- the program

fn main() -> ExitCode {
    let words: Vec<String> = env::args().skip(1).collect();
    let [name] = words.as_slice() else {
        eprintln!("words: FILE");
        return ExitCode::FAILURE;
    };
    let Ok(bytes) = fs::read(name) else {
        eprintln!("{name} cannot be read");
        return ExitCode::FAILURE;
    };
    let mut checker = Checker::new();
    let mut count = 0;
    let mut stop = None;
    for line in bytes.split(|byte| *byte == b'\n') {
        count += 1;
        if let Err(fault) = checker.line(line) {
            stop = Some(fault);
            break;
        }
    }
    if stop.is_none() && checker.stage == 0 {
        stop = Some(Stop::Form);
    }
    let mut err = std::io::stderr();
    let told = match stop {
        None => {
            println!("yes");
            return ExitCode::SUCCESS;
        }
        Some(Stop::Form) => writeln!(err, "{name}:{count}: form: no history has this line there"),
        Some(Stop::No(why)) => writeln!(err, "{name}:{count}: no: {why}"),
    };
    ExitCode::from(if told.is_ok() { 4 } else { 3 })
}
