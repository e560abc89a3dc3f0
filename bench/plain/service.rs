//! A link service without proofs: the work of the crate `service_rounds` for the steps that it makes, with the conditions of each.
//!
//!     service rounds LINKS STEPS      messages over links in turn
//!     service exits STEPS             links that are made, and processes that exit

use std::collections::{HashMap, HashSet, VecDeque};
use std::env;
use std::hash::{BuildHasherDefault, Hasher};
use std::process::ExitCode;

#[derive(Clone, Copy, PartialEq, Eq, Hash)]
struct EndId {
    maker: u8,
    count: u32,
    second: bool,
}

impl EndId {
    fn opposite(self) -> EndId {
        EndId { second: !self.second, ..self }
    }
}

/// One multiplication for each number that is hashed.
#[derive(Default)]
struct Mixed(u64);

impl Hasher for Mixed {
    fn finish(&self) -> u64 {
        self.0 ^ self.0 >> 29
    }

    fn write(&mut self, bytes: &[u8]) {
        bytes.iter().for_each(|byte| self.write_u64(u64::from(*byte)));
    }

    fn write_u8(&mut self, number: u8) {
        self.write_u64(u64::from(number));
    }

    fn write_u32(&mut self, number: u32) {
        self.write_u64(u64::from(number));
    }

    fn write_u64(&mut self, number: u64) {
        self.0 = (self.0.rotate_left(5) ^ number).wrapping_mul(0x9e37_79b9_7f4a_7c15);
    }
}

type Table<V> = HashMap<EndId, V, BuildHasherDefault<Mixed>>;
type Names = HashSet<EndId, BuildHasherDefault<Mixed>>;

#[derive(Clone, PartialEq)]
struct Message {
    bytes: Vec<u8>,
    carried: Vec<EndId>,
}

#[derive(Clone, Copy, PartialEq)]
enum Place {
    Owned(u16),
    InMessage(EndId, u32),
    Destroyed,
}

enum Outward {
    Idle,
    Waiting(Message),
    Matched(Message),
    Taken,
    Unreported,
}

#[derive(PartialEq)]
enum Inward {
    Idle,
    Posted,
    Matched(u32),
    Unreported,
}

struct End {
    place: Place,
    sent: u32,
    noticed: bool,
    outward: Outward,
    inward: Inward,
}

#[derive(PartialEq)]
enum Phase {
    Running,
    Waiting,
    Ended,
}

#[derive(PartialEq)]
struct Report {
    on: EndId,
    inward: bool,
    bytes: Vec<u8>,
    enclosed: Vec<EndId>,
}

struct Process {
    home: u8,
    phase: Phase,
    reports: VecDeque<Report>,
    /// Its ends; those of them on which an activity was started and is not reported.
    owned: Names,
    started: usize,
}

enum Step {
    Make { p: u16, a: EndId, b: EndId },
    Send { on: EndId, n: u32, bytes: Vec<u8>, enclose: Vec<EndId> },
    Receive { on: EndId },
    Match { on: EndId, n: u32 },
    Take { on: EndId, n: u32, p: u16, late: bool },
    Complete { on: EndId, n: u32 },
    Wait { p: u16 },
    Report { p: u16, report: Report },
    Exit { p: u16 },
}

struct Refused;

type Answer = Result<(), Refused>;

fn allowed(is_so: bool) -> Answer {
    if is_so { Ok(()) } else { Err(Refused) }
}

struct Service {
    most_carried: usize,
    made: Vec<u32>,
    ends: Table<End>,
    processes: Vec<Process>,
}

impl Service {
    fn start(version: u8, kernels: u8, homes: &[u8]) -> Service {
        let process = |home: &u8| Process { home: *home, phase: Phase::Running, reports: VecDeque::new(), owned: Names::default(), started: 0 };
        Service {
            most_carried: if version == 1 { 1 } else { 8 },
            made: vec![0; usize::from(kernels)],
            ends: Table::default(),
            processes: homes.iter().map(process).collect(),
        }
    }

    fn process(&mut self, p: u16) -> Result<&mut Process, Refused> {
        self.processes.get_mut(usize::from(p)).ok_or(Refused)
    }

    fn runs(&mut self, p: u16) -> Answer {
        allowed(self.process(p)?.phase == Phase::Running)
    }

    fn end(&mut self, e: EndId) -> Result<&mut End, Refused> {
        self.ends.get_mut(&e).ok_or(Refused)
    }

    fn owner(&self, e: EndId) -> Result<u16, Refused> {
        match self.ends.get(&e).map(|end| end.place) {
            Some(Place::Owned(p)) => Ok(p),
            _ => Err(Refused),
        }
    }

    fn apply(&mut self, step: Step) -> Answer {
        match step {
            Step::Make { p, a, b } => self.make(p, a, b),
            Step::Send { on, n, bytes, enclose } => self.send(on, n, bytes, enclose),
            Step::Receive { on } => self.receive(on),
            Step::Match { on, n } => self.matches(on, n),
            Step::Take { on, n, p, late } => self.take(on, n, p, late),
            Step::Complete { on, n } => self.complete(on, n),
            Step::Wait { p } => self.wait(p),
            Step::Report { p, report } => self.report(p, report),
            Step::Exit { p } => self.exit(p),
        }
    }

    fn make(&mut self, p: u16, a: EndId, b: EndId) -> Answer {
        self.runs(p)?;
        let home = self.process(p)?.home;
        let next = self.made[usize::from(home)];
        allowed(next < 65_536 && a == EndId { maker: home, count: next, second: false } && b == a.opposite())?;
        self.made[usize::from(home)] += 1;
        for e in [a, b] {
            self.ends.insert(e, End { place: Place::Owned(p), sent: 0, noticed: false, outward: Outward::Idle, inward: Inward::Idle });
            self.process(p)?.owned.insert(e);
        }
        Ok(())
    }

    fn idle(&self, e: EndId) -> bool {
        matches!(self.ends.get(&e), Some(End { outward: Outward::Idle, inward: Inward::Idle, .. }))
    }

    fn send(&mut self, on: EndId, n: u32, bytes: Vec<u8>, enclose: Vec<EndId>) -> Answer {
        let p = self.owner(on)?;
        self.runs(p)?;
        let end = self.end(on)?;
        allowed(!end.noticed && matches!(end.outward, Outward::Idle) && end.sent + 1 == n)?;
        allowed(enclose.len() <= self.most_carried && bytes.len() <= 256)?;
        for (place, e) in enclose.iter().enumerate() {
            allowed(self.owner(*e).is_ok_and(|q| q == p) && self.idle(*e))?;
            allowed(*e != on && *e != on.opposite() && !enclose[..place].contains(e))?;
        }
        for e in &enclose {
            self.end(*e)?.place = Place::InMessage(on, n);
            self.process(p)?.owned.remove(e);
        }
        let end = self.end(on)?;
        end.sent = n;
        end.outward = Outward::Waiting(Message { bytes, carried: enclose });
        self.process(p)?.started += 1;
        Ok(())
    }

    fn receive(&mut self, on: EndId) -> Answer {
        let p = self.owner(on)?;
        self.runs(p)?;
        let end = self.end(on)?;
        allowed(!end.noticed && end.inward == Inward::Idle)?;
        end.inward = Inward::Posted;
        self.process(p)?.started += 1;
        Ok(())
    }

    fn matches(&mut self, on: EndId, n: u32) -> Answer {
        let opposite = self.end(on.opposite())?;
        allowed(opposite.inward == Inward::Posted)?;
        let end = self.end(on)?;
        allowed(end.sent == n && !end.noticed)?;
        match std::mem::replace(&mut end.outward, Outward::Idle) {
            Outward::Waiting(message) => end.outward = Outward::Matched(message),
            other => {
                end.outward = other;
                return Err(Refused);
            }
        }
        self.end(on.opposite())?.inward = Inward::Matched(n);
        Ok(())
    }

    fn take(&mut self, on: EndId, n: u32, p: u16, late: bool) -> Answer {
        let opposite = on.opposite();
        allowed(self.owner(opposite)? == p && !late)?;
        let to = self.end(opposite)?;
        allowed(!to.noticed && to.inward == Inward::Matched(n))?;
        let end = self.end(on)?;
        allowed(end.sent == n)?;
        let message = match std::mem::replace(&mut end.outward, Outward::Taken) {
            Outward::Matched(message) => message,
            other => {
                end.outward = other;
                return Err(Refused);
            }
        };
        self.end(opposite)?.inward = Inward::Unreported;
        for e in &message.carried {
            self.end(*e)?.place = Place::Owned(p);
            self.process(p)?.owned.insert(*e);
        }
        self.reports(p, Report { on: opposite, inward: true, bytes: message.bytes, enclosed: message.carried })
    }

    fn complete(&mut self, on: EndId, n: u32) -> Answer {
        let p = self.owner(on)?;
        let end = self.end(on)?;
        allowed(end.sent == n && matches!(end.outward, Outward::Taken))?;
        end.outward = Outward::Unreported;
        self.reports(p, Report { on, inward: false, bytes: Vec::new(), enclosed: Vec::new() })
    }

    fn reports(&mut self, p: u16, report: Report) -> Answer {
        let process = self.process(p)?;
        process.started -= 1;
        process.reports.push_back(report);
        Ok(())
    }

    fn wait(&mut self, p: u16) -> Answer {
        self.runs(p)?;
        let process = self.process(p)?;
        allowed(!process.reports.is_empty() || process.started > 0)?;
        process.phase = Phase::Waiting;
        Ok(())
    }

    fn report(&mut self, p: u16, report: Report) -> Answer {
        let process = self.process(p)?;
        allowed(process.phase == Phase::Waiting && process.reports.front() == Some(&report))?;
        process.reports.pop_front();
        process.phase = Phase::Running;
        let end = self.end(report.on)?;
        if report.inward {
            end.inward = Inward::Idle;
        } else {
            end.outward = Outward::Idle;
        }
        Ok(())
    }

    fn exit(&mut self, p: u16) -> Answer {
        self.runs(p)?;
        let process = self.process(p)?;
        process.phase = Phase::Ended;
        process.reports.clear();
        for e in std::mem::take(&mut process.owned) {
            self.destroy(e)?;
        }
        Ok(())
    }

    fn destroy(&mut self, e: EndId) -> Answer {
        let end = self.end(e)?;
        end.place = Place::Destroyed;
        if !matches!(end.outward, Outward::Waiting(_)) {
            return Ok(());
        }
        if let Outward::Waiting(message) = std::mem::replace(&mut end.outward, Outward::Idle) {
            for carried in message.carried {
                self.end(carried)?.place = Place::Destroyed;
            }
        }
        Ok(())
    }
}

fn round(service: &mut Service, link: u32, n: u32) -> Answer {
    let a = EndId { maker: 0, count: link, second: false };
    let b = a.opposite();
    service.apply(Step::Receive { on: b })?;
    service.apply(Step::Send { on: a, n, bytes: b"x".to_vec(), enclose: Vec::new() })?;
    service.apply(Step::Match { on: a, n })?;
    service.apply(Step::Take { on: a, n, p: 0, late: false })?;
    service.apply(Step::Complete { on: a, n })?;
    for report in [
        Report { on: b, inward: true, bytes: b"x".to_vec(), enclosed: Vec::new() },
        Report { on: a, inward: false, bytes: Vec::new(), enclosed: Vec::new() },
    ] {
        service.apply(Step::Wait { p: 0 })?;
        service.apply(Step::Report { p: 0, report })?;
    }
    Ok(())
}

fn rounds(links: u32, steps: u32) -> Result<u32, Refused> {
    let mut service = Service::start(1, 1, &[0]);
    for count in 0..links {
        let a = EndId { maker: 0, count, second: false };
        service.apply(Step::Make { p: 0, a, b: a.opposite() })?;
    }
    let rounds = steps.saturating_sub(links) / 9;
    for at in 0..rounds {
        round(&mut service, at % links, at / links + 1)?;
    }
    Ok(links + rounds * 9)
}

fn exits(steps: u32) -> Result<u32, Refused> {
    let homes: Vec<u8> = (0..64).map(|p| p % 8).collect();
    let mut service = Service::start(1, 8, &homes);
    let links = (steps / 64).saturating_sub(1).min(8192);
    for p in 0..64 {
        for made in 0..links {
            let a = EndId { maker: homes[usize::from(p)], count: u32::from(p / 8) * links + made, second: false };
            service.apply(Step::Make { p, a, b: a.opposite() })?;
        }
        service.apply(Step::Exit { p })?;
    }
    Ok(64 * (links + 1))
}

fn number(word: &str, most: u32) -> Option<u32> {
    word.parse().ok().filter(|value| (1..=most).contains(value))
}

fn measured(words: &[&str]) -> Option<Result<u32, Refused>> {
    match words {
        ["rounds", links, steps] => Some(rounds(number(links, 65_536)?, number(steps, 4_000_000)?)),
        ["exits", steps] => Some(exits(number(steps, 4_000_000)?)),
        _ => None,
    }
}

fn main() -> ExitCode {
    let words: Vec<String> = env::args().skip(1).collect();
    let words: Vec<&str> = words.iter().map(String::as_str).collect();
    match measured(&words) {
        Some(Ok(steps)) => println!("{steps} steps"),
        Some(Err(Refused)) => {
            println!("a step is not allowed");
            return ExitCode::FAILURE;
        }
        None => {
            println!("words: rounds LINKS STEPS, or exits STEPS; 1 to 65536 links, 1 to 4000000 steps");
            return ExitCode::FAILURE;
        }
    }
    ExitCode::SUCCESS
}
