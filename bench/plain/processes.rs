//! `processes VERSION STEPS FILE FILE`: lets the processes of two modules talk over links, without a kernel, as the program of `crates/process_loops`
//! does, and prints how many steps they made, and the same sum of what they did.
//!
//! It is what proved processes are measured beside: plain Rust with the standard library alone, written for speed, and not proved.
#![allow(dead_code)]

mod compiler;
mod interpreter;
mod module;
mod packet;
mod process;

include!("kernels.rs");
include!("nodes.rs");

use compiler::{compile, Code};
use module::{checked, Module};
use process::Process as Lynx;

// ---------------------------------------------------------------- sums

#[derive(Default)]
struct Sum {
    steps: u64,
    sum: u64,
}

impl Sum {
    fn add(&mut self, step: &Step) {
        self.steps += 1;
        self.sum = self.sum.wrapping_mul(31).wrapping_add(of_step(step));
    }
}

fn of_step(step: &Step) -> u64 {
    match step {
        Step::Ask(call) => of_call(call),
        Step::Pause => 9,
        Step::Ended => 10,
    }
}

fn of_call(call: &Call) -> u64 {
    match call {
        Call::Make => 1,
        Call::Destroy(on) => 2 | of_end(*on),
        Call::Send(on, message) => of_bytes(&message.bytes).wrapping_add(of_ends(&message.enclosed)).wrapping_add(3 | of_end(*on)),
        Call::Receive(on) => 4 | of_end(*on),
        Call::CancelOut(on) | Call::CancelIn(on) => 5 | of_end(*on),
        Call::Wait => 6,
        Call::Print(bytes) => of_bytes(bytes).wrapping_add(7),
        Call::Exit => 8,
    }
}

/// All links are made by kernel 0.
fn of_end(end: End) -> u64 {
    end.0 << 4
}

fn of_bytes(bytes: &[u8]) -> u64 {
    let sum: u64 = bytes.iter().map(|&byte| u64::from(byte)).sum();
    sum << 8 | bytes.len() as u64
}

fn of_ends(ends: &[End]) -> u64 {
    ends.iter().fold(0, |sum: u64, &end| sum.wrapping_mul(31).wrapping_add(of_end(end)))
}

// ---------------------------------------------------------------- links

/// One end of a link.
struct Half {
    owner: usize,
    sent: Option<Box<Message>>,
    receives: bool,
    is_dead: bool,
}

#[derive(Default)]
struct Links {
    /// The two ends of each link, one behind the other.
    halves: Vec<Half>,
    /// What each process has to be told.
    reports: [VecDeque<Report>; 2],
}

impl Links {
    fn make(&mut self, a: usize, b: usize) -> (End, End) {
        let first = End(self.halves.len() as u64);
        self.halves.extend([a, b].map(|owner| Half { owner, sent: None, receives: false, is_dead: false }));
        (first, first.opposite())
    }

    fn half(&mut self, on: End) -> &mut Half {
        &mut self.halves[on.0 as usize]
    }

    /// Does a call of a process. Its answer, or none where it has to wait for a report.
    fn call(&mut self, process: usize, call: Call) -> Option<Answer> {
        Some(match call {
            Call::Make => {
                let (a, b) = self.make(process, process);
                Answer::Made(a, b)
            }
            Call::Destroy(on) => {
                self.destroy(on);
                Answer::Ok
            }
            Call::Send(on, _) | Call::Receive(on) if self.half(on).is_dead => Answer::Refused(b" Dead"),
            Call::Send(on, message) => {
                self.half(on).sent = Some(message);
                self.deliver(on);
                Answer::Ok
            }
            Call::Receive(on) => {
                self.half(on).receives = true;
                self.deliver(on.opposite());
                Answer::Ok
            }
            Call::CancelIn(on) | Call::CancelOut(on) => {
                let half = self.half(on);
                if half.is_dead {
                    Answer::Refused(b" Dead")
                } else if mem::take(&mut half.receives) {
                    Answer::Ok
                } else {
                    Answer::Refused(b" Late")
                }
            }
            Call::Wait => return self.reports[process].pop_front().map(Answer::Reported),
            Call::Print(_) => Answer::Ok,
            Call::Exit => {
                for on in (0..self.halves.len() as u64).map(End) {
                    let half = self.half(on);
                    if half.owner == process && !half.is_dead {
                        self.destroy(on);
                    }
                }
                Answer::Ok
            }
        })
    }

    /// What was sent on an end is received at its opposite, where both are started.
    fn deliver(&mut self, from: End) {
        let to = from.opposite();
        if !self.half(to).receives {
            return;
        }
        let owner = self.half(to).owner;
        let sender = self.half(from);
        let Some(message) = sender.sent.take() else { return };
        let process = sender.owner;
        let Message { bytes, enclosed } = *message;
        self.half(to).receives = false;
        for &end in &enclosed {
            self.half(end).owner = owner;
        }
        self.reports[owner].push_back(Report { on: to, is_inward: true, is_done: true, bytes, enclosed });
        self.reports[process].push_back(Report { on: from, is_inward: false, is_done: true, bytes: Box::default(), enclosed: Box::default() });
    }

    fn destroy(&mut self, on: End) {
        self.die(on);
        self.die(on.opposite());
    }

    /// What is started on an end is over, since its link is dead.
    fn die(&mut self, on: End) {
        let half = self.half(on);
        half.is_dead = true;
        let (owner, sent, receives) = (half.owner, half.sent.take(), mem::take(&mut half.receives));
        if let Some(message) = sent {
            self.reports[owner].push_back(Report::destroyed(on, false, message.enclosed));
        }
        if receives {
            self.reports[owner].push_back(Report::destroyed(on, true, Box::default()));
        }
    }
}

// ---------------------------------------------------------------- processes

struct Seat<'a> {
    process: usize,
    program: Lynx<'a>,
    last: Option<Step>,
}

#[derive(Clone, Copy, PartialEq)]
enum Went {
    On,
    Paused,
    /// It waits for a report, or has ended.
    Stays,
}

impl Seat<'_> {
    fn step(&mut self, links: &mut Links, sum: &mut Sum) -> Went {
        let answer = match self.last.take() {
            None | Some(Step::Pause) => None,
            Some(Step::Ended) => {
                self.last = Some(Step::Ended);
                return Went::Stays;
            }
            Some(Step::Ask(Call::Wait)) => {
                let report = links.call(self.process, Call::Wait);
                if report.is_none() {
                    self.last = Some(Step::Ask(Call::Wait));
                    return Went::Stays;
                }
                report
            }
            Some(Step::Ask(call)) => links.call(self.process, call),
        };
        let step = self.program.next(answer);
        sum.add(&step);
        let went = if matches!(step, Step::Pause) { Went::Paused } else { Went::On };
        self.last = Some(step);
        went
    }
}

fn talk(version: u8, loaded: &[Loaded; 2], steps: u32) -> Sum {
    let mut links = Links::default();
    let (mut near, mut far) = (Vec::new(), Vec::new());
    for _ in 0..loaded[0].module.params.len() {
        let (a, b) = links.make(0, 1);
        near.push(a);
        far.push(b);
    }
    let seat = |process: usize, ends: &[End]| Seat { process, program: loaded[process].start(version, ends), last: None };
    let (mut one, mut other) = (seat(0, &near), seat(1, &far));
    let mut sum = Sum::default();
    let (mut is_one, mut stays) = (true, false);
    for _ in 0..steps {
        let went = if is_one { one.step(&mut links, &mut sum) } else { other.step(&mut links, &mut sum) };
        if stays && went == Went::Stays {
            break;
        }
        stays = went == Went::Stays;
        if went != Went::On {
            is_one = !is_one;
        }
    }
    sum
}

// ---------------------------------------------------------------- modules

struct Loaded {
    source: Vec<u8>,
    module: Module,
    code: Code,
}

impl Loaded {
    fn start(&self, version: u8, ends: &[End]) -> Lynx<'_> {
        Lynx::start(version, &self.source, &self.module, &self.code, ends)
    }
}

fn load(name: &str) -> Loaded {
    let source = module::read(name);
    let mut module = checked(name, &source, true);
    let code = compile(&source, &module).unwrap_or_else(|_| fail(4, &format!("{name}: code")));
    module.drop_statements();
    Loaded { source, module, code }
}

fn usage() -> ! {
    fail(1, "processes: VERSION STEPS FILE FILE")
}

fn main() {
    let words: Vec<String> = std::env::args().skip(1).collect();
    let [version, steps, first, second] = &words[..] else { usage() };
    let (Ok(version @ 1..=2), Ok(steps)) = (version.parse(), steps.parse()) else { usage() };
    let loaded = [load(first), load(second)];
    if loaded[0].module.params.len() != loaded[1].module.params.len() {
        usage();
    }
    let Sum { steps, sum } = talk(version, &loaded, steps);
    println!("{steps} steps, sum {sum}");
}
