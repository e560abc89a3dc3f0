//! `histories MODULES TOLD`: compares what a machine told of its histories with what the sources of their modules mean.
//!
//! Of MODULES each line has a number and a module. Of TOLD a line `history N` begins the history of the machine of module N, and then stand
//! its moves, each with what it told: how a run stopped, the fuel that it left, and how many threads stand; an outcome that was given; a new
//! thread, and its number. The same moves are made here by walks over the tree of the module, and have to tell the same. And each run has to
//! keep the bound on actions: no more of them than instructions begun and requests opened so far.

mod meaning;
mod module;

use std::collections::{BTreeMap, HashMap, VecDeque};
use std::env;
use std::fs;
use std::process::ExitCode;

use meaning::{did, Action, Answer, How, Outcome, Part, Program, Start, Value};
use module::{checked, fail};

const MOST_THREADS: usize = 32;
/// So many differences are printed.
const FEW: usize = 3;

// ---------------------------------------------------------------- threads that take turns

struct Thread {
    part: Part,
    parameters: Vec<Value>,
    /// Where it has begun.
    start: Option<Start>,
    answers: Vec<Answer>,
    begun: u64,
    /// What it waits for, or had last.
    asked: Option<Action>,
    /// What it was given, and has not gone on with.
    outcome: Option<Outcome>,
}

impl Thread {
    fn new(part: Part, parameters: Vec<Value>) -> Thread {
        Thread { part, parameters, start: None, answers: Vec::new(), begun: 0, asked: None, outcome: None }
    }

    /// It goes on, where the variables of the module are these. Tells the instructions that it takes, and how far it comes.
    fn go_on(&mut self, program: &Program, globals: &mut Vec<Value>, fuel: u64) -> (u64, How) {
        let Thread { part, parameters, .. } = self;
        let start = self.start.get_or_insert_with(|| Start { part: *part, parameters: parameters.clone(), globals: globals.clone() });
        if let Some(outcome) = self.outcome.take() {
            self.answers.push(Answer { outcome, globals: globals.clone() });
        }
        let did = did(program, start, &self.answers, self.begun + fuel);
        let taken = did.begun - self.begun;
        self.begun = did.begun;
        *globals = did.globals;
        (taken, did.how)
    }
}

enum Stop {
    Act(usize, Action),
    Spent,
    AllBlocked,
    Finished,
}

fn blocks(action: &Action) -> bool {
    matches!(action, Action::Connect(..) | Action::Accept(..))
}

struct Process<'a> {
    program: &'a Program<'a>,
    globals: Vec<Value>,
    threads: Vec<Option<Thread>>,
    running: Option<usize>,
    ready: VecDeque<usize>,
    /// Those whose await found false, in the order of their last turns.
    awaiting: Vec<usize>,
    counts: Counts,
}

impl<'a> Process<'a> {
    /// The params hold the links 1, 2 and so on.
    fn new(program: &'a Program<'a>) -> Process<'a> {
        let links = (1..).map(Value::Link).take(program.module.params.len());
        let vars = program.module.vars.iter().map(|var| Value::at_start(var.kind.kind));
        let mut threads: Vec<Option<Thread>> = (0..MOST_THREADS).map(|_| None).collect();
        threads[0] = Some(Thread::new(Part::Body, Vec::new()));
        let globals = links.chain(vars).collect();
        Process { program, globals, threads, running: None, ready: VecDeque::from([0]), awaiting: Vec::new(), counts: Counts::default() }
    }

    fn standing(&self) -> usize {
        self.threads.iter().flatten().count()
    }

    fn run(&mut self, mut fuel: u64) -> (Stop, u64) {
        loop {
            if self.standing() == 0 {
                return (Stop::Finished, fuel);
            }
            let Some(number) = self.running.or_else(|| self.ready.pop_front()) else {
                return (Stop::AllBlocked, fuel);
            };
            self.running = Some(number);
            if fuel == 0 {
                return (Stop::Spent, fuel);
            }
            let (taken, how) = self.go_on(number, fuel);
            fuel -= taken;
            self.counts.instructions += taken;
            if let Some(stop) = self.stops(number, how) {
                return (stop, fuel);
            }
        }
    }

    fn thread(&mut self, number: usize) -> &mut Thread {
        self.threads.get_mut(number).and_then(Option::as_mut).unwrap_or_else(|| fail(2, &format!("thread {number} does not stand")))
    }

    fn go_on(&mut self, number: usize, fuel: u64) -> (u64, How) {
        let Process { program, threads, globals, .. } = self;
        let thread = threads[number].as_mut().unwrap_or_else(|| fail(2, "a thread that does not stand has the turn"));
        thread.go_on(program, globals, fuel)
    }

    /// What comes of a thread's turn, and whether the run stops there.
    fn stops(&mut self, number: usize, how: How) -> Option<Stop> {
        match how {
            How::Out => return None,
            How::Ended => {
                self.threads[number] = None;
                self.counts.ended += 1;
                self.wake();
            }
            How::Waits(Action::Await { again }) => {
                // one that only tries again wakes no other
                if !again {
                    self.wake();
                }
                self.counts.awaits += 1;
                self.awaiting.push(number);
            }
            How::Waits(action) => return Some(self.asks(number, action)),
        }
        self.running = None;
        None
    }

    fn asks(&mut self, number: usize, action: Action) -> Stop {
        if blocks(&action) {
            self.running = None;
            self.wake();
        }
        self.counts.actions += 1;
        *self.counts.asked.entry(word(&action)).or_default() += 1;
        self.thread(number).asked = Some(action.clone());
        Stop::Act(number, action)
    }

    /// A thread has blocked or ended: those that await are ready.
    fn wake(&mut self) {
        for number in std::mem::take(&mut self.awaiting) {
            self.thread(number).outcome = Some(Outcome::Values(Vec::new()));
            self.ready.push_back(number);
        }
    }

    fn give(&mut self, number: usize, outcome: Outcome) {
        let thread = self.thread(number);
        let is_accept = matches!(thread.asked, Some(Action::Accept(..)));
        let is_late = thread.asked.as_ref().is_some_and(blocks);
        let opens = is_accept && matches!(outcome, Outcome::Values(_));
        let raises = matches!(outcome, Outcome::Raises(_));
        thread.outcome = Some(outcome);
        if is_late {
            self.ready.push_back(number);
        }
        self.counts.opened += u64::from(opens);
        self.counts.raised += u64::from(raises);
    }

    fn spawn(&mut self, entry: usize, values: Vec<Value>) -> Option<usize> {
        let number = self.threads.iter().position(Option::is_none)?;
        self.threads[number] = Some(Thread::new(Part::Entry(entry), values));
        self.ready.push_back(number);
        self.counts.opened += 1;
        self.counts.spawned += 1;
        Some(number)
    }
}

// ---------------------------------------------------------------- counts

/// Of one history, or of all.
#[derive(Default)]
struct Counts {
    histories: u64,
    moves: u64,
    instructions: u64,
    actions: u64,
    /// The actions by their words.
    asked: BTreeMap<&'static str, u64>,
    opened: u64,
    spawned: u64,
    ended: u64,
    awaits: u64,
    raised: u64,
    most_standing: usize,
    full: u64,
}

impl Counts {
    fn add(&mut self, other: &Counts) {
        self.histories += 1;
        self.moves += other.moves;
        self.instructions += other.instructions;
        self.actions += other.actions;
        for (&word, count) in &other.asked {
            *self.asked.entry(word).or_default() += count;
        }
        self.opened += other.opened;
        self.spawned += other.spawned;
        self.ended += other.ended;
        self.awaits += other.awaits;
        self.raised += other.raised;
        self.most_standing = self.most_standing.max(other.most_standing);
        self.full += u64::from(other.most_standing == MOST_THREADS);
    }

    fn tell(&self) {
        let asked: Vec<String> = self.asked.iter().map(|(word, count)| format!("{word} {count}")).collect();
        println!("{} histories, {} moves, {} instructions, {} requests opened", self.histories, self.moves, self.instructions, self.opened);
        println!("{} actions, of which {} were given exceptions: {}", self.actions, self.raised, asked.join(", "));
        println!(
            "{} threads, of which {} ended, {} vain awaits; at most {} threads at a time, as many as may be in {} histories",
            self.histories + self.spawned,
            self.ended,
            self.awaits,
            self.most_standing,
            self.full
        );
    }
}

// ---------------------------------------------------------------- lines

fn told_value(value: &Value) -> String {
    match value {
        Value::Int(number) => number.to_string(),
        Value::Bool(truth) => truth.to_string(),
        Value::Text(text) => format!("'{}'", String::from_utf8_lossy(text)),
        Value::Link(link) => format!("#{link}"),
        Value::Row(row) => format!("[{}]", row.iter().map(i64::to_string).collect::<Vec<_>>().join(" ")),
    }
}

fn told_values(values: &[Value]) -> String {
    values.iter().map(|value| format!(" {}", told_value(value))).collect()
}

fn word(action: &Action) -> &'static str {
    match action {
        Action::New => "new",
        Action::Destroy(_) => "destroy",
        Action::Bind(..) => "bind",
        Action::Unbind(..) => "unbind",
        Action::Connect(..) => "connect",
        Action::Accept(..) => "accept",
        Action::Close => "close",
        Action::Reply(_) => "reply",
        Action::Write(_) => "write",
        Action::StopAll => "stop",
        Action::Await { .. } => "await",
    }
}

fn told_action(action: &Action) -> String {
    let rest = match action {
        Action::Destroy(link) => format!(" #{link}"),
        Action::Bind(link, number) | Action::Unbind(link, number) | Action::Accept(link, number) => format!(" #{link} {number}"),
        Action::Connect(link, op, values) => format!(" #{link} {op}{}", told_values(values)),
        Action::Reply(values) => told_values(values),
        Action::Write(text) => format!(" '{}'", String::from_utf8_lossy(text)),
        _ => String::new(),
    };
    format!("{}{rest}", word(action))
}

fn told_stop(stop: &Stop) -> String {
    match stop {
        Stop::Act(thread, action) => format!("{thread} {}", told_action(action)),
        Stop::Spent => "spent".to_string(),
        Stop::AllBlocked => "blocked".to_string(),
        Stop::Finished => "finished".to_string(),
    }
}

/// Values as they are told, and what stands behind them.
fn values_of(mut text: &str) -> (Vec<Value>, &str) {
    let mut values = Vec::new();
    while let Some(rest) = text.strip_prefix(' ') {
        let (value, behind) = value_of(rest);
        values.push(value);
        text = behind;
    }
    (values, text)
}

fn value_of(text: &str) -> (Value, &str) {
    if let Some(rest) = text.strip_prefix('\'') {
        let (inner, behind) = rest.split_once('\'').unwrap_or_else(|| wrong(text));
        return (Value::Text(inner.as_bytes().to_vec()), behind);
    }
    if let Some(rest) = text.strip_prefix('[') {
        let (inner, behind) = rest.split_once(']').unwrap_or_else(|| wrong(text));
        return (Value::Row(inner.split(' ').map(number_of).collect()), behind);
    }
    let (word, behind) = text.split_at(text.find([' ', ':']).unwrap_or(text.len()));
    let value = match word {
        "true" => Value::Bool(true),
        "false" => Value::Bool(false),
        _ => word.strip_prefix('#').map_or_else(|| Value::Int(number_of(word)), |link| Value::Link(number_of(link))),
    };
    (value, behind)
}

fn number_of<T: std::str::FromStr>(word: &str) -> T {
    word.parse().unwrap_or_else(|_| wrong(word))
}

fn wrong(text: &str) -> ! {
    fail(2, &format!("this can't be read: {text}"))
}

/// Makes the move of a line, and tells the line that it should be.
fn moved(process: &mut Process, line: &str) -> String {
    process.counts.moves += 1;
    let (word, rest) = line.split_once(' ').unwrap_or_else(|| wrong(line));
    let (number, rest) = rest.split_at(rest.find([' ', ':']).unwrap_or(rest.len()));
    match word {
        "run" => {
            let (stop, left) = process.run(number_of(number));
            let standing = process.standing();
            process.counts.most_standing = process.counts.most_standing.max(standing);
            format!("run {number}: {}, {left} left, {standing} stand", told_stop(&stop))
        }
        "give" => {
            process.give(number_of(number), outcome_of(rest));
            line.to_string()
        }
        "spawn" => {
            let (values, _) = values_of(rest);
            let told = format!("spawn {number}{}: ", told_values(&values));
            let thread = process.spawn(number_of(number), values);
            told + &thread.map_or("none".to_string(), |thread| thread.to_string())
        }
        _ => wrong(line),
    }
}

fn outcome_of(text: &str) -> Outcome {
    match text.strip_prefix(" raises ") {
        Some(exception) => Outcome::Raises(exception.as_bytes().to_vec()),
        None => Outcome::Values(values_of(text).0),
    }
}

/// Why a history is none of its module: the number of its line, and what should be there.
fn difference(process: &mut Process, lines: &[&str]) -> Option<(usize, String)> {
    for (at, line) in lines.iter().enumerate() {
        let wanted = moved(process, line);
        if wanted != *line {
            return Some((at, wanted));
        }
        if process.counts.actions > process.counts.instructions + process.counts.opened {
            return Some((at, "fewer actions: there are more than instructions begun and requests opened".to_string()));
        }
    }
    None
}

/// Whether a history is one of the source of its module; where not, it is printed.
fn is_meant(number: &str, source: &str, lines: &[&str], all: &mut Counts) -> bool {
    let module = checked(&format!("module {number}"), source.as_bytes(), true);
    let program = Program::new(source.as_bytes(), &module);
    let mut process = Process::new(&program);
    let difference = difference(&mut process, lines);
    all.add(&process.counts);
    if let Some((at, wanted)) = &difference {
        println!("module {number}: {source}\nhistory:\n{}\n  by the source: {wanted}", lines[..=*at].join("\n"));
    }
    difference.is_none()
}

/// The histories that are told, each the number of its module and its lines.
fn histories(told: &str) -> Vec<(&str, Vec<&str>)> {
    let mut histories: Vec<(&str, Vec<&str>)> = Vec::new();
    for line in told.lines() {
        match (line.strip_prefix("history "), histories.last_mut()) {
            (Some(number), _) => histories.push((number, Vec::new())),
            (None, Some(last)) => last.1.push(line),
            (None, None) => wrong(line),
        }
    }
    histories
}

/// Whether all histories are those of the sources. After a few differences the others are left out.
fn compare(modules: &str, told: &str) -> bool {
    let modules: HashMap<&str, &str> = modules.lines().map(|line| line.split_once(' ').unwrap_or_else(|| wrong(line))).collect();
    let (mut all, mut differences) = (Counts::default(), 0);
    for (number, lines) in histories(told) {
        let source = modules.get(number).unwrap_or_else(|| wrong(number));
        differences += usize::from(!is_meant(number, source, &lines, &mut all));
        if differences == FEW {
            break;
        }
    }
    all.tell();
    differences == 0 && all.histories == modules.len() as u64
}

fn main() -> ExitCode {
    let words: Vec<String> = env::args().skip(1).collect();
    if let [modules, told] = &words[..] {
        if let (Ok(modules), Ok(told)) = (fs::read_to_string(modules), fs::read_to_string(told)) {
            return if compare(&modules, &told) { ExitCode::SUCCESS } else { ExitCode::FAILURE };
        }
    }
    eprintln!("words: MODULES TOLD, two files");
    ExitCode::from(2)
}
