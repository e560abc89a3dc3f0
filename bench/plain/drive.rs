//! `drive [--buffered] FILE`: performs a script on one to eight kernels and prints the transcript, as `lynx drive FILE` does.
//!
//! It is what `lynx drive` is measured beside: plain Rust with the standard library alone, written for speed, and not proved. Each line of
//! the transcript is one write call, with `--buffered` it is not. The text of an event is made when it happens, and kept in the journal
//! of its kernel; at the end the journals are merged by (stamp, kernel).
use std::io::{self, BufWriter, Write};
use std::os::fd::AsFd;

include!("kernels.rs");
include!("merging.rs");

const MOST_BYTES: u64 = 1_048_576;
const MOST_SETTLED: u32 = 10_000;

// ---------------------------------------------------------------- scripts

enum Act {
    Ask(u8, Call),
    Take(u8, u8),
    Settle,
}

struct Line {
    number: u32,
    act: Act,
}

struct Script {
    setting: Setting,
    lines: Vec<Line>,
}

/// What of a script may stand next.
#[derive(Clone, Copy, PartialEq, PartialOrd)]
enum Part {
    Start,
    Version,
    Kernels,
    Processes,
    Wires,
    Calls,
}

const KERNELS: u8 = 2;
const PROCESS_NUMBER: u8 = 3;
const KERNEL: u8 = 4;
const PROCESS: u8 = 5;
const TEXT: u8 = 6;
const WIRES: u8 = 7;
const VERSION: u8 = 10;

fn process_word(word: &[u8]) -> Result<u64, u8> {
    number(word.strip_prefix(b"p").ok_or(NO_FORM)?)
}

fn next_number(words: &mut Words) -> Result<u64, u8> {
    number(words.next().ok_or(NO_FORM)?)
}

/// A script as far as it is read.
struct Reader {
    script: Script,
    part: Part,
}

impl Reader {
    fn new() -> Reader {
        let setting = Setting { version: 1, kernels: 0, homes: Vec::new(), wires: Vec::new() };
        Reader { script: Script { setting, lines: Vec::new() }, part: Part::Start }
    }

    /// Goes on to a part, where it may stand behind what was read.
    fn enter(&mut self, part: Part) -> Result<(), u8> {
        let may_stand = match part {
            Part::Version => self.part == Part::Start,
            Part::Kernels => self.part < Part::Kernels,
            _ => self.part >= Part::Kernels && self.part <= part,
        };
        if !may_stand {
            return Err(NO_FORM);
        }
        self.part = part;
        Ok(())
    }

    fn line(&mut self, number: u32, line: &[u8]) -> Result<(), u8> {
        let mut words = words(line);
        match words.next().unwrap_or_default() {
            b"version" => self.version(&mut words),
            b"kernels" => self.kernels(&mut words),
            b"process" => self.process(&mut words),
            b"wire" => self.wire(&mut words),
            b"take" => self.take(number, &mut words),
            b"settle" => self.settle(number, &mut words),
            first => self.ask(number, first, &mut words),
        }
    }

    fn version(&mut self, words: &mut Words) -> Result<(), u8> {
        let version = next_number(words)?;
        none_left(words)?;
        self.enter(Part::Version)?;
        if version != 1 && version != 2 {
            return Err(VERSION);
        }
        self.script.setting.version = version as u8;
        Ok(())
    }

    fn kernels(&mut self, words: &mut Words) -> Result<(), u8> {
        let kernels = next_number(words)?;
        none_left(words)?;
        self.enter(Part::Kernels)?;
        if kernels < 1 || kernels > MOST_KERNELS as u64 {
            return Err(KERNELS);
        }
        self.script.setting.kernels = kernels as u8;
        Ok(())
    }

    fn kernel(&self, kernel: u64) -> Result<u8, u8> {
        if kernel < u64::from(self.script.setting.kernels) {
            Ok(kernel as u8)
        } else {
            Err(KERNEL)
        }
    }

    fn declared(&self, process: u64) -> Result<u8, u8> {
        if process < self.script.setting.homes.len() as u64 {
            Ok(process as u8)
        } else {
            Err(PROCESS)
        }
    }

    fn process(&mut self, words: &mut Words) -> Result<(), u8> {
        let process = next_number(words)?;
        next_is(words, b"on")?;
        let kernel = next_number(words)?;
        none_left(words)?;
        self.enter(Part::Processes)?;
        if process != self.script.setting.homes.len() as u64 || process >= MOST_PROCESSES as u64 {
            return Err(PROCESS_NUMBER);
        }
        let home = self.kernel(kernel)?;
        self.script.setting.homes.push(home);
        Ok(())
    }

    fn wire(&mut self, words: &mut Words) -> Result<(), u8> {
        let (first, second) = (next_number(words)?, next_number(words)?);
        none_left(words)?;
        self.enter(Part::Wires)?;
        let wire = (self.declared(first)?, self.declared(second)?);
        if self.script.setting.wires.len() == MOST_WIRES {
            return Err(WIRES);
        }
        self.script.setting.wires.push(wire);
        Ok(())
    }

    fn push(&mut self, number: u32, act: Act) -> Result<(), u8> {
        self.script.lines.push(Line { number, act });
        Ok(())
    }

    fn take(&mut self, number: u32, words: &mut Words) -> Result<(), u8> {
        let (from, to) = (next_number(words)?, next_number(words)?);
        none_left(words)?;
        self.enter(Part::Calls)?;
        let act = Act::Take(self.kernel(from)?, self.kernel(to)?);
        self.push(number, act)
    }

    fn settle(&mut self, number: u32, words: &mut Words) -> Result<(), u8> {
        none_left(words)?;
        self.enter(Part::Calls)?;
        self.push(number, Act::Settle)
    }

    fn ask(&mut self, number: u32, first: &[u8], words: &mut Words) -> Result<(), u8> {
        let process = process_word(first)?;
        let call = call(words, if self.script.setting.version == 1 { 1 } else { MOST_ENCLOSED })?;
        self.enter(Part::Calls)?;
        let process = self.declared(process)?;
        if call.text_length() > MOST_TEXT {
            return Err(TEXT);
        }
        self.push(number, Act::Ask(process, call))
    }
}

/// The script, or the first line that fails and its rule.
fn read_script(source: &[u8]) -> Result<Script, (u32, u8)> {
    let mut reader = Reader::new();
    let mut last = 0;
    for (line, number) in source.split(|&byte| byte == b'\n').zip(1..) {
        last = number;
        if !line.is_empty() && line[0] != b'#' {
            reader.line(number, line).map_err(|rule| (number, rule))?;
        }
    }
    if reader.part < Part::Kernels {
        return Err((last, NO_FORM));
    }
    Ok(reader.script)
}

// ---------------------------------------------------------------- performing

struct Note {
    line: u32,
    waits: bool,
}

/// A script as it is performed.
struct Run {
    world: World,
    notes: Vec<Note>,
}

impl Run {
    fn settle(&mut self) {
        for _ in 0..MOST_SETTLED {
            if self.world.net.filled == 0 {
                return;
            }
            self.world.take(self.world.net.filled.trailing_zeros() as usize);
        }
    }

    fn perform(&mut self, line: Line) {
        match line.act {
            Act::Ask(p, call) => {
                let Process { home, state, .. } = self.world.processes[usize::from(p)];
                if state == State::Running {
                    self.world.event(home, 0).ask(p, call);
                } else {
                    self.notes.push(Note { line: line.number, waits: true });
                }
            }
            Act::Take(from, to) => {
                if !self.world.take(Net::place(from, to)) {
                    self.notes.push(Note { line: line.number, waits: false });
                }
            }
            Act::Settle => self.settle(),
        }
    }
}

// ---------------------------------------------------------------- putting

fn put_transcript(mut out: impl Write, setting: &Setting, run: Run) -> io::Result<()> {
    put_header(&mut out, setting)?;
    let journals: Vec<Journal> = run.world.kernels.into_iter().map(|kernel| kernel.journal).collect();
    put_merged(&mut out, &journals)?;
    for note in run.notes {
        let what = if note.waits { "waits" } else { "nothing" };
        put_line(&mut out, format!("note {} {what}\n", note.line))?;
    }
    put_line(&mut out, String::from(if run.world.net.filled == 0 { "quiet\n" } else { "open\n" }))?;
    out.flush()
}

// ---------------------------------------------------------------- the command

fn drive(name: &str, is_buffered: bool) -> io::Result<()> {
    let source = read(name, MOST_BYTES);
    let refused = |(line, rule)| fail(4, &format!("{name}:{line}: script {rule}"));
    let Script { setting, lines } = read_script(&source).unwrap_or_else(refused);
    drop(source);
    let mut run = Run { world: World::start(&setting), notes: Vec::new() };
    lines.into_iter().for_each(|line| run.perform(line));
    // the file itself, since std's standard output keeps lines back
    let out = File::from(io::stdout().as_fd().try_clone_to_owned()?);
    if is_buffered {
        put_transcript(BufWriter::with_capacity(1 << 16, out), &setting, run)
    } else {
        put_transcript(out, &setting, run)
    }
}

fn main() {
    let words: Vec<String> = std::env::args().skip(1).collect();
    let done = match &words[..] {
        [name] if !name.starts_with('-') => drive(name, false),
        [option, name] if option == "--buffered" => drive(name, true),
        _ => fail(1, "lynx: usage"),
    };
    if done.is_err() {
        exit(3);
    }
}
