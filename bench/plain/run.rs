//! `run [--buffered] PLAN [--serial] [--turns N]`: runs the modules of a plan on one to eight kernels and prints the transcript, as `lynx run PLAN` does.
//!
//! It is what runs of modules are measured beside: plain Rust with the standard library alone, written for speed, and not proved. With `--serial`
//! the nodes make a turn each, in order, else each has a thread. Each line of the transcript is one write call, with `--buffered` it is not. Of a plan
//! that breaks a rule it tells the line alone.
#![allow(dead_code)]

mod compiler;
mod interpreter;
mod module;
mod packet;
mod process;

use std::io::{self, BufWriter, Write};
use std::os::fd::AsFd;

include!("kernels.rs");
include!("merging.rs");
include!("nodes.rs");

use compiler::{compile, Code};
use module::{checked, Module};
use process::Process as Lynx;

const MOST_BYTES: u64 = 1_048_576;
const MOST_TURNS: u32 = 100_000;

// ---------------------------------------------------------------- plans

struct Plan {
    setting: Setting,
    files: Vec<String>,
    /// The line of each process.
    lines: Vec<usize>,
}

fn bad_plan(name: &str, line: usize) -> ! {
    fail(4, &format!("{name}:{line}: plan"))
}

/// A plan without host lines.
fn read_plan(name: &str) -> Plan {
    let bytes = read(name, MOST_BYTES);
    let mut plan =
        Plan { setting: Setting { version: 1, kernels: 0, homes: Vec::new(), wires: Vec::new() }, files: Vec::new(), lines: Vec::new() };
    let mut is_first = true;
    for (line, text) in (1..).zip(bytes.strip_suffix(b"\n").unwrap_or(&bytes).split(|&byte| byte == b'\n')) {
        if text.is_empty() || text[0] == b'#' {
            continue;
        }
        if !plan.line(line, is_first, text) {
            bad_plan(name, line);
        }
        is_first = false;
    }
    if plan.setting.kernels == 0 {
        bad_plan(name, 1);
    }
    plan
}

impl Plan {
    fn line(&mut self, line: usize, is_first: bool, text: &[u8]) -> bool {
        let Ok(text) = std::str::from_utf8(text) else { return false };
        let number = |word: &str| number(word.as_bytes()).ok();
        let setting = &mut self.setting;
        match text.split(' ').collect::<Vec<_>>()[..] {
            ["version", version @ ("1" | "2")] if is_first => setting.version = version.as_bytes()[0] - b'0',
            ["kernels", kernels] if setting.kernels == 0 => match number(kernels) {
                Some(kernels @ 1..=8) => setting.kernels = kernels as u8,
                _ => return false,
            },
            ["process", process, "on", kernel, "runs", file] if setting.wires.is_empty() && !file.is_empty() => {
                let home = number(kernel).filter(|&kernel| kernel < u64::from(setting.kernels));
                let (Some(home), true) = (home, number(process) == Some(setting.homes.len() as u64)) else { return false };
                if setting.homes.len() == MOST_PROCESSES {
                    return false;
                }
                setting.homes.push(home as u8);
                self.files.push(file.to_string());
                self.lines.push(line);
            }
            ["wire", first, second] => {
                let process = |word| number(word).filter(|&process| process < setting.homes.len() as u64);
                let (Some(first), Some(second)) = (process(first), process(second)) else { return false };
                if setting.wires.len() == MOST_WIRES {
                    return false;
                }
                setting.wires.push((first as u8, second as u8));
            }
            _ => return false,
        }
        true
    }

    /// The ends of each process, in the order of its params.
    fn ends(&self) -> Vec<Vec<End>> {
        let mut made = [0; MOST_KERNELS];
        let mut ends = vec![Vec::new(); self.setting.homes.len()];
        for &(first, second) in &self.setting.wires {
            let maker = self.setting.homes[usize::from(first)];
            let a = End::new(maker, made[usize::from(maker)], 0);
            made[usize::from(maker)] += 1;
            ends[usize::from(first)].push(a);
            ends[usize::from(second)].push(a.opposite());
        }
        ends
    }
}

// ---------------------------------------------------------------- modules

/// A module, with its text and its code.
struct Loaded {
    source: Vec<u8>,
    module: Module,
    code: Code,
}

impl Loaded {
    fn start(&self, version: u8, ends: &[End]) -> Lynx<'_> {
        Lynx::start(version, &self.source, &self.module, &self.code, ends)
    }
}

fn load(name: &str) -> Loaded {
    let source = module::read(name);
    let mut module = checked(name, &source, true);
    let code = compile(&source, &module).unwrap_or_else(|_| fail(4, &format!("{name}: code")));
    module.drop_statements();
    Loaded { source, module, code }
}

// ---------------------------------------------------------------- the program

fn put(mut out: impl Write, nodes: Vec<Node<Lynx>>, setting: &Setting, spent: Option<u8>) -> io::Result<()> {
    let journals: Vec<Journal> = nodes.into_iter().map(|node| node.kernel.journal).collect();
    put_header(&mut out, setting)?;
    put_merged(&mut out, &journals)?;
    put_line(&mut out, spent.map_or(String::from("quiet\n"), |kernel| format!("spent {kernel}\n")))?;
    out.flush()
}

/// Puts the transcript to standard output.
fn put_out(is_buffered: bool, nodes: Vec<Node<Lynx>>, setting: &Setting, spent: Option<u8>) -> io::Result<()> {
    // the file itself, since std's standard output keeps lines back
    let out = File::from(io::stdout().as_fd().try_clone_to_owned()?);
    if is_buffered {
        put(BufWriter::with_capacity(1 << 16, out), nodes, setting, spent)
    } else {
        put(out, nodes, setting, spent)
    }
}

fn main() {
    let mut words: Vec<String> = std::env::args().skip(1).collect();
    let mut takes = |option: &str| words.iter().position(|word| word == option).map(|at| words.remove(at)).is_some();
    let (is_buffered, serial) = (takes("--buffered"), takes("--serial"));
    let turns = words.iter().position(|word| word == "--turns").map_or(MOST_TURNS, |at| {
        words.remove(at);
        if at < words.len() {
            words.remove(at).parse().unwrap_or_else(|_| fail(1, "run: usage"))
        } else {
            fail(1, "run: usage")
        }
    });
    let [name] = &words[..] else { fail(1, "run: [--buffered] PLAN [--serial] [--turns N]") };
    let plan = read_plan(name);
    let modules: Vec<Loaded> = plan.files.iter().map(|file| load(file)).collect();
    let ends = plan.ends();
    for ((loaded, ends), &line) in modules.iter().zip(&ends).zip(&plan.lines) {
        if loaded.module.params.len() != ends.len() {
            bad_plan(name, line);
        }
    }
    let version = plan.setting.version;
    let programs = modules.iter().zip(&ends).map(|(loaded, ends)| loaded.start(version, ends)).collect();
    let mut nodes = nodes_of(&plan.setting, programs, turns);
    let rings = rings();
    let spent = if serial { run_serial(&mut nodes, &rings) } else { run_threads(&mut nodes, &rings) };
    if put_out(is_buffered, nodes, &plan.setting, spent).is_err() {
        exit(3);
    }
    exit(if spent.is_some() { 5 } else { 0 });
}
