//! `machine [--seconds] FILE COUNT`: runs the loop of a module by so many turns, as those of bench/loops, and prints how many instructions that
//! were.
//!
//! It is what a proved interpreter is measured beside: plain Rust with the standard library alone, written for speed, and not proved. It
//! prints `N instructions, answer V`, V being the value that the loop replies with at last; with `--seconds` also the processor
//! seconds of the loop and the instructions by these.

mod compiler;
mod interpreter;
mod module;

use std::env;
use std::ffi::c_long;
use std::fs;
use std::path::Path;
use std::process::ExitCode;

use compiler::compile;
use interpreter::{Action, Given, Machine, Stop, Value};
use module::{checked, fail};

/// The loop with as many threads as there may be, which take turns.
const SHARED: &str = "turns";
const THREADS: i64 = 32;
/// The fuel of one run of the machine, as of one step of a process.
const FUEL: u32 = 1_000;
const MOST_TURNS: i64 = 100_000_000;

extern "C" {
    /// The processor time of this program, in microseconds where the system is POSIX.
    fn clock() -> c_long;
}

fn processor_seconds() -> f64 {
    // SAFETY: it reads a clock of the C library, and has no conditions
    unsafe { clock() as f64 / 1e6 }
}

struct Loop<'a> {
    machine: Machine<'a>,
    instructions: u64,
    answer: i64,
}

impl Loop<'_> {
    /// Runs the machine until no thread stands.
    fn finish(&mut self) {
        loop {
            let mut fuel = FUEL;
            while fuel > 0 {
                let (stop, left) = self.machine.run(fuel);
                self.instructions += u64::from(fuel - left);
                fuel = left;
                match stop {
                    Stop::Spent => {}
                    Stop::Act { thread, action } => self.perform(thread, action),
                    Stop::AllBlocked => fail(1, "all threads are blocked"),
                    Stop::Finished => return,
                }
            }
        }
    }

    /// The loops close their requests and reply, and ask for nothing else.
    fn perform(&mut self, thread: usize, action: Action) {
        match action {
            Action::Close => {}
            Action::Reply(values) => match values[..] {
                [Value::Int(answer)] => self.answer = answer,
                _ => fail(1, "a reply has another value than one number"),
            },
            _ => fail(1, "a loop asks for another action"),
        }
        self.machine.give(thread, Given::Values(Vec::new()));
    }
}

fn measure(name: &str, text: &str, turns: i64, tells_seconds: bool) {
    let mut module = checked(name, text.as_bytes(), true);
    let code = compile(text.as_bytes(), &module).unwrap_or_else(|_| fail(1, "the code is too long"));
    module.drop_statements();
    let machine = Machine::start(text.as_bytes(), &module, &code);
    let mut run = Loop { machine, instructions: 0, answer: 0 };
    let start = processor_seconds();
    run.finish();
    if name == SHARED {
        for number in 0..THREADS {
            run.machine.spawn(0, vec![Value::Int(number), Value::Int(turns / THREADS)]);
        }
    } else {
        run.machine.spawn(0, vec![Value::Int(turns)]);
    }
    run.finish();
    println!("{} instructions, answer {}", run.instructions, run.answer);
    if tells_seconds {
        let seconds = processor_seconds() - start;
        println!("{seconds:.6} seconds, {:.0} instructions a second", run.instructions as f64 / seconds);
    }
}

fn main() -> ExitCode {
    let words: Vec<String> = env::args().skip(1).collect();
    let words: Vec<&str> = words.iter().map(String::as_str).collect();
    let (tells_seconds, rest) = match words.split_first() {
        Some((&"--seconds", rest)) => (true, rest),
        _ => (false, &words[..]),
    };
    if let &[file, count] = rest {
        let turns = count.parse().ok().filter(|turns| (1..=MOST_TURNS).contains(turns));
        if let (Some(turns), Ok(text)) = (turns, fs::read_to_string(file)) {
            let name = Path::new(file).file_stem().and_then(|stem| stem.to_str()).unwrap_or(file);
            measure(name, &text, turns, tells_seconds);
            return ExitCode::SUCCESS;
        }
    }
    eprintln!("words: FILE COUNT, FILE a module and COUNT from 1 to {MOST_TURNS}");
    ExitCode::FAILURE
}
