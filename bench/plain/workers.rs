//! `workers [--threads] [--print] KIND ROUNDS`: runs programs on one to eight kernels, as the program of `crates/worker_rounds` does.
//!
//! It is what workers are measured beside: plain Rust with the standard library alone, written for speed, and not proved. One after the
//! other the nodes make a turn each, in order; with `--threads` each has a thread. With `--print` the merged transcript is printed, else how
//! many events there were.
#![allow(dead_code)]

use std::hint::black_box;
use std::io::{self, BufWriter, Write};

include!("kernels.rs");
include!("merging.rs");
include!("nodes.rs");

// ---------------------------------------------------------------- programs

#[derive(Clone, Copy)]
enum Move {
    Send(End),
    Receive(End),
    Wait,
    Think,
}

/// A program that makes the same moves again and again.
struct Moves {
    moves: Vec<Move>,
    place: usize,
    rounds: u32,
    noise: u64,
}

/// Some twenty microseconds of work.
fn think(mut noise: u64) -> u64 {
    for _ in 0..10_000 {
        noise ^= noise << 13;
        noise ^= noise >> 7;
        noise ^= noise << 17;
    }
    black_box(noise)
}

impl Program for Moves {
    fn next(&mut self, _: Option<Answer>) -> Step {
        if self.rounds == 0 {
            return Step::Ended;
        }
        let next = self.moves[self.place];
        self.place += 1;
        if self.place == self.moves.len() {
            self.place = 0;
            self.rounds -= 1;
        }
        let message = || Box::new(Message { bytes: b"x"[..].into(), enclosed: Box::new([]) });
        match next {
            Move::Send(on) => Step::Ask(Call::Send(on, message())),
            Move::Receive(on) => Step::Ask(Call::Receive(on)),
            Move::Wait => Step::Ask(Call::Wait),
            Move::Think => {
                self.noise = think(self.noise);
                Step::Pause
            }
        }
    }
}

// ---------------------------------------------------------------- kinds

/// What a kind of run consists of: the homes of its processes, their wires, and the moves of each.
struct Kind {
    kernels: u8,
    homes: Vec<u8>,
    wires: Vec<(u8, u8)>,
    moves: Vec<Vec<Move>>,
}

/// Two processes that send each other a message in turn.
fn ping(a: End) -> [Vec<Move>; 2] {
    let b = a.opposite();
    [vec![Move::Send(a), Move::Wait, Move::Receive(a), Move::Wait], vec![Move::Receive(b), Move::Wait, Move::Send(b), Move::Wait]]
}

fn thinking(moves: Vec<Move>) -> Vec<Move> {
    let mut all = vec![Move::Think; 50];
    all.extend(moves);
    all
}

/// Pairs of processes with these homes, each with a link.
fn pairs(kernels: u8, homes: Vec<u8>, begin: fn(Vec<Move>) -> Vec<Move>) -> Kind {
    let mut made = [0; MOST_KERNELS];
    let (mut wires, mut moves) = (Vec::new(), Vec::new());
    for first in (0..homes.len()).step_by(2) {
        let home = homes[first];
        let a = End::new(home, made[usize::from(home)], 0);
        made[usize::from(home)] += 1;
        wires.push((first as u8, first as u8 + 1));
        moves.extend(ping(a).map(begin));
    }
    Kind { kernels, homes, wires, moves }
}

fn ring() -> Kind {
    let link = |i: u8| End::new(i % 8, 0, 0);
    let moves = |i: u8| {
        let (out, into) = (link(i), link(i + 7).opposite());
        let send = [Move::Send(out), Move::Wait];
        let receive = [Move::Receive(into), Move::Wait];
        if i == 0 { [send, receive].concat() } else { [receive, send].concat() }
    };
    Kind { kernels: 8, homes: (0..8).collect(), wires: (0..8).map(|i| (i, (i + 1) % 8)).collect(), moves: (0..8).map(moves).collect() }
}

fn all_pairs() -> Kind {
    let wires: Vec<(u8, u8)> = (0..8).flat_map(|i| (i + 1..8).map(move |j| (i, j))).collect();
    let end = |i: u8, j: u8| if i < j { End::new(i, u32::from(j - i - 1), 0) } else { End::new(j, u32::from(i - j - 1), 1) };
    let moves = |i: u8| {
        let mut all: Vec<Move> = (0..8).filter(|&j| j != i).flat_map(|j| [Move::Send(end(i, j)), Move::Receive(end(i, j))]).collect();
        all.extend([Move::Wait; 14]);
        all
    };
    Kind { kernels: 8, homes: (0..8).collect(), wires, moves: (0..8).map(moves).collect() }
}

fn kind(name: &str) -> Kind {
    match name {
        "ping" => pairs(2, vec![0, 1], |moves| moves),
        "ring" => ring(),
        "pairs" => pairs(8, (0..8).collect(), |moves| moves),
        "all" => all_pairs(),
        "hot" => pairs(8, vec![0, 1], |moves| moves),
        "crowd" => pairs(1, vec![0; 64], |moves| moves),
        "think" => pairs(8, (0..8).collect(), thinking),
        "alone" => Kind { kernels: 8, homes: (0..8).collect(), wires: Vec::new(), moves: vec![vec![Move::Think; 50]; 8] },
        _ => fail(1, "workers: usage"),
    }
}

fn nodes(kind: Kind, rounds: u32) -> (Setting, Vec<Node<Moves>>) {
    let setting = Setting { version: 1, kernels: kind.kernels, homes: kind.homes, wires: kind.wires };
    let programs = kind.moves.into_iter().map(|moves| Moves { moves, place: 0, rounds, noise: 1 }).collect();
    let nodes = nodes_of(&setting, programs, u32::MAX);
    (setting, nodes)
}

fn put(nodes: Vec<Node<Moves>>, setting: &Setting, is_printed: bool) -> io::Result<()> {
    let mut out = BufWriter::with_capacity(1 << 16, io::stdout());
    let journals: Vec<Journal> = nodes.into_iter().map(|node| node.kernel.journal).collect();
    if !is_printed {
        let events: usize = journals.iter().map(|journal| journal.entries.len()).sum();
        return put_line(&mut out, format!("{events} events\n"));
    }
    put_header(&mut out, setting)?;
    put_merged(&mut out, &journals)?;
    put_line(&mut out, String::from("quiet\n"))?;
    out.flush()
}

fn main() {
    let mut words: Vec<String> = std::env::args().skip(1).collect();
    let mut has = |option: &str| words.iter().position(|word| word == option).map(|at| words.remove(at)).is_some();
    let (has_threads, is_printed) = (has("--threads"), has("--print"));
    let [name, rounds] = &words[..] else { fail(1, "workers: usage") };
    let Ok(rounds) = rounds.parse() else { fail(1, "workers: usage") };
    let (setting, mut nodes) = nodes(kind(name), rounds);
    let rings = rings();
    if has_threads {
        run_threads(&mut nodes, &rings);
    } else {
        run_serial(&mut nodes, &rings);
    }
    if put(nodes, &setting, is_printed).is_err() {
        exit(3);
    }
}
