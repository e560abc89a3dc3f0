//! `packets decode|encode FILE TURNS`: reads the packet of a file, or writes it, so many times, and prints a sum over them.
//!
//! It is what the proved reader and writer of packets are measured beside: plain Rust with the standard library alone, written for speed, and
//! not proved. It takes the same packets and prints the same sums, but does not tell at which byte a packet is wrong.

mod packet;

use std::env;
use std::fs;
use std::hint::black_box;
use std::process::ExitCode;

use packet::{decode, encode, Packet};

fn number_of(packet: &Packet) -> u32 {
    match packet {
        Packet::Request { number, .. } | Packet::Reply { number, .. } | Packet::Enc { number, .. } => *number,
        Packet::Retry(number) | Packet::Forbid(number) | Packet::Allow(number) | Packet::GoAhead(number) => *number,
    }
}

fn measured() -> Option<u64> {
    let words: Vec<String> = env::args().skip(1).collect();
    let [what, file, turns] = words.as_slice() else {
        return None;
    };
    let turns: u32 = turns.parse().ok()?;
    let bytes = fs::read(file).ok()?;
    let mut sum: u64 = 0;
    match what.as_str() {
        "decode" => {
            for _ in 0..turns {
                let packet = black_box(decode(1, black_box(&bytes))?);
                sum += u64::from(number_of(&packet));
            }
        }
        "encode" => {
            let packet = decode(1, &bytes)?;
            for _ in 0..turns {
                let room = black_box(encode(black_box(&packet))?);
                let bytes = room.as_slice();
                sum += bytes.len() as u64 + u64::from(*bytes.last()?);
            }
        }
        _ => return None,
    }
    Some(sum)
}

fn main() -> ExitCode {
    match measured() {
        Some(sum) => {
            println!("sum {sum}");
            ExitCode::SUCCESS
        }
        None => {
            println!("words: decode|encode FILE TURNS; the file holds one packet of version 1");
            ExitCode::FAILURE
        }
    }
}
