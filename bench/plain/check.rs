//! `check [--untyped] FILE`: tests a module of the language LYNX, as `lynx check FILE` does, and prints `ok NAME` or where it fails.
//!
//! It is what `lynx check` is measured beside: plain Rust with the standard library alone, written for speed, and not proved. With
//! `--untyped` the typing rules are not tested.

mod module;

use std::fs::File;
use std::io::{self, Write};
use std::os::fd::AsFd;
use std::process::exit;

use module::{checked, fail, is_file, read};

fn check(name: &str, is_typed: bool) -> io::Result<()> {
    let source = read(name);
    let module = checked(name, &source, is_typed);
    let mut out = File::from(io::stdout().as_fd().try_clone_to_owned()?);
    out.write_all(&[b"ok ", module.name.of(&source), b"\n"].concat())
}

fn main() {
    let words: Vec<String> = std::env::args().skip(1).collect();
    let done = match &words[..] {
        [name] if is_file(name) => check(name, true),
        [option, name] if option == "--untyped" => check(name, false),
        _ => fail(1, "lynx: usage"),
    };
    if done.is_err() {
        exit(3);
    }
}
