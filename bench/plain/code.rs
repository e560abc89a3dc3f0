//! `code [--buffered] FILE`: compiles a module of the language LYNX, as `lynx code FILE` does, and prints the listing of its code.
//!
//! It is what `lynx code` is measured beside: plain Rust with the standard library alone, written for speed, and not proved. Each line is
//! one write call, as `lynx code` has it; with `--buffered` lines are gathered.

mod compiler;
mod module;

use std::fs::File;
use std::io::{self, Write};
use std::iter;
use std::os::fd::AsFd;
use std::process::exit;

use compiler::{compile, Code, Exception, Instruction, Literal};
use module::{checked, fail, is_file, read, Module, Name, EXCEPTIONS};

/// So many bytes are gathered at least before they are written.
const MOST_GATHERED: usize = 1 << 16;

// ---------------------------------------------------------------- lines

/// What stands behind the word of an instruction.
enum Operand {
    Nothing,
    Number(u32),
    Literal(Literal),
    Exception(Exception),
    Case(Exception, u16),
}

#[rustfmt::skip]
fn spelled(instruction: Instruction) -> (&'static [u8], Operand) {
    use Operand::{Nothing, Number};
    match instruction {
        Instruction::Push(literal) => (b"push", Operand::Literal(literal)),
        Instruction::LoadG(slot) => (b"loadg", Number(slot)),
        Instruction::LoadL(slot) => (b"loadl", Number(slot)),
        Instruction::AtG(slot) => (b"atg", Number(slot)),
        Instruction::AtL(slot) => (b"atl", Number(slot)),
        Instruction::StoreG(slot) => (b"storeg", Number(slot)),
        Instruction::StoreL(slot) => (b"storel", Number(slot)),
        Instruction::PutG(slot) => (b"putg", Number(slot)),
        Instruction::PutL(slot) => (b"putl", Number(slot)),
        Instruction::Add => (b"add", Nothing),
        Instruction::Sub => (b"sub", Nothing),
        Instruction::Mul => (b"mul", Nothing),
        Instruction::Div => (b"div", Nothing),
        Instruction::Mod => (b"mod", Nothing),
        Instruction::Neg => (b"neg", Nothing),
        Instruction::Eq => (b"eq", Nothing),
        Instruction::Ne => (b"ne", Nothing),
        Instruction::Lt => (b"lt", Nothing),
        Instruction::Le => (b"le", Nothing),
        Instruction::Gt => (b"gt", Nothing),
        Instruction::Ge => (b"ge", Nothing),
        Instruction::Not => (b"not", Nothing),
        Instruction::AndJ(address) => (b"andj", Number(address.into())),
        Instruction::OrJ(address) => (b"orj", Number(address.into())),
        Instruction::JumpF(address) => (b"jumpf", Number(address.into())),
        Instruction::Jump(address) => (b"jump", Number(address.into())),
        Instruction::Await(address) => (b"await", Number(address.into())),
        Instruction::Try(address) => (b"try", Number(address.into())),
        Instruction::Write => (b"write", Nothing),
        Instruction::New => (b"new", Nothing),
        Instruction::Destroy => (b"destroy", Nothing),
        Instruction::Close => (b"close", Nothing),
        Instruction::Stop => (b"stop", Nothing),
        Instruction::Untry => (b"untry", Nothing),
        Instruction::Again => (b"again", Nothing),
        Instruction::End => (b"end", Nothing),
        Instruction::Bind(entry) => (b"bind", Number(entry)),
        Instruction::Unbind(entry) => (b"unbind", Number(entry)),
        Instruction::Connect(op) => (b"connect", Number(op)),
        Instruction::Accept(op) => (b"accept", Number(op)),
        Instruction::Reply(count) => (b"reply", Number(count)),
        Instruction::Raise(exception) => (b"raise", Operand::Exception(exception)),
        Instruction::Case(exception, address) => (b"case", Operand::Case(exception, address)),
    }
}

fn decimal(line: &mut Vec<u8>, mut number: u64) {
    let mut digits = [0; 20];
    let mut from = digits.len();
    loop {
        from -= 1;
        digits[from] = b'0' + (number % 10) as u8;
        number /= 10;
        if number == 0 {
            break;
        }
    }
    line.extend_from_slice(&digits[from..]);
}

fn operand(line: &mut Vec<u8>, source: &[u8], texts: &[Name], operand: Operand) {
    let mut exception = |Exception(place): Exception| line.extend_from_slice(EXCEPTIONS[usize::from(place)]);
    match operand {
        Operand::Nothing => {}
        Operand::Number(number) => decimal(line, number.into()),
        // no literal is negative
        Operand::Literal(Literal::Int(number)) => decimal(line, number as u64),
        Operand::Literal(Literal::Bool(true)) => line.extend_from_slice(b"true"),
        Operand::Literal(Literal::Bool(false)) => line.extend_from_slice(b"false"),
        Operand::Literal(Literal::Text(number)) => line.extend_from_slice(texts[number as usize].of(source)),
        Operand::Exception(raised) => exception(raised),
        Operand::Case(caught, address) => {
            exception(caught);
            line.push(b' ');
            decimal(line, address.into());
        }
    }
}

// ---------------------------------------------------------------- the listing

struct Listing<'a> {
    source: &'a [u8],
    texts: &'a [Name],
    out: File,
    is_buffered: bool,
    text: Vec<u8>,
}

impl Listing<'_> {
    fn end_line(&mut self) -> io::Result<()> {
        self.text.push(b'\n');
        if !self.is_buffered || self.text.len() >= MOST_GATHERED {
            self.flush()?;
        }
        Ok(())
    }

    fn flush(&mut self) -> io::Result<()> {
        self.out.write_all(&self.text)?;
        self.text.clear();
        Ok(())
    }

    fn heading(&mut self, word: &[u8], name: &[u8]) -> io::Result<()> {
        self.text.extend_from_slice(word);
        self.text.extend_from_slice(name);
        self.end_line()
    }

    fn instruction(&mut self, address: usize, instruction: Instruction) -> io::Result<()> {
        let (word, what) = spelled(instruction);
        decimal(&mut self.text, address as u64);
        self.text.push(b' ');
        self.text.extend_from_slice(word);
        if !matches!(what, Operand::Nothing) {
            self.text.push(b' ');
            operand(&mut self.text, self.source, self.texts, what);
        }
        self.end_line()
    }

    fn whole(&mut self, module: &Module, code: &Code) -> io::Result<()> {
        self.heading(b"code ", module.name.of(self.source))?;
        let ends = code.parts[1..].iter().map(|next| usize::from(next.start)).chain([code.instructions.len()]);
        let source = self.source;
        let names = iter::once(&b"main"[..]).chain(module.entries.iter().map(|entry| entry.name.of(source)));
        for ((part, name), end) in code.parts.iter().zip(names).zip(ends) {
            self.heading(b"part ", name)?;
            let start = usize::from(part.start);
            for (&instruction, address) in code.instructions[start..end].iter().zip(start..) {
                self.instruction(address, instruction)?;
            }
        }
        self.flush()
    }
}

fn list(name: &str, is_buffered: bool) -> io::Result<()> {
    let source = read(name);
    let module = checked(name, &source, true);
    let code = compile(&source, &module).unwrap_or_else(|_| fail(4, &format!("{name}:1:1: code too long")));
    let out = File::from(io::stdout().as_fd().try_clone_to_owned()?);
    Listing { source: &source, texts: &code.texts, out, is_buffered, text: Vec::new() }.whole(&module, &code)
}

fn main() {
    let words: Vec<String> = std::env::args().skip(1).collect();
    let done = match &words[..] {
        [name] if is_file(name) => list(name, false),
        [option, name] if option == "--buffered" => list(name, true),
        _ => fail(1, "lynx: usage"),
    };
    if done.is_err() {
        exit(3);
    }
}
