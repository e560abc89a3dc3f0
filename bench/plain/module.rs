//! Modules of the language LYNX, as the plain programs read them: tokens, grammar, nesting, the tree, and the typing rules.
//!
//! The parser takes its tokens one by one and makes a tree, and then the typing rules are tested on the tree. Where a token is wrong for
//! the grammar, the rest is still read for a lexical fault, since any lexical fault comes first.

// the tree keeps what a compiler needs of it, and not each program compiles
#![allow(dead_code)]

use std::collections::HashMap;
use std::fs::File;
use std::hash::{BuildHasherDefault, Hasher};
use std::io::Read;
use std::process::exit;

const MOST_BYTES: u64 = 1_048_576;
const MOST_NAME: usize = 32;
const MOST_TEXT: usize = 64;
const MOST_OPEN: u32 = 64;

// ---------------------------------------------------------------- faults

pub enum What {
    Lex(u8),
    Syntax,
    Deep,
    Rule(u8),
}

pub struct Fault {
    pub at: u32,
    pub what: What,
}

pub type Answer<T> = Result<T, Fault>;

const BAD_BYTE: u8 = 1;
const OPEN_TEXT: u8 = 2;
const NUMBER_TOO_WIDE: u8 = 3;
const TEXT_TOO_LONG: u8 = 4;
const NAME_TOO_LONG: u8 = 5;

// ---------------------------------------------------------------- tokens

#[derive(Clone, Copy, PartialEq, Eq)]
#[rustfmt::skip]
pub enum Kind {
    Name, Number, Text, EndOfFile,
    Module, Begin, End, Op, Param, Var, Entry, Of, Int, Bool, TextWord, Link, Row, If, Then, Else, While, Do, Write, Await, Stop, Raise,
    New, Destroy, Bind, To, Unbind, From, Connect, On, Accept, Reply, Try, When, Or, And, Mod, Not, True, False,
    Semicolon, Dot, Open, Close, Colon, Comma, OpenIndex, CloseIndex, Becomes, Equal, Unequal, Less, AtMost, Greater, AtLeast, Plus, Minus,
    Times, Over,
}

#[rustfmt::skip]
fn keyword(word: &[u8]) -> Kind {
    match word {
        b"module" => Kind::Module, b"begin" => Kind::Begin, b"end" => Kind::End, b"op" => Kind::Op, b"param" => Kind::Param,
        b"var" => Kind::Var, b"entry" => Kind::Entry, b"of" => Kind::Of, b"int" => Kind::Int, b"bool" => Kind::Bool,
        b"text" => Kind::TextWord, b"link" => Kind::Link, b"row" => Kind::Row, b"if" => Kind::If, b"then" => Kind::Then,
        b"else" => Kind::Else, b"while" => Kind::While, b"do" => Kind::Do, b"write" => Kind::Write, b"await" => Kind::Await,
        b"stop" => Kind::Stop, b"raise" => Kind::Raise, b"new" => Kind::New, b"destroy" => Kind::Destroy, b"bind" => Kind::Bind,
        b"to" => Kind::To, b"unbind" => Kind::Unbind, b"from" => Kind::From, b"connect" => Kind::Connect, b"on" => Kind::On,
        b"accept" => Kind::Accept, b"reply" => Kind::Reply, b"try" => Kind::Try, b"when" => Kind::When, b"or" => Kind::Or,
        b"and" => Kind::And, b"mod" => Kind::Mod, b"not" => Kind::Not, b"true" => Kind::True, b"false" => Kind::False,
        _ => Kind::Name,
    }
}

#[derive(Clone, Copy)]
struct Token {
    kind: Kind,
    from: u32,
    to: u32,
    /// Of a number.
    value: i64,
}

#[derive(Clone, Copy, PartialEq)]
enum Class {
    Bad,
    Blank,
    Letter,
    Digit,
    Sign,
    Quote,
}

const CLASSES: [Class; 256] = classes();

const fn classes() -> [Class; 256] {
    let mut classes = [Class::Bad; 256];
    let mut byte = 0;
    while byte < 256 {
        classes[byte] = match byte as u8 {
            b' ' | b'\t' | b'\r' | b'\n' => Class::Blank,
            b'A'..=b'Z' | b'a'..=b'z' => Class::Letter,
            b'0'..=b'9' => Class::Digit,
            b'\'' => Class::Quote,
            b';' | b'.' | b'(' | b')' | b':' | b',' | b'[' | b']' | b'=' | b'<' | b'>' | b'+' | b'-' | b'*' | b'/' => Class::Sign,
            _ => Class::Bad,
        };
        byte += 1;
    }
    classes
}

struct Lexer<'a> {
    source: &'a [u8],
    at: usize,
}

impl Lexer<'_> {
    fn byte(&self, at: usize) -> u8 {
        self.source.get(at).copied().unwrap_or(0)
    }

    fn class(&self, at: usize) -> Class {
        CLASSES[usize::from(self.byte(at))]
    }

    /// Goes over blanks and comments.
    fn skip(&mut self) {
        loop {
            if self.class(self.at) == Class::Blank {
                self.at += 1;
            } else if self.byte(self.at) == b'-' && self.byte(self.at + 1) == b'-' {
                let rest = &self.source[self.at..];
                self.at += rest.iter().position(|&byte| byte == b'\n').unwrap_or(rest.len());
            } else {
                return;
            }
        }
    }

    fn next(&mut self) -> Answer<Token> {
        self.skip();
        let from = self.at;
        let mut value = 0;
        let kind = match self.class(from) {
            Class::Letter => self.word(),
            Class::Digit => {
                value = self.number()?;
                Kind::Number
            }
            Class::Sign => self.sign(),
            Class::Quote => self.text()?,
            _ if from == self.source.len() => Kind::EndOfFile,
            _ => return Err(lexical(from, BAD_BYTE)),
        };
        if kind == Kind::Name && self.at - from > MOST_NAME {
            return Err(lexical(from, NAME_TOO_LONG));
        }
        Ok(Token { kind, from: from as u32, to: self.at as u32, value })
    }

    fn word(&mut self) -> Kind {
        let from = self.at;
        while matches!(self.class(self.at), Class::Letter | Class::Digit) || self.byte(self.at) == b'_' {
            self.at += 1;
        }
        let word = &self.source[from..self.at];
        if word.len() <= 7 {
            keyword(word)
        } else {
            Kind::Name
        }
    }

    fn number(&mut self) -> Answer<i64> {
        let from = self.at;
        let mut value = Some(0i64);
        while self.class(self.at) == Class::Digit {
            let digit = i64::from(self.byte(self.at) - b'0');
            value = value.and_then(|value| value.checked_mul(10)?.checked_add(digit));
            self.at += 1;
        }
        value.ok_or(lexical(from, NUMBER_TOO_WIDE))
    }

    fn text(&mut self) -> Answer<Kind> {
        let from = self.at;
        let rest = &self.source[from + 1..];
        let length = rest.iter().position(|&byte| byte == b'\'' || !(32..=126).contains(&byte)).unwrap_or(rest.len());
        if rest.get(length) != Some(&b'\'') {
            return Err(lexical(from, OPEN_TEXT));
        }
        if length > MOST_TEXT {
            return Err(lexical(from, TEXT_TOO_LONG));
        }
        self.at += length + 2;
        Ok(Kind::Text)
    }

    fn sign(&mut self) -> Kind {
        let (kind, length) = match (self.byte(self.at), self.byte(self.at + 1)) {
            (b':', b'=') => (Kind::Becomes, 2),
            (b'<', b'>') => (Kind::Unequal, 2),
            (b'<', b'=') => (Kind::AtMost, 2),
            (b'>', b'=') => (Kind::AtLeast, 2),
            (b';', _) => (Kind::Semicolon, 1),
            (b'.', _) => (Kind::Dot, 1),
            (b'(', _) => (Kind::Open, 1),
            (b')', _) => (Kind::Close, 1),
            (b':', _) => (Kind::Colon, 1),
            (b',', _) => (Kind::Comma, 1),
            (b'[', _) => (Kind::OpenIndex, 1),
            (b']', _) => (Kind::CloseIndex, 1),
            (b'=', _) => (Kind::Equal, 1),
            (b'<', _) => (Kind::Less, 1),
            (b'>', _) => (Kind::Greater, 1),
            (b'+', _) => (Kind::Plus, 1),
            (b'-', _) => (Kind::Minus, 1),
            (b'*', _) => (Kind::Times, 1),
            _ => (Kind::Over, 1),
        };
        self.at += length;
        kind
    }
}

fn lexical(at: usize, no: u8) -> Fault {
    Fault { at: at as u32, what: What::Lex(no) }
}

// ---------------------------------------------------------------- trees

/// A name, by its place in the source.
#[derive(Clone, Copy)]
pub struct Name {
    pub from: u32,
    pub to: u32,
}

impl Name {
    pub fn of(self, source: &[u8]) -> &[u8] {
        &source[self.from as usize..self.to as usize]
    }
}

#[derive(Clone, Copy, PartialEq)]
pub enum Type {
    Int,
    Bool,
    Text,
    Link,
    Row(i64),
}

/// A type that was written, the place of its first token, and of a row the place of its length.
pub struct TypeName {
    pub kind: Type,
    pub at: u32,
    pub length_at: u32,
}

pub struct Module {
    pub name: Name,
    pub ops: Vec<OpDecl>,
    pub params: Vec<VarDecl>,
    pub vars: Vec<VarDecl>,
    pub entries: Vec<EntryDecl>,
    pub body: Vec<Stmt>,
}

impl Module {
    /// Code was made of them.
    pub fn drop_statements(&mut self) {
        self.body = Vec::new();
        self.entries.iter_mut().for_each(|entry| entry.body = Vec::new());
    }
}

pub struct OpDecl {
    pub name: Name,
    pub arguments: Vec<TypeName>,
    pub results: Vec<TypeName>,
}

pub struct VarDecl {
    pub name: Name,
    pub kind: TypeName,
}

pub struct EntryDecl {
    pub name: Name,
    pub op: Name,
    pub parameters: Vec<Name>,
    pub vars: Vec<VarDecl>,
    pub body: Vec<Stmt>,
}

pub enum Stmt {
    Assign(Box<Assign>),
    If(Box<If>),
    While(Box<While>),
    Write(Expr),
    Await(Expr),
    Stop,
    Raise(Name),
    New(Name, Name),
    Destroy(Name),
    /// Of a bind or an unbind.
    Bound {
        link: Name,
        entry: Name,
        is_bind: bool,
    },
    Connect(Box<Connect>),
    Accept(Box<Accept>),
    Reply {
        at: u32,
        values: Vec<Expr>,
    },
    Try(Box<Try>),
}

pub struct Assign {
    pub name: Name,
    pub index: Option<Expr>,
    pub value: Expr,
}

pub struct If {
    pub condition: Expr,
    pub then: Vec<Stmt>,
    pub otherwise: Option<Vec<Stmt>>,
}

pub struct While {
    pub condition: Expr,
    pub body: Vec<Stmt>,
}

pub struct Connect {
    pub op: Name,
    pub link: Name,
    pub values: Vec<Expr>,
    pub results: Vec<Name>,
}

pub struct Accept {
    pub op: Name,
    pub link: Name,
    pub names: Vec<Name>,
    pub body: Vec<Stmt>,
}

pub struct Try {
    pub body: Vec<Stmt>,
    pub handlers: Vec<(Name, Vec<Stmt>)>,
}

pub struct Expr {
    /// The place of its first token.
    pub at: u32,
    /// In a chain of sums or products, what stands before it.
    pub sign: Kind,
    pub what: ExprKind,
}

pub enum ExprKind {
    Or(Vec<Expr>),
    And(Vec<Expr>),
    Relation(Box<(Expr, Kind, Expr)>),
    Sum(Vec<Expr>),
    Term(Vec<Expr>),
    Minus(Box<Expr>),
    Not(Box<Expr>),
    Number(i64),
    Text(Name),
    Truth(bool),
    Name(Name, Option<Box<Expr>>),
    Bracket(Box<Expr>),
}

// ---------------------------------------------------------------- grammar

struct Parser<'a> {
    lexer: Lexer<'a>,
    token: Token,
    open: u32,
}

impl<'a> Parser<'a> {
    fn new(source: &'a [u8]) -> Answer<Parser<'a>> {
        let mut lexer = Lexer { source, at: 0 };
        let token = lexer.next()?;
        Ok(Parser { lexer, token, open: 0 })
    }

    fn is(&self, kind: Kind) -> bool {
        self.token.kind == kind
    }

    fn advance(&mut self) -> Answer<()> {
        self.token = self.lexer.next()?;
        Ok(())
    }

    /// The token that stands is a wrong one, where no lexical fault comes behind it.
    fn wrong<T>(&mut self, what: What) -> Answer<T> {
        let at = self.token.from;
        while !self.is(Kind::EndOfFile) {
            self.advance()?;
        }
        Err(Fault { at, what })
    }

    fn want(&mut self, kind: Kind) -> Answer<()> {
        if self.is(kind) {
            self.advance()
        } else {
            self.wrong(What::Syntax)
        }
    }

    fn accept(&mut self, kind: Kind) -> Answer<bool> {
        let is_there = self.is(kind);
        if is_there {
            self.advance()?;
        }
        Ok(is_there)
    }

    /// The token that stands opens a bracket or statement.
    fn enter(&mut self) -> Answer<()> {
        if self.open == MOST_OPEN {
            return self.wrong(What::Deep);
        }
        self.open += 1;
        Ok(())
    }

    fn open(&mut self, kind: Kind) -> Answer<()> {
        if !self.is(kind) {
            return self.wrong(What::Syntax);
        }
        self.enter()?;
        self.advance()
    }

    fn close(&mut self, kind: Kind) -> Answer<()> {
        self.want(kind)?;
        self.open -= 1;
        Ok(())
    }

    fn name(&mut self) -> Answer<Name> {
        let name = Name { from: self.token.from, to: self.token.to };
        self.want(Kind::Name)?;
        Ok(name)
    }

    // ------------------------------------------------------------ declarations

    fn module(&mut self) -> Answer<Module> {
        self.want(Kind::Module)?;
        let name = self.name()?;
        self.want(Kind::Semicolon)?;
        let mut ops = Vec::new();
        while self.accept(Kind::Op)? {
            ops.push(self.op()?);
        }
        let params = self.declarations(Kind::Param)?;
        let vars = self.declarations(Kind::Var)?;
        let mut entries = Vec::new();
        while self.accept(Kind::Entry)? {
            entries.push(self.entry()?);
        }
        self.want(Kind::Begin)?;
        let body = self.statements()?;
        self.want(Kind::End)?;
        self.want(Kind::Dot)?;
        if !self.is(Kind::EndOfFile) {
            return self.wrong(What::Syntax);
        }
        Ok(Module { name, ops, params, vars, entries, body })
    }

    fn op(&mut self) -> Answer<OpDecl> {
        let name = self.name()?;
        let arguments = self.list(|parser| parser.type_name(), Kind::is_type)?;
        self.want(Kind::Colon)?;
        let results = self.list(|parser| parser.type_name(), Kind::is_type)?;
        self.want(Kind::Semicolon)?;
        Ok(OpDecl { name, arguments, results })
    }

    fn declarations(&mut self, word: Kind) -> Answer<Vec<VarDecl>> {
        let mut declarations = Vec::new();
        while self.accept(word)? {
            let name = self.name()?;
            self.want(Kind::Colon)?;
            let kind = self.type_name()?;
            self.want(Kind::Semicolon)?;
            declarations.push(VarDecl { name, kind });
        }
        Ok(declarations)
    }

    fn type_name(&mut self) -> Answer<TypeName> {
        let at = self.token.from;
        let kind = match self.token.kind {
            Kind::Int => Type::Int,
            Kind::Bool => Type::Bool,
            Kind::TextWord => Type::Text,
            Kind::Link => Type::Link,
            Kind::Row => {
                self.advance()?;
                Type::Row(self.token.value)
            }
            _ => return self.wrong(What::Syntax),
        };
        let length_at = self.token.from;
        if let Type::Row(_) = kind {
            self.want(Kind::Number)?;
        } else {
            self.advance()?;
        }
        Ok(TypeName { kind, at, length_at })
    }

    fn entry(&mut self) -> Answer<EntryDecl> {
        let name = self.name()?;
        self.want(Kind::Of)?;
        let op = self.name()?;
        let parameters = self.names()?;
        let vars = self.declarations(Kind::Var)?;
        self.want(Kind::Begin)?;
        let body = self.statements()?;
        self.want(Kind::End)?;
        self.want(Kind::Semicolon)?;
        Ok(EntryDecl { name, op, parameters, vars, body })
    }

    /// Items with commas between them, in brackets, or none: `begins` tells which tokens an item can begin with.
    fn list<T>(&mut self, item: impl Fn(&mut Self) -> Answer<T>, begins: impl Fn(Kind) -> bool) -> Answer<Vec<T>> {
        self.open(Kind::Open)?;
        let mut items = Vec::new();
        if begins(self.token.kind) {
            items.push(item(self)?);
            while self.accept(Kind::Comma)? {
                items.push(item(self)?);
            }
        }
        self.close(Kind::Close)?;
        Ok(items)
    }

    fn names(&mut self) -> Answer<Vec<Name>> {
        self.list(|parser| parser.name(), |kind| kind == Kind::Name)
    }

    fn values(&mut self) -> Answer<Vec<Expr>> {
        self.list(|parser| parser.expression(), Kind::begins_expression)
    }

    // ------------------------------------------------------------ statements

    fn statements(&mut self) -> Answer<Vec<Stmt>> {
        let mut statements = Vec::new();
        while self.token.kind.begins_statement() {
            self.enter()?;
            statements.push(self.statement()?);
            self.open -= 1;
            self.want(Kind::Semicolon)?;
        }
        Ok(statements)
    }

    fn statement(&mut self) -> Answer<Stmt> {
        let word = self.token;
        if word.kind == Kind::Name {
            return self.assignment();
        }
        self.advance()?;
        Ok(match word.kind {
            Kind::If => self.choice()?,
            Kind::While => self.repetition()?,
            Kind::Write => Stmt::Write(self.expression()?),
            Kind::Await => Stmt::Await(self.expression()?),
            Kind::Stop => Stmt::Stop,
            Kind::Raise => Stmt::Raise(self.name()?),
            Kind::New => {
                let first = self.name()?;
                self.want(Kind::Comma)?;
                Stmt::New(first, self.name()?)
            }
            Kind::Destroy => Stmt::Destroy(self.name()?),
            Kind::Bind => self.bound(Kind::To)?,
            Kind::Unbind => self.bound(Kind::From)?,
            Kind::Connect => self.connect()?,
            Kind::Accept => self.acceptance()?,
            Kind::Reply => Stmt::Reply { at: word.from, values: self.values()? },
            _ => self.attempt()?,
        })
    }

    fn assignment(&mut self) -> Answer<Stmt> {
        let name = self.name()?;
        let index = if self.is(Kind::OpenIndex) { Some(self.index()?) } else { None };
        self.want(Kind::Becomes)?;
        let value = self.expression()?;
        Ok(Stmt::Assign(Box::new(Assign { name, index, value })))
    }

    fn choice(&mut self) -> Answer<Stmt> {
        let condition = self.expression()?;
        self.want(Kind::Then)?;
        let then = self.statements()?;
        let otherwise = if self.accept(Kind::Else)? { Some(self.statements()?) } else { None };
        self.want(Kind::End)?;
        Ok(Stmt::If(Box::new(If { condition, then, otherwise })))
    }

    fn repetition(&mut self) -> Answer<Stmt> {
        let condition = self.expression()?;
        self.want(Kind::Do)?;
        let body = self.statements()?;
        self.want(Kind::End)?;
        Ok(Stmt::While(Box::new(While { condition, body })))
    }

    fn bound(&mut self, between: Kind) -> Answer<Stmt> {
        let link = self.name()?;
        self.want(between)?;
        let entry = self.name()?;
        Ok(Stmt::Bound { link, entry, is_bind: between == Kind::To })
    }

    fn connect(&mut self) -> Answer<Stmt> {
        let op = self.name()?;
        self.want(Kind::On)?;
        let link = self.name()?;
        let values = self.values()?;
        self.want(Kind::Colon)?;
        let results = self.names()?;
        Ok(Stmt::Connect(Box::new(Connect { op, link, values, results })))
    }

    fn acceptance(&mut self) -> Answer<Stmt> {
        let op = self.name()?;
        self.want(Kind::On)?;
        let link = self.name()?;
        let names = self.names()?;
        self.want(Kind::Do)?;
        let body = self.statements()?;
        self.want(Kind::End)?;
        Ok(Stmt::Accept(Box::new(Accept { op, link, names, body })))
    }

    fn attempt(&mut self) -> Answer<Stmt> {
        let body = self.statements()?;
        let mut handlers = Vec::new();
        while self.accept(Kind::When)? {
            let name = self.name()?;
            self.want(Kind::Do)?;
            handlers.push((name, self.statements()?));
        }
        self.want(Kind::End)?;
        Ok(Stmt::Try(Box::new(Try { body, handlers })))
    }

    // ------------------------------------------------------------ expressions

    /// Members with a sign between each two, as one chain, or the one member alone.
    #[inline(always)]
    fn chain(
        &mut self,
        member: impl Fn(&mut Self) -> Answer<Expr>,
        is_sign: impl Fn(Kind) -> bool,
        whole: impl Fn(Vec<Expr>) -> ExprKind,
    ) -> Answer<Expr> {
        let first = member(self)?;
        if !is_sign(self.token.kind) {
            return Ok(first);
        }
        let at = first.at;
        let mut members = Vec::with_capacity(2);
        members.push(first);
        while is_sign(self.token.kind) {
            let sign = self.token.kind;
            self.advance()?;
            members.push(Expr { sign, ..member(self)? });
        }
        Ok(Expr::new(at, whole(members)))
    }

    fn expression(&mut self) -> Answer<Expr> {
        self.chain(|parser| parser.conjunction(), |kind| kind == Kind::Or, ExprKind::Or)
    }

    fn conjunction(&mut self) -> Answer<Expr> {
        self.chain(|parser| parser.relation(), |kind| kind == Kind::And, ExprKind::And)
    }

    fn relation(&mut self) -> Answer<Expr> {
        let first = self.sum()?;
        let sign = self.token.kind;
        if !sign.is_relation() {
            return Ok(first);
        }
        self.advance()?;
        let at = first.at;
        let second = self.sum()?;
        Ok(Expr::new(at, ExprKind::Relation(Box::new((first, sign, second)))))
    }

    fn sum(&mut self) -> Answer<Expr> {
        self.chain(|parser| parser.term(), |kind| matches!(kind, Kind::Plus | Kind::Minus), ExprKind::Sum)
    }

    fn term(&mut self) -> Answer<Expr> {
        self.chain(|parser| parser.unary(), |kind| matches!(kind, Kind::Times | Kind::Over | Kind::Mod), ExprKind::Term)
    }

    fn unary(&mut self) -> Answer<Expr> {
        let at = self.token.from;
        let whole = match self.token.kind {
            Kind::Minus => ExprKind::Minus,
            Kind::Not => ExprKind::Not,
            _ => return self.primary(),
        };
        self.advance()?;
        Ok(Expr::new(at, whole(Box::new(self.primary()?))))
    }

    fn primary(&mut self) -> Answer<Expr> {
        let Token { kind, from, to, value } = self.token;
        let what = match kind {
            Kind::Number => ExprKind::Number(value),
            Kind::Text => ExprKind::Text(Name { from, to }),
            Kind::True => ExprKind::Truth(true),
            Kind::False => ExprKind::Truth(false),
            Kind::Name => return self.variable(),
            Kind::Open => return self.bracket(),
            _ => return self.wrong(What::Syntax),
        };
        self.advance()?;
        Ok(Expr::new(from, what))
    }

    fn variable(&mut self) -> Answer<Expr> {
        let name = self.name()?;
        let index = if self.is(Kind::OpenIndex) { Some(Box::new(self.index()?)) } else { None };
        Ok(Expr::new(name.from, ExprKind::Name(name, index)))
    }

    fn index(&mut self) -> Answer<Expr> {
        self.open(Kind::OpenIndex)?;
        let index = self.expression()?;
        self.close(Kind::CloseIndex)?;
        Ok(index)
    }

    fn bracket(&mut self) -> Answer<Expr> {
        let at = self.token.from;
        self.open(Kind::Open)?;
        let inner = self.expression()?;
        self.close(Kind::Close)?;
        Ok(Expr::new(at, ExprKind::Bracket(Box::new(inner))))
    }
}

impl Expr {
    fn new(at: u32, what: ExprKind) -> Expr {
        Expr { at, sign: Kind::Plus, what }
    }
}

impl Kind {
    fn is_type(self) -> bool {
        matches!(self, Kind::Int | Kind::Bool | Kind::TextWord | Kind::Link | Kind::Row)
    }

    fn is_relation(self) -> bool {
        matches!(self, Kind::Equal | Kind::Unequal | Kind::Less | Kind::AtMost | Kind::Greater | Kind::AtLeast)
    }

    fn begins_expression(self) -> bool {
        use Kind::*;
        matches!(self, Number | Text | True | False | Name | Open | Minus | Not)
    }

    fn begins_statement(self) -> bool {
        use Kind::*;
        matches!(self, Name | If | While | Write | Await | Stop | Raise | New | Destroy | Bind | Unbind | Connect | Accept | Reply | Try)
    }
}

// ---------------------------------------------------------------- typing

/// A hash of the bytes of a name, eight at a time.
#[derive(Default)]
pub struct NameHasher(u64);

impl NameHasher {
    fn add(&mut self, word: u64) {
        self.0 = (self.0.rotate_left(26) ^ word).wrapping_mul(0x9E37_79B9_7F4A_7C15);
    }
}

impl Hasher for NameHasher {
    fn write(&mut self, bytes: &[u8]) {
        let mut words = bytes.chunks_exact(8);
        for word in &mut words {
            self.add(u64::from_le_bytes(word.try_into().expect("eight bytes")));
        }
        self.add(words.remainder().iter().fold(0, |word, &byte| word << 8 | u64::from(byte)));
    }

    fn write_usize(&mut self, length: usize) {
        self.add(length as u64);
    }

    fn finish(&self) -> u64 {
        self.0 ^ self.0 >> 32
    }
}

#[derive(Clone, Copy)]
enum Meaning {
    Op(u32),
    Variable(Type),
    Entry,
}

/// What names mean.
pub type Table<'a, T> = HashMap<&'a [u8], T, BuildHasherDefault<NameHasher>>;

type Names<'a> = Table<'a, Meaning>;

/// A table with room for so many names.
pub fn names<'a, T>(count: usize) -> Table<'a, T> {
    Table::with_capacity_and_hasher(count, BuildHasherDefault::default())
}

/// Whether a name is there already; where it is not, it gets its meaning.
fn is_there<'a>(names: &mut Names<'a>, text: &'a [u8], meaning: Meaning) -> bool {
    let before = names.len();
    names.entry(text).or_insert(meaning);
    names.len() == before
}

pub const EXCEPTIONS: [&[u8]; 9] =
    [b"BUSYLINK", b"DEADLINK", b"NOLINK", b"DIVIDE", b"OVERFLOW", b"RANGE", b"FAILED", b"REPLIED", b"LINKSFULL"];
const MOST_LINKS: usize = 8;
const MOST_ROW: i64 = 16;
const MOST_PACKET: u64 = 256;

/// What a reply answers.
#[derive(Clone, Copy)]
enum Answers<'a> {
    Nothing,
    Unknown,
    Op(&'a OpDecl),
}

struct Typing<'a> {
    source: &'a [u8],
    module: &'a Module,
    names: Names<'a>,
    locals: Names<'a>,
    /// The first place where a rule fails, and the least rule there.
    first: Option<(u32, u8)>,
}

/// The type of an expression, or None where a rule fails inside: then it has the type that its place needs.
type Typed = Option<Type>;

impl<'a> Typing<'a> {
    fn fail(&mut self, at: u32, rule: u8) {
        let fault = (at, rule);
        self.first = Some(self.first.map_or(fault, |first| first.min(fault)));
    }

    fn fail_where(&mut self, fails: bool, at: u32, rule: u8) {
        if fails {
            self.fail(at, rule);
        }
    }

    fn text(&self, name: Name) -> &'a [u8] {
        name.of(self.source)
    }

    fn meaning(&self, name: Name) -> Option<Meaning> {
        let text = self.text(name);
        let local = if self.locals.is_empty() { None } else { self.locals.get(text) };
        local.or_else(|| self.names.get(text)).copied()
    }

    // ------------------------------------------------------------ declarations

    fn declare(&mut self, name: Name, meaning: Meaning) {
        let text = self.text(name);
        let is_twice = is_there(&mut self.names, text, meaning);
        self.fail_where(is_twice, name.from, 1);
    }

    fn declare_local(&mut self, name: Name, kind: Type) {
        let text = self.text(name);
        let is_twice = is_there(&mut self.locals, text, Meaning::Variable(kind));
        self.fail_where(is_twice, name.from, 2);
    }

    fn module(&mut self) {
        let module = self.module;
        for (op, number) in module.ops.iter().zip(0..) {
            self.declare(op.name, Meaning::Op(number));
            self.op(op);
        }
        for param in &module.params {
            self.declare(param.name, Meaning::Variable(param.kind.kind));
            self.fail_where(param.kind.kind != Type::Link, param.kind.at, 3);
            self.length(&param.kind);
        }
        for var in &module.vars {
            self.declare(var.name, Meaning::Variable(var.kind.kind));
            self.length(&var.kind);
        }
        for entry in &module.entries {
            self.declare(entry.name, Meaning::Entry);
        }
        for entry in &module.entries {
            self.entry(entry);
        }
        self.locals = names(0);
        self.statements(&module.body, Answers::Nothing);
    }

    fn length(&mut self, name: &TypeName) {
        if let Type::Row(length) = name.kind {
            self.fail_where(!(1..=MOST_ROW).contains(&length), name.length_at, 4);
        }
    }

    fn op(&mut self, op: &OpDecl) {
        for types in [&op.arguments, &op.results] {
            types.iter().for_each(|name| self.length(name));
            let links = types.iter().filter(|name| name.kind == Type::Link).count();
            self.fail_where(links > MOST_LINKS, op.name.from, 5);
        }
        let signature = u64::from(op.name.to - op.name.from) + 5 + spelled(&op.arguments) + spelled(&op.results);
        let request = (6 + signature).saturating_add(widest(&op.arguments));
        let reply = widest(&op.results).saturating_add(6);
        self.fail_where(request.max(reply) > MOST_PACKET, op.name.from, 24);
    }

    fn entry(&mut self, entry: &'a EntryDecl) {
        self.locals = names(entry.parameters.len() + entry.vars.len());
        let op = match self.names.get(self.text(entry.op)) {
            Some(&Meaning::Op(number)) => Some(&self.module.ops[number as usize]),
            _ => None,
        };
        self.fail_where(op.is_none(), entry.op.from, 6);
        let arguments = op.map_or(&[][..], |op| &op.arguments);
        self.fail_where(op.is_some() && arguments.len() != entry.parameters.len(), entry.name.from, 7);
        for (place, &name) in entry.parameters.iter().enumerate() {
            self.declare_local(name, arguments.get(place).map_or(Type::Int, |argument| argument.kind));
        }
        for var in &entry.vars {
            self.declare_local(var.name, var.kind.kind);
            self.length(&var.kind);
        }
        self.statements(&entry.body, op.map_or(Answers::Unknown, Answers::Op));
    }

    // ------------------------------------------------------------ names in their places

    fn variable(&mut self, name: Name) -> Typed {
        match self.meaning(name) {
            Some(Meaning::Variable(kind)) => Some(kind),
            _ => {
                self.fail(name.from, 8);
                None
            }
        }
    }

    fn link(&mut self, name: Name) {
        let kind = self.variable(name);
        self.fail_where(kind.is_some_and(|kind| kind != Type::Link), name.from, 16);
    }

    fn op_named(&mut self, name: Name) -> Option<&'a OpDecl> {
        match self.meaning(name) {
            Some(Meaning::Op(number)) => Some(&self.module.ops[number as usize]),
            _ => {
                self.fail(name.from, 8);
                None
            }
        }
    }

    fn exception(&mut self, name: Name) {
        let is_one = EXCEPTIONS.contains(&self.text(name));
        self.fail_where(!is_one, name.from, 23);
    }

    /// Values that are handed on, by the types that are wanted.
    fn values(&mut self, values: &'a [Expr], wanted: Option<&[TypeName]>, at: u32, rule: u8) {
        self.fail_where(wanted.is_some_and(|wanted| wanted.len() != values.len()), at, rule);
        for (place, value) in values.iter().enumerate() {
            let kind = self.expression(value);
            let want = wanted.and_then(|wanted| wanted.get(place));
            self.fail_where(matches!((kind, want), (Some(kind), Some(want)) if kind != want.kind), value.at, rule);
        }
    }

    /// Variables that values go to.
    fn targets(&mut self, names: &[Name], given: Option<&[TypeName]>, at: u32, rule: u8) {
        self.fail_where(given.is_some_and(|given| given.len() != names.len()), at, rule);
        for (place, &name) in names.iter().enumerate() {
            let kind = self.variable(name);
            let give = given.and_then(|given| given.get(place));
            self.fail_where(matches!((kind, give), (Some(kind), Some(give)) if kind != give.kind), name.from, rule);
        }
    }

    // ------------------------------------------------------------ statements

    fn statements(&mut self, statements: &'a [Stmt], answers: Answers<'a>) {
        statements.iter().for_each(|statement| self.statement(statement, answers));
    }

    fn statement(&mut self, statement: &'a Stmt, answers: Answers<'a>) {
        match statement {
            Stmt::Assign(assign) => self.assign(assign),
            Stmt::If(choice) => {
                self.condition(&choice.condition);
                self.statements(&choice.then, answers);
                self.statements(choice.otherwise.as_deref().unwrap_or_default(), answers);
            }
            Stmt::While(repetition) => {
                self.condition(&repetition.condition);
                self.statements(&repetition.body, answers);
            }
            Stmt::Write(value) => {
                let kind = self.expression(value);
                self.fail_where(matches!(kind, Some(Type::Row(_) | Type::Link)), value.at, 22);
            }
            Stmt::Await(condition) => self.condition(condition),
            Stmt::Stop => {}
            &Stmt::Raise(name) => self.exception(name),
            &Stmt::New(first, second) => {
                self.link(first);
                self.link(second);
                self.fail_where(self.text(first) == self.text(second), second.from, 15);
            }
            &Stmt::Destroy(name) => self.link(name),
            &Stmt::Bound { link, entry, .. } => {
                self.link(link);
                self.fail_where(!matches!(self.meaning(entry), Some(Meaning::Entry)), entry.from, 8);
            }
            Stmt::Connect(connect) => self.connect(connect),
            Stmt::Accept(accept) => self.accept(accept),
            Stmt::Reply { at, values } => self.reply(*at, values, answers),
            Stmt::Try(attempt) => {
                self.statements(&attempt.body, answers);
                for (name, body) in &attempt.handlers {
                    self.exception(*name);
                    self.statements(body, answers);
                }
            }
        }
    }

    fn assign(&mut self, assign: &'a Assign) {
        let mut target = self.variable(assign.name);
        if let Some(index) = &assign.index {
            self.index(assign.name, target, index);
            target = Some(Type::Int);
        }
        let value = self.expression(&assign.value);
        self.fail_where(matches!((target, value), (Some(target), Some(value)) if target != value), assign.value.at, 13);
    }

    fn condition(&mut self, condition: &'a Expr) {
        self.operand(condition, Type::Bool, 12);
    }

    fn connect(&mut self, connect: &'a Connect) {
        let op = self.op_named(connect.op);
        self.link(connect.link);
        self.values(&connect.values, op.map(|op| &op.arguments[..]), connect.op.from, 17);
        self.targets(&connect.results, op.map(|op| &op.results[..]), connect.op.from, 18);
    }

    fn accept(&mut self, accept: &'a Accept) {
        let op = self.op_named(accept.op);
        self.link(accept.link);
        self.targets(&accept.names, op.map(|op| &op.arguments[..]), accept.op.from, 19);
        self.statements(&accept.body, op.map_or(Answers::Unknown, Answers::Op));
    }

    fn reply(&mut self, at: u32, values: &'a [Expr], answers: Answers<'a>) {
        let results = match answers {
            Answers::Op(op) => Some(&op.results[..]),
            _ => None,
        };
        self.fail_where(matches!(answers, Answers::Nothing), at, 20);
        self.values(values, results, at, 21);
    }

    // ------------------------------------------------------------ expressions

    /// Whether no rule fails in an operand, which is to have a type.
    fn operand(&mut self, operand: &'a Expr, want: Type, rule: u8) -> bool {
        let kind = self.expression(operand);
        self.fail_where(kind.is_some_and(|kind| kind != want), operand.at, rule);
        kind == Some(want)
    }

    fn operands(&mut self, operands: &'a [Expr], kind: Type, rule: u8) -> Typed {
        let mut are_well = true;
        for operand in operands {
            are_well &= self.operand(operand, kind, rule);
        }
        are_well.then_some(kind)
    }

    fn expression(&mut self, expression: &'a Expr) -> Typed {
        match &expression.what {
            ExprKind::Number(_) => Some(Type::Int),
            ExprKind::Text(_) => Some(Type::Text),
            ExprKind::Truth(_) => Some(Type::Bool),
            ExprKind::Bracket(inner) => self.expression(inner),
            ExprKind::Name(name, None) => self.variable(*name),
            ExprKind::Name(name, Some(index)) => {
                let kind = self.variable(*name);
                self.index(*name, kind, index).then_some(Type::Int)
            }
            ExprKind::Sum(members) | ExprKind::Term(members) => self.operands(members, Type::Int, 9),
            ExprKind::Or(members) | ExprKind::And(members) => self.operands(members, Type::Bool, 11),
            ExprKind::Minus(operand) => self.operand(operand, Type::Int, 9).then_some(Type::Int),
            ExprKind::Not(operand) => self.operand(operand, Type::Bool, 11).then_some(Type::Bool),
            ExprKind::Relation(relation) => self.relation(relation),
        }
    }

    /// Whether no rule fails in an indexed name.
    fn index(&mut self, name: Name, kind: Typed, index: &'a Expr) -> bool {
        let is_row = matches!(kind, Some(Type::Row(_)));
        self.fail_where(kind.is_some() && !is_row, name.from, 14);
        self.operand(index, Type::Int, 14) && is_row
    }

    fn relation(&mut self, relation: &'a (Expr, Kind, Expr)) -> Typed {
        let (first, sign, second) = relation;
        if !matches!(sign, Kind::Equal | Kind::Unequal) {
            let are_well = [first, second].map(|operand| self.operand(operand, Type::Int, 9)) == [true; 2];
            return are_well.then_some(Type::Bool);
        }
        let (one, other) = (self.expression(first), self.expression(second));
        let has_no_equality = |kind| matches!(kind, Some(Type::Row(_) | Type::Link));
        let fails = has_no_equality(one) || has_no_equality(other) || matches!((one, other), (Some(one), Some(other)) if one != other);
        self.fail_where(fails, second.at, 10);
        (!fails && one.is_some() && other.is_some()).then_some(Type::Bool)
    }
}

fn digits(mut number: i64) -> u64 {
    let mut count = 1;
    while number > 9 {
        number /= 10;
        count += 1;
    }
    count
}

/// The bytes of a list of types in a signature.
fn spelled(types: &[TypeName]) -> u64 {
    let commas = types.len().saturating_sub(1) as u64;
    let length = |name: &TypeName| match name.kind {
        Type::Int => 3,
        Type::Bool | Type::Text | Type::Link => 4,
        Type::Row(length) => 3 + digits(length),
    };
    commas + types.iter().map(length).sum::<u64>()
}

/// The bytes of the widest values of these types.
fn widest(types: &[TypeName]) -> u64 {
    let width = |name: &TypeName| match name.kind {
        Type::Int => 9,
        Type::Bool => 2,
        Type::Text => 66,
        Type::Link => 1,
        Type::Row(length) => (length as u64).saturating_mul(8).saturating_add(2),
    };
    types.iter().map(width).fold(0, u64::saturating_add)
}

fn typing(source: &[u8], module: &Module) -> Answer<()> {
    let count = module.ops.len() + module.params.len() + module.vars.len() + module.entries.len();
    let mut typing = Typing { source, module, names: names(count), locals: names(0), first: None };
    typing.module();
    typing.first.map_or(Ok(()), |(at, rule)| Err(Fault { at, what: What::Rule(rule) }))
}

// ---------------------------------------------------------------- files

/// Ends the program with a status and a line on standard error.
pub fn fail(status: i32, text: &str) -> ! {
    eprintln!("{text}");
    exit(status)
}

/// Whether a word names a file.
pub fn is_file(word: &str) -> bool {
    !word.is_empty() && !word.starts_with('-')
}

pub fn read(name: &str) -> Vec<u8> {
    let file = File::open(name).unwrap_or_else(|_| fail(6, &format!("lynx: {name}: absent")));
    let mut bytes = Vec::new();
    if file.take(MOST_BYTES + 1).read_to_end(&mut bytes).is_err() {
        fail(2, &format!("lynx: {name}: read fault"));
    }
    if bytes.len() as u64 > MOST_BYTES {
        fail(8, &format!("lynx: {name}: too big"));
    }
    bytes
}

fn told(name: &str, source: &[u8], fault: &Fault) -> String {
    let before = &source[..fault.at as usize];
    let line = 1 + before.iter().filter(|&&byte| byte == b'\n').count();
    let column = 1 + before.iter().rev().take_while(|&&byte| byte != b'\n').count();
    match fault.what {
        What::Lex(no) => format!("{name}:{line}:{column}: lex {no}"),
        What::Syntax => format!("{name}:{line}:{column}: syntax"),
        What::Deep => format!("{name}:{line}:{column}: deep"),
        What::Rule(rule) => format!("{name}:{line}:{column}: rule {rule}"),
    }
}

/// The tree of a module's text. A text that breaks a rule ends the program, with a line that tells where.
pub fn checked(name: &str, source: &[u8], is_typed: bool) -> Module {
    let tree = Parser::new(source).and_then(|mut parser| parser.module()).and_then(|module| {
        if is_typed {
            typing(source, &module)?;
        }
        Ok(module)
    });
    tree.unwrap_or_else(|fault| fail(4, &told(name, source, &fault)))
}
