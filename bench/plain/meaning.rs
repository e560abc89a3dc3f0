//! What a thread does by the source of its part (docs/CODE.md): a walk over the tree, with a list of answers.
//!
//! A walk begins at the start of the part each time, with the answers that the thread had so far, so nothing is kept of a thread but these.
//! The instructions of the code of the tree are counted, and none is made.

use crate::module::{Accept, Assign, Connect, Expr, ExprKind, If, Kind, Module, Name, Stmt, Try, Type, VarDecl, While};
use std::collections::HashMap;
use std::slice::Iter;

// ---------------------------------------------------------------- values

#[derive(Clone, PartialEq)]
pub enum Value {
    Int(i64),
    Bool(bool),
    Text(Vec<u8>),
    Row(Vec<i64>),
    /// 0 is none.
    Link(u32),
}

impl Value {
    /// What a variable of this type holds at the start.
    pub fn at_start(kind: Type) -> Value {
        match kind {
            Type::Int => Value::Int(0),
            Type::Bool => Value::Bool(false),
            Type::Text => Value::Text(Vec::new()),
            Type::Link => Value::Link(0),
            Type::Row(length) => Value::Row(vec![0; length as usize]),
        }
    }

    fn int(&self) -> i64 {
        match self {
            Value::Int(number) => *number,
            _ => unreachable!("a number is wanted"),
        }
    }

    fn truth(&self) -> bool {
        match self {
            Value::Bool(truth) => *truth,
            _ => unreachable!("a truth is wanted"),
        }
    }

    fn link(&self) -> u32 {
        match self {
            Value::Link(link) => *link,
            _ => unreachable!("a link is wanted"),
        }
    }

    fn row(&mut self) -> &mut Vec<i64> {
        match self {
            Value::Row(row) => row,
            _ => unreachable!("a row is wanted"),
        }
    }

    fn written(&self) -> Vec<u8> {
        match self {
            Value::Int(number) => number.to_string().into_bytes(),
            Value::Bool(truth) => truth.to_string().into_bytes(),
            Value::Text(text) => text.clone(),
            _ => unreachable!("a row or a link is not written"),
        }
    }
}

// ---------------------------------------------------------------- names

/// The numbers of names.
pub type Numbers<'a> = HashMap<&'a [u8], usize>;

/// A module, and what its names mean.
pub struct Program<'a> {
    pub source: &'a [u8],
    pub module: &'a Module,
    /// The params and then the vars.
    pub globals: Numbers<'a>,
    ops: Numbers<'a>,
    entries: Numbers<'a>,
    /// Of each entry its parameters and then its vars.
    locals: Vec<Numbers<'a>>,
}

fn numbers<'a>(source: &'a [u8], names: impl Iterator<Item = Name>) -> Numbers<'a> {
    names.map(|name| name.of(source)).zip(0..).collect()
}

fn named(variables: &[VarDecl]) -> impl Iterator<Item = Name> + '_ {
    variables.iter().map(|variable| variable.name)
}

impl<'a> Program<'a> {
    pub fn new(source: &'a [u8], module: &'a Module) -> Program<'a> {
        let locals = |entry: &crate::module::EntryDecl| numbers(source, entry.parameters.iter().copied().chain(named(&entry.vars)));
        Program {
            source,
            module,
            globals: numbers(source, named(&module.params).chain(named(&module.vars))),
            ops: numbers(source, module.ops.iter().map(|op| op.name)),
            entries: numbers(source, module.entries.iter().map(|entry| entry.name)),
            locals: module.entries.iter().map(locals).collect(),
        }
    }

    fn body(&self, part: Part) -> &'a [Stmt] {
        match part {
            Part::Body => &self.module.body,
            Part::Entry(number) => &self.module.entries[number].body,
        }
    }
}

// ---------------------------------------------------------------- what a thread did

/// The body of the module, or an entry by its number.
#[derive(Clone, Copy, PartialEq)]
pub enum Part {
    Body,
    Entry(usize),
}

#[derive(Clone)]
pub enum Outcome {
    Values(Vec<Value>),
    /// By its name.
    Raises(Vec<u8>),
}

/// An outcome, and the variables of the module as they stand when the thread goes on with it.
#[derive(Clone)]
pub struct Answer {
    pub outcome: Outcome,
    pub globals: Vec<Value>,
}

#[derive(Clone, PartialEq)]
pub enum Action {
    New,
    Destroy(u32),
    Bind(u32, usize),
    Unbind(u32, usize),
    Connect(u32, usize, Vec<Value>),
    Accept(u32, usize),
    Close,
    Reply(Vec<Value>),
    Write(Vec<u8>),
    StopAll,
    /// An await found false; whether it had found false before.
    Await {
        again: bool,
    },
}

pub enum How {
    Ended,
    Waits(Action),
    /// It has begun as many instructions as it may, and would begin another one.
    Out,
}

/// What a thread did: how many instructions it has begun, the variables of the module that it leaves, and how far it came.
pub struct Did {
    pub begun: u64,
    pub globals: Vec<Value>,
    pub how: How,
}

/// How a thread starts.
#[derive(Clone)]
pub struct Start {
    pub part: Part,
    pub parameters: Vec<Value>,
    /// The variables of the module at its first instruction.
    pub globals: Vec<Value>,
}

/// What a thread does with these answers and at most so many instructions.
pub fn did(program: &Program, start: &Start, answers: &[Answer], most: u64) -> Did {
    let mut locals = start.parameters.clone();
    if let Part::Entry(number) = start.part {
        locals.extend(program.module.entries[number].vars.iter().map(|var| Value::at_start(var.kind.kind)));
    }
    let mut walk = Walk { program, part: start.part, globals: start.globals.clone(), locals, answers: answers.iter(), begun: 0, most };
    let how = match walk.part() {
        Err(Leave::Waits(action)) => How::Waits(action),
        Err(Leave::Out) => How::Out,
        Err(Leave::Raises(_)) | Ok(()) => How::Ended,
    };
    Did { begun: walk.begun, globals: walk.globals, how }
}

// ---------------------------------------------------------------- the walk

/// Why a statement or an expression is left.
enum Leave {
    /// By the name of the exception.
    Raises(Vec<u8>),
    Waits(Action),
    Out,
}

type Done<T> = Result<T, Leave>;

fn raises<T>(exception: &[u8]) -> Done<T> {
    Err(Leave::Raises(exception.to_vec()))
}

struct Walk<'a> {
    program: &'a Program<'a>,
    part: Part,
    globals: Vec<Value>,
    locals: Vec<Value>,
    answers: Iter<'a, Answer>,
    begun: u64,
    most: u64,
}

impl<'a> Walk<'a> {
    /// An instruction begins.
    fn begin(&mut self) -> Done<()> {
        if self.begun == self.most {
            return Err(Leave::Out);
        }
        self.begun += 1;
        Ok(())
    }

    /// The values that an action is given.
    fn ask(&mut self, action: Action) -> Done<Vec<Value>> {
        let Some(answer) = self.answers.next() else {
            return Err(Leave::Waits(action));
        };
        self.globals.clone_from(&answer.globals);
        match &answer.outcome {
            Outcome::Values(values) => Ok(values.clone()),
            Outcome::Raises(exception) => raises(exception),
        }
    }

    fn part(&mut self) -> Done<()> {
        let body = self.statements(self.program.body(self.part)).and_then(|()| self.begin());
        if self.part == Part::Body {
            return body;
        }
        self.closed(body)
    }

    /// What stood in a request is done, or has raised: then the request is closed.
    fn closed(&mut self, done: Done<()>) -> Done<()> {
        if let Err(Leave::Waits(_) | Leave::Out) = done {
            return done;
        }
        self.ask(Action::Close)?;
        done
    }

    // ------------------------------------------------------------ variables

    fn variable(&mut self, name: Name) -> &mut Value {
        let text = name.of(self.program.source);
        let local = match self.part {
            Part::Body => None,
            Part::Entry(number) => self.program.locals[number].get(text),
        };
        match local {
            Some(&slot) => &mut self.locals[slot],
            None => &mut self.globals[self.program.globals[text]],
        }
    }

    fn load(&mut self, name: Name) -> Done<Value> {
        self.begin()?;
        Ok(self.variable(name).clone())
    }

    /// The last one is stored first.
    fn store(&mut self, names: &[Name], values: Vec<Value>) -> Done<()> {
        for (&name, value) in names.iter().zip(values).rev() {
            self.begin()?;
            *self.variable(name) = value;
        }
        Ok(())
    }

    fn member(&mut self, name: Name, index: i64) -> Done<&mut i64> {
        let place = usize::try_from(index).ok();
        let member = self.variable(name).row().get_mut(place.unwrap_or(usize::MAX));
        member.ok_or_else(|| Leave::Raises(b"RANGE".to_vec()))
    }

    fn op(&self, name: Name) -> usize {
        self.program.ops[name.of(self.program.source)]
    }

    // ------------------------------------------------------------ statements

    fn statements(&mut self, statements: &'a [Stmt]) -> Done<()> {
        statements.iter().try_for_each(|statement| self.statement(statement))
    }

    fn statement(&mut self, statement: &'a Stmt) -> Done<()> {
        match statement {
            Stmt::Assign(assign) => self.assign(assign),
            Stmt::If(choice) => self.choose(choice),
            Stmt::While(repetition) => self.repeat(repetition),
            Stmt::Await(condition) => self.awaits(condition),
            Stmt::Connect(connect) => self.connect(connect),
            Stmt::Accept(accept) => self.accept(accept),
            Stmt::Try(attempt) => self.attempt(attempt),
            &Stmt::Raise(name) => {
                self.begin()?;
                raises(name.of(self.program.source))
            }
            _ => self.act(statement),
        }
    }

    /// A statement that is one action, without a body.
    fn act(&mut self, statement: &'a Stmt) -> Done<()> {
        let mut stored = Vec::new();
        let action = match statement {
            Stmt::Write(value) => Action::Write(self.value(value)?.written()),
            Stmt::Reply { values, .. } => Action::Reply(self.values(values)?),
            &Stmt::Destroy(name) => Action::Destroy(self.load(name)?.link()),
            &Stmt::Bound { link, entry, is_bind } => {
                let (link, entry) = (self.load(link)?.link(), self.program.entries[entry.of(self.program.source)]);
                if is_bind {
                    Action::Bind(link, entry)
                } else {
                    Action::Unbind(link, entry)
                }
            }
            &Stmt::New(first, second) => {
                stored = vec![first, second];
                Action::New
            }
            _ => {
                self.begin()?;
                return Err(Leave::Waits(Action::StopAll));
            }
        };
        self.begin()?;
        let values = self.ask(action)?;
        self.store(&stored, values)
    }

    fn assign(&mut self, assign: &'a Assign) -> Done<()> {
        let Some(index) = &assign.index else {
            let value = self.value(&assign.value)?;
            return self.store(&[assign.name], vec![value]);
        };
        let index = self.value(index)?.int();
        let value = self.value(&assign.value)?.int();
        self.begin()?;
        *self.member(assign.name, index)? = value;
        Ok(())
    }

    fn choose(&mut self, choice: &'a If) -> Done<()> {
        let is_so = self.value(&choice.condition)?.truth();
        self.begin()?;
        match (&choice.otherwise, is_so) {
            (None, true) => self.statements(&choice.then),
            (None, false) => Ok(()),
            (Some(otherwise), false) => self.statements(otherwise),
            (Some(_), true) => {
                self.statements(&choice.then)?;
                self.begin()
            }
        }
    }

    fn repeat(&mut self, repetition: &'a While) -> Done<()> {
        loop {
            let goes_on = self.value(&repetition.condition)?.truth();
            self.begin()?;
            if !goes_on {
                return Ok(());
            }
            self.statements(&repetition.body)?;
            self.begin()?;
        }
    }

    fn awaits(&mut self, condition: &'a Expr) -> Done<()> {
        let mut again = false;
        loop {
            let is_so = self.value(condition)?.truth();
            self.begin()?;
            if is_so {
                return Ok(());
            }
            self.ask(Action::Await { again })?;
            again = true;
        }
    }

    fn connect(&mut self, connect: &'a Connect) -> Done<()> {
        let values = self.values(&connect.values)?;
        let link = self.load(connect.link)?.link();
        self.begin()?;
        let results = self.ask(Action::Connect(link, self.op(connect.op), values))?;
        self.store(&connect.results, results)
    }

    fn accept(&mut self, accept: &'a Accept) -> Done<()> {
        let link = self.load(accept.link)?.link();
        self.begin()?;
        let values = self.ask(Action::Accept(link, self.op(accept.op)))?;
        let body = self.store(&accept.names, values).and_then(|()| self.statements(&accept.body));
        let body = body.and_then(|()| self.begin());
        self.closed(body)
    }

    fn attempt(&mut self, attempt: &'a Try) -> Done<()> {
        self.begin()?;
        match self.statements(&attempt.body) {
            Err(Leave::Raises(exception)) => self.handle(attempt, exception),
            Err(leave) => Err(leave),
            Ok(()) => {
                self.begin()?;
                self.begin()
            }
        }
    }

    fn handle(&mut self, attempt: &'a Try, exception: Vec<u8>) -> Done<()> {
        for (name, body) in &attempt.handlers {
            self.begin()?;
            if name.of(self.program.source) == exception {
                self.statements(body)?;
                return self.begin();
            }
        }
        self.begin()?;
        Err(Leave::Raises(exception))
    }

    // ------------------------------------------------------------ expressions

    fn values(&mut self, values: &'a [Expr]) -> Done<Vec<Value>> {
        values.iter().map(|value| self.value(value)).collect()
    }

    fn value(&mut self, expression: &'a Expr) -> Done<Value> {
        match &expression.what {
            ExprKind::Bracket(inner) => self.value(inner),
            ExprKind::Name(name, None) => self.load(*name),
            ExprKind::Name(name, Some(index)) => {
                let index = self.value(index)?.int();
                self.begin()?;
                Ok(Value::Int(*self.member(*name, index)?))
            }
            ExprKind::Or(members) => self.chain(members, true),
            ExprKind::And(members) => self.chain(members, false),
            ExprKind::Sum(members) | ExprKind::Term(members) => self.operands(members),
            ExprKind::Relation(relation) => {
                let (first, second) = (self.value(&relation.0)?, self.value(&relation.2)?);
                self.begin()?;
                Ok(Value::Bool(holds(relation.1, &first, &second)))
            }
            ExprKind::Minus(operand) => {
                let number = self.value(operand)?.int();
                self.begin()?;
                number.checked_neg().map_or_else(|| raises(b"OVERFLOW"), |number| Ok(Value::Int(number)))
            }
            ExprKind::Not(operand) => {
                let truth = self.value(operand)?.truth();
                self.begin()?;
                Ok(Value::Bool(!truth))
            }
            _ => {
                self.begin()?;
                Ok(self.literal(expression))
            }
        }
    }

    fn literal(&self, expression: &Expr) -> Value {
        match &expression.what {
            ExprKind::Number(number) => Value::Int(*number),
            ExprKind::Truth(truth) => Value::Bool(*truth),
            ExprKind::Text(text) => {
                let spelled = text.of(self.program.source);
                Value::Text(spelled[1..spelled.len() - 1].to_vec())
            }
            _ => unreachable!("a literal is wanted"),
        }
    }

    /// Where what a chain has decides, the next member is not evaluated.
    fn chain(&mut self, members: &'a [Expr], deciding: bool) -> Done<Value> {
        let mut truth = self.value(&members[0])?.truth();
        for member in &members[1..] {
            self.begin()?;
            if truth != deciding {
                truth = self.value(member)?.truth();
            }
        }
        Ok(Value::Bool(truth))
    }

    fn operands(&mut self, members: &'a [Expr]) -> Done<Value> {
        let mut number = self.value(&members[0])?.int();
        for member in &members[1..] {
            let second = self.value(member)?.int();
            self.begin()?;
            number = computed(member.sign, number, second)?;
        }
        Ok(Value::Int(number))
    }
}

fn computed(sign: Kind, first: i64, second: i64) -> Done<i64> {
    if matches!(sign, Kind::Over | Kind::Mod) && second == 0 {
        return raises(b"DIVIDE");
    }
    let result = match sign {
        Kind::Plus => first.checked_add(second),
        Kind::Minus => first.checked_sub(second),
        Kind::Times => first.checked_mul(second),
        Kind::Over => first.checked_div(second),
        _ => first.checked_rem(second),
    };
    result.map_or_else(|| raises(b"OVERFLOW"), Ok)
}

fn holds(sign: Kind, first: &Value, second: &Value) -> bool {
    match sign {
        Kind::Equal => first == second,
        Kind::Unequal => first != second,
        Kind::Less => first.int() < second.int(),
        Kind::AtMost => first.int() <= second.int(),
        Kind::Greater => first.int() > second.int(),
        _ => first.int() >= second.int(),
    }
}
