//! The code of a module of the language LYNX: its instructions, and how they are made of the tree (docs/CODE.md).

// not each program runs the code
#![allow(dead_code)]

use crate::module::{names, Expr, ExprKind, Kind, Module, Name, Stmt, Table, Try, EXCEPTIONS};

/// The most instructions of a module.
const MOST_CODE: usize = 65_535;

#[derive(Clone, Copy)]
pub enum Literal {
    Int(i64),
    Bool(bool),
    /// By its number among the texts of the code.
    Text(u32),
}

/// An exception, by its place among the names of exceptions.
#[derive(Clone, Copy, PartialEq, Eq)]
pub struct Exception(pub u8);

impl Exception {
    pub const BUSYLINK: Exception = Exception(0);
    pub const DEADLINK: Exception = Exception(1);
    pub const NOLINK: Exception = Exception(2);
    pub const DIVIDE: Exception = Exception(3);
    pub const OVERFLOW: Exception = Exception(4);
    pub const RANGE: Exception = Exception(5);
    pub const FAILED: Exception = Exception(6);
    pub const REPLIED: Exception = Exception(7);
    pub const LINKSFULL: Exception = Exception(8);
}

#[derive(Clone, Copy)]
#[rustfmt::skip]
pub enum Instruction {
    Push(Literal),
    // with a slot
    LoadG(u32), LoadL(u32), AtG(u32), AtL(u32), StoreG(u32), StoreL(u32), PutG(u32), PutL(u32),
    Add, Sub, Mul, Div, Mod, Neg, Eq, Ne, Lt, Le, Gt, Ge, Not,
    // with an address
    AndJ(u16), OrJ(u16), JumpF(u16), Jump(u16), Await(u16), Try(u16),
    Write, New, Destroy, Close, Stop, Untry, Again, End,
    // with the number of an entry
    Bind(u32), Unbind(u32),
    // with the number of an op
    Connect(u32), Accept(u32),
    // with the number of its values
    Reply(u32),
    Raise(Exception),
    Case(Exception, u16),
}

/// A part of the code. The first one is that of the body, and then comes that of each entry.
pub struct Part {
    pub start: u16,
}

pub struct Code {
    pub parts: Vec<Part>,
    /// Each text that is pushed, with its quotes.
    pub texts: Vec<Name>,
    pub instructions: Vec<Instruction>,
}

/// There are more instructions than a module may have.
pub struct TooLong;

type Done = Result<(), TooLong>;

struct Compiler<'a> {
    source: &'a [u8],
    /// Of each name of the module its number among the variables, operations or entries.
    names: Table<'a, u32>,
    locals: Table<'a, u32>,
    texts: Vec<Name>,
    instructions: Vec<Instruction>,
}

/// The code of a module that obeys the typing rules.
pub fn compile(source: &[u8], module: &Module) -> Result<Code, TooLong> {
    let count = module.ops.len() + module.params.len() + module.vars.len() + module.entries.len();
    let mut compiler = Compiler { source, names: names(count), locals: names(0), texts: Vec::new(), instructions: Vec::new() };
    number(&mut compiler.names, source, module.params.iter().chain(&module.vars).map(|var| var.name));
    number(&mut compiler.names, source, module.ops.iter().map(|op| op.name));
    number(&mut compiler.names, source, module.entries.iter().map(|entry| entry.name));
    let mut parts = vec![Part { start: 0 }];
    compiler.body(&module.body)?;
    for entry in &module.entries {
        parts.push(Part { start: compiler.here() });
        compiler.locals = names(entry.parameters.len() + entry.vars.len());
        number(&mut compiler.locals, source, entry.parameters.iter().copied().chain(entry.vars.iter().map(|var| var.name)));
        compiler.body(&entry.body)?;
    }
    Ok(Code { parts, texts: compiler.texts, instructions: compiler.instructions })
}

fn number<'a>(table: &mut Table<'a, u32>, source: &'a [u8], names: impl Iterator<Item = Name>) {
    table.extend(names.map(|name| name.of(source)).zip(0..));
}

impl<'a> Compiler<'a> {
    /// The address of the next instruction.
    fn here(&self) -> u16 {
        self.instructions.len() as u16
    }

    fn emit(&mut self, instruction: Instruction) -> Done {
        if self.instructions.len() == MOST_CODE {
            return Err(TooLong);
        }
        self.instructions.push(instruction);
        Ok(())
    }

    /// Leaves room for an instruction that needs a later address, and gives its place.
    fn room(&mut self) -> Result<usize, TooLong> {
        self.emit(Instruction::Stop)?;
        Ok(self.instructions.len() - 1)
    }

    // ------------------------------------------------------------ names

    fn by_slot(&self, name: Name, global: fn(u32) -> Instruction, local: fn(u32) -> Instruction) -> Instruction {
        let text = name.of(self.source);
        match self.locals.get(text) {
            Some(&slot) => local(slot),
            None => global(self.names[text]),
        }
    }

    fn load(&mut self, name: Name) -> Done {
        self.emit(self.by_slot(name, Instruction::LoadG, Instruction::LoadL))
    }

    fn store(&mut self, name: Name) -> Done {
        self.emit(self.by_slot(name, Instruction::StoreG, Instruction::StoreL))
    }

    /// The last value on the stack is stored first.
    fn stores(&mut self, names: &[Name]) -> Done {
        names.iter().rev().try_for_each(|&name| self.store(name))
    }

    /// The number of an operation or an entry, which no local hides.
    fn number(&self, name: Name) -> u32 {
        self.names[name.of(self.source)]
    }

    fn exception(&self, name: Name) -> Exception {
        let text = name.of(self.source);
        Exception(EXCEPTIONS.iter().position(|&one| one == text).unwrap_or(0) as u8)
    }

    // ------------------------------------------------------------ statements

    /// A body, and its end.
    fn body(&mut self, body: &[Stmt]) -> Done {
        self.statements(body)?;
        self.emit(Instruction::End)
    }

    fn statements(&mut self, statements: &[Stmt]) -> Done {
        statements.iter().try_for_each(|statement| self.statement(statement))
    }

    fn statement(&mut self, statement: &Stmt) -> Done {
        match statement {
            Stmt::Assign(assign) => {
                let Some(index) = &assign.index else {
                    self.expression(&assign.value)?;
                    return self.store(assign.name);
                };
                self.expression(index)?;
                self.expression(&assign.value)?;
                self.emit(self.by_slot(assign.name, Instruction::PutG, Instruction::PutL))
            }
            Stmt::If(choice) => self.choice(&choice.condition, &choice.then, choice.otherwise.as_deref()),
            Stmt::While(repetition) => self.repetition(&repetition.condition, &repetition.body),
            Stmt::Write(value) => {
                self.expression(value)?;
                self.emit(Instruction::Write)
            }
            Stmt::Await(condition) => {
                let again = self.here();
                self.expression(condition)?;
                self.emit(Instruction::Await(again))
            }
            Stmt::Stop => self.emit(Instruction::Stop),
            &Stmt::Raise(name) => self.emit(Instruction::Raise(self.exception(name))),
            &Stmt::New(first, second) => {
                self.emit(Instruction::New)?;
                self.stores(&[first, second])
            }
            &Stmt::Destroy(name) => {
                self.load(name)?;
                self.emit(Instruction::Destroy)
            }
            &Stmt::Bound { link, entry, is_bind } => {
                self.load(link)?;
                let entry = self.number(entry);
                self.emit(if is_bind { Instruction::Bind(entry) } else { Instruction::Unbind(entry) })
            }
            Stmt::Connect(connect) => {
                self.values(&connect.values)?;
                self.load(connect.link)?;
                self.emit(Instruction::Connect(self.number(connect.op)))?;
                self.stores(&connect.results)
            }
            Stmt::Accept(accept) => {
                self.load(accept.link)?;
                self.emit(Instruction::Accept(self.number(accept.op)))?;
                self.stores(&accept.names)?;
                self.statements(&accept.body)?;
                self.emit(Instruction::Close)
            }
            Stmt::Reply { values, .. } => {
                self.values(values)?;
                self.emit(Instruction::Reply(values.len() as u32))
            }
            Stmt::Try(attempt) => self.attempt(attempt),
        }
    }

    fn choice(&mut self, condition: &Expr, then: &[Stmt], otherwise: Option<&[Stmt]>) -> Done {
        self.expression(condition)?;
        let unless = self.room()?;
        self.statements(then)?;
        if let Some(otherwise) = otherwise {
            let over = self.room()?;
            self.instructions[unless] = Instruction::JumpF(self.here());
            self.statements(otherwise)?;
            self.instructions[over] = Instruction::Jump(self.here());
        } else {
            self.instructions[unless] = Instruction::JumpF(self.here());
        }
        Ok(())
    }

    fn repetition(&mut self, condition: &Expr, body: &[Stmt]) -> Done {
        let again = self.here();
        self.expression(condition)?;
        let unless = self.room()?;
        self.statements(body)?;
        self.emit(Instruction::Jump(again))?;
        self.instructions[unless] = Instruction::JumpF(self.here());
        Ok(())
    }

    fn attempt(&mut self, attempt: &Try) -> Done {
        let start = self.room()?;
        self.statements(&attempt.body)?;
        self.emit(Instruction::Untry)?;
        let mut ends = vec![self.room()?];
        self.instructions[start] = Instruction::Try(self.here());
        for (name, body) in &attempt.handlers {
            let case = self.room()?;
            self.statements(body)?;
            ends.push(self.room()?);
            self.instructions[case] = Instruction::Case(self.exception(*name), self.here());
        }
        self.emit(Instruction::Again)?;
        for end in ends {
            self.instructions[end] = Instruction::Jump(self.here());
        }
        Ok(())
    }

    // ------------------------------------------------------------ expressions

    fn values(&mut self, values: &[Expr]) -> Done {
        values.iter().try_for_each(|value| self.expression(value))
    }

    fn expression(&mut self, expression: &Expr) -> Done {
        match &expression.what {
            ExprKind::Number(number) => self.emit(Instruction::Push(Literal::Int(*number))),
            ExprKind::Text(text) => {
                self.texts.push(*text);
                self.emit(Instruction::Push(Literal::Text(self.texts.len() as u32 - 1)))
            }
            ExprKind::Truth(truth) => self.emit(Instruction::Push(Literal::Bool(*truth))),
            ExprKind::Bracket(inner) => self.expression(inner),
            ExprKind::Name(name, None) => self.load(*name),
            ExprKind::Name(name, Some(index)) => {
                self.expression(index)?;
                self.emit(self.by_slot(*name, Instruction::AtG, Instruction::AtL))
            }
            ExprKind::Sum(members) | ExprKind::Term(members) => self.operands(members),
            ExprKind::Or(members) => self.chain(members, Instruction::OrJ),
            ExprKind::And(members) => self.chain(members, Instruction::AndJ),
            ExprKind::Minus(operand) => {
                self.expression(operand)?;
                self.emit(Instruction::Neg)
            }
            ExprKind::Not(operand) => {
                self.expression(operand)?;
                self.emit(Instruction::Not)
            }
            ExprKind::Relation(relation) => {
                let (first, sign, second) = &**relation;
                self.expression(first)?;
                self.expression(second)?;
                self.emit(operator(*sign))
            }
        }
    }

    fn operands(&mut self, members: &[Expr]) -> Done {
        self.expression(&members[0])?;
        for member in &members[1..] {
            self.expression(member)?;
            self.emit(operator(member.sign))?;
        }
        Ok(())
    }

    /// What stands on the stack decides, or else the next member: the jump goes behind that.
    fn chain(&mut self, members: &[Expr], jump: fn(u16) -> Instruction) -> Done {
        self.expression(&members[0])?;
        for member in &members[1..] {
            let decides = self.room()?;
            self.expression(member)?;
            self.instructions[decides] = jump(self.here());
        }
        Ok(())
    }
}

fn operator(sign: Kind) -> Instruction {
    match sign {
        Kind::Plus => Instruction::Add,
        Kind::Minus => Instruction::Sub,
        Kind::Times => Instruction::Mul,
        Kind::Over => Instruction::Div,
        Kind::Mod => Instruction::Mod,
        Kind::Equal => Instruction::Eq,
        Kind::Unequal => Instruction::Ne,
        Kind::Less => Instruction::Lt,
        Kind::AtMost => Instruction::Le,
        Kind::Greater => Instruction::Gt,
        _ => Instruction::Ge,
    }
}
