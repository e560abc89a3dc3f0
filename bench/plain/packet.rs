//! Run-time packets and their bytes, as the plain programs read and write them.

// not each program uses each part
#![allow(dead_code)]

const MOST_BYTES: usize = 256;
const MOST_NAME: usize = 32;
const MOST_TEXT: usize = 64;
const MOST_LINKS: usize = 8;

// ---------------------------------------------------------------- packets

#[derive(Clone, PartialEq)]
pub enum Value {
    Int(i64),
    Bool(bool),
    Text(Vec<u8>),
    Row(Vec<i64>),
    Link,
}

pub enum Packet {
    Request { number: u32, signature: Vec<u8>, values: Vec<Value> },
    Reply { number: u32, status: u8, values: Vec<Value> },
    Retry(u32),
    Forbid(u32),
    Allow(u32),
    GoAhead(u32),
    Enc { kind: u8, number: u32, index: u8 },
}

#[derive(Clone, Copy, PartialEq, Eq)]
pub enum Type {
    Int,
    Bool,
    Text,
    Row(usize),
    Link,
}

// ---------------------------------------------------------------- reading

struct Reader<'a> {
    rest: &'a [u8],
}

impl<'a> Reader<'a> {
    fn byte(&mut self) -> Option<u8> {
        let (first, rest) = self.rest.split_first()?;
        self.rest = rest;
        Some(*first)
    }

    fn bytes(&mut self, count: usize) -> Option<&'a [u8]> {
        if count > self.rest.len() {
            return None;
        }
        let (front, rest) = self.rest.split_at(count);
        self.rest = rest;
        Some(front)
    }

    fn number(&mut self) -> Option<u32> {
        Some(u32::from_be_bytes(self.bytes(4)?.try_into().ok()?))
    }

    fn int(&mut self) -> Option<i64> {
        Some(i64::from_be_bytes(self.bytes(8)?.try_into().ok()?))
    }

    fn value(&mut self) -> Option<Value> {
        Some(match self.byte()? {
            1 => Value::Int(self.int()?),
            2 => match self.byte()? {
                0 => Value::Bool(false),
                1 => Value::Bool(true),
                _ => return None,
            },
            3 => {
                let size = usize::from(self.byte()?);
                if size > MOST_TEXT {
                    return None;
                }
                Value::Text(self.bytes(size)?.to_vec())
            }
            4 => {
                let size = usize::from(self.byte()?);
                if !(1..=16).contains(&size) {
                    return None;
                }
                let numbers = self.bytes(8 * size)?;
                Value::Row(numbers.chunks_exact(8).map(|number| i64::from_be_bytes(number.try_into().unwrap())).collect())
            }
            5 => Value::Link,
            _ => return None,
        })
    }

    fn typed(&mut self, kind: Type) -> Option<Value> {
        let value = self.value()?;
        let fits = match (&value, kind) {
            (Value::Int(_), Type::Int) | (Value::Bool(_), Type::Bool) | (Value::Text(_), Type::Text) | (Value::Link, Type::Link) => true,
            (Value::Row(row), Type::Row(size)) => row.len() == size,
            _ => false,
        };
        fits.then_some(value)
    }

    fn request(&mut self) -> Option<Packet> {
        let number = self.number()?;
        let size = usize::from(self.byte()?);
        let signature = self.bytes(size)?;
        let mut values = Vec::new();
        for kind in arguments(signature)? {
            values.push(self.typed(kind)?);
        }
        Some(Packet::Request { number, signature: signature.to_vec(), values })
    }

    fn reply(&mut self) -> Option<Packet> {
        let number = self.number()?;
        let status = self.byte()?;
        let (mut values, mut links) = (Vec::new(), 0);
        while status == 0 && !self.rest.is_empty() {
            let value = self.value()?;
            links += usize::from(matches!(value, Value::Link));
            values.push(value);
        }
        (status <= 1 && links <= MOST_LINKS).then_some(Packet::Reply { number, status, values })
    }

    fn enc(&mut self) -> Option<Packet> {
        let (kind, number, index) = (self.byte()?, self.number()?, self.byte()?);
        ((1..=2).contains(&kind) && (2..=8).contains(&index)).then_some(Packet::Enc { kind, number, index })
    }

    fn packet(&mut self, version: u8) -> Option<Packet> {
        match self.byte()? {
            1 => self.request(),
            2 => self.reply(),
            3 => self.number().map(Packet::Retry),
            4 => self.number().map(Packet::Forbid),
            5 => self.number().map(Packet::Allow),
            6 if version == 1 => self.number().map(Packet::GoAhead),
            7 if version == 1 => self.enc(),
            _ => None,
        }
    }
}

/// The packet that all of the bytes spell.
pub fn decode(version: u8, bytes: &[u8]) -> Option<Packet> {
    let mut reader = Reader { rest: bytes };
    let packet = reader.packet(version)?;
    reader.rest.is_empty().then_some(packet)
}

// ---------------------------------------------------------------- signatures

#[rustfmt::skip]
fn is_keyword(word: &[u8]) -> bool {
    matches!(word,
        b"module" | b"begin" | b"end" | b"op" | b"param" | b"var" | b"entry" | b"of" | b"int" | b"bool" | b"text" | b"link" | b"row" | b"if"
        | b"then" | b"else" | b"while" | b"do" | b"write" | b"await" | b"stop" | b"raise" | b"new" | b"destroy" | b"bind" | b"to" | b"unbind"
        | b"from" | b"connect" | b"on" | b"accept" | b"reply" | b"try" | b"when" | b"or" | b"and" | b"mod" | b"not" | b"true" | b"false")
}

fn is_name(word: &[u8]) -> bool {
    word.len() <= MOST_NAME
        && word.first().is_some_and(u8::is_ascii_alphabetic)
        && word.iter().all(|byte| byte.is_ascii_alphanumeric() || *byte == b'_')
        && !is_keyword(word)
}

fn type_of(word: &[u8]) -> Option<Type> {
    Some(match word {
        b"int" => Type::Int,
        b"bool" => Type::Bool,
        b"text" => Type::Text,
        b"link" => Type::Link,
        [b'r', b'o', b'w', digit @ b'1'..=b'9'] => Type::Row(usize::from(digit - b'0')),
        [b'r', b'o', b'w', b'1', digit @ b'0'..=b'6'] => Type::Row(usize::from(digit - b'0') + 10),
        _ => return None,
    })
}

/// The types of a list, with a bracket behind it.
fn types(list: &[u8]) -> Option<Vec<Type>> {
    let inner = list.strip_suffix(b")")?;
    if inner.is_empty() {
        return Some(Vec::new());
    }
    inner.split(|byte| *byte == b',').map(type_of).collect()
}

/// The types of the arguments, if this is a signature.
fn arguments(signature: &[u8]) -> Option<Vec<Type>> {
    let open = signature.iter().position(|byte| *byte == b'(')?;
    let colon = signature.iter().position(|byte| *byte == b':')?;
    if colon < open {
        return None;
    }
    let arguments = types(&signature[open + 1..colon])?;
    let results = types(signature[colon + 1..].strip_prefix(b"(")?)?;
    let few = |list: &[Type]| list.iter().filter(|kind| **kind == Type::Link).count() <= MOST_LINKS;
    (is_name(&signature[..open]) && few(&arguments) && few(&results)).then_some(arguments)
}

// ---------------------------------------------------------------- writing

pub struct Room {
    bytes: [u8; MOST_BYTES],
    used: usize,
}

impl Room {
    pub fn as_slice(&self) -> &[u8] {
        &self.bytes[..self.used]
    }
}

impl Room {
    fn put(&mut self, bytes: &[u8]) -> Option<()> {
        self.bytes.get_mut(self.used..self.used + bytes.len())?.copy_from_slice(bytes);
        self.used += bytes.len();
        Some(())
    }

    fn number(&mut self, tag: u8, number: u32) -> Option<()> {
        self.put(&[tag])?;
        self.put(&number.to_be_bytes())
    }

    fn value(&mut self, value: &Value) -> Option<()> {
        match value {
            Value::Int(number) => {
                self.put(&[1])?;
                self.put(&number.to_be_bytes())
            }
            Value::Bool(value) => self.put(&[2, u8::from(*value)]),
            Value::Text(text) => {
                self.put(&[3, text.len() as u8])?;
                self.put(text)
            }
            Value::Row(row) => {
                self.put(&[4, row.len() as u8])?;
                row.iter().try_for_each(|number| self.put(&number.to_be_bytes()))
            }
            Value::Link => self.put(&[5]),
        }
    }

    fn packet(&mut self, packet: &Packet) -> Option<()> {
        match packet {
            Packet::Request { number, signature, values } => {
                self.number(1, *number)?;
                self.put(&[signature.len() as u8])?;
                self.put(signature)?;
                values.iter().try_for_each(|value| self.value(value))
            }
            Packet::Reply { number, status, values } => {
                self.number(2, *number)?;
                self.put(&[*status])?;
                values.iter().try_for_each(|value| self.value(value))
            }
            Packet::Retry(number) => self.number(3, *number),
            Packet::Forbid(number) => self.number(4, *number),
            Packet::Allow(number) => self.number(5, *number),
            Packet::GoAhead(number) => self.number(6, *number),
            Packet::Enc { kind, number, index } => {
                self.put(&[7])?;
                self.number(*kind, *number)?;
                self.put(&[*index])
            }
        }
    }
}

/// The bytes of a packet, if they are at most 256.
pub fn encode(packet: &Packet) -> Option<Room> {
    let mut room = Room { bytes: [0; MOST_BYTES], used: 0 };
    room.packet(packet)?;
    Some(room)
}
