// What the plain programs on kernels share: the words of calls, kernels and their events, and the lines of an event.
//
// A program takes it in by `include!`, so that it stays one file of code with the standard library alone.

use std::collections::{HashMap, VecDeque};
use std::fs::File;
use std::hash::{BuildHasherDefault, Hasher};
use std::io::Read;
use std::mem;
use std::process::exit;

const MOST_KERNELS: usize = 8;
const MOST_PROCESSES: usize = 64;
const MOST_WIRES: usize = 4096;
const MOST_LINKS: u32 = 65_536;
const MOST_TEXT: usize = 256;
const MOST_ENCLOSED: usize = 8;

// ---------------------------------------------------------------- ends

/// An end in one word: the maker, the count and the side, so that the order of the words is that of (maker, count, side).
#[derive(Clone, Copy, PartialEq, Eq, PartialOrd, Ord)]
struct End(u64);

impl End {
    fn new(maker: u8, count: u32, side: u8) -> End {
        End(u64::from(maker) << 33 | u64::from(count) << 1 | u64::from(side))
    }

    fn opposite(self) -> End {
        End(self.0 ^ 1)
    }

    fn is_of_link_of(self, other: End) -> bool {
        self.0 >> 1 == other.0 >> 1
    }
}

impl std::hash::Hash for End {
    fn hash<H: Hasher>(&self, state: &mut H) {
        state.write_u64(self.0);
    }
}

/// One multiplication: the names of ends are counts, which no script can choose freely.
#[derive(Default)]
struct EndHasher(u64);

impl Hasher for EndHasher {
    fn write(&mut self, _: &[u8]) {
        unreachable!("an end is hashed as one word")
    }

    fn write_u64(&mut self, word: u64) {
        let mixed = word.wrapping_mul(0x9E37_79B9_7F4A_7C15);
        self.0 = mixed ^ mixed >> 32;
    }

    fn finish(&self) -> u64 {
        self.0
    }
}

// ---------------------------------------------------------------- calls

type Bytes = Box<[u8]>;
type Ends = Box<[End]>;

#[derive(Clone)]
struct Message {
    bytes: Bytes,
    enclosed: Ends,
}

enum Call {
    Make,
    Destroy(End),
    Send(End, Box<Message>),
    Receive(End),
    CancelOut(End),
    CancelIn(End),
    Wait,
    Print(Bytes),
    Exit,
}

struct Setting {
    version: u8,
    kernels: u8,
    homes: Vec<u8>,
    wires: Vec<(u8, u8)>,
}

const NO_FORM: u8 = 1;

/// A decimal number without leading zeros; one that is too large is the greatest.
fn number(word: &[u8]) -> Result<u64, u8> {
    if word.is_empty() || (word[0] == b'0' && word.len() > 1) {
        return Err(NO_FORM);
    }
    let mut value = 0u64;
    for &byte in word {
        if !byte.is_ascii_digit() {
            return Err(NO_FORM);
        }
        value = value.saturating_mul(10).saturating_add(u64::from(byte - b'0'));
    }
    Ok(value)
}

fn end_word(word: &[u8]) -> Result<End, u8> {
    let (side, link) = match word.split_last() {
        Some((b'a', link)) => (0, link),
        Some((b'b', link)) => (1, link),
        _ => return Err(NO_FORM),
    };
    let dot = link.iter().position(|&byte| byte == b'.').ok_or(NO_FORM)?;
    let maker = u8::try_from(number(&link[..dot])?).map_err(|_| NO_FORM)?;
    let count = u32::try_from(number(&link[dot + 1..])?).map_err(|_| NO_FORM)?;
    Ok(End::new(maker, count, side))
}

fn is_plain(byte: u8) -> bool {
    byte.is_ascii_alphanumeric() || byte == b'_' || byte == b'.'
}

fn hexadecimal(digit: u8) -> Result<u8, u8> {
    match digit {
        b'0'..=b'9' => Ok(digit - b'0'),
        b'A'..=b'F' => Ok(digit - b'A' + 10),
        _ => Err(NO_FORM),
    }
}

fn text_word(word: &[u8]) -> Result<Bytes, u8> {
    match word {
        b"" => return Err(NO_FORM),
        b"-" => return Ok(Box::default()),
        _ => {}
    }
    let mut bytes = Vec::with_capacity(word.len());
    let mut at = 0;
    while at < word.len() {
        if is_plain(word[at]) {
            bytes.push(word[at]);
            at += 1;
        } else if word[at] == b'%' && at + 2 < word.len() {
            let byte = hexadecimal(word[at + 1])? << 4 | hexadecimal(word[at + 2])?;
            if is_plain(byte) {
                return Err(NO_FORM);
            }
            bytes.push(byte);
            at += 3;
        } else {
            return Err(NO_FORM);
        }
    }
    Ok(bytes.into_boxed_slice())
}

type Words<'a> = std::slice::Split<'a, u8, fn(&u8) -> bool>;

fn words(line: &[u8]) -> Words<'_> {
    line.split((|&byte| byte == b' ') as fn(&u8) -> bool)
}

fn next_end(words: &mut Words) -> Result<End, u8> {
    end_word(words.next().ok_or(NO_FORM)?)
}

fn next_is(words: &mut Words, want: &[u8]) -> Result<(), u8> {
    if words.next() == Some(want) {
        Ok(())
    } else {
        Err(NO_FORM)
    }
}

fn none_left(words: &mut Words) -> Result<(), u8> {
    if words.next().is_none() {
        Ok(())
    } else {
        Err(NO_FORM)
    }
}

fn send_call(words: &mut Words, most: usize) -> Result<Call, u8> {
    let on = next_end(words)?;
    let bytes = text_word(words.next().ok_or(NO_FORM)?)?;
    let mut enclosed = Vec::new();
    for word in words {
        enclosed.push(end_word(word.strip_prefix(b"+").ok_or(NO_FORM)?)?);
        if enclosed.len() > most {
            return Err(NO_FORM);
        }
    }
    Ok(Call::Send(on, Box::new(Message { bytes, enclosed: enclosed.into_boxed_slice() })))
}

fn cancel_call(words: &mut Words) -> Result<Call, u8> {
    let on = next_end(words)?;
    match words.next() {
        Some(b"out") => Ok(Call::CancelOut(on)),
        Some(b"in") => Ok(Call::CancelIn(on)),
        _ => Err(NO_FORM),
    }
}

fn call(words: &mut Words, most_enclosed: usize) -> Result<Call, u8> {
    let call = match words.next().ok_or(NO_FORM)? {
        b"make" => Call::Make,
        b"destroy" => Call::Destroy(next_end(words)?),
        b"send" => send_call(words, most_enclosed)?,
        b"receive" => Call::Receive(next_end(words)?),
        b"cancel" => cancel_call(words)?,
        b"wait" => Call::Wait,
        b"print" => Call::Print(text_word(words.next().ok_or(NO_FORM)?)?),
        b"exit" => Call::Exit,
        _ => return Err(NO_FORM),
    };
    none_left(words)?;
    Ok(call)
}

impl Call {
    fn text_length(&self) -> usize {
        match self {
            Call::Send(_, message) => message.bytes.len(),
            Call::Print(bytes) => bytes.len(),
            _ => 0,
        }
    }
}

// ---------------------------------------------------------------- text

fn put_number(text: &mut Vec<u8>, mut value: u64) {
    if value < 10 {
        return text.push(b'0' + value as u8);
    }
    let mut digits = [0; 20];
    let mut at = digits.len();
    while value > 0 {
        at -= 1;
        digits[at] = b'0' + (value % 10) as u8;
        value /= 10;
    }
    text.extend_from_slice(&digits[at..]);
}

fn put_word(text: &mut Vec<u8>, value: u64) {
    text.push(b' ');
    put_number(text, value);
}

fn put_end(text: &mut Vec<u8>, end: End) {
    put_number(text, end.0 >> 33);
    text.push(b'.');
    put_number(text, u64::from((end.0 >> 1) as u32));
    text.push(b'a' + (end.0 & 1) as u8);
}

fn put_bytes(text: &mut Vec<u8>, bytes: &[u8]) {
    text.push(b' ');
    if bytes.is_empty() {
        return text.push(b'-');
    }
    for &byte in bytes {
        if is_plain(byte) {
            text.push(byte);
        } else {
            let digit = |value: u8| b"0123456789ABCDEF"[usize::from(value)];
            text.extend_from_slice(&[b'%', digit(byte >> 4), digit(byte & 15)]);
        }
    }
}

fn put_ends(text: &mut Vec<u8>, ends: &[End]) {
    for &end in ends {
        text.extend_from_slice(b" +");
        put_end(text, end);
    }
}

fn put_values(text: &mut Vec<u8>, values: &[Moving]) {
    for value in values {
        text.extend_from_slice(b" +");
        put_end(text, value.end);
        let fields = [
            value.hops,
            u32::from(value.hint),
            value.hint_hops,
            value.sent,
            value.asked,
            value.served,
            value.want,
            u32::from(value.is_dead),
            u32::from(value.trail),
        ];
        for field in fields {
            text.push(b':');
            put_number(text, u64::from(field));
        }
    }
}

/// The texts of a kernel's events, one behind the other.
#[derive(Clone, Default)]
struct Journal {
    text: Vec<u8>,
    entries: Vec<(u64, u32)>,
}

impl Journal {
    fn begin(&mut self, stamp: u64, kernel: u8) {
        put_number(&mut self.text, stamp);
        self.text.extend_from_slice(&[b' ', b'k', b'0' + kernel, b' ']);
    }

    fn call(&mut self, p: u8, call: &Call) {
        let text = &mut self.text;
        text.push(b'p');
        put_number(text, u64::from(p));
        let (name, on): (&[u8], _) = match call {
            Call::Make => (b" make", None),
            Call::Destroy(on) => (b" destroy ", Some(*on)),
            Call::Send(on, _) => (b" send ", Some(*on)),
            Call::Receive(on) => (b" receive ", Some(*on)),
            Call::CancelOut(on) | Call::CancelIn(on) => (b" cancel ", Some(*on)),
            Call::Wait => (b" wait", None),
            Call::Print(_) => (b" print", None),
            Call::Exit => (b" exit", None),
        };
        text.extend_from_slice(name);
        if let Some(on) = on {
            put_end(text, on);
        }
        match call {
            Call::Send(_, message) => {
                put_bytes(text, &message.bytes);
                put_ends(text, &message.enclosed);
            }
            Call::CancelOut(_) => text.extend_from_slice(b" out"),
            Call::CancelIn(_) => text.extend_from_slice(b" in"),
            Call::Print(bytes) => put_bytes(text, bytes),
            _ => {}
        }
        text.push(b'\n');
    }

    fn packet(&mut self, from: u8, what: &What) {
        let text = &mut self.text;
        text.extend_from_slice(&[b'f', b'r', b'o', b'm', b' ', b'0' + from, b' ']);
        let (name, to): (&[u8], _) = match what {
            What::Want(ask) => (b"want ", ask.to),
            What::Unwant(ask) => (b"unwant ", ask.to),
            What::Unwanted(ask) => (b"unwanted ", ask.to),
            What::Parcel(parcel) => (b"parcel ", parcel.to),
            What::Taken { to, .. } => (b"taken ", *to),
            What::Back { to, .. } => (b"back ", *to),
            What::Gone { to, .. } => (b"gone ", *to),
            What::Moved { to, .. } => (b"moved ", *to),
            What::Known { to, .. } => (b"known ", *to),
            What::Forget { to, .. } => (b"forget ", *to),
            What::GoneSeen { to } => (b"goneseen ", *to),
        };
        text.extend_from_slice(name);
        put_end(text, to);
        self.fields(what);
        self.text.push(b'\n');
    }

    fn fields(&mut self, what: &What) {
        let text = &mut self.text;
        match what {
            What::Want(ask) | What::Unwant(ask) | What::Unwanted(ask) => {
                put_word(text, u64::from(ask.w));
                put_word(text, u64::from(ask.at));
                put_word(text, u64::from(ask.hops));
            }
            What::Parcel(parcel) => {
                put_word(text, u64::from(parcel.n));
                put_word(text, u64::from(parcel.w));
                put_word(text, u64::from(parcel.at));
                put_word(text, u64::from(parcel.hops));
                put_bytes(text, &parcel.bytes);
                put_values(text, &parcel.moving);
            }
            What::Taken { n, at, hops, .. } => {
                put_word(text, u64::from(*n));
                put_word(text, u64::from(*at));
                put_word(text, u64::from(*hops));
            }
            What::Back { n, moving, .. } => {
                put_word(text, u64::from(*n));
                put_values(text, moving);
            }
            What::Gone { at, .. } => put_word(text, u64::from(*at)),
            What::Moved { at, hops, .. } => {
                put_word(text, u64::from(*at));
                put_word(text, u64::from(*hops));
            }
            What::Known { hops, .. } | What::Forget { hops, .. } => put_word(text, u64::from(*hops)),
            What::GoneSeen { .. } => {}
        }
    }

    /// The lines of an event are there.
    fn finish(&mut self, stamp: u64, from: usize) {
        self.entries.push((stamp, (self.text.len() - from) as u32));
    }

    /// A service line up to its end.
    fn step(&mut self, name: &[u8], end: End) {
        self.text.extend_from_slice(b". ");
        self.text.extend_from_slice(name);
        self.text.push(b' ');
        put_end(&mut self.text, end);
    }

    fn whole_step(&mut self, name: &[u8], end: End) {
        self.step(name, end);
        self.text.push(b'\n');
    }

    fn numbered_step(&mut self, name: &[u8], end: End, n: u32) {
        self.step(name, end);
        put_word(&mut self.text, u64::from(n));
        self.text.push(b'\n');
    }

    fn ending(&mut self, is_so: bool, suffix: &[u8]) {
        if is_so {
            self.text.extend_from_slice(suffix);
        }
        self.text.push(b'\n');
    }

    fn process_step(&mut self, name: &[u8], p: u8, rest: &[u8]) {
        let text = &mut self.text;
        text.extend_from_slice(b". ");
        text.extend_from_slice(name);
        text.extend_from_slice(b" p");
        put_number(text, u64::from(p));
        text.extend_from_slice(rest);
        text.push(b'\n');
    }

    fn report(&mut self, p: u8, report: &Report) {
        let text = &mut self.text;
        text.extend_from_slice(b". report p");
        put_number(text, u64::from(p));
        text.push(b' ');
        put_end(text, report.on);
        text.extend_from_slice(match (report.is_inward, report.is_done) {
            (false, true) => b" out done",
            (false, false) => b" out destroyed",
            (true, true) => b" in done",
            (true, false) => b" in destroyed",
        });
        if report.is_inward && report.is_done {
            put_bytes(text, &report.bytes);
        }
        put_ends(text, &report.enclosed);
        text.push(b'\n');
    }
}

// ---------------------------------------------------------------- kernels

#[derive(Clone, Copy)]
struct Moving {
    end: End,
    hops: u32,
    hint_hops: u32,
    sent: u32,
    asked: u32,
    served: u32,
    want: u32,
    hint: u8,
    trail: u8,
    is_dead: bool,
}

impl Moving {
    fn new(end: End, hint: u8) -> Moving {
        Moving { end, hops: 0, hint_hops: 0, sent: 0, asked: 0, served: 0, want: 0, hint, trail: 0, is_dead: false }
    }

    /// LEARN without its packets: whether the hint rose.
    fn learn(&mut self, at: u8, hops: u32) -> bool {
        let rose = hops > self.hint_hops;
        if rose {
            (self.hint, self.hint_hops) = (at, hops);
        }
        rose
    }
}

#[derive(Clone, Copy, PartialEq)]
enum Holder {
    Owner(u8),
    Message,
}

/// The number of the send is the end's `sent`.
#[derive(Clone)]
enum Outward {
    Idle,
    Waiting(Box<Message>),
    Matched,
    Unreported,
}

/// The number of the receive is the end's `asked`.
#[derive(Clone, Copy, PartialEq)]
enum Inward {
    Idle,
    Posted,
    Withdrawing,
    Unreported,
}

#[derive(Clone)]
struct Here {
    moving: Moving,
    holder: Holder,
    outward: Outward,
    inward: Inward,
}

impl Here {
    fn new(moving: Moving, holder: Holder) -> Here {
        Here { moving, holder, outward: Outward::Idle, inward: Inward::Idle }
    }

    fn owner(&self) -> usize {
        match self.holder {
            Holder::Owner(p) => usize::from(p),
            Holder::Message => unreachable!("an end with an activity has an owner"),
        }
    }

    fn is_idle(&self) -> bool {
        matches!(self.outward, Outward::Idle) && self.inward == Inward::Idle
    }

    fn is_sending(&self) -> bool {
        matches!(self.outward, Outward::Waiting(_) | Outward::Matched)
    }

    fn is_receiving(&self) -> bool {
        matches!(self.inward, Inward::Posted | Inward::Withdrawing)
    }
}

#[derive(Clone)]
enum Entry {
    Here(Here),
    Left { to: u8, hops: u32 },
    Destroyed(Moving),
}

type Table = HashMap<End, Entry, BuildHasherDefault<EndHasher>>;

fn here(table: &mut Table, end: End) -> Option<&mut Here> {
    match table.get_mut(&end) {
        Some(Entry::Here(here)) => Some(here),
        _ => None,
    }
}

fn owned(table: &mut Table, p: u8, end: End) -> Option<&mut Here> {
    here(table, end).filter(|here| here.holder == Holder::Owner(p))
}

#[derive(Clone)]
struct Report {
    on: End,
    is_inward: bool,
    is_done: bool,
    bytes: Bytes,
    enclosed: Ends,
}

impl Report {
    fn destroyed(on: End, is_inward: bool, enclosed: Ends) -> Report {
        Report { on, is_inward, is_done: false, bytes: Box::default(), enclosed }
    }
}

/// The answer to a call, if it is there at once, or why it is refused.
type Outcome = Result<Option<Answer>, &'static [u8]>;

/// What a process is told of its call.
// not each program has processes that hear it
#[allow(dead_code)]
#[derive(Clone)]
enum Answer {
    Ok,
    Made(End, End),
    Reported(Report),
    Refused(&'static [u8]),
}

#[derive(Clone, Copy, PartialEq)]
enum State {
    Running,
    InWait,
    InCancel,
    Exited,
}

#[derive(Clone)]
struct Process {
    home: u8,
    state: State,
    /// How many activities are started on its ends.
    started: u32,
    reports: VecDeque<Report>,
    /// The answer to its last call, where it has come and the process did not go on with it yet.
    answer: Option<Answer>,
}

/// A want, unwant or unwanted.
#[derive(Clone)]
struct Ask {
    to: End,
    w: u32,
    at: u8,
    hops: u32,
}

#[derive(Clone)]
struct Parcel {
    to: End,
    n: u32,
    w: u32,
    at: u8,
    hops: u32,
    bytes: Bytes,
    moving: Box<[Moving]>,
}

#[derive(Clone)]
enum What {
    Want(Ask),
    Unwant(Ask),
    Unwanted(Ask),
    Parcel(Box<Parcel>),
    Taken { to: End, n: u32, at: u8, hops: u32 },
    Back { to: End, n: u32, moving: Box<[Moving]> },
    Gone { to: End, at: u8 },
    Moved { to: End, at: u8, hops: u32 },
    Known { to: End, hops: u32 },
    Forget { to: End, hops: u32 },
    GoneSeen { to: End },
}

#[derive(Clone)]
struct Packet {
    stamp: u64,
    what: What,
}

/// A list for each pair of kernels, and a bit for each that is not empty, in order of (from, to).
#[derive(Clone)]
struct Net {
    lists: Vec<VecDeque<Packet>>,
    filled: u64,
}

impl Net {
    fn place(from: u8, to: u8) -> usize {
        usize::from(from) * MOST_KERNELS + usize::from(to)
    }

    fn put(&mut self, place: usize, packet: Packet) {
        self.lists[place].push_back(packet);
        self.filled |= 1 << place;
    }

    fn get(&mut self, place: usize) -> Option<Packet> {
        let packet = self.lists[place].pop_front();
        if self.lists[place].is_empty() {
            self.filled &= !(1 << place);
        }
        packet
    }
}

#[derive(Clone)]
struct Kernel {
    id: u8,
    stamp: u64,
    made: u32,
    table: Table,
    journal: Journal,
}

/// An event at a kernel.
struct Event<'a> {
    kernel: &'a mut Kernel,
    processes: &'a mut [Process],
    net: &'a mut Net,
    stamp: u64,
}

const THERE: &str = "the end is here";

impl Event<'_> {
    fn send(&mut self, to: u8, what: What) {
        self.net.put(Net::place(self.kernel.id, to), Packet { stamp: self.stamp, what });
    }

    // ------------------------------------------------------------ calls

    fn ask(&mut self, p: u8, call: Call) {
        let from = self.kernel.journal.text.len();
        self.kernel.journal.begin(self.stamp, self.kernel.id);
        self.kernel.journal.call(p, &call);
        let outcome = match call {
            Call::Make => self.make(p),
            Call::Destroy(on) => self.destroy(p, on),
            Call::Send(on, message) => self.start_send(p, on, message),
            Call::Receive(on) => self.post(p, on),
            Call::CancelOut(on) => self.cancel_out(p, on),
            Call::CancelIn(on) => self.cancel_in(p, on),
            Call::Wait => self.wait(p),
            Call::Print(_) => Ok(Some(Answer::Ok)),
            Call::Exit => self.exit(p),
        };
        match outcome {
            Ok(None) => {}
            Ok(answer) => self.answer(usize::from(p), answer),
            Err(cause) => {
                self.kernel.journal.process_step(b"refuse", p, cause);
                self.answer(usize::from(p), Some(Answer::Refused(cause)));
            }
        }
        self.kernel.journal.finish(self.stamp, from);
    }

    fn answer(&mut self, p: usize, answer: Option<Answer>) {
        self.processes[p].answer = answer;
    }

    fn make(&mut self, p: u8) -> Outcome {
        let kernel = &mut *self.kernel;
        if kernel.made == MOST_LINKS {
            return Err(b" LinksFull");
        }
        let a = End::new(kernel.id, kernel.made, 0);
        kernel.made += 1;
        for end in [a, a.opposite()] {
            kernel.table.insert(end, Entry::Here(Here::new(Moving::new(end, kernel.id), Holder::Owner(p))));
        }
        kernel.journal.step(b"make", a);
        kernel.journal.text.push(b' ');
        put_end(&mut kernel.journal.text, a.opposite());
        kernel.journal.text.push(b'\n');
        Ok(Some(Answer::Made(a, a.opposite())))
    }

    fn destroy(&mut self, p: u8, on: End) -> Outcome {
        if owned(&mut self.kernel.table, p, on).is_none() {
            return Err(b" NoEnd");
        }
        self.kernel.journal.whole_step(b"destroy", on);
        self.end(on);
        Ok(Some(Answer::Ok))
    }

    fn may_send(&mut self, p: u8, on: End, enclosed: &[End]) -> Result<(), &'static [u8]> {
        let table = &mut self.kernel.table;
        let here = owned(table, p, on).ok_or(&b" NoEnd"[..])?;
        if !matches!(here.outward, Outward::Idle) {
            return Err(b" Busy");
        }
        if here.moving.is_dead {
            return Err(b" Dead");
        }
        let mut are_idle = true;
        for &end in enclosed {
            are_idle &= owned(table, p, end).ok_or(&b" EncloseNoEnd"[..])?.is_idle();
        }
        if !are_idle {
            return Err(b" EncloseBusy");
        }
        if enclosed.iter().any(|end| end.is_of_link_of(on)) {
            return Err(b" EncloseSame");
        }
        let is_twice = |(i, end)| enclosed[..i].contains(end);
        if enclosed.iter().enumerate().any(is_twice) {
            Err(b" EncloseTwice")
        } else {
            Ok(())
        }
    }

    fn start_send(&mut self, p: u8, on: End, message: Box<Message>) -> Outcome {
        self.may_send(p, on, &message.enclosed)?;
        for &end in &message.enclosed {
            here(&mut self.kernel.table, end).expect(THERE).holder = Holder::Message;
        }
        self.processes[usize::from(p)].started += 1;
        let kernel = &mut *self.kernel;
        let here = here(&mut kernel.table, on).expect(THERE);
        here.moving.sent += 1;
        kernel.journal.step(b"send", on);
        put_word(&mut kernel.journal.text, u64::from(here.moving.sent));
        put_ends(&mut kernel.journal.text, &message.enclosed);
        kernel.journal.text.push(b'\n');
        here.outward = Outward::Waiting(message);
        if here.moving.want != 0 {
            self.do_match(on);
        }
        Ok(Some(Answer::Ok))
    }

    fn post(&mut self, p: u8, on: End) -> Outcome {
        let at = self.kernel.id;
        let here = owned(&mut self.kernel.table, p, on).ok_or(&b" NoEnd"[..])?;
        if here.inward != Inward::Idle {
            return Err(b" Busy");
        }
        if here.moving.is_dead {
            return Err(b" Dead");
        }
        here.moving.asked += 1;
        here.inward = Inward::Posted;
        let (to, hint) = (on.opposite(), here.moving.hint);
        let ask = Ask { to, w: here.moving.asked, at, hops: here.moving.hops };
        self.processes[usize::from(p)].started += 1;
        self.kernel.journal.whole_step(b"receive", on);
        self.send(hint, What::Want(ask));
        Ok(Some(Answer::Ok))
    }

    fn cancel_out(&mut self, p: u8, on: End) -> Outcome {
        let here_on = owned(&mut self.kernel.table, p, on).ok_or(&b" NoEnd"[..])?;
        if here_on.moving.is_dead {
            return Err(b" Dead");
        }
        let message = match mem::replace(&mut here_on.outward, Outward::Idle) {
            Outward::Waiting(message) => message,
            Outward::Idle => return Err(b" NoActivity"),
            other => {
                here_on.outward = other;
                return Err(b" Late");
            }
        };
        for &end in &message.enclosed {
            here(&mut self.kernel.table, end).expect(THERE).holder = Holder::Owner(p);
        }
        self.processes[usize::from(p)].started -= 1;
        self.kernel.journal.step(b"cancel", on);
        self.kernel.journal.ending(true, b" out");
        Ok(Some(Answer::Ok))
    }

    fn cancel_in(&mut self, p: u8, on: End) -> Outcome {
        let at = self.kernel.id;
        let here = owned(&mut self.kernel.table, p, on).ok_or(&b" NoEnd"[..])?;
        if here.moving.is_dead {
            return Err(b" Dead");
        }
        match here.inward {
            Inward::Posted => here.inward = Inward::Withdrawing,
            Inward::Idle => return Err(b" NoActivity"),
            _ => return Err(b" Late"),
        }
        let hint = here.moving.hint;
        let ask = Ask { to: on.opposite(), w: here.moving.asked, at, hops: here.moving.hops };
        self.processes[usize::from(p)].state = State::InCancel;
        self.kernel.journal.step(b"cancel", on);
        self.kernel.journal.ending(true, b" in");
        self.send(hint, What::Unwant(ask));
        Ok(None)
    }

    fn wait(&mut self, p: u8) -> Outcome {
        let process = &mut self.processes[usize::from(p)];
        let first = process.reports.pop_front();
        if first.is_none() && process.started == 0 {
            return Err(b" NoActivity");
        }
        self.kernel.journal.process_step(b"wait", p, b"");
        match first {
            Some(report) => self.answer_wait(p, report),
            None => process.state = State::InWait,
        }
        Ok(None)
    }

    fn exit(&mut self, p: u8) -> Outcome {
        self.kernel.journal.process_step(b"exit", p, b"");
        let is_owned = |(&end, entry): (&End, &Entry)| match entry {
            Entry::Here(here) if here.holder == Holder::Owner(p) => Some(end),
            _ => None,
        };
        let mut ends: Vec<End> = self.kernel.table.iter().filter_map(is_owned).collect();
        ends.sort_unstable();
        for end in ends {
            self.end(end);
        }
        let process = &mut self.processes[usize::from(p)];
        process.reports = VecDeque::new();
        process.state = State::Exited;
        Ok(Some(Answer::Ok))
    }

    // ------------------------------------------------------------ actions

    fn do_match(&mut self, on: End) {
        let at = self.kernel.id;
        let here = here(&mut self.kernel.table, on).expect(THERE);
        let moving = &mut here.moving;
        (moving.served, moving.want) = (moving.want, 0);
        let Outward::Waiting(message) = mem::replace(&mut here.outward, Outward::Matched) else { unreachable!("a send waits") };
        let Message { bytes, enclosed } = *message;
        let (hint, n) = (moving.hint, moving.sent);
        let (w, hops) = (moving.served, moving.hops);
        self.kernel.journal.numbered_step(b"match", on, n);
        let moving = enclosed.iter().map(|&end| self.leave(end, hint)).collect();
        self.send(hint, What::Parcel(Box::new(Parcel { to: on.opposite(), n, w, at, hops, bytes, moving })));
    }

    /// An end that is here leaves.
    fn leave(&mut self, end: End, to: u8) -> Moving {
        let moving = here(&mut self.kernel.table, end).expect(THERE).moving;
        self.pass(moving, to)
    }

    /// A value leaves, and its entry tells whereto.
    fn pass(&mut self, mut moving: Moving, to: u8) -> Moving {
        moving.hops += 1;
        moving.trail |= 1 << self.kernel.id;
        if moving.is_dead {
            self.kernel.table.remove(&moving.end);
        } else {
            self.kernel.table.insert(moving.end, Entry::Left { to, hops: moving.hops });
        }
        moving
    }

    /// END of an end that is here.
    fn end(&mut self, on: End) {
        let entry = self.kernel.table.get_mut(&on).expect(THERE);
        let Entry::Here(here) = entry else { unreachable!("{THERE}") };
        let started = u32::from(here.is_sending()) + u32::from(here.is_receiving());
        if started > 0 {
            self.processes[here.owner()].started -= started;
        }
        let moving = here.moving;
        if let Outward::Waiting(message) = mem::replace(&mut here.outward, Outward::Idle) {
            message.enclosed.iter().for_each(|&end| self.end(end));
        }
        self.end_value(moving);
    }

    /// END of a value: its entry, and its gone.
    fn end_value(&mut self, moving: Moving) {
        if moving.is_dead {
            self.kernel.table.remove(&moving.end);
        } else {
            self.kernel.table.insert(moving.end, Entry::Destroyed(moving));
            self.send(moving.hint, What::Gone { to: moving.end.opposite(), at: self.kernel.id });
        }
    }

    /// NOTICE with its packets and reports; what it adds to the lines is the report that answers a Wait.
    fn notice(&mut self, on: End) {
        let here_on = here(&mut self.kernel.table, on).expect(THERE);
        here_on.moving.is_dead = true;
        here_on.moving.want = 0;
        let trail = mem::take(&mut here_on.moving.trail);
        let hops = here_on.moving.hops;
        let holder = here_on.holder;
        let inward = here_on.inward;
        let is_receiving = here_on.is_receiving();
        if is_receiving {
            here_on.inward = Inward::Unreported;
        }
        if let Outward::Waiting(_) = here_on.outward {
            let Outward::Waiting(message) = mem::replace(&mut here_on.outward, Outward::Unreported) else { unreachable!() };
            let owner = here_on.owner();
            for &end in &message.enclosed {
                here(&mut self.kernel.table, end).expect(THERE).holder = holder;
            }
            self.report(owner, Report::destroyed(on, false, message.enclosed));
        }
        if let (true, Holder::Owner(p)) = (is_receiving, holder) {
            if inward == Inward::Withdrawing {
                self.processes[usize::from(p)].state = State::Running;
                self.answer(usize::from(p), Some(Answer::Refused(b" Dead")));
            }
            self.report(usize::from(p), Report::destroyed(on, true, Box::default()));
        }
        self.forget(on, hops, trail);
    }

    fn forget(&mut self, to: End, hops: u32, trail: u8) {
        for kernel in 0..MOST_KERNELS as u8 {
            if trail >> kernel & 1 == 1 && kernel != self.kernel.id {
                self.send(kernel, What::Forget { to, hops });
            }
        }
    }

    /// The live packets of an end whose hint rose.
    fn resend(&mut self, on: End) {
        let at = self.kernel.id;
        let Some(here) = here(&mut self.kernel.table, on) else { return };
        let (moving, inward) = (here.moving, here.inward);
        let to = on.opposite();
        let ask = Ask { to, w: moving.asked, at, hops: moving.hops };
        match inward {
            Inward::Posted => self.send(moving.hint, What::Want(ask)),
            Inward::Withdrawing => self.send(moving.hint, What::Unwant(ask)),
            _ => {}
        }
        if moving.trail != 0 {
            self.send(moving.hint, What::Moved { to, at, hops: moving.hops });
        }
    }

    /// An activity is over and reported.
    fn report(&mut self, owner: usize, report: Report) {
        let process = &mut self.processes[owner];
        process.started -= 1;
        if process.state == State::InWait {
            process.state = State::Running;
            self.answer_wait(owner as u8, report);
        } else {
            process.reports.push_back(report);
        }
    }

    fn answer_wait(&mut self, p: u8, report: Report) {
        self.kernel.journal.report(p, &report);
        if let Some(here) = here(&mut self.kernel.table, report.on) {
            if report.is_inward && here.inward == Inward::Unreported {
                here.inward = Inward::Idle;
            }
            if !report.is_inward && matches!(here.outward, Outward::Unreported) {
                here.outward = Outward::Idle;
            }
        }
        self.answer(usize::from(p), Some(Answer::Reported(report)));
    }

    /// Values become Here with an owner.
    fn arrive(&mut self, values: &[Moving], owner: usize) {
        for &moving in values {
            self.kernel.table.insert(moving.end, Entry::Here(Here::new(moving, Holder::Owner(owner as u8))));
        }
    }

    /// The moved of each value that became Here.
    fn tell_moved(&mut self, values: &[Moving]) {
        for moving in values.iter().filter(|moving| !moving.is_dead) {
            self.send(moving.hint, What::Moved { to: moving.end.opposite(), at: self.kernel.id, hops: moving.hops });
        }
    }

    // ------------------------------------------------------------ packets

    fn take(&mut self, from: u8, what: What) {
        let length = self.kernel.journal.text.len();
        self.kernel.journal.begin(self.stamp, self.kernel.id);
        self.kernel.journal.packet(from, &what);
        match what {
            What::Want(ask) => self.want(ask),
            What::Unwant(ask) => self.unwant(ask),
            What::Unwanted(ask) => self.unwanted(ask),
            What::Parcel(parcel) => self.parcel(*parcel),
            What::Taken { to, n, at, hops } => self.taken(to, n, at, hops),
            What::Back { to, n, moving } => self.back(from, to, n, &moving),
            What::Gone { to, at } => self.gone(to, at),
            What::Moved { to, at, hops } => self.moved(to, at, hops),
            What::Known { to, hops } => self.known(to, hops),
            What::Forget { to, hops } => self.forgotten(to, hops),
            What::GoneSeen { to } => self.gone_seen(to),
        }
        self.kernel.journal.finish(self.stamp, length);
    }

    fn want(&mut self, ask: Ask) {
        match self.kernel.table.get_mut(&ask.to) {
            Some(Entry::Here(here)) if !here.moving.is_dead => {
                let rose = here.moving.learn(ask.at, ask.hops);
                if ask.w > here.moving.served {
                    here.moving.want = ask.w;
                    if let Outward::Waiting(_) = here.outward {
                        self.do_match(ask.to);
                    }
                }
                if rose {
                    self.resend(ask.to);
                }
            }
            Some(&mut Entry::Left { to, .. }) => self.send(to, What::Want(ask)),
            _ => {}
        }
    }

    fn unwant(&mut self, ask: Ask) {
        let at = self.kernel.id;
        match self.kernel.table.get_mut(&ask.to) {
            Some(Entry::Here(here)) if !here.moving.is_dead => {
                let rose = here.moving.learn(ask.at, ask.hops);
                if ask.w > here.moving.served {
                    here.moving.served = ask.w;
                    here.moving.want = 0;
                    let to = ask.to.opposite();
                    let hops = here.moving.hops;
                    self.kernel.journal.whole_step(b"withdraw", to);
                    self.send(ask.at, What::Unwanted(Ask { to, w: ask.w, at, hops }));
                }
                if rose {
                    self.resend(ask.to);
                }
            }
            Some(&mut Entry::Left { to, .. }) => self.send(to, What::Unwant(ask)),
            _ => {}
        }
    }

    fn unwanted(&mut self, ask: Ask) {
        let Some(here) = here(&mut self.kernel.table, ask.to) else { return };
        if here.inward != Inward::Withdrawing || here.moving.asked != ask.w {
            return;
        }
        let rose = here.moving.learn(ask.at, ask.hops);
        here.inward = Inward::Idle;
        let owner = here.owner();
        let process = &mut self.processes[owner];
        process.started -= 1;
        process.state = State::Running;
        self.answer(owner, Some(Answer::Ok));
        self.kernel.journal.whole_step(b"free", ask.to);
        if rose {
            self.resend(ask.to);
        }
    }

    fn parcel(&mut self, parcel: Parcel) {
        let Parcel { to, n, w, at, hops, bytes, moving } = parcel;
        let here_to = match here(&mut self.kernel.table, to) {
            Some(here) if here.is_receiving() && here.moving.asked == w => here,
            _ => {
                let moving = moving.iter().map(|&value| self.pass(value, at)).collect();
                return self.send(at, What::Back { to: to.opposite(), n, moving });
            }
        };
        let rose = here_to.moving.learn(at, hops);
        let is_late = here_to.inward == Inward::Withdrawing;
        here_to.inward = Inward::Unreported;
        let owner = here_to.owner();
        let own_hops = here_to.moving.hops;
        self.kernel.journal.step(b"take", to.opposite());
        put_word(&mut self.kernel.journal.text, u64::from(n));
        self.kernel.journal.text.extend_from_slice(b" p");
        put_number(&mut self.kernel.journal.text, owner as u64);
        self.kernel.journal.ending(is_late, b" late");
        self.arrive(&moving, owner);
        if is_late {
            self.processes[owner].state = State::Running;
            self.answer(owner, Some(Answer::Refused(b" Late")));
        }
        let enclosed = moving.iter().map(|value| value.end).collect();
        self.report(owner, Report { on: to, is_inward: true, is_done: true, bytes, enclosed });
        self.send(at, What::Taken { to: to.opposite(), n, at: self.kernel.id, hops: own_hops });
        self.tell_moved(&moving);
        if rose {
            self.resend(to);
        }
    }

    fn taken(&mut self, to: End, n: u32, at: u8, hops: u32) {
        let Some(here) = here(&mut self.kernel.table, to) else { return };
        if !matches!(here.outward, Outward::Matched) || here.moving.sent != n {
            return;
        }
        let rose = here.moving.learn(at, hops);
        here.outward = Outward::Unreported;
        let owner = here.owner();
        self.kernel.journal.numbered_step(b"complete", to, n);
        self.report(owner, Report { on: to, is_inward: false, is_done: true, bytes: Box::default(), enclosed: Box::default() });
        if rose {
            self.resend(to);
        }
    }

    fn back(&mut self, from: u8, to: End, n: u32, moving: &[Moving]) {
        let here_to = match here(&mut self.kernel.table, to) {
            Some(here) if matches!(here.outward, Outward::Matched) && here.moving.sent == n => here,
            Some(_) => return moving.iter().for_each(|&value| self.end_value(value)),
            None => {
                self.kernel.journal.numbered_step(b"back", to, n);
                return moving.iter().for_each(|&value| self.end_value(value));
            }
        };
        here_to.outward = Outward::Unreported;
        let was_dead = here_to.moving.is_dead;
        let is_withdrawing = here_to.inward == Inward::Withdrawing;
        let owner = here_to.owner();
        self.kernel.journal.step(b"back", to);
        put_word(&mut self.kernel.journal.text, u64::from(n));
        self.kernel.journal.ending(is_withdrawing && !was_dead, b" dead");
        self.arrive(moving, owner);
        let enclosed = moving.iter().map(|value| value.end).collect();
        self.report(owner, Report::destroyed(to, false, enclosed));
        if !was_dead {
            self.notice(to);
            self.send(from, What::GoneSeen { to: to.opposite() });
        }
        self.tell_moved(moving);
    }

    fn gone(&mut self, to: End, at: u8) {
        match self.kernel.table.get_mut(&to) {
            Some(Entry::Here(here)) => {
                if !here.moving.is_dead {
                    let is_withdrawing = here.inward == Inward::Withdrawing;
                    self.kernel.journal.step(b"notice", to);
                    self.kernel.journal.ending(is_withdrawing, b" dead");
                    self.notice(to);
                }
                self.send(at, What::GoneSeen { to: to.opposite() });
            }
            Some(&mut Entry::Left { to: next, .. }) => self.send(next, What::Gone { to, at }),
            Some(Entry::Destroyed(_)) => {
                self.send(at, What::GoneSeen { to: to.opposite() });
                self.gone_seen(to);
            }
            None => {}
        }
    }

    fn moved(&mut self, to: End, at: u8, hops: u32) {
        match self.kernel.table.get_mut(&to) {
            Some(Entry::Here(here)) => {
                if here.moving.is_dead {
                    return;
                }
                if here.moving.learn(at, hops) {
                    self.resend(to);
                }
                self.send(at, What::Known { to: to.opposite(), hops });
            }
            Some(&mut Entry::Left { to: next, .. }) => self.send(next, What::Moved { to, at, hops }),
            Some(Entry::Destroyed(mark)) => {
                mark.learn(at, hops);
                self.send(at, What::Gone { to: to.opposite(), at: self.kernel.id });
            }
            None => {}
        }
    }

    fn known(&mut self, to: End, hops: u32) {
        let Some(here) = here(&mut self.kernel.table, to) else { return };
        if !here.moving.is_dead && here.moving.hops == hops {
            let trail = mem::take(&mut here.moving.trail);
            self.forget(to, hops, trail);
        }
    }

    fn forgotten(&mut self, to: End, upto: u32) {
        if let Some(&Entry::Left { hops, .. }) = self.kernel.table.get(&to) {
            if hops <= upto {
                self.kernel.table.remove(&to);
            }
        }
    }

    fn gone_seen(&mut self, to: End) {
        if let Some(&Entry::Destroyed(mark)) = self.kernel.table.get(&to) {
            self.kernel.table.remove(&to);
            self.forget(to, mark.hops, mark.trail);
        }
    }
}

// ---------------------------------------------------------------- worlds

#[derive(Clone)]
struct World {
    kernels: Vec<Kernel>,
    processes: Vec<Process>,
    net: Net,
}

impl World {
    fn start(setting: &Setting) -> World {
        let kernel = |id| Kernel { id, stamp: 0, made: 0, table: Table::default(), journal: Journal::default() };
        let process = |&home| Process { home, state: State::Running, started: 0, reports: VecDeque::new(), answer: None };
        let lists = (0..MOST_KERNELS * MOST_KERNELS).map(|_| VecDeque::new()).collect();
        let mut world = World {
            kernels: (0..setting.kernels).map(kernel).collect(),
            processes: setting.homes.iter().map(process).collect(),
            net: Net { lists, filled: 0 },
        };
        for &(first, second) in &setting.wires {
            world.wire(first, second);
        }
        world
    }

    fn wire(&mut self, first: u8, second: u8) {
        let homes = [first, second].map(|p| self.processes[usize::from(p)].home);
        let maker = &mut self.kernels[usize::from(homes[0])];
        let a = End::new(homes[0], maker.made, 0);
        maker.made += 1;
        for (end, p, home, hint) in [(a, first, homes[0], homes[1]), (a.opposite(), second, homes[1], homes[0])] {
            let entry = Entry::Here(Here::new(Moving::new(end, hint), Holder::Owner(p)));
            self.kernels[usize::from(home)].table.insert(end, entry);
        }
    }

    fn event(&mut self, kernel: u8, after: u64) -> Event<'_> {
        let kernel = &mut self.kernels[usize::from(kernel)];
        kernel.stamp = kernel.stamp.max(after) + 1;
        Event { stamp: kernel.stamp, kernel, processes: &mut self.processes, net: &mut self.net }
    }

    fn take(&mut self, place: usize) -> bool {
        let Some(packet) = self.net.get(place) else { return false };
        let (from, to) = ((place / MOST_KERNELS) as u8, (place % MOST_KERNELS) as u8);
        self.event(to, packet.stamp).take(from, packet.what);
        true
    }
}

// ---------------------------------------------------------------- files

fn fail(status: i32, text: &str) -> ! {
    eprintln!("{text}");
    exit(status)
}

fn read(name: &str, most: u64) -> Vec<u8> {
    let file = File::open(name).unwrap_or_else(|_| fail(6, &format!("lynx: {name}: absent")));
    let mut bytes = Vec::new();
    if file.take(most + 1).read_to_end(&mut bytes).is_err() {
        fail(2, &format!("lynx: {name}: read fault"));
    }
    if bytes.len() as u64 > most {
        fail(8, &format!("lynx: {name}: too big"));
    }
    bytes
}
