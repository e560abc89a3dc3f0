//! `audit FILE`: puts `yes` where the file is the transcript of a run of kernels, and else names the first line that is wrong, as
//! `lynx audit FILE` does.
//!
//! It is what `lynx audit` is measured beside: plain Rust with the standard library alone, written for speed, and not proved. It goes over
//! the bytes once. Each event happens on kernels, which make its lines, and these have to be the bytes of the file. From the first line
//! that differs on, only the forms of lines are looked at, since a line that no transcript has in its place is told first.

include!("kernels.rs");

const MOST_BYTES: u64 = 67_108_864;
const MOST_VALUE_NUMBERS: [u64; 9] = [U32, U8, U32, U32, U32, U32, U32, 1, U8];
const U8: u64 = u8::MAX as u64;
const U16: u64 = u16::MAX as u64;
const U32: u64 = u32::MAX as u64;

// ---------------------------------------------------------------- forms

/// What a line shows, as far as a replay needs it: an entry's packet and a service line are looked at by their forms alone.
enum Kind {
    First(u64),
    Kernels(u64),
    Process(u64, u64),
    Wire(u64, u64),
    Asked { kernel: u64, p: u64, call: Call },
    Took { kernel: u64, from: u64 },
    Step,
    Note(u64),
    End(Last),
}

#[derive(Clone, Copy)]
enum Last {
    Quiet,
    Open,
    Spent(u64),
}

fn below_or_at(word: &[u8], most: u64) -> Option<u64> {
    number(word).ok().filter(|&value| value <= most)
}

fn next_up_to(words: &mut Words, most: u64) -> Option<u64> {
    below_or_at(words.next()?, most)
}

/// A number of 64 bits.
fn stamp(word: &[u8]) -> Option<u64> {
    number(word).ok()?;
    std::str::from_utf8(word).ok()?.parse().ok()
}

fn pid(word: &[u8]) -> Option<u64> {
    below_or_at(word.strip_prefix(b"p")?, U16)
}

fn end(words: &mut Words) -> Option<End> {
    end_word(words.next()?).ok()
}

fn bytes(words: &mut Words) -> Option<()> {
    let bytes = text_word(words.next()?).ok()?;
    (bytes.len() <= MOST_TEXT).then_some(())
}

fn over(words: &mut Words) -> Option<()> {
    words.next().is_none().then_some(())
}

fn numbers(words: &mut Words, most: &[u64]) -> Option<()> {
    for &most in most {
        next_up_to(words, most)?;
    }
    Some(())
}

/// The other words, each behind a plus, at most so many.
fn plus(words: &mut Words, most: usize, is_so: fn(&[u8]) -> Option<()>) -> Option<()> {
    let mut count = 0;
    for word in words {
        is_so(word.strip_prefix(b"+")?)?;
        count += 1;
        if count > most {
            return None;
        }
    }
    Some(())
}

fn value(word: &[u8]) -> Option<()> {
    let mut parts = word.split((|&byte| byte == b':') as fn(&u8) -> bool);
    end(&mut parts)?;
    numbers(&mut parts, &MOST_VALUE_NUMBERS)?;
    over(&mut parts)
}

fn one_end(word: &[u8]) -> Option<()> {
    end_word(word).ok().map(|_| ())
}

fn suffix(words: &mut Words, said: &[u8]) -> Option<()> {
    match words.next() {
        Some(word) if word != said => None,
        _ => Some(()),
    }
}

const CAUSES: [&[u8]; 10] =
    [b"NoEnd", b"Busy", b"Dead", b"EncloseNoEnd", b"EncloseBusy", b"EncloseSame", b"Late", b"NoActivity", b"LinksFull", b"EncloseTwice"];

fn packet(words: &mut Words, most: usize) -> Option<()> {
    let name = words.next()?;
    end(words)?;
    match name {
        b"want" | b"unwant" | b"unwanted" | b"taken" => numbers(words, &[U32, U8, U32])?,
        b"parcel" => {
            numbers(words, &[U32, U32, U8, U32])?;
            bytes(words)?;
            plus(words, most, value)?;
        }
        b"back" => {
            numbers(words, &[U32])?;
            plus(words, most, value)?;
        }
        b"gone" => numbers(words, &[U8])?,
        b"moved" => numbers(words, &[U8, U32])?,
        b"known" | b"forget" => numbers(words, &[U32])?,
        b"goneseen" => {}
        _ => return None,
    }
    over(words)
}

fn report(words: &mut Words, most: usize) -> Option<()> {
    pid(words.next()?)?;
    end(words)?;
    match (words.next()?, words.next()?) {
        (b"out", b"destroyed") => plus(words, most, one_end),
        (b"in", b"done") => {
            bytes(words)?;
            plus(words, most, one_end)
        }
        (b"out", b"done") | (b"in", b"destroyed") => Some(()),
        _ => None,
    }
}

fn step(words: &mut Words, most: usize) -> Option<()> {
    let name = words.next()?;
    match name {
        b"refuse" => {
            pid(words.next()?)?;
            CAUSES.contains(&words.next()?).then_some(())?;
        }
        b"wait" | b"exit" => pid(words.next()?).map(|_| ())?,
        b"report" => report(words, most)?,
        _ => end_step(name, words, most)?,
    }
    over(words)
}

/// A step that begins with an end.
fn end_step(name: &[u8], words: &mut Words, most: usize) -> Option<()> {
    end(words)?;
    match name {
        b"make" => end(words).map(|_| ()),
        b"destroy" | b"receive" | b"withdraw" | b"free" => Some(()),
        b"cancel" => matches!(words.next()?, b"out" | b"in").then_some(()),
        b"match" | b"complete" => numbers(words, &[U32]),
        b"notice" => suffix(words, b"dead"),
        b"send" => {
            numbers(words, &[U32])?;
            plus(words, most, one_end)
        }
        b"take" => {
            numbers(words, &[U32])?;
            pid(words.next()?)?;
            suffix(words, b"late")
        }
        b"back" => {
            numbers(words, &[U32])?;
            suffix(words, b"dead")
        }
        _ => None,
    }
}

fn entry(first: &[u8], words: &mut Words, most: usize) -> Option<Kind> {
    stamp(first)?;
    let kernel = below_or_at(words.next()?.strip_prefix(b"k")?, U8)?;
    let who = words.next()?;
    if who == b"from" {
        let from = next_up_to(words, U8)?;
        packet(words, most)?;
        return Some(Kind::Took { kernel, from });
    }
    let p = pid(who)?;
    let call = call(words, most).ok()?;
    (call.text_length() <= MOST_TEXT).then_some(Kind::Asked { kernel, p, call })
}

fn other_line(first: &[u8], words: &mut Words, most: usize) -> Option<Kind> {
    let kind = match first {
        b"." => {
            step(words, most)?;
            Kind::Step
        }
        b"transcript" => Kind::First(next_up_to(words, U8)?),
        b"kernels" => Kind::Kernels(next_up_to(words, U8)?),
        b"process" => {
            let p = next_up_to(words, U16)?;
            next_is(words, b"on").ok()?;
            Kind::Process(p, next_up_to(words, U8)?)
        }
        b"wire" => Kind::Wire(next_up_to(words, U16)?, next_up_to(words, U16)?),
        b"note" => {
            let line = next_up_to(words, U32)?;
            matches!(words.next()?, b"nothing" | b"waits").then_some(Kind::Note(line))?
        }
        b"quiet" => Kind::End(Last::Quiet),
        b"open" => Kind::End(Last::Open),
        b"spent" => Kind::End(Last::Spent(next_up_to(words, U8)?)),
        _ => return None,
    };
    over(words)?;
    Some(kind)
}

fn kind(version: u8, line: &[u8]) -> Option<Kind> {
    let mut words = words(line);
    let first = words.next()?;
    let most = if version == 2 { MOST_ENCLOSED } else { 1 };
    if first.first().is_some_and(u8::is_ascii_digit) {
        entry(first, &mut words, most)
    } else {
        other_line(first, &mut words, most)
    }
}

// ---------------------------------------------------------------- order

/// What was read last, as far as the next line depends on it.
#[derive(Clone, Copy, PartialEq)]
enum Place {
    Start,
    Version,
    Processes,
    Wires,
    Entry,
    Noted(u64),
    Over,
}

/// The lines that are not read yet.
struct Reader<'a> {
    rest: &'a [u8],
    /// How many lines were read.
    lines: u32,
    place: Place,
    setting: Setting,
}

impl<'a> Reader<'a> {
    fn new(rest: &'a [u8]) -> Reader<'a> {
        let setting = Setting { version: 0, kernels: 0, homes: Vec::new(), wires: Vec::new() };
        Reader { rest, lines: 0, place: Place::Start, setting }
    }

    /// The next line, if it has its line feed.
    fn line(&self) -> Option<&'a [u8]> {
        let length = self.rest.iter().position(|&byte| byte == b'\n')?;
        Some(&self.rest[..length])
    }

    fn pass(&mut self, bytes: usize, lines: u32) {
        self.rest = &self.rest[bytes..];
        self.lines += lines;
    }

    /// The next line, where it may stand there; else its number.
    fn next(&mut self) -> Result<Kind, u32> {
        let bad = self.lines + 1;
        let line = self.line().ok_or(bad)?;
        let kind = kind(self.setting.version, line).ok_or(bad)?;
        self.place = self.behind(&kind).ok_or(bad)?;
        self.pass(line.len() + 1, 1);
        Ok(kind)
    }

    /// The place behind a line, and what a line of the header tells.
    fn behind(&mut self, kind: &Kind) -> Option<Place> {
        match (self.place, kind) {
            (Place::Start, &Kind::First(version @ 1..=2)) => {
                self.setting.version = version as u8;
                Some(Place::Version)
            }
            (Place::Version, &Kind::Kernels(kernels @ 1..=8)) => {
                self.setting.kernels = kernels as u8;
                Some(Place::Processes)
            }
            (Place::Processes, &Kind::Process(p, home)) => self.housed(p, home),
            (Place::Processes | Place::Wires, &Kind::Wire(first, second)) => self.wired(first, second),
            (Place::Processes | Place::Wires | Place::Entry, Kind::Asked { .. } | Kind::Took { .. }) => Some(Place::Entry),
            (Place::Processes | Place::Wires | Place::Entry, &Kind::Note(line)) => Some(Place::Noted(line)),
            (Place::Processes | Place::Wires | Place::Entry, Kind::End(_)) => Some(Place::Over),
            (Place::Entry, Kind::Step) => Some(Place::Entry),
            (Place::Noted(before), &Kind::Note(line)) if before < line => Some(Place::Noted(line)),
            (Place::Noted(_), Kind::End(Last::Quiet | Last::Open)) => Some(Place::Over),
            _ => None,
        }
    }

    fn housed(&mut self, p: u64, home: u64) -> Option<Place> {
        let homes = &mut self.setting.homes;
        let may_stand = p == homes.len() as u64 && homes.len() < MOST_PROCESSES && home < u64::from(self.setting.kernels);
        may_stand.then(|| {
            homes.push(home as u8);
            Place::Processes
        })
    }

    fn wired(&mut self, first: u64, second: u64) -> Option<Place> {
        let processes = self.setting.homes.len() as u64;
        let wires = &mut self.setting.wires;
        let may_stand = wires.len() < MOST_WIRES && first < processes && second < processes;
        may_stand.then(|| {
            wires.push((first as u8, second as u8));
            Place::Wires
        })
    }

    /// The first bad line from here on, else this one.
    fn first_bad_or(&mut self, differs: u32) -> u32 {
        while self.place != Place::Over {
            if let Err(bad) = self.next() {
                return bad;
            }
        }
        if self.rest.is_empty() {
            differs
        } else {
            self.lines + 1
        }
    }
}

// ---------------------------------------------------------------- replay

/// A transcript as it is replayed.
struct Audit<'a> {
    reader: Reader<'a>,
    world: World,
    /// The last entry's stamp and kernel.
    last: (u64, u8),
}

/// A packet's entry by its first words alone: the kernel that takes it and the kernel that it is from.
fn taking(line: &[u8]) -> Option<(u64, u64)> {
    let digits = line.iter().position(|byte| !byte.is_ascii_digit())?;
    match line[digits..] {
        [b' ', b'k', kernel @ b'0'..=b'7', b' ', b'f', b'r', b'o', b'm', b' ', from @ b'0'..=b'7', b' ', ..] if digits > 0 => {
            Some((u64::from(kernel - b'0'), u64::from(from - b'0')))
        }
        _ => None,
    }
}

impl Audit<'_> {
    /// Ok where all is right, else the first bad line, or else the first that differs.
    fn entries(&mut self) -> Result<(), u32> {
        loop {
            let line = self.reader.line().ok_or(self.reader.lines + 1)?;
            if let (Some((kernel, from)), Place::Entry) = (taking(line), self.reader.place) {
                let happened = self.take(kernel, from);
                self.compare(happened)?;
                continue;
            }
            let before = (self.reader.rest, self.reader.lines);
            match self.reader.next()? {
                Kind::Asked { kernel, p, call } => {
                    (self.reader.rest, self.reader.lines) = before;
                    let happened = self.ask(kernel, p, call);
                    self.compare(happened)?;
                }
                Kind::Took { kernel, from } => {
                    (self.reader.rest, self.reader.lines) = before;
                    let happened = self.take(kernel, from);
                    self.compare(happened)?;
                }
                Kind::Step => return Err(self.differs_at(self.reader.lines)),
                Kind::End(last) => return self.ends(last),
                _ => {}
            }
        }
    }

    fn differs_at(&mut self, line: u32) -> u32 {
        self.reader.first_bad_or(line)
    }

    /// Whether the kernel can have this call of the process next, which then happens.
    fn ask(&mut self, kernel: u64, p: u64, call: Call) -> Option<u8> {
        let process = self.world.processes.get(p as usize)?;
        if u64::from(process.home) != kernel || process.state != State::Running {
            return None;
        }
        self.world.event(kernel as u8, 0).ask(p as u8, call);
        Some(kernel as u8)
    }

    /// Whether a packet is under way there, which is then taken.
    fn take(&mut self, kernel: u64, from: u64) -> Option<u8> {
        let kernels = self.world.kernels.len() as u64;
        (kernel < kernels && from < kernels && self.world.take(Net::place(from as u8, kernel as u8))).then_some(kernel as u8)
    }

    /// The lines of what happened at a kernel are those that stand next, in the order of the merge.
    fn compare(&mut self, happened: Option<u8>) -> Result<(), u32> {
        let Some(kernel) = happened else { return Err(self.differs_at(self.reader.lines + 1)) };
        let at = &mut self.world.kernels[usize::from(kernel)];
        let is_in_order = self.last < (at.stamp, kernel);
        self.last = (at.stamp, kernel);
        let text = &at.journal.text;
        if is_in_order && self.reader.rest.starts_with(text) {
            let lines = text.iter().filter(|&&byte| byte == b'\n').count() as u32;
            self.reader.pass(text.len(), lines);
            at.journal.text.clear();
            at.journal.entries.clear();
            return Ok(());
        }
        let same = text.iter().zip(self.reader.rest).take_while(|(one, other)| is_in_order && one == other);
        let lines = same.filter(|(&one, _)| one == b'\n').count() as u32;
        Err(self.differs_at(self.reader.lines + 1 + lines))
    }

    /// The last line is true, and nothing stands behind it.
    fn ends(&mut self, last: Last) -> Result<(), u32> {
        if !self.reader.rest.is_empty() {
            return Err(self.reader.lines + 1);
        }
        let is_true = match last {
            Last::Quiet => self.world.net.filled == 0,
            Last::Open => self.world.net.filled != 0,
            Last::Spent(kernel) => kernel < u64::from(self.reader.setting.kernels),
        };
        if is_true {
            Ok(())
        } else {
            Err(self.reader.lines)
        }
    }
}

fn is_of_the_header(line: &[u8]) -> bool {
    [&b"transcript "[..], b"kernels ", b"process ", b"wire "].iter().any(|name| line.starts_with(name))
}

/// Ok for the transcript of a run, else the first line that is wrong.
fn audit(bytes: &[u8]) -> Result<(), u32> {
    let mut reader = Reader::new(bytes);
    while reader.setting.kernels == 0 || reader.line().is_some_and(is_of_the_header) {
        reader.next()?;
    }
    let world = World::start(&reader.setting);
    Audit { reader, world, last: (0, 0) }.entries()
}

fn main() {
    let words: Vec<String> = std::env::args().skip(1).collect();
    let [name] = &words[..] else { fail(1, "lynx: usage") };
    match audit(&read(name, MOST_BYTES)) {
        Ok(()) => println!("yes"),
        Err(line) => fail(4, &format!("{name}:{line}: no")),
    }
}
