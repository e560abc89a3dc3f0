//! Random modules on kernels whose packets and steps come in a random order. After each step the claims on requests are tested (docs/PROCESS.md):
//! what is accepted at one end of a link is a prefix of what was issued at the other, what is returned of what was replied, and replies go to the
//! requests that were accepted, each with the links that it carries where they should be.
//!
//!     requests SEED EVENTS              so many events, in runs of at most 1500
//!     requests SEED EVENTS phases       after each step it is also tested that the requests of each way are in a phase (docs/REQUESTS.md)

use std::collections::BTreeMap;
use std::process::ExitCode;

mod compiler;
mod interpreter;
mod module;
mod packet;
mod process;

include!("kernels.rs");
include!("nodes.rs");

use compiler::{compile, Code};
use module::{checked, Module};
use process::{Deed, Process as Lynx, What as DeedOf};

include!("phases.rs");

const EVENTS_OF_A_RUN: usize = 1500;

struct Chance(u64);

impl Chance {
    fn below(&mut self, n: usize) -> usize {
        self.0 ^= self.0 << 13;
        self.0 ^= self.0 >> 7;
        self.0 ^= self.0 << 17;
        (self.0.wrapping_mul(0x2545_f491_4f6c_dd1d) >> 33) as usize % n
    }

    fn pick<T: Copy>(&mut self, all: &[T]) -> T {
        all[self.below(all.len())]
    }
}

// ---------------------------------------------------------------- modules

/// The operations of each module: the name, and how many arguments and results it has, which are links, but those of `tell`.
const OPS: [(&str, usize, usize); 6] = [("zero", 0, 0), ("give", 1, 0), ("swap", 2, 1), ("tell", 1, 1), ("many", 3, 2), ("back", 0, 1)];
const TELL: usize = 3;
const EXCEPTIONS: [&str; 6] = ["BUSYLINK", "DEADLINK", "NOLINK", "FAILED", "REPLIED", "LINKSFULL"];
const LINKS: usize = 4;

/// Makes modules.
struct Maker<'a> {
    chance: &'a mut Chance,
    params: usize,
    /// The operations that the modules of a run ask for.
    ops: &'a [usize],
    /// How many of 40 statements accept.
    accepts: usize,
    /// The links of accepts around a statement, which it names more often than others.
    around: Vec<String>,
}

impl Maker<'_> {
    fn link(&mut self) -> String {
        if !self.around.is_empty() && self.chance.below(4) == 0 {
            return self.around[self.chance.below(self.around.len())].clone();
        }
        let number = self.chance.below(self.params + LINKS);
        if number < self.params {
            format!("p{number}")
        } else {
            format!("v{}", number - self.params)
        }
    }

    fn values(&mut self, op: usize, count: usize) -> String {
        let mut value = || match (op, self.around.last()) {
            (TELL, _) => String::from("n"),
            (_, Some(around)) if self.chance.below(2) == 0 => around.clone(),
            _ => self.link(),
        };
        (0..count).map(|_| value()).collect::<Vec<_>>().join(", ")
    }

    /// Different variables.
    fn names(&mut self, op: usize, count: usize) -> String {
        if op == TELL {
            return String::from("n");
        }
        let first = self.chance.below(LINKS);
        (0..count).map(|at| format!("v{}", (first + at) % LINKS)).collect::<Vec<_>>().join(", ")
    }

    fn tried(statement: &str) -> String {
        let handlers: String = EXCEPTIONS.iter().map(|name| format!("when {name} do ")).collect();
        format!("try {statement}; {handlers}end;\n")
    }

    fn op(&mut self) -> usize {
        self.chance.pick(self.ops)
    }

    fn entry_name(&mut self) -> String {
        format!("{}_entry", OPS[self.op()].0)
    }

    /// Mostly there is a reply.
    fn reply(&mut self, op: usize) -> String {
        if self.chance.below(10) == 0 {
            return String::new();
        }
        let (made, values) = self.fresh(op, OPS[op].2);
        Self::tried(&format!("{made}reply ({values})"))
    }

    /// Often new links are made first, since a link that is bound or serves is not to be sent.
    fn fresh(&mut self, op: usize, count: usize) -> (String, String) {
        if op == TELL || count == 0 || self.chance.below(4) == 0 {
            return (String::new(), self.values(op, count));
        }
        let first = self.chance.below(LINKS);
        let link = |at: usize| format!("v{}", (first + at) % LINKS);
        let made: String = (0..count).step_by(2).map(|at| format!("new {}, {}; ", link(at), link(at + 1))).collect();
        (made, (0..count).map(link).collect::<Vec<_>>().join(", "))
    }

    fn connect(&mut self) -> String {
        let op = self.op();
        let (on, (made, values)) = (self.link(), self.fresh(op, OPS[op].1));
        format!("{made}connect {} on {on} ({values}) : ({})", OPS[op].0, self.names(op, OPS[op].2))
    }

    fn accept(&mut self, depth: usize) -> String {
        let op = self.op();
        let (on, names) = (self.link(), self.names(op, OPS[op].1));
        self.around.push(on.clone());
        // the link itself is sent on before the reply: that is refused
        let moved =
            if self.chance.below(3) == 0 { Self::tried(&format!("connect give on {} ({on}) : ()", self.link())) } else { String::new() };
        let body = self.some(depth + 1, 2) + &moved + &self.reply(op) + &self.some(depth + 1, 2);
        self.around.pop();
        format!("accept {} on {on} ({names}) do {body}end", OPS[op].0)
    }

    /// A new link, one end of which is bound here, and the other one is given away.
    fn spread(&mut self) -> String {
        let first = self.chance.below(LINKS);
        let (kept, given) = (format!("v{first}"), format!("v{}", (first + 1) % LINKS));
        let (one, other, on) = (self.entry_name(), self.entry_name(), self.link());
        format!("new {kept}, {given}; bind {kept} to {one}; bind {kept} to {other}; connect give on {on} ({given}) : ()")
    }

    /// An entry is bound to a link for a while alone, so that a request may come too late for it.
    fn flicker(&mut self, depth: usize) -> String {
        let (on, entry) = (self.link(), self.entry_name());
        let meanwhile = if depth < 3 { self.some(depth + 1, 1) } else { String::new() };
        format!("bind {on} to {entry}; {meanwhile}unbind {on} from {entry}")
    }

    fn statement(&mut self, depth: usize) -> String {
        if depth < 3 && self.chance.below(40) < self.accepts {
            return self.accept(depth);
        }
        match self.chance.below(40) {
            0..=20 => self.connect(),
            21..=23 => self.spread(),
            24..=30 => self.flicker(depth),
            31 => format!("bind {} to {}", self.link(), self.entry_name()),
            32 => format!("unbind {} from {}", self.link(), self.entry_name()),
            33 => format!("destroy {}", self.link()),
            _ => format!("v{} := {}", self.chance.below(LINKS), self.link()),
        }
    }

    fn some(&mut self, depth: usize, most: usize) -> String {
        let count = self.chance.below(most + 1);
        (0..count).map(|_| Self::tried(&self.statement(depth))).collect()
    }

    fn entry(&mut self, op: usize) -> String {
        let (name, arguments, _) = OPS[op];
        let names: Vec<String> = (0..arguments).map(|at| format!("a{at}")).collect();
        let keeps: String = if op == TELL {
            String::from("n := n + a0;\n")
        } else {
            names.iter().enumerate().map(|(at, name)| format!("v{} := {name};\n", (at + op) % LINKS)).collect()
        };
        let body = self.some(1, 2) + &self.reply(op) + &self.some(1, 1);
        format!("entry {name}_entry of {name} ({})\nbegin\n{keeps}{body}end;\n", names.join(", "))
    }

    fn module(&mut self) -> String {
        let kind = |op: usize| if op == TELL { "int" } else { "link" };
        let list = |op: usize, count: usize| vec![kind(op); count].join(", ");
        let ops: String =
            OPS.iter().enumerate().map(|(at, op)| format!("op {} ({}) : ({});\n", op.0, list(at, op.1), list(at, op.2))).collect();
        let params: String = (0..self.params).map(|at| format!("param p{at} : link;\n")).collect();
        let vars: String = (0..LINKS).map(|at| format!("var v{at} : link;\n")).collect();
        let entries: String = (0..OPS.len()).map(|op| self.entry(op)).collect();
        let often = self.chance.below(7);
        let mut body = String::new();
        for param in 0..self.params {
            for (name, ..) in OPS {
                if self.chance.below(6) < often {
                    body += &Self::tried(&format!("bind p{param} to {name}_entry"));
                }
            }
        }
        let rounds = 1 + self.chance.below(8);
        let statements: String = (0..2 + self.chance.below(6)).map(|_| Self::tried(&self.statement(0))).collect();
        body += &format!("while rounds < {rounds} do\nrounds := rounds + 1;\n{statements}end;\n");
        format!("module m;\n{ops}{params}{vars}var n : int; var rounds : int;\n{entries}begin\n{body}end.\n")
    }
}

struct Loaded {
    source: Vec<u8>,
    module: Module,
    code: Code,
}

fn loaded(text: String) -> Loaded {
    let source = text.into_bytes();
    let module = checked("m", &source, true);
    let code = compile(&source, &module).unwrap_or_else(|_| fail(1, "the code is too long"));
    Loaded { source, module, code }
}

// ---------------------------------------------------------------- worlds

impl World {
    fn here(&self, e: End) -> Option<&Here> {
        self.kernels.iter().find_map(|kernel| match kernel.table.get(&e) {
            Some(Entry::Here(here)) => Some(here),
            _ => None,
        })
    }

    fn packets(&self) -> impl Iterator<Item = &Packet> {
        self.net.lists.iter().flatten()
    }

    /// The message of which packet brings the end: the two ends of its link.
    fn flies_on(&self, e: End) -> Option<[End; 2]> {
        let of = |packet: &Packet| match &packet.what {
            What::Parcel(parcel) if parcel.moving.iter().any(|value| value.end == e) => Some([parcel.to, parcel.to.opposite()]),
            What::Back { to, moving, .. } if moving.iter().any(|value| value.end == e) => Some([*to, to.opposite()]),
            _ => None,
        };
        self.packets().find_map(of)
    }

    fn is_living(&self, e: End) -> bool {
        self.here(e).is_some() || self.flies_on(e).is_some()
    }

    fn owner(&self, e: End) -> Option<u8> {
        match self.here(e)?.holder {
            Holder::Owner(p) => Some(p),
            Holder::Message => None,
        }
    }

    /// The message that encloses the end is one of this end or of its opposite.
    fn is_in_message_on(&self, e: End, on: End) -> bool {
        let encloses = |on: End| match self.here(on).map(|here| &here.outward) {
            Some(Outward::Waiting(message)) => message.enclosed.contains(&e),
            _ => false,
        };
        encloses(on) || encloses(on.opposite()) || self.flies_on(e).is_some_and(|ends| ends.contains(&on))
    }
}

// ---------------------------------------------------------------- claims

#[derive(Default)]
struct Lists {
    issued: Vec<(u8, Deed)>,
    accepted: Vec<Deed>,
    replied: Vec<Deed>,
    returned: Vec<Deed>,
}

#[derive(Default)]
struct Claims {
    lists: BTreeMap<End, Lists>,
    /// Requests that were issued and not accepted yet: the end and the place among those issued.
    open: Vec<(End, usize)>,
    counts: [usize; 4],
}

fn is_same(deed: &Deed, other: &Deed) -> bool {
    deed.number == other.number
        && deed.signature == other.signature
        && deed.status == other.status
        && deed.values == other.values
        && deed.ends == other.ends
}

impl Claims {
    fn list(&mut self, e: End) -> &mut Lists {
        self.lists.entry(e).or_default()
    }

    fn add(&mut self, world: &World, p: u8, deed: Deed) -> Result<(), &'static str> {
        let (on, other) = (deed.on, deed.on.opposite());
        self.counts[deed.what as usize] += 1;
        let is_owned = deed.ends.iter().all(|&e| world.owner(e) == Some(p) || !world.is_living(e));
        match deed.what {
            DeedOf::Issued => {
                let place = self.list(on).issued.len();
                self.open.push((on, place));
                self.list(on).issued.push((p, deed));
            }
            DeedOf::Accepted => {
                let place = self.list(on).accepted.len();
                if !self.list(other).issued.get(place).is_some_and(|(_, issued)| is_same(issued, &deed)) {
                    return Err("what is accepted is no prefix of what was issued");
                }
                if !is_owned {
                    return Err("a link of a request that was accepted is not owned");
                }
                self.list(on).accepted.push(deed);
            }
            DeedOf::Replied => {
                let place = self.list(on).replied.len();
                if self.list(on).accepted.get(place).map(|accepted| accepted.number) != Some(deed.number) {
                    return Err("the numbers of replies are no prefix of those of what was accepted");
                }
                self.list(on).replied.push(deed);
            }
            DeedOf::Returned => {
                let place = self.list(on).returned.len();
                if !self.list(other).replied.get(place).is_some_and(|replied| is_same(replied, &deed)) {
                    return Err("what is returned is no prefix of what was replied");
                }
                if !is_owned {
                    return Err("a link of a reply that was returned is not owned");
                }
                self.list(on).returned.push(deed);
            }
        }
        Ok(())
    }

    /// Each living link of a request that is not accepted yet is with one of the two processes, or on its way between them.
    fn test_open(&mut self, world: &World) -> Result<(), &'static str> {
        let mut open = mem::take(&mut self.open);
        open.retain(|&(on, place)| {
            let is_accepted = self.lists.get(&on.opposite()).is_some_and(|lists| lists.accepted.len() > place);
            let (p, _) = self.lists[&on].issued[place];
            let has_exited = world.processes[usize::from(p)].state == State::Exited;
            !is_accepted && !has_exited && world.is_living(on) && world.is_living(on.opposite())
        });
        self.open = open;
        for &(on, place) in &self.open {
            let (p, deed) = &self.lists[&on].issued[place];
            let other = world.owner(on.opposite());
            for &e in &deed.ends {
                let owner = world.owner(e);
                let is_with = owner == Some(*p) || (owner.is_some() && owner == other);
                if !is_with && !world.is_in_message_on(e, on) && world.is_living(e) {
                    return Err("a link of a request is neither with one of the two processes nor in a message between them");
                }
            }
        }
        Ok(())
    }
}

// ---------------------------------------------------------------- runs

struct Run<'a> {
    world: World,
    programs: Vec<Lynx<'a>>,
    is_over: Vec<bool>,
    claims: Claims,
    /// How many packets of each kind were sent.
    sent: [usize; 8],
    version: u8,
    /// Whether the phases are tested.
    has_phases: bool,
    /// How often the phases of a way were tested, and what is left of one where its link was cut.
    tested: [usize; 2],
}

impl Run<'_> {
    fn step(&mut self, p: u8) -> Result<(), &'static str> {
        let place = usize::from(p);
        let answer = self.world.processes[place].answer.take();
        let step = self.programs[place].next(answer);
        for deed in self.programs[place].deeds.replace(Vec::new()).unwrap_or_default() {
            self.claims.add(&self.world, p, deed)?;
        }
        match step {
            Step::Ask(call) => {
                let home = self.world.processes[place].home;
                if let Call::Send(_, message) = &call {
                    self.sent[usize::from(message.bytes[0])] += 1;
                }
                self.world.event(home, 0).ask(p, call);
            }
            Step::Pause => {}
            Step::Ended => self.is_over[place] = true,
        }
        Ok(())
    }

    /// The messages sent on this end that its opposite's owner did not hear yet; of a link that was cut only those that may still be heard.
    fn on_the_way(&self, from: End, is_cut: bool) -> Vec<Sent> {
        let to = from.opposite();
        let mut sent = Vec::new();
        let mut add =
            |bytes: &[u8], ends: Vec<End>| sent.push(Sent { packet: packet::decode(self.version, bytes).expect("it is a packet"), ends });
        for process in &self.world.processes {
            let answer = match &process.answer {
                Some(Answer::Reported(report)) => Some(report),
                _ => None,
            };
            for report in answer.into_iter().chain(&process.reports) {
                if report.on == to && report.is_inward && report.is_done {
                    add(&report.bytes, report.enclosed.to_vec());
                }
            }
        }
        for packet in self.world.packets() {
            if let What::Parcel(parcel) = &packet.what {
                if parcel.to == to {
                    add(&parcel.bytes, parcel.moving.iter().map(|value| value.end).collect());
                }
            }
        }
        if let (false, Some(Outward::Waiting(message))) = (is_cut, self.world.here(from).map(|here| &here.outward)) {
            add(&message.bytes, message.enclosed.to_vec());
        }
        sent
    }

    fn side(&self, e: End) -> Side<'_> {
        Side {
            kept: self
                .programs
                .iter()
                .zip(&self.is_over)
                .filter(|(_, is_over)| !**is_over)
                .find_map(|(program, _)| program.kept_for(e).map(|kept| (kept, program))),
        }
    }

    /// What was issued at this end and accepted at its opposite, and so on.
    fn done(&self, e: End) -> Done {
        let lists = |e: End| self.claims.lists.get(&e);
        Done {
            issued: lists(e).map_or(Vec::new(), |lists| lists.issued.iter().map(|(_, deed)| told(deed)).collect()),
            accepted: lists(e.opposite()).map_or(Vec::new(), |lists| lists.accepted.iter().map(told).collect()),
            replied: lists(e.opposite()).map_or(Vec::new(), |lists| lists.replied.iter().map(told).collect()),
            returned: lists(e).map_or(Vec::new(), |lists| lists.returned.iter().map(told).collect()),
        }
    }

    fn test_link(&mut self, e: End) -> Result<(), &'static str> {
        let o = e.opposite();
        let (asker, server) = (self.side(e), self.side(o));
        let is_dead = |side: &Side| side.kept.is_some_and(|(kept, _)| kept.dead);
        let is_doomed = |e: End| self.programs.iter().any(|program| program.is_doomed(e));
        let is_cut =
            !self.world.is_living(e) || !self.world.is_living(o) || is_dead(&asker) || is_dead(&server) || is_doomed(e) || is_doomed(o);
        // a packet that is sent stays in the queue until the process hears the answer
        let is_sent = |e: End| {
            self.programs
                .iter()
                .zip(&self.world.processes)
                .any(|(program, process)| program.sends_on() == Some(e) && matches!(process.answer, Some(Answer::Ok)))
        };
        let queued = |e: End, side: &Side| -> Vec<Sent> {
            let copy = |q: &process::Queued| Sent {
                packet: packet::decode(self.version, packet::encode(&q.packet).expect("it fits").as_slice()).expect("it is one"),
                ends: q.ends.clone(),
            };
            side.kept
                .filter(|_| !is_cut)
                .map_or(Vec::new(), |(kept, _)| kept.queue.iter().skip(usize::from(is_sent(e))).map(copy).collect())
        };
        let to: Vec<Sent> = self.on_the_way(e, is_cut).into_iter().chain(queued(e, &asker)).collect();
        let from: Vec<Sent> = self.on_the_way(o, is_cut).into_iter().chain(queued(o, &server)).collect();
        let most = if self.version == 1 { 1 } else { 8 };
        let talk = Talk {
            most,
            asker,
            server,
            forth: to.iter().filter(|sent| is_asking(&sent.packet)).collect(),
            back: from.iter().filter(|sent| !is_asking(&sent.packet)).collect(),
        };
        let done = self.done(e);
        if is_cut {
            done.test_cut(&talk)?
        } else {
            done.test_living(&talk)?
        }
        self.tested[usize::from(is_cut)] += 1;
        Ok(())
    }

    fn test_links(&mut self) -> Result<(), &'static str> {
        let mut ends: Vec<End> = self.world.kernels.iter().flat_map(|kernel| kernel.table.keys().copied()).collect();
        ends.extend(self.claims.lists.keys());
        ends.extend(ends.clone().iter().map(|e| e.opposite()));
        ends.sort();
        ends.dedup();
        for e in ends {
            self.test_link(e)?;
        }
        Ok(())
    }

    /// One packet or one step, whichever chance picks; whether there was one.
    fn event(&mut self, chance: &mut Chance, eager: usize) -> Result<bool, &'static str> {
        let filled: Vec<usize> = (0..MOST_KERNELS * MOST_KERNELS).filter(|&place| self.world.net.filled >> place & 1 == 1).collect();
        let can = |p: &usize| !self.is_over[*p] && !matches!(self.world.processes[*p].state, State::InWait | State::InCancel);
        let ready: Vec<usize> = (0..self.programs.len()).filter(can).collect();
        if filled.is_empty() && ready.is_empty() {
            return Ok(false);
        }
        if ready.is_empty() || (!filled.is_empty() && chance.below(10) < eager) {
            self.world.take(chance.pick(&filled));
        } else {
            self.step(chance.pick(&ready) as u8)?;
        }
        self.claims.test_open(&self.world)?;
        if self.has_phases {
            self.test_links()?;
        }
        Ok(true)
    }
}

fn setting(chance: &mut Chance) -> Setting {
    let (kernels, processes) = (1 + chance.below(4), 2 + chance.below(3));
    let homes = (0..processes).map(|_| chance.below(kernels) as u8).collect();
    let wires = (0..1 + chance.below(4)).map(|_| (chance.below(processes) as u8, chance.below(processes) as u8)).collect();
    Setting { version: 1 + chance.below(2) as u8, kernels: kernels as u8, homes, wires }
}

/// The ends of each process, in the order of its params.
fn wired(setting: &Setting) -> Vec<Vec<End>> {
    let mut made = [0; MOST_KERNELS];
    let mut ends = vec![Vec::new(); setting.homes.len()];
    for &(first, second) in &setting.wires {
        let maker = setting.homes[usize::from(first)];
        let a = End::new(maker, made[usize::from(maker)], 0);
        made[usize::from(maker)] += 1;
        ends[usize::from(first)].push(a);
        ends[usize::from(second)].push(a.opposite());
    }
    ends
}

/// Deeds and packets of each kind.
type Counts = ([usize; 4], [usize; 8], [usize; 2]);

/// A run of this seed: how many events it has, and its counts.
fn run(seed: u64, has_phases: bool) -> Result<(usize, Counts), (usize, &'static str)> {
    let mut chance = Chance(seed.wrapping_mul(0x9E37_79B9_7F4A_7C15) | 1);
    let setting = setting(&mut chance);
    let ends = wired(&setting);
    let ops: Vec<usize> = (0..1 + chance.below(3)).map(|_| chance.below(OPS.len())).collect();
    let mut module = |params: usize| {
        let accepts = [2, 8, 20][chance.below(3)];
        loaded(Maker { chance: &mut chance, params, ops: &ops, accepts, around: Vec::new() }.module())
    };
    let modules: Vec<Loaded> = ends.iter().map(|ends| module(ends.len())).collect();
    let start = |loaded: &'static Loaded, ends: &[End]| {
        let mut program = Lynx::start(setting.version, &loaded.source, &loaded.module, &loaded.code, ends);
        program.deeds = Some(Vec::new());
        program
    };
    let programs: Vec<Lynx> = modules.into_iter().zip(&ends).map(|(loaded, ends)| start(Box::leak(Box::new(loaded)), ends)).collect();
    let is_over = vec![false; programs.len()];
    let mut run = Run {
        world: World::start(&setting),
        programs,
        is_over,
        claims: Claims::default(),
        sent: [0; 8],
        version: setting.version,
        has_phases,
        tested: [0; 2],
    };
    let eager = 1 + chance.below(9);
    for events in 0..EVENTS_OF_A_RUN {
        match run.event(&mut chance, eager) {
            Ok(true) => {}
            Ok(false) => return Ok((events, (run.claims.counts, run.sent, run.tested))),
            Err(claim) => return Err((events, claim)),
        }
    }
    Ok((EVENTS_OF_A_RUN, (run.claims.counts, run.sent, run.tested)))
}

fn main() -> ExitCode {
    let has_phases = std::env::args().any(|word| word == "phases");
    let words: Vec<u64> = std::env::args().skip(1).filter_map(|word| word.parse().ok()).collect();
    let &[first, most] = &words[..] else { fail(2, "requests: SEED EVENTS [phases]") };
    let (mut events, mut deeds, mut packets, mut tested, mut seed) = (0, [0; 4], [0; 8], [0; 2], first);
    while events < most as usize {
        match run(seed, has_phases) {
            Ok((more, counts)) => {
                events += more.max(1);
                deeds.iter_mut().zip(counts.0).for_each(|(count, more)| *count += more);
                packets.iter_mut().zip(counts.1).for_each(|(count, more)| *count += more);
                tested.iter_mut().zip(counts.2).for_each(|(count, more)| *count += more);
            }
            Err((at, claim)) => {
                println!("run {seed}, event {at}: {claim}");
                return ExitCode::FAILURE;
            }
        }
        seed += 1;
    }
    let [issued, accepted, replied, returned] = deeds;
    let [_, request, reply, retry, forbid, allow, goahead, enc] = packets;
    println!("packets: {request} request, {reply} reply, {retry} retry, {forbid} forbid, {allow} allow, {goahead} goahead, {enc} enc");
    if has_phases {
        println!("{} times a way of a link was in a phase, and {} times one that was cut", tested[0], tested[1]);
    }
    println!("{events} events in {} runs: {issued} requests issued, {accepted} accepted, {replied} replied to, {returned} returned; no claim was false", seed - first);
    ExitCode::SUCCESS
}
