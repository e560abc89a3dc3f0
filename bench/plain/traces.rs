//! Random runs of kernels, in which the clauses on traces of ends are tested after each event: those of `IsTraced` (crates/trace_meaning), each
//! as it is defined there, and that no table has a trace where no packet is under way. Or random states in which all clauses are true but one at
//! most: it makes an event in each, and tells which clauses that makes false.
//!
//!     traces SEED EVENTS              so many events, in runs of at most 600
//!     traces SEED STATES states       so many states of those in which all clauses are true, and of others as they come

use std::process::ExitCode;

include!("kernels.rs");
include!("trace_states.rs");

const EVENTS_OF_A_RUN: usize = 600;

struct Chance(u64);

impl Chance {
    fn below(&mut self, n: usize) -> usize {
        self.0 ^= self.0 << 13;
        self.0 ^= self.0 >> 7;
        self.0 ^= self.0 << 17;
        (self.0.wrapping_mul(0x2545_f491_4f6c_dd1d) >> 33) as usize % n
    }

    fn pick<T: Copy>(&mut self, all: &[T]) -> Option<T> {
        if all.is_empty() {
            None
        } else {
            Some(all[self.below(all.len())])
        }
    }
}

fn values_of(what: &What) -> &[Moving] {
    match what {
        What::Parcel(parcel) => &parcel.moving,
        What::Back { moving, .. } => moving,
        _ => &[],
    }
}

fn word_of(what: &What) -> &'static str {
    match what {
        What::Want(_) => "want",
        What::Unwant(_) => "unwant",
        What::Unwanted(_) => "unwanted",
        What::Parcel(_) => "parcel",
        What::Taken { .. } => "taken",
        What::Back { .. } => "back",
        What::Gone { .. } => "gone",
        What::Moved { .. } => "moved",
        What::Known { .. } => "known",
        What::Forget { .. } => "forget",
        What::GoneSeen { .. } => "goneseen",
    }
}

fn word_of_call(call: &Call) -> &'static str {
    match call {
        Call::Make => "Make",
        Call::Destroy(_) => "Destroy",
        Call::Send(..) => "Send",
        Call::Receive(_) => "Receive",
        Call::CancelOut(_) | Call::CancelIn(_) => "Cancel",
        Call::Exit => "Exit",
        Call::Wait | Call::Print(_) => "Wait",
    }
}

/// A value of `e` is in one of these packets, and its hops are so.
fn is_flying<'a>(mut packets: impl Iterator<Item = &'a Packet>, e: End, are: impl Fn(u32) -> bool) -> bool {
    packets.any(|packet| values_of(&packet.what).iter().any(|value| value.end == e && are(value.hops)))
}

/// Of packets that tell where their sender is: to whom, the kernel and the hops.
fn news(what: &What) -> Option<(End, u8, u32)> {
    match what {
        What::Want(ask) | What::Unwant(ask) | What::Unwanted(ask) => Some((ask.to, ask.at, ask.hops)),
        What::Parcel(parcel) => Some((parcel.to, parcel.at, parcel.hops)),
        What::Taken { to, at, hops, .. } | What::Moved { to, at, hops } => Some((*to, *at, *hops)),
        _ => None,
    }
}

/// A clause, and whether it is true.
type Clause = (&'static str, bool);

impl World {
    fn entry(&self, k: u8, e: End) -> Option<&Entry> {
        self.kernels[usize::from(k)].table.get(&e)
    }

    fn numbers(&self) -> std::ops::Range<u8> {
        0..self.kernels.len() as u8
    }

    /// All packets, with the kernels from and to which they go.
    fn packets(&self) -> impl Iterator<Item = (u8, u8, usize, &Packet)> + '_ {
        let list = |place: usize| self.net.lists[place].iter().enumerate().map(move |(at, packet)| (place, at, packet));
        (0..MOST_KERNELS * MOST_KERNELS)
            .flat_map(list)
            .map(|(place, at, packet)| ((place / MOST_KERNELS) as u8, (place % MOST_KERNELS) as u8, at, packet))
    }

    fn ends(&self) -> Vec<End> {
        let of_maker = |kernel: &Kernel| {
            let id = kernel.id;
            (0..kernel.made).flat_map(move |count| [End::new(id, count, 0), End::new(id, count, 1)])
        };
        self.kernels.iter().flat_map(of_maker).collect()
    }

    /// The fields of an end that is here or in a packet.
    fn living(&self, e: End) -> Vec<Moving> {
        let at = |k| match self.entry(k, e) {
            Some(Entry::Here(here)) => Some(here.moving),
            _ => None,
        };
        let flying = self.packets().flat_map(|(_, _, _, packet)| values_of(&packet.what)).filter(|value| value.end == e).copied();
        self.numbers().filter_map(at).chain(flying).collect()
    }

    fn marks(&self, e: End) -> Vec<(u8, Moving)> {
        let mark = |k| match self.entry(k, e) {
            Some(Entry::Destroyed(mark)) => Some((k, *mark)),
            _ => None,
        };
        self.numbers().filter_map(mark).collect()
    }

    fn fields(&self, e: End) -> Vec<Moving> {
        self.living(e).into_iter().chain(self.marks(e).into_iter().map(|mark| mark.1)).collect()
    }

    fn is_living(&self, e: End) -> bool {
        !self.living(e).is_empty()
    }

    fn is_open(&self, e: End) -> bool {
        self.living(e).iter().any(|value| !value.is_dead)
    }

    fn is_sought(&self, e: End) -> bool {
        self.is_open(e) || !self.marks(e).is_empty()
    }

    fn has_chain(&self, e: End, k: u8, h: u32) -> bool {
        match self.entry(k, e) {
            None => false,
            Some(Entry::Here(here)) => h <= here.moving.hops,
            Some(Entry::Destroyed(mark)) => h <= mark.hops,
            Some(Entry::Left { to, hops }) => {
                let list = self.net.lists[Net::place(k, *to)].iter();
                h < *hops && (is_flying(list, e, |i| i == *hops) || self.has_chain(e, *to, *hops))
            }
        }
    }

    fn goes_to(&self, k: u8, is: impl Fn(&What) -> bool) -> bool {
        self.packets().any(|(_, to, _, packet)| to == k && is(&packet.what))
    }

    fn is_on_track(&self, e: End, h: u32, is: impl Fn(&What) -> bool) -> bool {
        self.packets().any(|(from, to, at, packet)| {
            let before = self.net.lists[Net::place(from, to)].iter().take(at);
            is(&packet.what) && (is_flying(before, e, |i| h < i) || self.has_chain(e, to, h))
        })
    }

    /// Where it was heard of `e`, or will be, that it was.
    fn heard(&self, e: End) -> Vec<(u8, u32)> {
        let hints = self.fields(e.opposite()).into_iter().map(|value| (value.hint, value.hint_hops));
        let told = self.packets().filter_map(|(_, _, _, packet)| news(&packet.what));
        hints.chain(told.filter(|(to, _, _)| *to == e.opposite()).map(|(_, at, hops)| (at, hops))).collect()
    }

    /// Where an end is asked from, with the hops that were told, and not served yet.
    fn unserved(&self, e: End, fields: &Moving) -> Vec<(u8, u32)> {
        let asked = self.packets().filter_map(|(_, _, _, packet)| match &packet.what {
            What::Want(ask) | What::Unwant(ask) if ask.to == e && fields.served < ask.w => Some((ask.at, ask.hops)),
            _ => None,
        });
        (fields.want > 0).then_some((fields.hint, fields.hint_hops)).into_iter().chain(asked).collect()
    }

    // ------------------------------------------------------------ the clauses

    fn is_met(&self, e: End) -> bool {
        !self.is_open(e) || self.is_living(e.opposite()) || !self.marks(e.opposite()).is_empty()
    }

    fn is_reached(&self, e: End) -> bool {
        if !self.is_sought(e) || !self.is_sought(e.opposite()) {
            return true;
        }
        let heard = self.heard(e);
        let of = |fields: Moving| heard.iter().filter(move |(_, h)| fields.hint_hops <= *h).all(|(j, h)| self.has_chain(e, *j, *h));
        self.fields(e.opposite()).into_iter().all(of)
    }

    fn is_seen_right(&self, e: End) -> [Clause; 2] {
        let is = |what: &What| matches!(what, What::GoneSeen { to } if *to == e);
        let none = !self.packets().any(|(_, _, _, packet)| is(&packet.what));
        [("seen, destroyed", none || !self.is_living(e)), ("seen, unsought", none || !self.is_sought(e.opposite()))]
    }

    fn is_known_right(&self, e: End) -> bool {
        if !self.is_sought(e) || !self.is_sought(e.opposite()) {
            return true;
        }
        let told = |what: &What| match what {
            What::Known { to, hops } | What::Forget { to, hops } if *to == e => Some(*hops),
            _ => None,
        };
        let most = self.packets().filter_map(|(_, _, _, packet)| told(&packet.what)).max().unwrap_or(0);
        self.fields(e.opposite()).iter().all(|fields| most <= fields.hint_hops)
    }

    fn is_announced(&self, e: End, k: u8, value: &Moving) -> bool {
        let o = e.opposite();
        let known = |what: &What| matches!(what, What::Known { to, hops } if *to == e && *hops == value.hops);
        let moved = |what: &What| matches!(what, What::Moved { to, at, hops } if *to == o && *at == k && *hops == value.hops);
        value.is_dead || value.trail == 0 || !self.is_living(o) || self.goes_to(k, known) || self.is_on_track(o, value.hint_hops, moved)
    }

    fn is_left_right(&self, e: End, k: u8, h: u32) -> [Clause; 3] {
        let fields = self.fields(e);
        let trailed = self.is_sought(e) && fields.iter().any(|value| value.trail >> k & 1 == 1);
        let told = |what: &What| matches!(what, What::Forget { to, hops } if *to == e && h <= *hops);
        [
            ("left, some hops", 1 <= h),
            ("left, no more than its end", fields.iter().all(|value| h <= value.hops)),
            ("left, kept", trailed || self.goes_to(k, told)),
        ]
    }

    fn is_told_from(&self, e: End, d: u8) -> [Clause; 3] {
        let o = e.opposite();
        let gone = |what: &What| matches!(what, What::Gone { to, at } if *to == o && *at != d);
        let back = |from: u8, what: &What| from != d && matches!(what, What::Back { to, .. } if *to == o);
        let parcel = |to: u8, what: &What| to != d && matches!(what, What::Parcel(parcel) if parcel.to == e);
        [
            ("mark, gone", !self.packets().any(|(_, _, _, packet)| gone(&packet.what))),
            ("mark, backs", !self.is_open(o) || !self.packets().any(|(from, _, _, packet)| back(from, &packet.what))),
            ("mark, parcels", !self.is_open(o) || !self.packets().any(|(_, to, _, packet)| parcel(to, &packet.what))),
        ]
    }

    fn is_mourned(&self, e: End, d: u8, mark: &Moving) -> bool {
        let o = e.opposite();
        let seen = |what: &What| matches!(what, What::GoneSeen { to } if *to == e);
        let gone = |what: &What| matches!(what, What::Gone { to, at } if *to == o && *at == d);
        self.goes_to(d, seen) || self.is_sought(o) && self.is_on_track(o, mark.hint_hops, gone)
    }

    fn is_mark_right(&self, e: End, d: u8, mark: &Moving) -> Vec<Clause> {
        let o = e.opposite();
        let asked = || self.fields(o).iter().all(|fields| self.unserved(o, fields).into_iter().all(|told| told == (d, mark.hops)));
        let own =
            [("mark, dead", !mark.is_dead), ("mark, asked", !self.is_open(o) || asked()), ("mark, mourned", self.is_mourned(e, d, mark))];
        self.is_told_from(e, d).into_iter().chain(own).collect()
    }

    /// The clauses that are false of an end.
    fn false_of(&self, e: End) -> Vec<&'static str> {
        let mut all = vec![("met", self.is_met(e)), ("reached", self.is_reached(e)), ("known", self.is_known_right(e))];
        all.extend(self.is_seen_right(e));
        for k in self.numbers() {
            match self.entry(k, e) {
                None => {}
                Some(Entry::Here(here)) => all.push(("announced", self.is_announced(e, k, &here.moving))),
                Some(Entry::Left { hops, .. }) => all.extend(self.is_left_right(e, k, *hops)),
                Some(Entry::Destroyed(mark)) => all.extend(self.is_mark_right(e, k, mark)),
            }
        }
        all.into_iter().filter(|clause| !clause.1).map(|clause| clause.0).collect()
    }

    fn is_bare(&self) -> bool {
        let here = |kernel: &Kernel| kernel.table.values().all(|entry| matches!(entry, Entry::Here(_)));
        self.net.filled != 0 || self.kernels.iter().all(here)
    }

    fn first_false(&self) -> Option<String> {
        let of_end = |e: End| self.false_of(e).first().map(|clause| format!("{clause}, of the end {:x}", e.0));
        self.ends().into_iter().find_map(of_end).or_else(|| (!self.is_bare()).then(|| "bare".to_string()))
    }

    // ------------------------------------------------------------ events

    fn owned_by(&self, p: u8) -> Vec<End> {
        let kernel = &self.kernels[usize::from(self.processes[usize::from(p)].home)];
        let is = |(e, entry): (&End, &Entry)| matches!(entry, Entry::Here(here) if here.holder == Holder::Owner(p)).then_some(*e);
        let mut all: Vec<End> = kernel.table.iter().filter_map(is).collect();
        all.sort();
        all
    }

    fn any_call(&self, p: u8, chance: &mut Chance) -> Option<Call> {
        let mine = self.owned_by(p);
        let on = chance.pick(&mine);
        Some(match chance.below(60) {
            0..=1 => Call::Make,
            2 => Call::Destroy(on?),
            3..=24 => Call::Send(on?, Box::new(self.any_message(on?, &mine, chance))),
            25..=43 => Call::Receive(on?),
            44..=46 => Call::CancelOut(on?),
            47..=49 => Call::CancelIn(on?),
            50 if chance.below(6) == 0 => Call::Exit,
            _ => Call::Wait,
        })
    }

    fn any_message(&self, on: End, mine: &[End], chance: &mut Chance) -> Message {
        let others = mine.iter().copied().filter(|e| !e.is_of_link_of(on));
        let enclosed: Vec<End> = others.filter(|_| chance.below(3) == 0).take(MOST_ENCLOSED).collect();
        Message { bytes: Box::default(), enclosed: enclosed.into() }
    }

    fn filled(&self) -> Vec<usize> {
        (0..MOST_KERNELS * MOST_KERNELS).filter(|place| !self.net.lists[*place].is_empty()).collect()
    }

    /// A call or a taking, of which so many in ten are tried; whether there was one.
    fn any_event(&mut self, takings: usize, chance: &mut Chance) -> bool {
        if chance.below(10) < takings {
            return chance.pick(&self.filled()).is_some_and(|place| self.take(place));
        }
        self.make_call(chance).is_some()
    }

    /// Any call of a process; its word, if it may make one.
    fn make_call(&mut self, chance: &mut Chance) -> Option<&'static str> {
        let p = chance.below(self.processes.len()) as u8;
        if self.processes[usize::from(p)].state != State::Running {
            return None;
        }
        let call = self.any_call(p, chance)?;
        let word = word_of_call(&call);
        let home = self.processes[usize::from(p)].home;
        self.event(home, 0).ask(p, call);
        Some(word)
    }
}

fn any_setting(chance: &mut Chance) -> Setting {
    let kernels = 2 + chance.below(3) as u8;
    let homes: Vec<u8> = (0..2 + chance.below(4)).map(|_| chance.below(usize::from(kernels)) as u8).collect();
    let mut any = || chance.below(homes.len()) as u8;
    let wires = (0..3).map(|_| (any(), any())).collect();
    Setting { version: 2, kernels, homes, wires }
}

/// How many events there were and in how many nothing was under way afterwards; and what was false.
fn run(seed: u64, most: usize) -> (usize, usize, Option<String>) {
    let mut chance = Chance(seed.wrapping_mul(0x9e37_79b9_7f4a_7c15) | 1);
    let mut world = World::start(&any_setting(&mut chance));
    let takings = 2 + chance.below(5);
    let (mut events, mut quiet, mut tries) = (0, 0, 0);
    while events < most && tries < 20 * most {
        tries += 1;
        if !world.any_event(takings, &mut chance) {
            continue;
        }
        events += 1;
        world.kernels.iter_mut().for_each(|kernel| kernel.journal = Journal::default());
        quiet += usize::from(world.net.filled == 0);
        if let Some(clause) = world.first_false() {
            return (events, quiet, Some(clause));
        }
    }
    (events, quiet, None)
}

fn main() -> ExitCode {
    let numbers: Vec<u64> = std::env::args().skip(1).filter_map(|word| word.parse().ok()).collect();
    let [mut seed, most] = numbers[..] else {
        eprintln!("traces SEED EVENTS|STATES [states]");
        return ExitCode::from(2);
    };
    if std::env::args().any(|word| word == "states") {
        return states(seed, most as usize);
    }
    let (mut events, mut quiet, mut runs) = (0, 0, 0);
    while (events as u64) < most {
        let (made, rested, failed) = run(seed, EVENTS_OF_A_RUN);
        (events, quiet, runs, seed) = (events + made, quiet + rested, runs + 1, seed + 1);
        if let Some(clause) = failed {
            println!("seed {}, event {made}: {clause}", seed - 1);
            return ExitCode::FAILURE;
        }
    }
    println!("{runs} runs, {events} events, {quiet} of them with no packet under way");
    ExitCode::SUCCESS
}
