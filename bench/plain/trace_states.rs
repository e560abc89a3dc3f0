// Random states of kernels in which all clauses on traces of ends are true but one at most: which events make which others false.
//
// A program takes it in by `include!`, behind kernels.rs.

use std::collections::BTreeMap;

const CALLS_OF_A_STATE: usize = 3;
const TAKINGS_OF_A_STATE: usize = 1000;

fn values_in(what: &mut What) -> &mut [Moving] {
    match what {
        What::Parcel(parcel) => &mut parcel.moving,
        What::Back { moving, .. } => moving,
        _ => &mut [],
    }
}

// ---------------------------------------------------------------- changes

/// What is changed of a link: parts of which the service theorem says nothing, and news that say no more than is true. So its invariant still holds.
impl World {
    fn any_kernel(&self, chance: &mut Chance) -> u8 {
        chance.below(self.kernels.len()) as u8
    }

    fn place_of(&self, chance: &mut Chance) -> usize {
        Net::place(self.any_kernel(chance), self.any_kernel(chance))
    }

    fn insert(&mut self, place: usize, what: What, chance: &mut Chance) {
        let at = chance.below(self.net.lists[place].len() + 1);
        self.net.lists[place].insert(at, Packet { stamp: 0, what });
        self.net.filled |= 1 << place;
    }

    fn remove(&mut self, place: usize, at: usize) -> Option<What> {
        let packet = self.net.lists[place].remove(at)?;
        if self.net.lists[place].is_empty() {
            self.net.filled &= !(1 << place);
        }
        Some(packet.what)
    }

    /// One of the packets of which this is true: its list, and its place there.
    fn any_packet(&self, chance: &mut Chance, is: impl Fn(&What) -> bool) -> Option<(usize, usize)> {
        let all = self.packets().filter(|(_, _, _, packet)| is(&packet.what));
        let places: Vec<(usize, usize)> = all.map(|(from, to, at, _)| (Net::place(from, to), at)).collect();
        chance.pick(&places)
    }

    /// The fields of an end, wherever they are.
    fn fields_in(&mut self, e: End) -> Option<&mut Moving> {
        let mut values = self.net.lists.iter_mut().flatten().flat_map(|packet| values_in(&mut packet.what));
        let at_home = self.kernels.iter_mut().find_map(|kernel| match kernel.table.get_mut(&e) {
            Some(Entry::Here(here)) => Some(&mut here.moving),
            Some(Entry::Destroyed(mark)) => Some(mark),
            _ => None,
        });
        at_home.or_else(|| values.find(|value| value.end == e))
    }

    /// Where it may be heard that `e` was, and with what hops.
    fn any_news(&self, e: End, chance: &mut Chance) -> (u8, u32) {
        let any = self.any_kernel(chance);
        let Some(fields) = self.fields(e).first().copied() else { return (any, chance.below(4) as u32) };
        let hops = chance.below(fields.hops as usize + 1) as u32;
        let is_there = |k: &u8| matches!(self.entry(*k, e), Some(Entry::Here(_) | Entry::Destroyed(_)));
        match self.numbers().find(is_there) {
            _ if hops < fields.hops => (any, hops),
            Some(k) => (k, hops),
            None => (any, hops - 1),
        }
    }

    fn change_hint(&mut self, e: End, chance: &mut Chance) -> Option<()> {
        let news = self.any_news(e.opposite(), chance);
        let is_free = !self.is_living(e.opposite());
        let fields = self.fields_in(e).filter(|fields| is_free || fields.want == 0)?;
        (fields.hint, fields.hint_hops) = news;
        Some(())
    }

    fn change_trail(&mut self, e: End, chance: &mut Chance) -> Option<()> {
        let k = self.any_kernel(chance);
        self.fields_in(e)?.trail ^= 1 << k;
        Some(())
    }

    /// More hops, where no packet has to name them.
    fn change_hops(&mut self, e: End) -> Option<()> {
        let o = e.opposite();
        let is_told = self.packets().any(|(_, _, _, packet)| matches!(&packet.what, What::Parcel(parcel) if parcel.to == o));
        let is_asked = self.fields(o).iter().any(|fields| !self.unserved(o, fields).is_empty());
        if self.is_living(e) && (is_told || is_asked) {
            return None;
        }
        self.fields_in(e)?.hops += 1;
        Some(())
    }

    fn change_left(&mut self, e: End, chance: &mut Chance) -> Option<()> {
        let left = Entry::Left { to: self.any_kernel(chance), hops: chance.below(5) as u32 };
        let k = self.any_kernel(chance);
        let is_kept = chance.below(2) == 0;
        let table = &mut self.kernels[usize::from(k)].table;
        match table.get(&e) {
            Some(Entry::Here(_) | Entry::Destroyed(_)) => return None,
            Some(_) if !is_kept => table.remove(&e),
            _ => table.insert(e, left),
        };
        if let (0, Some(fields)) = (chance.below(2), self.fields_in(e)) {
            fields.trail |= 1 << k;
        }
        Some(())
    }

    /// A mark less, a dead one, or a new one of an end that is destroyed.
    fn change_mark(&mut self, e: End, chance: &mut Chance) -> Option<()> {
        if let Some((k, mark)) = self.marks(e).first().copied() {
            let table = &mut self.kernels[usize::from(k)].table;
            table.remove(&e);
            if chance.below(2) == 0 {
                table.insert(e, Entry::Destroyed(Moving { is_dead: true, ..mark }));
            }
            return Some(());
        }
        if self.is_living(e) {
            return None;
        }
        let heard = self.heard(e);
        let (j, most) = heard.iter().copied().max_by_key(|told| told.1).unwrap_or((0, 0));
        let is_last = chance.below(2) == 0 && heard.iter().all(|told| told.1 < most || told.0 == j);
        let (hint, hint_hops) = self.any_news(e.opposite(), chance);
        let hops = if is_last { most } else { most + 1 };
        let trail = chance.below(1 << self.kernels.len()) as u8;
        let mark = Moving { hops, hint_hops, trail, ..Moving::new(e, hint) };
        self.kernels[usize::from(j)].table.insert(e, Entry::Destroyed(mark));
        Some(())
    }

    fn add_packet(&mut self, e: End, chance: &mut Chance) -> Option<()> {
        let (at, hops) = self.any_news(e.opposite(), chance);
        let own = chance.below(5) as u32;
        let what = match chance.below(6) {
            0 => What::Moved { to: e, at, hops },
            1 => What::Known { to: e, hops: own },
            2 => What::Forget { to: e, hops: own },
            3 => What::GoneSeen { to: e },
            4 => What::Want(Ask { to: e, w: 0, at, hops }),
            _ if self.is_living(e.opposite()) => return None,
            _ => What::Gone { to: e, at: self.any_kernel(chance) },
        };
        let place = self.place_of(chance);
        self.insert(place, what, chance);
        Some(())
    }

    fn drop_packet(&mut self, e: End, chance: &mut Chance) -> Option<()> {
        let is = |what: &What| match what {
            What::Moved { to, .. } | What::Known { to, .. } | What::Forget { to, .. } | What::GoneSeen { to } | What::Gone { to, .. } => {
                *to == e
            }
            _ => false,
        };
        let (place, at) = self.any_packet(chance, is)?;
        self.remove(place, at).map(|_| ())
    }

    /// A parcel for an end that is not open goes to any kernel, and a back comes from any.
    fn turn_packet(&mut self, e: End, chance: &mut Chance) -> Option<()> {
        let is_open = self.is_open(e);
        let is = |what: &What| match what {
            What::Parcel(parcel) => parcel.to == e && !is_open,
            What::Back { to, .. } => *to == e,
            _ => false,
        };
        let (place, at) = self.any_packet(chance, is)?;
        let what = self.remove(place, at)?;
        let other = self.any_kernel(chance);
        let (from, to) = ((place / MOST_KERNELS) as u8, (place % MOST_KERNELS) as u8);
        let place = if let What::Parcel(_) = what { Net::place(from, other) } else { Net::place(other, to) };
        self.insert(place, what, chance);
        Some(())
    }

    /// What an end that is destroyed asked for was asked from anywhere.
    fn turn_ask(&mut self, e: End, chance: &mut Chance) -> Option<()> {
        if self.is_living(e.opposite()) {
            return None;
        }
        let is = |what: &What| matches!(what, What::Want(ask) | What::Unwant(ask) if ask.to == e);
        let (place, i) = self.any_packet(chance, is)?;
        let (at, hops) = self.any_news(e.opposite(), chance);
        if let What::Want(ask) | What::Unwant(ask) = &mut self.net.lists[place][i].what {
            (ask.at, ask.hops) = (at, hops);
        }
        Some(())
    }

    fn change(&mut self, e: End, chance: &mut Chance) -> Option<()> {
        match chance.below(10) {
            0 => self.change_hint(e, chance),
            1 => self.change_trail(e, chance),
            2 => self.change_hops(e),
            3 => self.change_left(e, chance),
            4 => self.change_mark(e, chance),
            5 => self.turn_packet(e, chance),
            6 => self.turn_ask(e, chance),
            7 => self.drop_packet(e, chance),
            _ => self.add_packet(e, chance),
        }
    }

    // ------------------------------------------------------------ states and events

    /// The owner of an end makes a call, if it may; its word, if it did.
    fn call_by_owner(&mut self, e: End, call: Call) -> Option<&'static str> {
        let p = (0..self.processes.len() as u8).find(|p| self.owned_by(*p).contains(&e))?;
        let word = word_of_call(&call);
        let home = self.processes[usize::from(p)].home;
        let may = self.processes[usize::from(p)].state == State::Running;
        may.then(|| self.event(home, 0).ask(p, call)).map(|()| word)
    }

    /// Any end, or one that is open and whose opposite is destroyed, or one with a trail.
    fn any_end(&self, chance: &mut Chance) -> Option<End> {
        let kind = chance.below(3);
        let is = |e: End| match kind {
            0 => self.is_open(e) && !self.is_living(e.opposite()),
            1 => self.fields(e).iter().any(|fields| fields.trail != 0),
            _ => true,
        };
        let all: Vec<End> = self.ends().into_iter().filter(|e| is(*e)).collect();
        chance.pick(&all)
    }

    /// The state after some changes of a link, if there were any, and an end of the link.
    fn changed(&self, chance: &mut Chance) -> Option<(End, World)> {
        let mut world = self.clone();
        let e = world.any_end(chance)?;
        if chance.below(4) == 0 {
            world.call_by_owner(e.opposite(), Call::Destroy(e.opposite()));
        }
        let tries = 1 + chance.below(4);
        let made = (0..tries).filter_map(|_| world.change(if chance.below(2) == 0 { e } else { e.opposite() }, chance)).count();
        (made > 0).then_some((e, world))
    }

    /// Each taking that may be next, two calls on each end of a link, and some others, with the state after it.
    fn nexts(&self, e: End, chance: &mut Chance) -> Vec<(&'static str, World)> {
        let taking = |place: usize| {
            let mut world = self.clone();
            let word = word_of(&world.net.lists[place].front()?.what);
            world.take(place).then_some((word, world))
        };
        let call = |_| {
            let mut world = self.clone();
            world.make_call(chance).map(|word| (word, world))
        };
        let on_end = |(end, call): (End, Call)| {
            let mut world = self.clone();
            world.call_by_owner(end, call).map(|word| (word, world))
        };
        let message = || Box::new(Message { bytes: Box::default(), enclosed: Box::default() });
        let on_ends = [e, e.opposite()].into_iter().flat_map(|end| [(end, Call::Destroy(end)), (end, Call::Send(end, message()))]);
        let takings = self.filled().into_iter().filter_map(taking);
        takings.chain(on_ends.filter_map(on_end)).chain((0..CALLS_OF_A_STATE).filter_map(call)).collect()
    }

    /// Whether there is a trace when all packets were taken, in any order.
    fn leaves_trace(mut self, chance: &mut Chance) -> bool {
        for _ in 0..TAKINGS_OF_A_STATE {
            let Some(place) = chance.pick(&self.filled()) else { break };
            self.take(place);
        }
        !self.is_bare()
    }

    /// The clauses that are false.
    fn all_false(&self) -> Vec<&'static str> {
        let mut all: Vec<&str> = self.ends().into_iter().flat_map(|e| self.false_of(e)).collect();
        all.sort_unstable();
        all.dedup();
        all
    }
}

const NONE: &str = "none";

/// Of each clause that is left out: how many states there were, and how often which event made which clause false.
#[derive(Default)]
struct Found {
    states: BTreeMap<&'static str, usize>,
    events: usize,
    broken: BTreeMap<(&'static str, &'static str, &'static str), usize>,
}

impl Found {
    /// A changed state counts where one clause at most is false.
    fn try_state(&mut self, world: &World, chance: &mut Chance) {
        let Some((e, world)) = world.changed(chance) else { return };
        let wrong = world.all_false();
        if wrong.len() > 1 {
            return;
        }
        let out = wrong.first().copied().unwrap_or(NONE);
        *self.states.entry(out).or_default() += 1;
        for (event, after) in world.nexts(e, chance) {
            self.events += 1;
            for clause in after.all_false().into_iter().filter(|clause| *clause != out) {
                *self.broken.entry((out, event, clause)).or_default() += 1;
            }
        }
        if world.leaves_trace(chance) {
            *self.broken.entry((out, "all taken", "a trace is left")).or_default() += 1;
        }
    }

    fn count(&self, out: &str) -> usize {
        self.states.get(out).copied().unwrap_or(0)
    }

    /// Whether no event made a clause false where all were true.
    fn is_right(&self) -> bool {
        self.broken.keys().all(|(out, _, _)| *out != NONE)
    }

    fn print(&self) {
        println!("{} states, {} events", self.states.values().sum::<usize>(), self.events);
        for (out, states) in &self.states {
            println!("without {out}: {states} states");
            for ((_, event, clause), times) in self.broken.iter().filter(|((of, _, _), _)| of == out) {
                println!("    {event}: {clause}, {times} times");
            }
        }
    }
}

fn states(mut seed: u64, most: usize) -> ExitCode {
    let mut found = Found::default();
    while found.count(NONE) < most {
        let mut chance = Chance(seed.wrapping_mul(0x9e37_79b9_7f4a_7c15) | 1);
        let mut world = World::start(&any_setting(&mut chance));
        let takings = 2 + chance.below(5);
        for _ in 0..EVENTS_OF_A_RUN {
            world.any_event(takings, &mut chance);
            world.kernels.iter_mut().for_each(|kernel| kernel.journal = Journal::default());
            found.try_state(&world, &mut chance);
        }
        seed += 1;
    }
    found.print();
    if found.is_right() {
        ExitCode::SUCCESS
    } else {
        ExitCode::FAILURE
    }
}
