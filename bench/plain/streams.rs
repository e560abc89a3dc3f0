//! Random runs of the link service, written anew from its table of steps. After each step it is tested that each direction of each link is FIFO,
//! clause by clause of `IsFifo` (crates/service_streams), and so is the invariant of its proof.
//!
//!     streams SEED STEPS              so many steps, in runs of at most 400
//!     streams SEED STEPS CLAUSE       in each run this clause of the invariant is made false once; then another one has to fail later

use std::collections::BTreeMap;
use std::process::ExitCode;

const PROCESSES: usize = 4;
const MOST_LINKS: usize = 6;
const STEPS_OF_A_RUN: usize = 400;

/// A link's ends are 2 n and 2 n + 1.
type EndId = usize;

fn opposite(e: EndId) -> EndId {
    e ^ 1
}

#[derive(Clone, Debug, PartialEq)]
struct Message {
    bytes: u64,
    carried: Vec<EndId>,
}

#[derive(Clone, Copy, Debug, PartialEq)]
enum Place {
    Owned(usize),
    InMessage(EndId, u32),
    Destroyed,
}

#[derive(Clone, Debug, PartialEq)]
enum Outward {
    Idle,
    Waiting(Message),
    Matched(Message),
    Taken,
    Unreported,
}

#[derive(Clone, Copy, Debug, PartialEq)]
enum Inward {
    Idle,
    Posted,
    Withdrawn,
    Matched(u32),
    Unreported,
}

impl Inward {
    fn is_started(self) -> bool {
        !matches!(self, Inward::Idle | Inward::Unreported)
    }
}

#[derive(Clone, Copy, Debug, PartialEq)]
enum Phase {
    Running,
    Waiting,
    Cancelling(EndId),
    Ended,
}

#[derive(Clone, Debug)]
struct End {
    place: Place,
    outward: Outward,
    inward: Inward,
    sends: u32,
    noticed: bool,
}

#[derive(Clone, Debug)]
struct Report {
    on: EndId,
    inward: bool,
    done: bool,
    message: Message,
}

#[derive(Clone, Copy, Debug)]
enum Step {
    Make(usize),
    Destroy(EndId),
    Send(EndId),
    Receive(EndId),
    Cancel(EndId, bool),
    Wait(usize),
    Report(usize),
    Exit(usize),
    Match(EndId),
    Take(EndId),
    Complete(EndId),
    Withdraw(EndId),
    Free(EndId),
    Notice(EndId),
    Back(EndId),
}

/// What was sent on an end, kept of that, taken at its opposite, and told of there.
#[derive(Clone, Default)]
struct Stream {
    sent: Vec<(u32, Message)>,
    kept: Vec<(u32, Message)>,
    taken: Vec<(u32, Message)>,
    reported: Vec<Message>,
    cancelled: bool,
}

struct Chance(u64);

impl Chance {
    fn below(&mut self, n: usize) -> usize {
        self.0 ^= self.0 << 13;
        self.0 ^= self.0 >> 7;
        self.0 ^= self.0 << 17;
        (self.0.wrapping_mul(0x2545_f491_4f6c_dd1d) >> 33) as usize % n
    }
}

#[derive(Default)]
struct Service {
    ends: Vec<End>,
    phases: Vec<Phase>,
    reports: Vec<Vec<Report>>,
    streams: Vec<Stream>,
    bytes: u64,
}

impl Service {
    fn start() -> Service {
        let mut service = Service { phases: vec![Phase::Running; PROCESSES], reports: vec![vec![]; PROCESSES], ..Service::default() };
        service.make(0, 1);
        service.make(1, 2);
        service
    }

    fn make(&mut self, p: usize, q: usize) {
        for owner in [p, q] {
            let place = Place::Owned(owner);
            self.ends.push(End { place, outward: Outward::Idle, inward: Inward::Idle, sends: 0, noticed: false });
            self.streams.push(Stream::default());
        }
    }

    fn owner(&self, e: EndId) -> Option<usize> {
        match self.ends[e].place {
            Place::Owned(p) => Some(p),
            _ => None,
        }
    }

    fn runs(&self, p: usize) -> bool {
        self.phases[p] == Phase::Running
    }

    fn is_destroyed(&self, e: EndId) -> bool {
        self.ends[e].place == Place::Destroyed
    }

    fn is_idle(&self, e: EndId) -> bool {
        self.ends[e].outward == Outward::Idle && self.ends[e].inward == Inward::Idle
    }

    fn is_active(&self, e: EndId) -> bool {
        let out = &self.ends[e].outward;
        self.ends[e].inward.is_started() || !matches!(out, Outward::Idle | Outward::Unreported)
    }

    fn owner_cancels(&self, e: EndId) -> bool {
        self.owner(e).is_some_and(|p| self.phases[p] == Phase::Cancelling(e))
    }

    fn owner_runs(&self, e: EndId) -> bool {
        self.owner(e).is_some_and(|p| self.runs(p))
    }

    fn allows(&self, step: Step) -> bool {
        match step {
            Step::Make(p) => self.runs(p) && self.ends.len() < 2 * MOST_LINKS,
            Step::Destroy(e) => self.owner_runs(e),
            Step::Send(e) => self.owner_runs(e) && !self.ends[e].noticed && self.ends[e].outward == Outward::Idle,
            Step::Receive(e) => self.owner_runs(e) && !self.ends[e].noticed && self.ends[e].inward == Inward::Idle,
            Step::Cancel(e, outward) => self.owner_runs(e) && !self.ends[e].noticed && self.is_cancellable(e, outward),
            Step::Wait(p) => self.runs(p) && (!self.reports[p].is_empty() || self.owned(p).any(|e| self.is_active(e))),
            Step::Report(p) => self.phases[p] == Phase::Waiting && !self.reports[p].is_empty(),
            Step::Exit(p) => self.runs(p),
            _ => self.allows_between(step),
        }
    }

    fn allows_between(&self, step: Step) -> bool {
        let o = |e| &self.ends[opposite(e)];
        match step {
            Step::Match(e) => matches!(self.ends[e].outward, Outward::Waiting(_)) && !self.ends[e].noticed && o(e).inward == Inward::Posted,
            Step::Take(e) => {
                let inward = Inward::Matched(self.ends[e].sends);
                self.is_matched(e) && self.owner(opposite(e)).is_some() && !o(e).noticed && o(e).inward == inward
            }
            Step::Complete(e) => self.ends[e].outward == Outward::Taken && self.owner(e).is_some(),
            Step::Withdraw(e) => self.ends[e].inward == Inward::Posted && self.owner_cancels(e),
            Step::Free(e) => self.ends[e].inward == Inward::Withdrawn && self.owner_cancels(e),
            Step::Notice(e) => self.is_destroyed(opposite(e)) && !self.is_destroyed(e) && !self.ends[e].noticed,
            Step::Back(e) => {
                let is_dead = self.is_destroyed(opposite(e)) || o(e).noticed;
                self.is_matched(e) && is_dead && (self.is_destroyed(e) || self.owner(e).is_some())
            }
            _ => false,
        }
    }

    fn is_matched(&self, e: EndId) -> bool {
        matches!(self.ends[e].outward, Outward::Matched(_))
    }

    fn is_cancellable(&self, e: EndId, outward: bool) -> bool {
        match outward {
            true => matches!(self.ends[e].outward, Outward::Waiting(_)),
            false => matches!(self.ends[e].inward, Inward::Posted | Inward::Matched(_)),
        }
    }

    fn owned(&self, p: usize) -> impl Iterator<Item = EndId> + '_ {
        (0..self.ends.len()).filter(move |e| self.owner(*e) == Some(p))
    }

    fn place_each(&mut self, ends: &[EndId], place: Place) {
        for e in ends {
            self.ends[*e].place = place;
        }
    }

    fn apply(&mut self, step: Step, chance: &mut Chance) {
        match step {
            Step::Make(p) => self.make(p, p),
            Step::Destroy(e) => self.destroy(e),
            Step::Send(e) => self.send(e, chance),
            Step::Receive(e) => self.ends[e].inward = Inward::Posted,
            Step::Cancel(e, outward) => self.cancel(e, outward),
            Step::Wait(p) => self.phases[p] = Phase::Waiting,
            Step::Report(p) => self.report(p),
            Step::Exit(p) => self.exit(p),
            Step::Match(e) => self.matches(e),
            Step::Take(e) => self.take(e),
            Step::Complete(e) => self.complete(e),
            Step::Withdraw(e) => self.ends[e].inward = Inward::Withdrawn,
            Step::Free(e) => {
                self.ends[e].inward = Inward::Idle;
                self.wake(e);
            }
            Step::Notice(e) => self.notice(e),
            Step::Back(e) => self.back(e),
        }
    }

    fn destroy(&mut self, e: EndId) {
        self.ends[e].place = Place::Destroyed;
        if let Outward::Waiting(message) = self.ends[e].outward.clone() {
            self.ends[e].outward = Outward::Idle;
            self.place_each(&message.carried, Place::Destroyed);
        }
    }

    fn send(&mut self, e: EndId, chance: &mut Chance) {
        let p = self.owner(e).unwrap();
        let may_carry = |f: &EndId| f / 2 != e / 2 && self.is_idle(*f);
        let mut carried: Vec<EndId> = self.owned(p).filter(may_carry).filter(|_| chance.below(3) == 0).take(8).collect();
        if chance.below(2) == 0 {
            carried.reverse();
        }
        self.bytes += 1;
        let n = self.ends[e].sends + 1;
        let message = Message { bytes: self.bytes, carried };
        self.place_each(&message.carried, Place::InMessage(e, n));
        self.ends[e].sends = n;
        self.ends[e].outward = Outward::Waiting(message.clone());
        self.streams[e].sent.push((n, message.clone()));
        self.streams[e].kept.push((n, message));
    }

    fn cancel(&mut self, e: EndId, outward: bool) {
        let p = self.owner(e).unwrap();
        if !outward {
            self.phases[p] = Phase::Cancelling(e);
            return;
        }
        if let Outward::Waiting(message) = std::mem::replace(&mut self.ends[e].outward, Outward::Idle) {
            self.place_each(&message.carried, Place::Owned(p));
        }
        self.streams[e].kept.pop();
        self.streams[e].cancelled = true;
    }

    fn report(&mut self, p: usize) {
        let report = self.reports[p].remove(0);
        self.phases[p] = Phase::Running;
        match report.inward {
            true => self.ends[report.on].inward = Inward::Idle,
            false => self.ends[report.on].outward = Outward::Idle,
        }
        if report.inward && report.done {
            self.streams[opposite(report.on)].reported.push(report.message);
        }
    }

    fn exit(&mut self, p: usize) {
        let mine: Vec<EndId> = self.owned(p).collect();
        for e in mine {
            self.destroy(e);
        }
        self.reports[p].clear();
        self.phases[p] = Phase::Ended;
    }

    fn matches(&mut self, e: EndId) {
        if let Outward::Waiting(message) = self.ends[e].outward.clone() {
            self.ends[e].outward = Outward::Matched(message);
            self.ends[opposite(e)].inward = Inward::Matched(self.ends[e].sends);
        }
    }

    fn take(&mut self, e: EndId) {
        let o = opposite(e);
        let p = self.owner(o).unwrap();
        if let Outward::Matched(message) = std::mem::replace(&mut self.ends[e].outward, Outward::Taken) {
            self.streams[e].taken.push((self.ends[e].sends, message.clone()));
            self.ends[o].inward = Inward::Unreported;
            self.place_each(&message.carried, Place::Owned(p));
            self.reports[p].push(Report { on: o, inward: true, done: true, message });
            self.wake(o);
        }
    }

    fn complete(&mut self, e: EndId) {
        self.ends[e].outward = Outward::Unreported;
        self.tell(e, false, true);
    }

    fn tell(&mut self, e: EndId, inward: bool, done: bool) {
        if let Some(p) = self.owner(e) {
            let message = Message { bytes: 0, carried: vec![] };
            self.reports[p].push(Report { on: e, inward, done, message });
        }
    }

    fn wake(&mut self, e: EndId) {
        if self.owner_cancels(e) {
            let p = self.owner(e).unwrap();
            self.phases[p] = Phase::Running;
        }
    }

    /// The send of e comes back, where it has a message; its ends go to the owner.
    fn give_back(&mut self, e: EndId, message: &Message) {
        let p = self.owner(e).unwrap();
        self.ends[e].outward = Outward::Unreported;
        self.place_each(&message.carried, Place::Owned(p));
        self.tell(e, false, false);
    }

    fn notice(&mut self, e: EndId) {
        self.ends[e].noticed = true;
        if let Outward::Waiting(message) = self.ends[e].outward.clone() {
            self.give_back(e, &message);
        }
        if self.ends[e].inward.is_started() {
            self.ends[e].inward = Inward::Unreported;
            self.tell(e, true, false);
        }
        self.wake(e);
    }

    fn back(&mut self, e: EndId) {
        if let Outward::Matched(message) = self.ends[e].outward.clone() {
            if self.is_destroyed(e) {
                self.ends[e].outward = Outward::Idle;
                return self.place_each(&message.carried, Place::Destroyed);
            }
            self.give_back(e, &message);
            if !self.ends[e].noticed {
                self.notice(e);
            }
        }
    }
}

/// What is claimed, and the invariant.
impl Service {
    fn outstanding(&self, e: EndId) -> Vec<(u32, Message)> {
        match &self.ends[e].outward {
            Outward::Waiting(message) | Outward::Matched(message) => vec![(self.ends[e].sends, message.clone())],
            _ => vec![],
        }
    }

    /// The messages of the pending reports Done of receives on e.
    fn told(&self, e: EndId, p: usize) -> Vec<Message> {
        let of_e = |report: &&Report| report.on == e && report.inward && report.done;
        self.reports[p].iter().filter(of_e).map(|report| report.message.clone()).collect()
    }

    fn told_by_all(&self, e: EndId) -> Vec<Message> {
        (0..PROCESSES).flat_map(|p| self.told(e, p)).collect()
    }

    fn each_clause(&self, e: EndId) -> [(&'static str, bool); 10] {
        let (o, stream, way) = (opposite(e), &self.streams[e], self.outstanding(e));
        let messages: Vec<Message> = stream.taken.iter().map(|(_, message)| message.clone()).collect();
        let rest = stream.kept.strip_prefix(&stream.taken[..]);
        let lost = rest.and_then(|rest| rest.strip_suffix(&way[..]));
        let unreported = messages.strip_prefix(&stream.reported[..]);
        let lives = !self.is_destroyed(e) && !self.is_destroyed(o);
        let closed = self.is_destroyed(o) || self.is_destroyed(e) && way.is_empty();
        let with_told = |p| unreported == Some(&self.told(o, p)[..]);
        let is_over = matches!(unreported, Some([_])) && self.is_destroyed(o) && self.told_by_all(o).is_empty();
        [
            ("numbers", stream.sent.windows(2).all(|two| two[0].0 < two[1].0)),
            ("taken", is_subsequence(&stream.taken, &stream.sent)),
            ("gapless", rest.is_some()),
            ("uncancelled", stream.cancelled || stream.kept == stream.sent),
            ("lossless", !lives || rest == Some(&way[..])),
            ("told", unreported.is_some()),
            ("soon", stream.taken.len() <= stream.reported.len() + 1),
            ("pending", self.owner(o).is_none_or(with_told)),
            ("invariant of what is kept", lost.is_some_and(|lost| lost.is_empty() || closed)),
            ("invariant of reports", is_over || unreported == Some(&self.told_by_all(o)[..])),
        ]
    }
}

fn is_subsequence(part: &[(u32, Message)], whole: &[(u32, Message)]) -> bool {
    let mut rest = whole.iter();
    part.iter().all(|message| rest.any(|other| other == message))
}

fn any_step(service: &Service, chance: &mut Chance) -> Step {
    let e = chance.below(service.ends.len());
    let p = chance.below(PROCESSES);
    match chance.below(100) {
        0..=1 => Step::Make(p),
        2 => Step::Destroy(e),
        3..=18 => Step::Send(e),
        19..=36 => Step::Receive(e),
        37..=42 => Step::Cancel(e, true),
        43..=47 => Step::Cancel(e, false),
        48..=54 => Step::Wait(p),
        55..=61 => Step::Report(p),
        62 => {
            if chance.below(4) == 0 {
                Step::Exit(p)
            } else {
                Step::Report(p)
            }
        }
        63..=70 => Step::Match(e),
        71..=78 => Step::Take(e),
        79..=84 => Step::Complete(e),
        85..=88 => Step::Withdraw(e),
        89..=92 => Step::Free(e),
        93..=95 => Step::Notice(e),
        _ => Step::Back(e),
    }
}

/// Makes a clause of the invariant false, where the state lets it.
fn falsify(service: &mut Service, clause: &str, e: EndId) -> bool {
    let o = opposite(e);
    match clause {
        "closed_at_the_opposite" => !service.is_destroyed(e) && !service.is_destroyed(o) && lose(service, e),
        "closed_at_the_end" => service.is_destroyed(e) && !service.is_destroyed(o) && service.is_matched(e) && lose(service, e),
        "none_stands" => doubled(service, o),
        "its_message" => changed(service, o),
        "its_report_stands" => forgotten(service, o),
        _ => panic!("no such clause"),
    }
}

/// One message more was sent and kept, and is not taken.
fn lose(service: &mut Service, e: EndId) -> bool {
    let at = service.streams[e].taken.len();
    let message = (0, Message { bytes: u64::MAX, carried: vec![] });
    if service.streams[e].kept.len() < at {
        return false;
    }
    service.streams[e].kept.insert(at, message);
    true
}

fn pending(service: &Service, o: EndId) -> Option<(usize, usize)> {
    let p = service.owner(o)?;
    let at = service.reports[p].iter().position(|report| report.on == o && report.inward && report.done)?;
    Some((p, at))
}

/// A report stands a second time.
fn doubled(service: &mut Service, o: EndId) -> bool {
    pending(service, o).is_some_and(|(p, at)| {
        let report = service.reports[p][at].clone();
        service.reports[p].push(report);
        true
    })
}

/// The report that stands tells of another message.
fn changed(service: &mut Service, o: EndId) -> bool {
    pending(service, o).is_some_and(|(p, at)| {
        service.reports[p][at].message.bytes = u64::MAX;
        true
    })
}

/// The report of the last message is gone, though its end lives.
fn forgotten(service: &mut Service, o: EndId) -> bool {
    pending(service, o).is_some_and(|(p, at)| {
        service.reports[p].remove(at);
        service.ends[o].inward = Inward::Idle;
        true
    })
}

fn false_clauses(service: &Service) -> Vec<(EndId, &'static str)> {
    let of_end = |e| service.each_clause(e).into_iter().filter(|clause| !clause.1).map(move |clause| (e, clause.0));
    (0..service.ends.len()).flat_map(of_end).collect()
}

/// What a run found: how many steps of each kind, and the clause that failed.
struct Found {
    steps: usize,
    failed: Option<String>,
}

fn run(seed: u64, most: usize, clause: Option<&str>, kinds: &mut BTreeMap<String, usize>) -> Found {
    let mut chance = Chance(seed.wrapping_mul(0x9e37_79b9_7f4a_7c15) | 1);
    let mut service = Service::start();
    let (mut steps, mut tries, mut known, mut is_false) = (0, 0, vec![], clause.is_none());
    while steps < most && tries < 200 * most {
        tries += 1;
        let step = any_step(&service, &mut chance);
        if !service.allows(step) {
            continue;
        }
        steps += 1;
        *kinds.entry(format!("{step:?}").split('(').next().unwrap().to_string()).or_default() += 1;
        service.apply(step, &mut chance);
        let failed = false_clauses(&service);
        if let Some((e, name)) = failed.iter().find(|one| !known.contains(*one)) {
            return Found { steps, failed: Some(format!("{name} at end {e}, after {step:?}")) };
        }
        if !is_false && steps > 30 {
            let e = chance.below(service.ends.len());
            is_false = falsify(&mut service, clause.unwrap(), e);
            known = if is_false { false_clauses(&service) } else { vec![] };
        }
    }
    Found { steps, failed: None }
}

fn main() -> ExitCode {
    let words: Vec<String> = std::env::args().skip(1).collect();
    let numbers: Vec<u64> = words.iter().take(2).filter_map(|word| word.parse().ok()).collect();
    let [mut seed, most] = numbers[..] else {
        eprintln!("streams SEED STEPS [CLAUSE]");
        return ExitCode::from(2);
    };
    let clause = words.get(2).map(String::as_str);
    let (mut steps, mut runs, mut kinds, mut failures) = (0, 0, BTreeMap::new(), BTreeMap::<String, usize>::new());
    while (steps as u64) < most {
        let found = run(seed, STEPS_OF_A_RUN, clause, &mut kinds);
        (steps, runs, seed) = (steps + found.steps, runs + 1, seed + 1);
        if let Some(failed) = found.failed {
            if clause.is_none() {
                println!("seed {}: {failed}", seed - 1);
                return ExitCode::FAILURE;
            }
            *failures.entry(failed.split(" at ").next().unwrap().to_string()).or_default() += 1;
        }
    }
    println!("{runs} runs, {steps} steps: {kinds:?}");
    if clause.is_some() {
        println!("failed later: {failures:?}");
    }
    ExitCode::from(u8::from(clause.is_some() && failures.is_empty()))
}
