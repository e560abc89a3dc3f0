// Nodes: kernels with programs, over rings of packets. What the plain programs share that run kernels side by side.
//
// A program takes it in by `include!`, behind kernels.rs.

use std::cell::UnsafeCell;
use std::mem::MaybeUninit;
use std::sync::atomic::{AtomicBool, AtomicUsize, Ordering};
use std::thread;

/// How many letters a ring holds.
const RING: usize = 64;

/// So many idle turns in a row, and a worker lets other threads run.
const YIELDS: u32 = 16;

// ---------------------------------------------------------------- rings

/// A ring of packets between one putter and one taker.
struct Ring {
    places: [UnsafeCell<MaybeUninit<Packet>>; RING],
    put: Counter,
    got: Counter,
}

/// A count on a cache line of its own.
#[repr(align(128))]
#[derive(Default)]
struct Counter(AtomicUsize);

// One thread puts and one gets, and each place is handed over by a count.
unsafe impl Sync for Ring {}

impl Ring {
    fn new() -> Ring {
        Ring { places: [const { UnsafeCell::new(MaybeUninit::uninit()) }; RING], put: Counter::default(), got: Counter::default() }
    }

    fn has_room(&self) -> bool {
        self.put.0.load(Ordering::Relaxed) - self.got.0.load(Ordering::Acquire) < RING
    }

    /// There is room.
    fn put(&self, packet: Packet) {
        let count = self.put.0.load(Ordering::Relaxed);
        unsafe { (*self.places[count % RING].get()).write(packet) };
        self.put.0.store(count + 1, Ordering::Release);
    }

    fn get(&self) -> Option<Packet> {
        let count = self.got.0.load(Ordering::Relaxed);
        if self.put.0.load(Ordering::Acquire) == count {
            return None;
        }
        let packet = unsafe { (*self.places[count % RING].get()).assume_init_read() };
        self.got.0.store(count + 1, Ordering::Release);
        Some(packet)
    }
}

// ---------------------------------------------------------------- nodes

/// What a program does in a step.
enum Step {
    Ask(Call),
    Pause,
    Ended,
}

/// A step takes the answer to the last call, where there was one.
trait Program: Send {
    fn next(&mut self, answer: Option<Answer>) -> Step;
}

/// A kernel with its programs, in the order in which they take turns.
struct Node<P> {
    kernel: Kernel,
    processes: Vec<Process>,
    programs: Vec<(u8, P)>,
    is_over: Vec<bool>,
    next: usize,
    /// What is not in a ring yet.
    outbox: Net,
    kernels: usize,
    used: u32,
    limit: u32,
}

#[derive(PartialEq)]
enum Turn {
    Worked,
    Idle,
}

impl<P: Program> Node<P> {
    fn id(&self) -> usize {
        usize::from(self.kernel.id)
    }

    fn event(&mut self, after: u64) -> Event<'_> {
        let kernel = &mut self.kernel;
        kernel.stamp = kernel.stamp.max(after) + 1;
        Event { stamp: kernel.stamp, kernel, processes: &mut self.processes, net: &mut self.outbox }
    }

    /// Packets go out while there is room: whether one did.
    fn put(&mut self, rings: &[Ring]) -> bool {
        let mut some = false;
        let mut filled = self.outbox.filled;
        while filled != 0 {
            let place = filled.trailing_zeros() as usize;
            filled &= filled - 1;
            while rings[place].has_room() {
                let Some(packet) = self.outbox.get(place) else { break };
                rings[place].put(packet);
                some = true;
            }
        }
        some
    }

    fn take(&mut self, rings: &[Ring]) -> bool {
        for from in 0..self.kernels {
            if let Some(packet) = rings[from * MOST_KERNELS + self.id()].get() {
                self.event(packet.stamp).take(from as u8, packet.what);
                return true;
            }
        }
        false
    }

    /// Whether the program at a place can go on.
    fn can_go_on(&self, place: usize) -> bool {
        let process = &self.processes[usize::from(self.programs[place].0)];
        !self.is_over[place] && !matches!(process.state, State::InWait | State::InCancel)
    }

    /// The next program that can go on makes a step.
    fn step(&mut self) -> bool {
        let count = self.programs.len();
        for place in (self.next..count).chain(0..self.next) {
            if self.can_go_on(place) {
                self.next = if place + 1 == count { 0 } else { place + 1 };
                self.make(place);
                return true;
            }
        }
        false
    }

    fn make(&mut self, place: usize) {
        let (p, program) = &mut self.programs[place];
        let p = *p;
        let answer = self.processes[usize::from(p)].answer.take();
        match program.next(answer) {
            Step::Ask(call) => self.event(0).ask(p, call),
            Step::Pause => {}
            Step::Ended => self.is_over[place] = true,
        }
    }

    fn turn(&mut self, rings: &[Ring]) -> Turn {
        let sent = self.put(rings);
        if self.used == self.limit {
            return if sent { Turn::Worked } else { Turn::Idle };
        }
        if self.take(rings) || self.step() {
            self.used += 1;
            return Turn::Worked;
        }
        if sent {
            Turn::Worked
        } else {
            Turn::Idle
        }
    }

    /// Whether nothing waits to go out, and each program is over or waits.
    fn is_at_rest(&self) -> bool {
        self.outbox.filled == 0 && !(0..self.programs.len()).any(|place| self.can_go_on(place))
    }
}

// ---------------------------------------------------------------- runs

fn rings() -> Vec<Ring> {
    (0..MOST_KERNELS * MOST_KERNELS).map(|_| Ring::new()).collect()
}

/// One turn of each node, again and again. None where the run is quiet, else the least node whose turns are used up.
fn run_serial<P: Program>(nodes: &mut [Node<P>], rings: &[Ring]) -> Option<u8> {
    loop {
        let mut worked = false;
        for node in nodes.iter_mut() {
            worked |= node.turn(rings) == Turn::Worked;
        }
        if worked && nodes.iter().all(|node| node.used < node.limit) {
            continue;
        }
        if are_empty(rings) && nodes.iter().all(Node::is_at_rest) {
            return None;
        }
        if let Some(node) = nodes.iter().find(|node| node.used == node.limit) {
            return Some(node.kernel.id);
        }
    }
}

/// The nodes that have nothing to do are counted: the run is over where all have nothing to do and no ring holds a packet, or where a node has used its
/// turns.
fn run_threads<P: Program>(nodes: &mut [Node<P>], rings: &[Ring]) -> Option<u8> {
    let rest = Rest { count: nodes.len(), ..Rest::default() };
    thread::scope(|scope| {
        for node in nodes.iter_mut() {
            let rest = &rest;
            scope.spawn(move || while work(node, rings, rest) {});
        }
    });
    if are_empty(rings) && nodes.iter().all(Node::is_at_rest) {
        return None;
    }
    nodes.iter().find(|node| node.used == node.limit).map(|node| node.kernel.id)
}

/// Which of so many nodes have nothing to do, as they tell each other.
#[derive(Default)]
struct Rest {
    count: usize,
    idle: AtomicUsize,
    /// How often a node that was idle went on.
    woken: AtomicUsize,
    is_over: AtomicBool,
}

impl Rest {
    fn wake(&self) {
        self.idle.fetch_sub(1, Ordering::SeqCst);
        self.woken.fetch_add(1, Ordering::SeqCst);
    }

    /// Whether all are idle and no ring holds a packet. Rings are looked at one by one, so it holds only where no node went on meanwhile.
    fn is_quiet(&self, rings: &[Ring]) -> bool {
        let woken = self.woken.load(Ordering::SeqCst);
        let all_idle = || self.idle.load(Ordering::SeqCst) == self.count;
        all_idle() && are_empty(rings) && all_idle() && self.woken.load(Ordering::SeqCst) == woken
    }
}

/// Works until there is nothing to do, then waits until there is something again: whether there is.
fn work<P: Program>(node: &mut Node<P>, rings: &[Ring], rest: &Rest) -> bool {
    while node.turn(rings) == Turn::Worked {}
    if node.used == node.limit {
        rest.is_over.store(true, Ordering::SeqCst);
    }
    rest.idle.fetch_add(1, Ordering::SeqCst);
    let mut turns = 0;
    loop {
        if rest.is_over.load(Ordering::SeqCst) {
            return false;
        }
        if has_letter(node, rings) || !node.is_at_rest() {
            rest.wake();
            return true;
        }
        if rest.is_quiet(rings) {
            return false;
        }
        turns += 1;
        if turns >= YIELDS {
            thread::yield_now();
        }
    }
}

fn has_letter<P: Program>(node: &Node<P>, rings: &[Ring]) -> bool {
    (0..node.kernels).any(|from| is_filled(&rings[from * MOST_KERNELS + node.id()]))
}

fn is_filled(ring: &Ring) -> bool {
    ring.put.0.load(Ordering::SeqCst) != ring.got.0.load(Ordering::SeqCst)
}

fn are_empty(rings: &[Ring]) -> bool {
    !rings.iter().any(is_filled)
}

/// The nodes of a setting, with the programs of its processes in order, and how many turns each has.
fn nodes_of<P: Program>(setting: &Setting, programs: Vec<P>, limit: u32) -> Vec<Node<P>> {
    let mut by_home: Vec<Vec<(u8, P)>> = (0..setting.kernels).map(|_| Vec::new()).collect();
    for ((p, &home), program) in (0..).zip(&setting.homes).zip(programs) {
        by_home[usize::from(home)].push((p, program));
    }
    let nodes = World::start(setting).kernels.into_iter().zip(by_home).map(|(kernel, programs)| {
        let World { processes, net, .. } = World::start(&Setting { wires: Vec::new(), homes: setting.homes.clone(), ..*setting });
        let is_over = vec![false; programs.len()];
        Node { kernel, processes, is_over, programs, next: 0, outbox: net, kernels: usize::from(setting.kernels), used: 0, limit }
    });
    nodes.collect()
}
