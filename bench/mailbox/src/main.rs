//! The mailbox's structure in plain Rust: a route behind a claim word, between two bounded queues for many producers
//! and consumers, with replies in boxes that come back in batches; the one that came back last is used first. The route replies to
//! each item by writing a whole box, as the gateway's does.
use std::cell::UnsafeCell;
use std::mem::MaybeUninit;
use std::sync::atomic::{AtomicBool, AtomicU64, AtomicUsize, Ordering::SeqCst};
use std::sync::{Arc, Mutex};
use std::time::Instant;

const CALLS: u64 = 100_000;

struct Slot<T> {
    stamp: AtomicUsize,
    value: UnsafeCell<MaybeUninit<T>>,
}

/// A bounded queue. The stamp of each slot is the lap in which it may be written or read.
struct Queue<T> {
    head: AtomicUsize,
    tail: AtomicUsize,
    slots: Box<[Slot<T>]>,
    lap: usize,
}

unsafe impl<T: Send> Sync for Queue<T> {}

impl<T> Queue<T> {
    fn new(capacity: usize) -> Queue<T> {
        let slots = (0..capacity).map(|at| Slot { stamp: AtomicUsize::new(at), value: UnsafeCell::new(MaybeUninit::uninit()) }).collect();
        Queue { head: AtomicUsize::new(0), tail: AtomicUsize::new(0), slots, lap: (capacity + 1).next_power_of_two() }
    }

    fn next(&self, place: usize) -> usize {
        let at = place & (self.lap - 1);
        if at + 1 < self.slots.len() { place + 1 } else { (place & !(self.lap - 1)).wrapping_add(self.lap) }
    }

    fn push(&self, value: T) -> Result<(), T> {
        let mut tail = self.tail.load(SeqCst);
        loop {
            let slot = &self.slots[tail & (self.lap - 1)];
            let stamp = slot.stamp.load(SeqCst);
            if stamp == tail {
                match self.tail.compare_exchange(tail, self.next(tail), SeqCst, SeqCst) {
                    Ok(_) => {
                        unsafe { (*slot.value.get()).write(value) };
                        slot.stamp.store(tail + 1, SeqCst);
                        return Ok(());
                    }
                    Err(found) => tail = found,
                }
            } else if stamp.wrapping_add(self.lap) == tail + 1 && self.head.load(SeqCst).wrapping_add(self.lap) == tail {
                return Err(value);
            } else {
                tail = self.tail.load(SeqCst);
            }
        }
    }

    fn is_empty(&self) -> bool {
        let head = self.head.load(SeqCst);
        self.tail.load(SeqCst) == head
    }

    fn pop(&self) -> Option<T> {
        let mut head = self.head.load(SeqCst);
        loop {
            let slot = &self.slots[head & (self.lap - 1)];
            let stamp = slot.stamp.load(SeqCst);
            if stamp == head + 1 {
                match self.head.compare_exchange(head, self.next(head), SeqCst, SeqCst) {
                    Ok(_) => {
                        let value = unsafe { (*slot.value.get()).assume_init_read() };
                        slot.stamp.store(head.wrapping_add(self.lap), SeqCst);
                        return Some(value);
                    }
                    Err(found) => head = found,
                }
            } else if stamp == head && self.tail.load(SeqCst) == head {
                return None;
            } else {
                head = self.head.load(SeqCst);
            }
        }
    }
}

/// A datagram, of the size that the gateway's has in memory.
const DATAGRAM: usize = 1472;

struct Reply {
    peer: [u8; 18],
    bytes: [u8; DATAGRAM],
}

fn blank() -> Box<Reply> {
    Box::new(Reply { peer: [0; 18], bytes: [0; DATAGRAM] })
}

/// Where boxes lie on their way back, and whether some do. Nobody waits for the lock.
struct Returned {
    any: AtomicBool,
    boxes: Mutex<Vec<Box<Reply>>>,
}

/// The drain's empty boxes, until there is a batch of them.
struct Spent {
    returned: Arc<Returned>,
    boxes: Vec<Box<Reply>>,
    batch: usize,
}

impl Spent {
    fn give(&mut self, empty: Box<Reply>) {
        self.boxes.push(empty);
        self.flush();
    }

    fn flush(&mut self) {
        if self.boxes.len() < self.batch {
            return;
        }
        if let Ok(mut left) = self.returned.boxes.try_lock() {
            left.append(&mut self.boxes);
            self.returned.any.store(true, SeqCst);
        }
    }
}

/// Free boxes: a stack of those that came back.
struct Boxes {
    returned: Arc<Returned>,
    stock: Vec<Box<Reply>>,
}

impl Boxes {
    fn empty_box(&mut self) -> Box<Reply> {
        if self.returned.any.load(SeqCst) {
            if let Ok(mut left) = self.returned.boxes.try_lock() {
                self.stock.append(&mut left);
                self.returned.any.store(false, SeqCst);
            }
        }
        self.stock.pop().unwrap()
    }
}

/// Both parts, for an outbox of this capacity.
fn open_boxes(capacity: usize) -> (Boxes, Spent) {
    let batch = (capacity / 16).clamp(1, 16);
    let room = capacity + batch + 3;
    let mut stock = Vec::with_capacity(room);
    stock.resize_with(room - 1, blank);
    let returned = Arc::new(Returned { any: AtomicBool::new(false), boxes: Mutex::new(Vec::with_capacity(room)) });
    let spent = Spent { returned: returned.clone(), boxes: Vec::with_capacity(room), batch };
    (Boxes { returned, stock }, spent)
}

/// An item of the inbox, of the size that the gateway's has in memory.
struct Item {
    polled: bool,
    moment: u64,
    head: [u8; 16],
    peer: [u8; 18],
    body: Vec<u8>,
}

/// A stand-in for the route: it replies to each item with the same datagram.
struct Route {
    clock: u64,
    datagram: [u8; DATAGRAM],
    waiting: Vec<Box<Reply>>,
    spare: Vec<Box<Reply>>,
}

impl Route {
    fn new() -> Route {
        Route { clock: 0, datagram: [7; DATAGRAM], waiting: Vec::with_capacity(4), spare: vec![blank(), blank()] }
    }

    fn step(&mut self, item: Item) -> usize {
        self.clock = self.clock.max(item.moment);
        if item.polled && item.head[0] == 0x80 && !item.body.is_empty() {
            let mut place = self.spare.pop().unwrap();
            place.peer = item.peer;
            place.bytes.copy_from_slice(std::hint::black_box(&self.datagram));
            place.bytes[0] = item.body[0];
            self.waiting.push(place);
        }
        self.waiting.len()
    }

    fn next_reply(&mut self, place: &mut Box<Reply>) {
        if let Some(reply) = self.waiting.pop() {
            self.spare.push(std::mem::replace(place, reply));
        }
    }
}

struct Running {
    inbox: Arc<Queue<Item>>,
    outbox: Arc<Queue<Box<Reply>>>,
    boxes: Boxes,
    route: Box<Route>,
    held: Option<Box<Reply>>,
    waiting: usize,
    taken: u64,
}

#[derive(PartialEq)]
enum Served {
    Moved,
    Applied,
    Blocked,
    Idle,
    Busy,
}

impl Running {
    fn turn(&mut self) -> Served {
        if self.waiting > 0 {
            let reply = match self.held.take() {
                Some(reply) => reply,
                None => {
                    let mut place = self.boxes.empty_box();
                    self.route.next_reply(&mut place);
                    place
                }
            };
            return match self.outbox.push(reply) {
                Ok(()) => {
                    self.waiting -= 1;
                    Served::Moved
                }
                Err(back) => {
                    self.held = Some(back);
                    Served::Blocked
                }
            };
        }
        if self.inbox.is_empty() {
            return Served::Idle;
        }
        match self.inbox.pop() {
            Some(item) => {
                self.waiting = self.route.step(item);
                self.taken = self.taken.saturating_add(1);
                Served::Applied
            }
            None => Served::Idle,
        }
    }
}

/// Padded, so that two of them share no cache line.
#[repr(align(128))]
struct Cell {
    word: AtomicU64,
    place: UnsafeCell<Option<Box<Running>>>,
}

unsafe impl Sync for Cell {}

impl Cell {
    fn serve(&self, gate: &mut dyn FnMut() -> bool) -> Served {
        if self.word.compare_exchange(0, 3, SeqCst, SeqCst).is_err() {
            return Served::Busy;
        }
        let taken = unsafe { (*self.place.get()).take() };
        self.word.store(1, SeqCst);
        let Some(mut running) = taken else { return Served::Busy };
        let served = if gate() { running.turn() } else { Served::Idle };
        while self.word.compare_exchange(1, 3, SeqCst, SeqCst).is_err() {}
        unsafe { *self.place.get() = Some(running) };
        self.word.store(0, SeqCst);
        served
    }
}

struct Drain {
    outbox: Arc<Queue<Box<Reply>>>,
    spent: Spent,
    hand: Box<Reply>,
}

impl Drain {
    fn take(&mut self) -> bool {
        let Some(reply) = self.outbox.pop() else {
            self.spent.flush();
            return false;
        };
        let empty = std::mem::replace(&mut self.hand, reply);
        self.spent.give(empty);
        true
    }
}

fn open(capacity: usize) -> (Arc<Queue<Item>>, Cell, Drain) {
    let inbox = Arc::new(Queue::new(capacity));
    let outbox = Arc::new(Queue::new(capacity));
    let (boxes, spent) = open_boxes(capacity);
    let running = Running { inbox: inbox.clone(), outbox: outbox.clone(), boxes, route: Box::new(Route::new()), held: None, waiting: 0, taken: 0 };
    let cell = Cell { word: AtomicU64::new(0), place: UnsafeCell::new(Some(Box::new(running))) };
    (inbox, cell, Drain { outbox, spent, hand: blank() })
}

fn item(body: &[u8]) -> Item {
    Item { polled: true, moment: 1, head: [0x80; 16], peer: [0; 18], body: body.to_vec() }
}

fn shown(name: &str, start: Instant, calls: u64) {
    println!("{name} {} ns", start.elapsed().as_nanos() as u64 * 100 / calls);
}

/// The same items without the queues: the cost of the route itself and of the copy of each body.
fn alone() {
    let mut route = Route::new();
    let mut place = blank();
    let body = [7u8; 92];
    let start = Instant::now();
    for _ in 0..CALLS {
        route.step(std::hint::black_box(item(&body)));
        route.next_reply(&mut place);
        std::hint::black_box(&mut place);
    }
    shown("alone", start, CALLS);
}

fn idle() {
    let (_inbox, cell, _drain) = open(256);
    let start = Instant::now();
    for _ in 0..CALLS {
        std::hint::black_box(cell.serve(&mut || true));
    }
    shown("idle", start, CALLS);
}

fn through() {
    let (inbox, cell, mut drain) = open(256);
    let body = [7u8; 92];
    let start = Instant::now();
    for _ in 0..CALLS {
        let _ = inbox.push(std::hint::black_box(item(&body)));
        cell.serve(&mut || true);
        cell.serve(&mut || true);
        std::hint::black_box(drain.take());
    }
    shown("through", start, CALLS);
}

fn workers(name: &str, cells: &[&Cell]) {
    let done = AtomicBool::new(false);
    let turns: u64 = std::thread::scope(|scope| {
        let handles: Vec<_> = cells
            .iter()
            .map(|cell| {
                let done = &done;
                scope.spawn(move || {
                    let mut turns = 0u64;
                    while !done.load(SeqCst) {
                        if cell.serve(&mut || true) != Served::Busy {
                            turns += 1;
                        }
                    }
                    turns
                })
            })
            .collect();
        std::thread::sleep(std::time::Duration::from_millis(500));
        done.store(true, SeqCst);
        handles.into_iter().map(|it| it.join().unwrap()).sum()
    });
    println!("{name} {} ns", 500_000_000u64 * 100 / turns.max(1));
}

fn main() {
    alone();
    idle();
    through();
    let (_inbox, cell, _drain) = open(256);
    let (_other_inbox, other, _other_drain) = open(256);
    workers("one", &[&cell, &cell]);
    workers("two", &[&cell, &other]);
}
