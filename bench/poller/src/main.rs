//! A poller's round in plain Rust, over the same kind of devices in memory: a datagram is read, classified, copied and
//! put into a bounded queue; a reply is taken from a second queue and sent, and its box goes back in a batch. With the
//! argument `queue`: the time of the bounded queue alone.
use std::cell::UnsafeCell;
use std::mem::MaybeUninit;
use std::sync::atomic::{AtomicBool, AtomicUsize, Ordering::SeqCst};
use std::sync::{Arc, Mutex};
use std::time::{Duration, Instant};

const AT_ONCE: usize = 256;
const TIMES: u64 = 4_000;

struct Slot<T> {
    stamp: AtomicUsize,
    value: UnsafeCell<MaybeUninit<T>>,
}

/// A bounded queue. The stamp of each slot is the lap in which it may be written or read.
struct Queue<T> {
    head: AtomicUsize,
    tail: AtomicUsize,
    slots: Box<[Slot<T>]>,
    lap: usize,
}

unsafe impl<T: Send> Sync for Queue<T> {}

impl<T> Queue<T> {
    fn new(capacity: usize) -> Queue<T> {
        let slots = (0..capacity).map(|at| Slot { stamp: AtomicUsize::new(at), value: UnsafeCell::new(MaybeUninit::uninit()) }).collect();
        Queue { head: AtomicUsize::new(0), tail: AtomicUsize::new(0), slots, lap: (capacity + 1).next_power_of_two() }
    }

    fn next(&self, place: usize) -> usize {
        let at = place & (self.lap - 1);
        if at + 1 < self.slots.len() { place + 1 } else { (place & !(self.lap - 1)).wrapping_add(self.lap) }
    }

    fn push(&self, value: T) -> Result<(), T> {
        let mut tail = self.tail.load(SeqCst);
        loop {
            let slot = &self.slots[tail & (self.lap - 1)];
            let stamp = slot.stamp.load(SeqCst);
            if stamp == tail {
                match self.tail.compare_exchange(tail, self.next(tail), SeqCst, SeqCst) {
                    Ok(_) => {
                        unsafe { (*slot.value.get()).write(value) };
                        slot.stamp.store(tail + 1, SeqCst);
                        return Ok(());
                    }
                    Err(found) => tail = found,
                }
            } else if stamp.wrapping_add(self.lap) == tail + 1 && self.head.load(SeqCst).wrapping_add(self.lap) == tail {
                return Err(value);
            } else {
                tail = self.tail.load(SeqCst);
            }
        }
    }

    fn pop(&self) -> Option<T> {
        let mut head = self.head.load(SeqCst);
        loop {
            let slot = &self.slots[head & (self.lap - 1)];
            let stamp = slot.stamp.load(SeqCst);
            if stamp == head + 1 {
                match self.head.compare_exchange(head, self.next(head), SeqCst, SeqCst) {
                    Ok(_) => {
                        let value = unsafe { (*slot.value.get()).assume_init_read() };
                        slot.stamp.store(head.wrapping_add(self.lap), SeqCst);
                        return Some(value);
                    }
                    Err(found) => head = found,
                }
            } else if stamp == head && self.tail.load(SeqCst) == head {
                return None;
            } else {
                head = self.head.load(SeqCst);
            }
        }
    }
}

#[derive(Clone, Copy)]
#[allow(dead_code)]
struct Peer {
    ip: [u8; 16],
    port: u16,
}

struct Item {
    peer: Peer,
    moment: u64,
    head: [u8; 16],
    body: Vec<u8>,
}

/// A reply, of the size that the gateway's has in memory: its peer, and its bytes, which are encoded already.
struct Reply {
    peer: Peer,
    len: usize,
    bytes: [u8; 1472],
}

/// Where boxes lie on their way back, and whether some do. Nobody waits for the lock.
struct Returned {
    any: AtomicBool,
    boxes: Mutex<Vec<Box<Reply>>>,
}

/// The drain's empty boxes, until there is a batch of them.
struct Spent {
    returned: Arc<Returned>,
    boxes: Vec<Box<Reply>>,
    batch: usize,
}

impl Spent {
    fn give(&mut self, empty: Box<Reply>) {
        self.boxes.push(empty);
        self.flush();
    }

    fn flush(&mut self) {
        if self.boxes.len() < self.batch {
            return;
        }
        if let Ok(mut left) = self.returned.boxes.try_lock() {
            left.append(&mut self.boxes);
            self.returned.any.store(true, SeqCst);
        }
    }
}

/// Free boxes: a stack of those that came back.
struct Boxes {
    returned: Arc<Returned>,
    stock: Vec<Box<Reply>>,
}

impl Boxes {
    fn empty_box(&mut self) -> Box<Reply> {
        if self.returned.any.load(SeqCst) {
            if let Ok(mut left) = self.returned.boxes.try_lock() {
                self.stock.append(&mut left);
                self.returned.any.store(false, SeqCst);
            }
        }
        self.stock.pop().unwrap()
    }
}

/// Both parts, for an outbox of this capacity.
fn open_boxes(capacity: usize) -> (Boxes, Spent) {
    let batch = (capacity / 16).clamp(1, 16);
    let room = capacity + batch + 3;
    let mut stock = Vec::with_capacity(room);
    stock.resize_with(room - 1, blank);
    let returned = Arc::new(Returned { any: AtomicBool::new(false), boxes: Mutex::new(Vec::with_capacity(room)) });
    let spent = Spent { returned: returned.clone(), boxes: Vec::with_capacity(room), batch };
    (Boxes { returned, stock }, spent)
}

enum Polled {
    Ready,
    #[allow(dead_code)]
    Failed,
}

enum Read {
    Datagram(Peer, usize, u64),
    Empty,
}

#[derive(PartialEq)]
enum Sent {
    Taken,
    #[allow(dead_code)]
    Later,
}

trait Source {
    fn wait(&mut self) -> Polled;
    fn next(&mut self, buffer: &mut [u8; 2048]) -> Read;
}

trait Wire {
    fn send(&mut self, to: Peer, bytes: &[u8]) -> Sent;
}

struct Once {
    peer: Peer,
    bytes: Vec<u8>,
    given: bool,
}

impl Source for Once {
    fn wait(&mut self) -> Polled {
        self.given = false;
        Polled::Ready
    }

    fn next(&mut self, buffer: &mut [u8; 2048]) -> Read {
        if self.given {
            return Read::Empty;
        }
        self.given = true;
        let len = self.bytes.len().min(2048);
        buffer[..len].copy_from_slice(&self.bytes[..len]);
        Read::Datagram(self.peer, len, 1_000_000)
    }
}

struct Last {
    text: Vec<u8>,
    count: u64,
}

impl Wire for Last {
    fn send(&mut self, _to: Peer, bytes: &[u8]) -> Sent {
        self.text.clear();
        self.text.extend_from_slice(bytes);
        self.count += 1;
        Sent::Taken
    }
}

struct Ends {
    inbox: Arc<Queue<Item>>,
    outbox: Arc<Queue<Box<Reply>>>,
    spent: Spent,
    hand: Box<Reply>,
}

fn word(bytes: &[u8], at: usize) -> u32 {
    u32::from_be_bytes(bytes[at..at + 4].try_into().unwrap())
}

/// The route that a datagram is for, by its destination socket ID. Handshakes aren't read here.
fn classify(bytes: &[u8], routes: usize) -> Option<usize> {
    if bytes.len() < 16 || bytes.len() > 1472 {
        return None;
    }
    let (first, rest) = (word(bytes, 0), bytes.len() - 16);
    let spelled = match first >> 16 {
        kind if kind < 0x8000 => rest > 0,
        0x8000 | 0x8001 | 0x8004 | 0x8005 | 0x8006 | 0x8008 | 0xffff => true,
        0x8002 | 0x8003 => rest >= 4,
        0x8007 => rest >= 8,
        _ => false,
    };
    let place = (word(bytes, 12) >> 20) as usize;
    if spelled && 0 < place && place <= routes { Some(place - 1) } else { None }
}

#[derive(Default)]
struct Report {
    read: u64,
    accepted: u64,
    full: u64,
    dropped: u64,
    sent: u64,
    faults: u64,
}

struct Poller {
    datagram: [u8; 2048],
    text: [u8; 1472],
    kept: Option<(Peer, usize)>,
    report: Report,
}

impl Poller {
    fn read<S: Source>(&mut self, source: &mut S, ends: &mut [Ends]) {
        for _ in 0..256 {
            let Read::Datagram(peer, len, moment) = source.next(&mut self.datagram) else { return };
            self.report.read += 1;
            let bytes = &self.datagram[..len];
            match classify(bytes, ends.len()) {
                Some(route) => {
                    let mut head = [0; 16];
                    head.copy_from_slice(&bytes[..16]);
                    let item = Item { peer, moment, head, body: bytes[16..].to_vec() };
                    match ends[route].inbox.push(item) {
                        Ok(()) => self.report.accepted += 1,
                        Err(_) => self.report.full += 1,
                    }
                }
                None => self.report.dropped += 1,
            }
        }
    }

    fn drain<W: Wire>(&mut self, wire: &mut W, end: &mut Ends) {
        for _ in 0..64 {
            let Some(reply) = end.outbox.pop() else {
                end.spent.flush();
                return;
            };
            let empty = std::mem::replace(&mut end.hand, reply);
            end.spent.give(empty);
            let len = end.hand.len;
            match wire.send(end.hand.peer, &end.hand.bytes[..len]) {
                Sent::Taken => self.report.sent += 1,
                Sent::Later => {
                    self.text[..len].copy_from_slice(&end.hand.bytes[..len]);
                    self.kept = Some((end.hand.peer, len));
                    return;
                }
            }
        }
    }

    fn round<S: Source, W: Wire>(&mut self, source: &mut S, wire: &mut W, ends: &mut [Ends]) {
        if let Some((peer, len)) = self.kept {
            if wire.send(peer, &self.text[..len]) == Sent::Taken {
                self.kept = None;
            }
        }
        match source.wait() {
            Polled::Ready => self.read(source, ends),
            Polled::Failed => self.report.faults += 1,
        }
        for end in ends {
            if self.kept.is_some() {
                return;
            }
            self.drain(wire, end);
        }
    }
}

#[inline(never)]
fn pump<S: Source, W: Wire>(source: &mut S, wire: &mut W, ends: &mut [Ends], rounds: usize) -> Report {
    let mut poller = Poller { datagram: [0; 2048], text: [0; 1472], kept: None, report: Report::default() };
    for _ in 0..rounds {
        poller.round(source, wire, ends);
    }
    poller.report
}

/// Takes each item from the inbox, and puts a reply into the outbox.
fn serve(ends: &Ends, boxes: &mut Boxes) {
    while let Some(item) = ends.inbox.pop() {
        let mut reply = boxes.empty_box();
        reply.peer = item.peer;
        let dest = word(&item.head, 12) ^ item.body.len() as u32;
        for (k, word) in [0x8006_0000, word(&item.head, 4), item.moment as u32, dest].iter().enumerate() {
            reply.bytes[4 * k..4 * k + 4].copy_from_slice(&word.to_be_bytes());
        }
        reply.len = 16;
        let _ = ends.outbox.push(reply);
    }
}

fn blank() -> Box<Reply> {
    let peer = Peer { ip: [0; 16], port: 0 };
    Box::new(Reply { peer, len: 0, bytes: [0; 1472] })
}

/// The least time of `AT_ONCE` pushes and pops of items without a body. Also the sum of their moments.
fn queued_values(peer: Peer) -> (Duration, u64) {
    let queue = Queue::new(AT_ONCE);
    let (mut least, mut sum) = (Duration::MAX, 0);
    for _ in 0..TIMES {
        let start = Instant::now();
        for moment in 0..AT_ONCE as u64 {
            let _ = queue.push(Item { peer, moment: std::hint::black_box(moment), head: [1; 16], body: Vec::new() });
        }
        for _ in 0..AT_ONCE {
            if let Some(item) = queue.pop() {
                sum += item.moment;
            }
        }
        least = least.min(start.elapsed());
    }
    (least, sum)
}

/// The same for boxes, which come from a stock and go back to it.
fn queued_boxes() -> (Duration, u64) {
    let queue = Queue::new(AT_ONCE);
    let mut stock: Vec<Box<u64>> = (0..AT_ONCE as u64).map(Box::new).collect();
    let (mut least, mut sum) = (Duration::MAX, 0);
    for _ in 0..TIMES {
        let start = Instant::now();
        for _ in 0..AT_ONCE {
            if let Some(one) = stock.pop() {
                let _ = queue.push(one);
            }
        }
        for _ in 0..AT_ONCE {
            if let Some(one) = queue.pop() {
                sum += *one;
                stock.push(one);
            }
        }
        least = least.min(start.elapsed());
    }
    (least, sum)
}

fn main() {
    let mut peer = Peer { ip: [0; 16], port: 5000 };
    peer.ip[10..].copy_from_slice(&[0xff, 0xff, 127, 0, 0, 1]);
    if std::env::args().nth(1).as_deref() == Some("queue") {
        for (name, (least, sum)) in [("values", queued_values(peer)), ("boxes", queued_boxes())] {
            println!("{name} {} {sum}", least.as_nanos() * 100 / AT_ONCE as u128);
        }
        return;
    }
    let words = [0x8002_0000u32, 1, 0, 0x0010_0000, 0, 10_000, 100, 8192, 0, 0, 0];
    let bytes = words.iter().flat_map(|it| it.to_be_bytes()).collect();
    let mut source = Once { peer, bytes, given: false };
    let mut wire = Last { text: Vec::with_capacity(1472), count: 0 };
    let (mut boxes, spent) = open_boxes(AT_ONCE);
    let mut ends = [Ends { inbox: Arc::new(Queue::new(AT_ONCE)), outbox: Arc::new(Queue::new(AT_ONCE)), spent, hand: blank() }];
    let mut least = Duration::MAX;
    for _ in 0..TIMES {
        let start = Instant::now();
        std::hint::black_box(pump(&mut source, &mut wire, &mut ends, AT_ONCE));
        least = least.min(start.elapsed());
        serve(&ends[0], &mut boxes);
    }
    println!("round {} {}", least.as_nanos() * 100 / 256, wire.count);
}
