//! Times a period of some processors whose threads draw under one lock in plain Rust, beside the
//! program's `period`. bench/locks.py compiles and runs it:
//!
//!     rustc -O bench/locks.rs -o /tmp/locks && /tmp/locks 10
//!     /tmp/locks 10 pool 64 500
//!
//! The first times ten periods of each lock. The second makes ten of one lock, 64 seats and 500
//! slices for each: another program counts its instructions.
//!
//! Nine leaves have 1000 slices for each processor. A draw takes one slice. `mutex` is
//! `std::sync::Mutex`, with draws in any order. `tickets` is a ticket lock: each waiter sleeps on
//! the futex of its own ticket, and whoever leaves wakes the next.
//!
//! Both have a bare pool: a draw counts down its leaf, and notes its seat and its leaf. `pool` is
//! the Mutex with a pool that does what the program's does. It tests the call, takes the least that
//! is left at the leaf, its ancestors and the processor, keeps who holds what, makes a reply, and
//! notes seat, call and reply. Its one kind of call is the draw.
use std::cell::UnsafeCell;
use std::ffi::c_long;
use std::sync::Mutex;
use std::sync::atomic::{AtomicU32, Ordering::SeqCst};
use std::time::Instant;

const LEAVES: usize = 9;
const EACH: u32 = 1000;
const WORDS: usize = 64;
// Looks at the served ticket before a sleep.
const LOOKS: u32 = 100;

const FUTEX: c_long = if cfg!(target_arch = "x86_64") { 202 } else { 98 };
const WAIT_PRIVATE: c_long = 128;
const WAKE_PRIVATE: c_long = 129;

unsafe extern "C" {
    fn syscall(number: c_long, ...) -> c_long;
}

/// Slices of leaves, which seats draw.
trait Slices: Send {
    /// All slices of some seats, so many for each, shared out evenly.
    fn new(seats: u32, each: u32) -> Self;
    /// Takes one slice of the leaf, if one is left.
    fn draw(&mut self, seat: u32, leaf: usize) -> bool;
    /// Number of slices drawn so far.
    fn drawn(&self) -> usize;
}

/// The slices of each leaf, of all slices.
fn shares(whole: u32) -> [u32; LEAVES] {
    let mut shares = [whole / LEAVES as u32; LEAVES];
    shares[0] += whole % LEAVES as u32;
    shares
}

/// The slices that are left to each leaf, and the draws so far: seat and leaf.
struct Bare {
    left: [u32; LEAVES],
    draws: Vec<(u32, usize)>,
}

impl Slices for Bare {
    fn new(seats: u32, each: u32) -> Bare {
        let whole = seats * each;
        Bare { left: shares(whole), draws: Vec::with_capacity(whole as usize) }
    }

    fn draw(&mut self, seat: u32, leaf: usize) -> bool {
        let some = self.left[leaf] > 0;
        if some {
            self.left[leaf] -= 1;
            self.draws.push((seat, leaf));
        }
        some
    }

    fn drawn(&self) -> usize {
        self.draws.len()
    }
}

/// A draw of so many slices of a leaf, the program's call.
#[derive(Clone, Copy)]
struct Draw {
    leaf: u32,
    ask: u64,
}

/// What left a draw short.
#[derive(Clone, Copy)]
enum Short {
    Nothing,
    Group(u32),
    Processor,
}

/// The reply to a call.
#[derive(Clone, Copy)]
enum Reply {
    Granted { got: u64, short: Short },
    NoProcessor,
    NoGroup,
    NotLeaf,
    ZeroAsk,
}

/// A call in the history.
#[derive(Clone, Copy)]
struct Entry {
    seat: u32,
    call: Draw,
    reply: Reply,
}

/// The program's pool, over a root and its leaves, with the history of its calls.
struct Whole {
    per_processor: u64,
    parents: Vec<Option<u32>>,
    leaf: Vec<bool>,
    drawn: Vec<u64>,
    ceiling: Vec<u64>,
    by_processor: Vec<u64>,
    held: Vec<u64>,
    history: Vec<Entry>,
}

impl Whole {
    /// The leaf and its ancestors, upwards.
    fn path(&self, leaf: u32) -> impl Iterator<Item = usize> + '_ {
        std::iter::successors(Some(leaf as usize), move |row| {
            self.parents[*row].map(|up| up as usize)
        })
    }

    /// Number of slices that are left to a group.
    fn left(&self, row: usize) -> u64 {
        self.ceiling[row] - self.drawn[row]
    }

    /// The refusal of a call, if any.
    fn refusal(&self, seat: u32, call: Draw) -> Option<Reply> {
        if seat as usize >= self.by_processor.len() {
            return Some(Reply::NoProcessor);
        }
        let Some(is_leaf) = self.leaf.get(call.leaf as usize) else {
            return Some(Reply::NoGroup);
        };
        if !is_leaf {
            return Some(Reply::NotLeaf);
        }
        (call.ask == 0).then_some(Reply::ZeroAsk)
    }

    /// Answers a draw that is not refused.
    fn grant(&mut self, seat: u32, Draw { leaf, ask }: Draw) -> Reply {
        let bound = ask.min(self.per_processor - self.by_processor[seat as usize]);
        let got = self.path(leaf).map(|row| self.left(row)).fold(bound, u64::min);
        let short = if got == ask {
            Short::Nothing
        } else {
            match self.path(leaf).find(|row| self.left(*row) == got) {
                Some(row) => Short::Group(row as u32),
                None => Short::Processor,
            }
        };
        let mut at = (got > 0).then_some(leaf);
        while let Some(row) = at {
            self.drawn[row as usize] += got;
            at = self.parents[row as usize];
        }
        self.by_processor[seat as usize] += got;
        self.held[seat as usize * self.leaf.len() + leaf as usize] += got;
        Reply::Granted { got, short }
    }

    /// Makes one call, and notes it.
    fn step(&mut self, seat: u32, call: Draw) -> Reply {
        let reply = match self.refusal(seat, call) {
            Some(refusal) => refusal,
            None => self.grant(seat, call),
        };
        self.history.push(Entry { seat, call, reply });
        reply
    }
}

impl Slices for Whole {
    fn new(seats: u32, each: u32) -> Whole {
        let rows = LEAVES + 1;
        let leaves = shares(seats * each).map(u64::from);
        let calls = seats * (each + LEAVES as u32);
        Whole {
            per_processor: u64::from(each),
            parents: (0..rows).map(|row| (row > 0).then_some(0)).collect(),
            leaf: (0..rows).map(|row| row > 0).collect(),
            drawn: vec![0; rows],
            ceiling: std::iter::once(u64::from(seats * each)).chain(leaves).collect(),
            by_processor: vec![0; seats as usize],
            held: vec![0; seats as usize * rows],
            history: Vec::with_capacity(calls as usize),
        }
    }

    fn draw(&mut self, seat: u32, leaf: usize) -> bool {
        // the compiler must not know the call beforehand
        let call = std::hint::black_box(Draw { leaf: leaf as u32 + 1, ask: 1 });
        match self.step(seat, call) {
            Reply::Granted { got, short: Short::Nothing } => got == call.ask,
            Reply::Granted { short: Short::Group(row), .. } => {
                assert_eq!(row, call.leaf);
                false
            }
            _ => false,
        }
    }

    fn drawn(&self) -> usize {
        let calls: u64 = self
            .history
            .iter()
            .map(|entry| match entry.reply {
                Reply::Granted { got, .. } => {
                    assert!(entry.seat < self.by_processor.len() as u32 && got <= entry.call.ask);
                    got
                }
                _ => 0,
            })
            .sum();
        assert_eq!(calls, self.drawn[0]);
        calls as usize
    }
}

trait Lock<P>: Sync {
    fn new(pool: P) -> Self;
    fn draw(&self, seat: u32, leaf: usize) -> bool;
    fn into_pool(self) -> P;
}

impl<P: Slices> Lock<P> for Mutex<P> {
    fn new(pool: P) -> Self {
        Mutex::new(pool)
    }

    fn draw(&self, seat: u32, leaf: usize) -> bool {
        self.lock().unwrap().draw(seat, leaf)
    }

    fn into_pool(self) -> P {
        self.into_inner().unwrap()
    }
}

struct Tickets<P> {
    next: AtomicU32,
    serving: AtomicU32,
    // The mark of the ticket whose owner may sleep, at the ticket's place.
    marks: [AtomicU32; WORDS],
    pool: UnsafeCell<P>,
}

// SAFETY: the pool is touched only by the owner of the served ticket.
unsafe impl<P: Send> Sync for Tickets<P> {}

impl<P> Tickets<P> {
    fn mark(&self, ticket: u32) -> &AtomicU32 {
        &self.marks[ticket as usize % WORDS]
    }

    fn enter(&self) -> u32 {
        let ticket = self.next.fetch_add(1, SeqCst);
        for _ in 0..LOOKS {
            if self.serving.load(SeqCst) == ticket {
                return ticket;
            }
            std::hint::spin_loop();
        }
        let mark = self.mark(ticket);
        loop {
            mark.store(ticket + 1, SeqCst);
            if self.serving.load(SeqCst) == ticket {
                return ticket;
            }
            // SAFETY: the word lives as long as the lock.
            unsafe { syscall(FUTEX, mark.as_ptr(), WAIT_PRIVATE, ticket + 1, 0usize) };
        }
    }

    fn leave(&self, ticket: u32) {
        self.serving.store(ticket + 1, SeqCst);
        let mark = self.mark(ticket + 1);
        if mark.compare_exchange(ticket + 2, 0, SeqCst, SeqCst).is_ok() {
            // SAFETY: as above.
            unsafe { syscall(FUTEX, mark.as_ptr(), WAKE_PRIVATE, 1u32) };
        }
    }
}

impl<P: Slices> Lock<P> for Tickets<P> {
    fn new(pool: P) -> Self {
        Tickets {
            next: AtomicU32::new(0),
            serving: AtomicU32::new(0),
            marks: [const { AtomicU32::new(0) }; WORDS],
            pool: UnsafeCell::new(pool),
        }
    }

    fn draw(&self, seat: u32, leaf: usize) -> bool {
        let ticket = self.enter();
        // SAFETY: the ticket is served.
        let drawn = unsafe { (*self.pool.get()).draw(seat, leaf) };
        self.leave(ticket);
        drawn
    }

    fn into_pool(self) -> P {
        self.pool.into_inner()
    }
}

/// Draws the slices of one seat.
fn work<P, L: Lock<P>>(lock: &L, seat: u32, each: u32) {
    let (mut leaf, mut drawn) = (0, 0);
    while drawn < each && leaf < LEAVES {
        if lock.draw(seat, leaf) {
            drawn += 1;
        } else {
            leaf += 1;
        }
    }
}

/// Milliseconds of a period in which each seat has a thread.
fn period<P: Slices, L: Lock<P>>(seats: u32, each: u32) -> f64 {
    let began = Instant::now();
    let lock = L::new(P::new(seats, each));
    std::thread::scope(|scope| {
        for seat in 0..seats {
            let lock = &lock;
            scope.spawn(move || work(lock, seat, each));
        }
    });
    let pool = lock.into_pool();
    let took = began.elapsed().as_secs_f64() * 1e3;
    assert_eq!(pool.drawn(), (seats * each) as usize);
    took
}

/// Prints the lock, the seats, and the milliseconds of each run.
fn show<P: Slices, L: Lock<P>>(name: &str, seats: u32, each: u32, runs: usize) {
    let times: Vec<String> =
        (0..runs).map(|_| format!("{:.4}", period::<P, L>(seats, each))).collect();
    println!("{name} {seats} {}", times.join(" "));
}

fn main() {
    let words: Vec<String> = std::env::args().collect();
    let number = |at: usize| words.get(at).and_then(|word| word.parse().ok());
    let runs = number(1).unwrap_or(10) as usize;
    let each = number(4).unwrap_or(EACH);
    let only = words.get(2).map_or("", |word| word.as_str());
    for seats in number(3).map_or(vec![1, 4, 16, 64], |seats| vec![seats]) {
        if only.is_empty() || only == "mutex" {
            show::<Bare, Mutex<Bare>>("mutex", seats, each, runs);
        }
        if only.is_empty() || only == "pool" {
            show::<Whole, Mutex<Whole>>("pool", seats, each, runs);
        }
        if only.is_empty() || only == "tickets" {
            show::<Bare, Tickets<Bare>>("tickets", seats, each, runs);
        }
    }
}
