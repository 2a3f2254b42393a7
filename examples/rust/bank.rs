//! A bank in Rust over the queue of the library: four accounts, each a cell with a lock of its own, and threads that move money between
//! two of them. A section is a value: what it asks is given back where it is dropped. The sum of all accounts is checked.
//!
//!   tools/library && rustc -O -L out/lib -l static=asl examples/rust/bank.rs -o bank && ./bank
use std::cell::UnsafeCell;
use std::ffi::c_void;
use std::sync::{Condvar, Mutex};

const OK: u32 = 0;
const IN_THE_WAY: u32 = 1;
const ROOT: u8 = 0;
const CLASS: u8 = 1;
const LEAF: u8 = 2;
const IS: u8 = 1;
const IX: u8 = 3;
const S: u8 = 5;
const X: u8 = 15;

/// A node, and the mode that is asked for there, as `include/asl.h` has it.
#[repr(C)]
#[derive(Clone, Copy)]
struct Ask {
    kind: u8,
    mode: u8,
    offset: u8,
    class: u16,
    object: u16,
}

/// The handle of a queue, as `include/asl.h` has it.
#[repr(C)]
struct Handle {
    live: bool,
    at: *mut c_void,
}

// The queue goes from one thread to another, under the mutex.
unsafe impl Send for Handle {}

unsafe extern "C" {
    fn asl_queue_new(classes: u32, threads: u32, queue: *mut Handle) -> u32;
    fn asl_queue_free(queue: *mut Handle) -> u32;
    fn asl_queue_reserve(queue: *mut Handle, nodes: usize) -> u32;
    fn asl_queue_acquire(queue: *mut Handle, thread: u32, asks: *const Ask, count: usize) -> u32;
    fn asl_queue_release(queue: *mut Handle, thread: u32, named: *mut u32, room: usize, count: *mut usize) -> u32;
}

/// A queue of the library, and for each thread whether it was named while it waits.
struct Shared {
    queue: Handle,
    named: Vec<bool>,
}

impl Drop for Shared {
    fn drop(&mut self) {
        unsafe { asl_queue_free(&mut self.queue) };
    }
}

/// Locks for so many threads, numbered from 0.
struct Locks {
    shared: Mutex<Shared>,
    named: Vec<Condvar>,
}

/// A section: until it is dropped its thread holds what it asked.
struct Section<'a> {
    locks: &'a Locks,
    thread: usize,
}

impl Locks {
    fn new(classes: u32, threads: usize, nodes: usize) -> Locks {
        let mut queue = Handle { live: false, at: std::ptr::null_mut() };
        assert_eq!(unsafe { asl_queue_new(classes, threads as u32, &mut queue) }, OK);
        assert_eq!(unsafe { asl_queue_reserve(&mut queue, nodes) }, OK);
        Locks { shared: Mutex::new(Shared { queue, named: vec![false; threads] }), named: (0..threads).map(|_| Condvar::new()).collect() }
    }

    /// Returns once the thread holds all that it asks: nodes that rise, the root first.
    fn enter(&self, thread: usize, asks: &[Ask]) -> Section<'_> {
        let mut shared = self.shared.lock().unwrap();
        let status = unsafe { asl_queue_acquire(&mut shared.queue, thread as u32, asks.as_ptr(), asks.len()) };
        assert!(status == OK || status == IN_THE_WAY, "status {status}");
        if status == IN_THE_WAY {
            let mut shared = self.named[thread].wait_while(shared, |shared| !shared.named[thread]).unwrap();
            shared.named[thread] = false;
        }
        Section { locks: self, thread }
    }
}

impl Drop for Section<'_> {
    fn drop(&mut self) {
        let mut shared = self.locks.shared.lock().unwrap();
        let (mut named, mut count) = ([0; 128], 0);
        let status = unsafe { asl_queue_release(&mut shared.queue, self.thread as u32, named.as_mut_ptr(), named.len(), &mut count) };
        assert_eq!(status, OK);
        for &other in &named[..count] {
            shared.named[other as usize] = true;
            self.locks.named[other as usize].notify_one();
        }
    }
}

const ACCOUNTS: usize = 4;
const THREADS: usize = 4;
const START: i64 = 1000;

/// Cells that are shared; each access stands in a section that has asked for it.
struct Accounts([UnsafeCell<i64>; ACCOUNTS]);

unsafe impl Sync for Accounts {}

/// Writes the cells of two accounts: what `expr r0 write` and `expr r1 write` ask where two registers point to them.
fn both(a: usize, b: usize) -> [Ask; 4] {
    let leaf = |object: usize| Ask { kind: LEAF, mode: X, offset: 0, class: 0, object: object as u16 };
    let above = |kind| Ask { kind, mode: IX, offset: 0, class: 0, object: 0 };
    [above(ROOT), above(CLASS), leaf(a.min(b)), leaf(a.max(b))]
}

/// Reads all accounts: what `class 0 read` asks.
fn all() -> [Ask; 2] {
    [Ask { kind: ROOT, mode: IS, offset: 0, class: 0, object: 0 }, Ask { kind: CLASS, mode: S, offset: 0, class: 0, object: 0 }]
}

/// So many transfers by one thread. How often the sum of all accounts was wrong.
fn transfers(locks: &Locks, accounts: &Accounts, thread: usize, count: usize) -> usize {
    let (mut random, mut wrong) = (thread as u64 + 88_172_645_463_325_252, 0);
    for made in 0..count {
        random ^= random << 13;
        random ^= random >> 7;
        random ^= random << 17;
        let from = random as usize % ACCOUNTS;
        let to = (from + 1 + (random >> 32) as usize % (ACCOUNTS - 1)) % ACCOUNTS;
        {
            let _section = locks.enter(thread, &both(from, to));
            unsafe {
                *accounts.0[from].get() -= 1;
                *accounts.0[to].get() += 1;
            }
        }
        if made % 64 == 0 {
            let _section = locks.enter(thread, &all());
            let sum: i64 = accounts.0.iter().map(|one| unsafe { *one.get() }).sum();
            wrong += usize::from(sum != ACCOUNTS as i64 * START);
        }
    }
    wrong
}

fn main() {
    let count = std::env::args().nth(1).map_or(20_000, |word| word.parse().expect("a number of transfers"));
    let locks = Locks::new(1, THREADS, 4);
    let accounts = Accounts([const { UnsafeCell::new(START) }; ACCOUNTS]);
    let wrong: usize = std::thread::scope(|scope| {
        let tellers: Vec<_> = (0..THREADS).map(|thread| scope.spawn({ let (locks, accounts) = (&locks, &accounts); move || transfers(locks, accounts, thread, count) })).collect();
        tellers.into_iter().map(|teller| teller.join().unwrap()).sum()
    });
    println!("{} transfers, {wrong} wrong sums", THREADS * count);
    std::process::exit(i32::from(wrong != 0));
}
