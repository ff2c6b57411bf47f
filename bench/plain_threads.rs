//! Calls of a plain Rust queue under a `Mutex` by 1, 2, 4 and 8 threads, and with no `Mutex`, for comparison with the program in
//! bench/threads: it makes the same calls, on a queue of the same size, and writes the same lines.
//!
//! Called as: plain_threads CALLS

#[allow(dead_code)]
mod queue;

use queue::{Answer, Info, Metadata, Queue, Start};
use std::sync::{Arc, Mutex};
use std::thread;
use std::time::Instant;

const ARENA: u64 = 155_648;
const SLOTS: usize = 1024;
const FEED: u32 = 2;

// A signature that no other call of these threads has.
fn signature(number: u64, i: u64) -> [u8; 16] {
    let mut bytes = [0; 16];
    bytes[..8].copy_from_slice(&number.to_le_bytes());
    bytes[8..].copy_from_slice(&i.to_le_bytes());
    bytes
}

// A queue that a thread calls: under a mutex, or its own.
trait Call {
    fn call<R>(&mut self, ask: impl FnOnce(&mut Queue) -> R) -> R;
}

impl Call for &Mutex<Queue> {
    fn call<R>(&mut self, ask: impl FnOnce(&mut Queue) -> R) -> R {
        ask(&mut self.lock().unwrap())
    }
}

impl Call for Queue {
    fn call<R>(&mut self, ask: impl FnOnce(&mut Queue) -> R) -> R {
        ask(self)
    }
}

fn insert(queue: &mut impl Call, signature: [u8; 16]) -> Answer {
    let info = Arc::new(Info { front: b"100".as_slice().into(), feed: FEED, rest: b"1 host product".as_slice().into() });
    let metadata = Metadata { signature, feed: FEED, info, texts: 12, size: 96 };
    queue.call(|queue| queue.insert(100, metadata, &[65; 96]))
}

// Products that no thread looks for fill the queue.
fn full() -> Queue {
    let mut queue = Queue::new(ARENA, SLOTS);
    for i in 0..SLOTS as u64 {
        insert(&mut queue, signature(u64::MAX, i));
    }
    queue
}

// Looks for products that are not there.
fn look(mut queue: impl Call, number: u64, calls: u64) -> u64 {
    let mut found = 0;
    for i in 0..calls {
        if let Answer::Queued { .. } = queue.call(|queue| queue.look(&signature(number, i))) {
            found += 1;
        }
    }
    found
}

// In turn inserts a product, steps twice, since the first step may tell a loss, and releases what it was given.
fn relay(mut queue: impl Call, number: u64, calls: u64) -> u64 {
    let actor = number as u32;
    let Answer::Opened { k } = queue.call(|queue| queue.open(actor, FEED, Start::Oldest)) else {
        return 0;
    };
    let mut given = 0;
    for i in 0..calls / 4 {
        insert(&mut queue, signature(number, i));
        for _ in 0..2 {
            if let Answer::Product { .. } = queue.call(|queue| queue.step(actor, k)) {
                given += 1;
            }
        }
        queue.call(|queue| queue.release(actor, k));
    }
    given
}

fn work(queue: impl Call, kind: &str, number: u64, calls: u64) -> u64 {
    if kind == "look" { look(queue, number, calls) } else { relay(queue, number, calls) }
}

fn main() {
    let calls: u64 = std::env::args().nth(1).unwrap().parse().unwrap();
    for kind in ["look", "relay"] {
        let queue = full();
        let begun = Instant::now();
        let count = work(queue, kind, 0, calls);
        println!("{kind} alone {} {count}", begun.elapsed().as_nanos());
        for threads in [1, 2, 4, 8] {
            let queue = Mutex::new(full());
            let begun = Instant::now();
            let count: u64 = thread::scope(|scope| {
                let running: Vec<_> = (0..threads)
                    .map(|number| scope.spawn({ let queue = &queue; move || work(queue, kind, number, calls / threads) }))
                    .collect();
                running.into_iter().map(|thread| thread.join().unwrap()).sum()
            });
            println!("{kind} {threads} {} {count}", begun.elapsed().as_nanos());
        }
    }
}
