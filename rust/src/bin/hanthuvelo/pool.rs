//! Work on all cores, with the results in order.

use std::collections::BTreeMap;
use std::sync::{Condvar, Mutex, MutexGuard, PoisonError};
use std::thread;

/// How many results may wait for an earlier one, for each thread.
const MOST_WAITING: usize = 8;

/// Where the pieces of work come from, numbered.
struct Source<N> {
    next: N,
    count: usize,
}

/// Where the results go: each when all earlier ones are there.
struct Sink<R, T> {
    take: T,
    turn: usize,
    waiting: BTreeMap<usize, R>,
    is_open: bool,
}

impl<R, T: FnMut(R) -> bool> Sink<R, T> {
    fn add(&mut self, number: usize, result: R) {
        self.waiting.insert(number, result);
        while self.is_open {
            let Some(result) = self.waiting.remove(&self.turn) else {
                break;
            };
            self.is_open = (self.take)(result);
            self.turn += 1;
        }
    }
}

/// What the threads share.
struct Pool<N, R, T> {
    source: Mutex<Source<N>>,
    sink: Mutex<Sink<R, T>>,
    moved: Condvar,
    most_waiting: usize,
}

impl<B, R, N: FnMut() -> Option<B>, T: FnMut(R) -> bool> Pool<N, R, T> {
    /// The next piece with its number.
    fn draw(&self) -> Option<(usize, B)> {
        let mut source = lock(&self.source);
        let piece = (source.next)()?;
        source.count += 1;
        Some((source.count - 1, piece))
    }

    /// Hands over a result, and waits while too many are there before their turn; false where no more are taken.
    fn deliver(&self, number: usize, result: R) -> bool {
        let mut sink = lock(&self.sink);
        sink.add(number, result);
        self.moved.notify_all();
        while sink.is_open && sink.waiting.len() > self.most_waiting {
            sink = self
                .moved
                .wait(sink)
                .unwrap_or_else(PoisonError::into_inner);
        }
        sink.is_open
    }
}

/// Takes pieces from `next` until there are none, works them off on so many threads, and hands the results to `take` in
/// the order of the pieces. If `take` says false, the rest is left.
pub fn in_order<B, R: Send>(
    threads: usize,
    next: impl FnMut() -> Option<B> + Send,
    work: impl Fn(B) -> R + Sync,
    take: impl FnMut(R) -> bool + Send,
) {
    let pool = Pool {
        source: Mutex::new(Source { next, count: 0 }),
        sink: Mutex::new(Sink {
            take,
            turn: 0,
            waiting: BTreeMap::new(),
            is_open: true,
        }),
        moved: Condvar::new(),
        most_waiting: MOST_WAITING * threads,
    };
    let worker = || {
        while let Some((number, piece)) = pool.draw() {
            if !pool.deliver(number, work(piece)) {
                break;
            }
        }
    };
    thread::scope(|scope| {
        for _ in 1..threads {
            // A thread that cannot be had is done without: this one works too.
            let _ = thread::Builder::new().spawn_scoped(scope, worker);
        }
        worker();
    });
}

fn lock<T>(mutex: &Mutex<T>) -> MutexGuard<'_, T> {
    mutex.lock().unwrap_or_else(PoisonError::into_inner)
}
