//! Work shared out over the processors: each takes its share of the cases, and the first difference stops them all.
use crate::tally::Tally;
use std::sync::atomic::{AtomicBool, Ordering};
use std::thread;

/// The carried Rust, nested 2,000 deep, wants more stack than threads have.
pub const DEEP_STACK: usize = 512 << 20;

#[derive(Clone, Copy)]
pub struct Share<'a> {
    number: usize,
    of: usize,
    stopped: &'a AtomicBool,
}

impl Share<'_> {
    /// This share's cases; no more once some share met a difference.
    pub fn cases<I: Iterator>(self, all: I) -> impl Iterator<Item = I::Item> {
        all.skip(self.number).step_by(self.of).take_while(move |_| !self.stopped.load(Ordering::Relaxed))
    }

    pub fn stop(self) {
        self.stopped.store(true, Ordering::Relaxed);
    }
}

/// The tally of all shares.
pub fn tallied(name: &str, work: impl Fn(Share, &mut Tally) + Sync) -> Tally {
    let (of, stopped) = (thread::available_parallelism().map_or(1, usize::from), AtomicBool::new(false));
    let mut all = Tally::new(name);
    let one = |number| {
        let mut tally = Tally::new(name);
        work(Share { number, of, stopped: &stopped }, &mut tally);
        tally
    };
    thread::scope(|scope| {
        let spawn = |number| {
            let deep = thread::Builder::new().stack_size(DEEP_STACK);
            deep.spawn_scoped(scope, move || one(number)).expect("a thread for each processor")
        };
        let threads: Vec<_> = (0..of).map(spawn).collect();
        threads.into_iter().for_each(|thread| all.add(thread.join().expect("a share that ends")));
    });
    all
}
