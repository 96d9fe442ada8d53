//! Work on all cores.

use std::{
    num::NonZero,
    panic,
    sync::atomic::{AtomicUsize, Ordering},
    thread,
};

use oracle::print::STACK;

pub fn cores() -> usize {
    thread::available_parallelism().map_or(1, NonZero::get)
}

/// Takes every number below `count` to one of the threads, each with a state of
/// its own, and gives the states back.
pub fn share<S: Default + Send>(count: usize, step: impl Fn(&mut S, usize) + Sync) -> Vec<S> {
    let next = AtomicUsize::new(0);
    let work = || {
        let mut state = S::default();
        loop {
            let number = next.fetch_add(1, Ordering::Relaxed);
            if number >= count {
                return state;
            }
            step(&mut state, number);
        }
    };
    thread::scope(|scope| {
        let start = |_| {
            let thread = thread::Builder::new().stack_size(STACK);
            thread.spawn_scoped(scope, work).expect("start a thread")
        };
        let threads: Vec<_> = (0..cores()).map(start).collect();
        let join = |thread: thread::ScopedJoinHandle<'_, S>| {
            thread.join().unwrap_or_else(|e| panic::resume_unwind(e))
        };
        threads.into_iter().map(join).collect()
    })
}
