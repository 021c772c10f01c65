//! Real threads that share, split, recover and drop views. What they do is drawn by a seed, which is printed; the order
//! of their accesses isn't repeated by it. `IOBUFS_SEED` gives the seed, and `IOBUFS_ROUNDS` how many rounds there are.
#![forbid(unsafe_code)]

use super::handles::{Handle, Storage};
use crate::log::{Event, Log};
use crate::machine::{FREES_UNSHARED, Tally, check};
use std::cell::{Cell, RefCell};
use std::collections::hash_map::RandomState;
use std::env;
use std::hash::BuildHasher;
use std::panic::resume_unwind;
use std::sync::Barrier;
use std::thread;

thread_local! {
    static DRAWN: Cell<u64> = const { Cell::new(0) };
    /// Handles that a thread drops as it ends.
    static LAST: RefCell<Vec<Handle>> = RefCell::default();
}

/// Draws a number below `n`, or 0.
pub fn below(n: usize) -> usize {
    DRAWN.set(DRAWN.get().wrapping_mul(6364136223846793005).wrapping_add(1442695040888963407));
    (DRAWN.get() >> 33) as usize % n.max(1)
}

/// What a thread has. It draws what it does with that.
struct Worker<'a> {
    shared: &'a [Handle],
    own: Vec<Handle>,
}

impl Worker<'_> {
    fn act(&mut self) {
        match below(9) {
            0 => self.own.push(Handle::new(1 + below(30), below(2) * below(60), below(3) == 0)),
            1..=3 => self.share(),
            _ if self.own.is_empty() => {}
            _ => self.change(),
        }
    }

    fn share(&mut self) {
        let all = self.shared.iter().chain(&self.own);
        let views: Vec<_> = all.filter(|it| matches!(it.storage, Storage::View(_))).collect();
        let Some(view) = views.get(below(views.len())) else { return };
        let lo = below(view.len());
        let n = below(view.len() - lo + 1);
        let more = if n > 0 { view.slice(lo, lo + n) } else { view.try_clone() };
        self.own.push(more);
    }

    /// Changes a handle, or drops it, now or as the thread ends: before or after the layer's thread local.
    fn change(&mut self) {
        let mut it = self.own.swap_remove(below(self.own.len()));
        let n = below(it.len());
        match (&it.storage, below(8)) {
            (Storage::Writable(..), 0..3) => it.put(below(9)),
            (Storage::Writable(..), 3..6) => it.freeze(),
            (Storage::View(_), 0..2) if n > 0 => self.own.push(it.split_to(n)),
            (Storage::View(_), 2) => it.advance(if n == 0 { it.len() } else { n }),
            (Storage::View(_), 3..5) => it.try_into_mut(),
            (Storage::View(_), 5) => it.convert_to_bytes(),
            (_, 6) => return LAST.with_borrow_mut(|last| last.push(it)),
            _ => return,
        }
        self.own.push(it);
    }
}

/// Runs threads that begin at once, each with handles of its own, up to their ends. Returns what they have left.
fn in_threads(log: &'static Log, shared: &[Handle], given: Vec<Vec<Handle>>) -> Vec<Handle> {
    let barrier = &Barrier::new(given.len());
    thread::scope(|scope| {
        let spawned = given.into_iter().map(|own| {
            let drawn = below(1 << 31) as u64;
            scope.spawn(move || {
                log.enter();
                DRAWN.set(drawn);
                barrier.wait();
                let mut worker = Worker { shared, own };
                (0..5 + below(15)).for_each(|_| worker.act());
                worker.own
            })
        });
        let threads: Vec<_> = spawned.collect();
        threads.into_iter().flat_map(|it| it.join().unwrap_or_else(|why| resume_unwind(why))).collect()
    })
}

/// In a thread of its own: one makes views, three share them and make more, and two have what is left.
fn round(log: &'static Log, seed: u64) {
    log.enter();
    DRAWN.set(seed);
    let shared = in_threads(log, &[], vec![vec![]]);
    let mut left = in_threads(log, &shared, vec![vec![], vec![], vec![]]);
    left.extend(shared);
    let (one, other) = left.into_iter().partition(|_| below(2) == 0);
    drop(in_threads(log, &[], vec![one, other]));
}

/// The number that a variable of the environment has.
fn number(name: &str) -> Option<u64> {
    env::var(name).ok().map(|it| it.parse().expect("a number"))
}

#[test]
fn real_threads() {
    let seed = number("IOBUFS_SEED").unwrap_or_else(|| RandomState::new().hash_one(0) >> 32);
    let rounds = number("IOBUFS_ROUNDS").unwrap_or(2500);
    println!("machine: threads by seed {seed}");
    let (log, mut tally): (&Log, _) = (Box::leak(Box::default()), Tally::default());
    for i in 0..rounds {
        let ended = thread::spawn(move || round(log, seed + i)).join();
        check(log.taken(), FREES_UNSHARED, &mut tally).unwrap_or_else(|why| panic!("by seed {}: {why}", seed + i));
        ended.unwrap_or_else(|why| resume_unwind(why));
    }
    let Tally { runs, steps, recovered, declined, older } = tally;
    println!("machine: {steps} steps in {runs} rounds of threads, {recovered} recoveries and {declined} declined");
    // At least 250,000 steps of 2,500 rounds.
    assert!(steps >= 100 * runs && recovered > runs && declined > runs && older == 0);
}

/// The last drop without its accesses is admitted of storage that was never shared, if the machine is told so.
#[test]
fn drops_without_a_subtraction() {
    for (is_shared, frees_unshared) in [(false, false), (false, true), (true, true)] {
        let log: &Log = Box::leak(Box::default());
        log.enter();
        let view = Handle::new(8, 0, true);
        let clone = is_shared.then(|| view.try_clone());
        drop((clone, view));
        let mut entries = log.taken();
        entries.retain(|it| !matches!(it.event, Event::Change(_, 1, 0) | Event::Load(..)));
        let checked = check(entries, frees_unshared, &mut Tally::default());
        assert_eq!(checked.is_ok(), frees_unshared && !is_shared, "{checked:?}");
    }
}
