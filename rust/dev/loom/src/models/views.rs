//! Models of a few threads, which loom runs in each interleaving that the memory model admits.
#![forbid(unsafe_code)]

use super::handles::{Handle, Storage};
use crate::log::{Log, current, unlogged};
use crate::machine::{FREES_UNSHARED, Tally, check};
use loom::thread::{self, JoinHandle};
use std::rc::Rc;
use std::sync::{Arc, Mutex};

/// A model by its name, which begins with a view of eight bytes.
type Model = (&'static str, fn(Handle));

const MODELS: [Model; 8] = [
    ("two threads share a view", two_shares),
    ("two clones in a thread, a drop in another", clones_beside_a_drop),
    ("a recovery beside a drop", recovery_beside_a_drop),
    ("three drops", three_drops),
    ("a clone beside two clones", three_clones),
    ("two recoveries, one of them as a `Bytes`, beside a drop", recoveries_beside_a_drop),
    ("views of views", views_of_views),
    ("a recovery, and another of what was shared again", shared_again),
];

/// Runs a thread that is logged.
fn spawn<T: 'static>(run: impl FnOnce() -> T + 'static) -> JoinHandle<T> {
    let log = current();
    let logged = move || {
        log.enter();
        run()
    };
    unlogged(|| thread::spawn(logged))
}

fn join<T>(thread: JoinHandle<T>) -> T {
    unlogged(|| thread.join()).expect("the thread ends")
}

/// Recovers the storage of a view, and drops it.
fn recover(mut view: Handle) {
    view.try_into_mut();
}

fn two_shares(view: Handle) {
    let view = Rc::new(view);
    let (one, other) = (view.clone(), view.clone());
    let cloning = spawn(move || drop(one.try_clone()));
    let slicing = spawn(move || drop(other.slice(1, 3)));
    [cloning, slicing].into_iter().for_each(join);
}

fn clones_beside_a_drop(view: Handle) {
    let clone = view.try_clone();
    let thread = spawn(move || {
        let more = clone.try_clone();
        drop(clone);
        recover(more);
    });
    drop(view);
    join(thread);
}

fn recovery_beside_a_drop(mut view: Handle) {
    let clone = view.try_clone();
    let thread = spawn(move || drop(clone));
    view.try_into_mut();
    view.freeze();
    join(thread);
    view.try_into_mut();
    assert!(matches!(view.storage, Storage::Writable(..)), "the thread has ended");
}

fn three_drops(mut view: Handle) {
    let threads = [view.split_to(3), view.try_clone()].map(|it| spawn(move || drop(it)));
    drop(view);
    threads.into_iter().for_each(join);
}

fn three_clones(view: Handle) {
    let view = Rc::new(view);
    let threads = [view.clone(), view.clone()].map(|it| spawn(move || it.try_clone()));
    let clone = view.try_clone();
    let [one, other] = threads.map(join);
    drop((view, clone, one));
    recover(other);
}

fn recoveries_beside_a_drop(view: Handle) {
    let (mut one, other) = (view.try_clone(), view.try_clone());
    let leaving = spawn(move || one.convert_to_bytes());
    let dropping = spawn(move || drop(other));
    recover(view);
    join(leaving);
    join(dropping);
}

fn views_of_views(mut view: Handle) {
    let mut inner = view.slice(2, 7).slice(1, 4);
    let mut front = view.split_to(3);
    drop(view);
    let thread = spawn(move || {
        drop(inner.split_to(2));
        inner.advance(1);
    });
    recover(front.slice(1, 2));
    front.advance(1);
    recover(front);
    join(thread);
}

fn shared_again(mut view: Handle) {
    let clone = view.try_clone();
    let dropping = spawn(move || drop(clone));
    view.try_into_mut();
    view.freeze();
    let clone = view.try_clone();
    let recovering = spawn(move || recover(clone));
    drop(view);
    [dropping, recovering].into_iter().for_each(join);
}

/// Runs a model in each interleaving, and executes what its threads did.
fn run(model: fn(Handle), has_room: bool, tally: &Arc<Mutex<Tally>>) {
    let (log, tally): (&Log, _) = (Box::leak(Box::default()), tally.clone());
    loom::model(move || {
        log.enter();
        model(Handle::new(8, 0, has_room));
        let checked = check(log.taken(), FREES_UNSHARED, &mut tally.lock().expect("no other thread panics"));
        checked.unwrap_or_else(|why| panic!("{why}"));
    });
}

#[test]
fn interleavings() {
    let tally = Arc::<Mutex<Tally>>::default();
    for (name, model) in MODELS {
        println!("{name}");
        // The count is in an allocation of its own, or after the bytes.
        [false, true].into_iter().for_each(|has_room| run(model, has_room, &tally));
    }
    let Tally { runs, steps, older, .. } = &*tally.lock().expect("no other thread panics");
    println!("loom: {runs} interleavings of {} models, {steps} steps, {older} loads of older values", MODELS.len());
    assert!(*runs >= 464 && *older > 0);
}
