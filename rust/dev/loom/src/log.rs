//! A log of what threads do: their calls, their accesses of counts, and what the layer allocates and frees.
#![forbid(unsafe_code)]

use crate::proved::iobufs_owner::{Call, Handle, Reply};
use std::cell::Cell;
use std::collections::HashMap;
use std::mem;
use std::sync::{Mutex, MutexGuard, PoisonError};

/// What a thread does. Counts and memory go by their addresses, handles by the machine's numbers: it gives them in the
/// order in which the log has what makes them.
#[derive(Clone, Copy, Debug, PartialEq)]
pub enum Event {
    Begin(Call),
    End(Reply),
    /// What a handle has, but for its word.
    Shows(usize, Handle),
    /// A count is loaded, and has this value.
    Load(usize, usize),
    /// A count is changed, from the first value to the second.
    Change(usize, usize, usize),
    /// A call allocates so many bytes.
    Allocate(usize, usize),
    /// Storage is freed, or what a call allocated.
    Free(usize),
}

/// An event of a thread, by its number.
#[derive(Clone, Copy, Debug)]
pub struct Entry {
    pub thread: usize,
    pub event: Event,
}

/// The log of one run after the other.
#[derive(Default)]
pub struct Log(Mutex<State>);

#[derive(Default)]
struct State {
    entries: Vec<Entry>,
    threads: usize,
    handles: usize,
    /// Whether memory whose free is logged is freed. It stays allocated, so that a fault is in the log, and no crash.
    watched: HashMap<usize, bool>,
}

/// What this thread is logged as, and the last handle that it made.
#[derive(Clone, Copy)]
struct Logged {
    log: &'static Log,
    thread: usize,
    is_in_call: bool,
    made: Option<usize>,
}

thread_local! {
    // Loom's threads share it: each takes it away while others may run. Without a destructor it outlives the layer's.
    static LOGGED: Cell<Option<Logged>> = const { Cell::new(None) };
}

impl Log {
    /// Numbers this thread, which is logged from now on.
    pub fn enter(&'static self) {
        let mut state = self.state();
        LOGGED.set(Some(Logged { log: self, thread: state.threads, is_in_call: false, made: None }));
        state.threads += 1;
    }

    /// Returns the entries, and begins again. This thread is no longer logged.
    pub fn taken(&self) -> Vec<Entry> {
        LOGGED.take();
        mem::take(&mut *self.state()).entries
    }

    fn state(&self) -> MutexGuard<'_, State> {
        self.0.lock().unwrap_or_else(PoisonError::into_inner)
    }
}

/// Returns the log of this thread. Panics if it has none.
pub fn current() -> &'static Log {
    LOGGED.get().expect("a logged thread").log
}

/// Runs what isn't logged, or what lets other threads of loom run.
pub fn unlogged<R>(run: impl FnOnce() -> R) -> R {
    let logged = LOGGED.take();
    let result = run();
    LOGGED.set(logged);
    result
}

/// Logs an event, if this thread is logged.
pub fn note(event: Event) {
    let Some(mut logged) = LOGGED.take() else { return };
    let mut state = logged.log.state();
    state.entries.push(Entry { thread: logged.thread, event });
    let mut is_made = false;
    match event {
        Event::Begin(call) => {
            (logged.is_in_call, logged.made) = (true, None);
            if let Call::New(at, ..) = call {
                state.watched.insert(at as usize, false);
                is_made = true;
            }
        }
        Event::End(_) => logged.is_in_call = false,
        Event::Change(_, old, new) => is_made = old < new,
        Event::Allocate(at, _) => drop(state.watched.insert(at, false)),
        Event::Free(at) => drop(state.watched.insert(at, true)),
        Event::Shows(..) | Event::Load(..) => {}
    }
    if is_made {
        logged.made = Some(state.handles);
        state.handles += 1;
    }
    drop(state);
    LOGGED.set(Some(logged));
}

/// Logs that a call is done. Returns the handle that it made, if it made one.
pub fn done() -> Option<usize> {
    let made = LOGGED.get().and_then(|it| it.made);
    note(Event::End(made.map_or(Reply::Done, Reply::Made)));
    made
}

/// Logs an allocation, if a call makes it.
pub fn note_allocated(at: usize, size: usize) {
    if LOGGED.get().is_some_and(|it| it.is_in_call) {
        note(Event::Allocate(at, size));
    }
}

/// Logs a free, and returns true, if the memory is watched.
pub fn note_freed(at: usize) -> bool {
    let is_watched = LOGGED.get().is_some_and(|it| unlogged(|| it.log.state().watched.contains_key(&at)));
    if is_watched {
        note(Event::Free(at));
    }
    is_watched
}

/// Returns whether memory that is watched is freed.
pub fn is_freed(at: usize) -> bool {
    LOGGED.get().is_some_and(|it| it.log.state().watched.get(&at) == Some(&true))
}
