//! What tests are given, and what runs them.
#![forbid(unsafe_code)]
use super::base::Global;
use super::host::HostRuntime;
use std::cell::Cell;
use std::fmt::{Debug, Display};
use std::io;
use std::panic::Location;

/// What may end the process: a failed assertion is a panic.
pub trait Abort {}

impl Abort for HostRuntime {}

impl<T: Abort> Abort for &T {}

/// What has the allocator.
pub trait AllocGlobal {
    fn alloc(&self) -> Global;
}

impl AllocGlobal for HostRuntime {
    fn alloc(&self) -> Global {
        Global
    }
}

impl<T: AllocGlobal> AllocGlobal for &T {
    fn alloc(&self) -> Global {
        Global
    }
}

/// What prints to the standard output.
pub trait Print {
    fn println(&self, what: impl Display) -> io::Result<()>;
}

/// A function that hears what a thread prints.
type Listener = fn(&dyn Display);

thread_local! {
    static LISTENER: Cell<Option<Listener>> = const { Cell::new(None) };
}

/// Has what this thread prints given to a function.
pub fn listen(listener: Listener) {
    LISTENER.set(Some(listener));
}

impl Print for HostRuntime {
    fn println(&self, what: impl Display) -> io::Result<()> {
        match LISTENER.get() {
            Some(listener) => listener(&what),
            None => println!("{what}"),
        }
        Ok(())
    }
}

/// Why a test failed, and where. It has no `Debug`, so that each error that has it becomes one.
pub struct Fail(String);

impl<E: Debug> From<E> for Fail {
    #[track_caller]
    fn from(error: E) -> Fail {
        Fail(format!("{}: error: {error:?}", Location::caller()))
    }
}

/// What a test returns.
pub trait Ended {
    fn assert_passed(self);
}

impl Ended for () {
    fn assert_passed(self) {}
}

impl Ended for Result<(), Fail> {
    fn assert_passed(self) {
        if let Err(Fail(why)) = self {
            panic!("{why}");
        }
    }
}

/// Runs a test.
pub fn run<T: Ended>(case: impl Fn(HostRuntime) -> T) {
    case(HostRuntime).assert_passed();
}
