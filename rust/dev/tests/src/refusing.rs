//! Runs a test, and fails the allocations of its calls. A test of `tests_allocation` prints `call` before a call,
//! `done` after it, and then what it was made on, and how it ended. Such a test runs with no allocation failing, then
//! with the first one of each call, then with the second, and so on, until no call makes as many. A call whose
//! allocation fails has to report that, and any other one not.
use kit::prelude::HostRuntime;
use kit::test::{Ended, listen};
use std::alloc::{GlobalAlloc, Layout, System};
use std::any::type_name;
use std::cell::Cell;
use std::fmt::Display;
use std::panic::{AssertUnwindSafe, catch_unwind, resume_unwind};
use std::sync::atomic::{AtomicU64, Ordering};
use std::{env, ptr};

/// A global allocator of which a thread may have one allocation fail.
struct Refusing;

thread_local! {
    /// Which allocation of each call fails, from 1; or 0.
    static NUMBER: Cell<u64> = const { Cell::new(0) };
    /// How many allocations of this thread succeed until one fails.
    static LEFT: Cell<u64> = const { Cell::new(u64::MAX) };
    /// Whether one failed since the last line, and how many failed in this run.
    static WAS: Cell<bool> = const { Cell::new(false) };
    static ALL: Cell<u64> = const { Cell::new(0) };
    /// Whether this run made a call.
    static CALLED: Cell<bool> = const { Cell::new(false) };
    /// Whether the test has a table of buffers with several chunks.
    static HAS_CHUNKS: Cell<bool> = const { Cell::new(false) };
}

fn fails() -> bool {
    let left = LEFT.get();
    if left == u64::MAX {
        return false;
    }
    LEFT.set(left.checked_sub(1).unwrap_or(u64::MAX));
    if left == 0 {
        WAS.set(true);
        ALL.set(ALL.get() + 1);
    }
    left == 0
}

// SAFETY: null says that there is no memory; all else is the system's.
unsafe impl GlobalAlloc for Refusing {
    unsafe fn alloc(&self, layout: Layout) -> *mut u8 {
        if fails() { ptr::null_mut() } else { unsafe { System.alloc(layout) } }
    }

    unsafe fn alloc_zeroed(&self, layout: Layout) -> *mut u8 {
        if fails() { ptr::null_mut() } else { unsafe { System.alloc_zeroed(layout) } }
    }

    unsafe fn realloc(&self, block: *mut u8, layout: Layout, n: usize) -> *mut u8 {
        if fails() { ptr::null_mut() } else { unsafe { System.realloc(block, layout, n) } }
    }

    unsafe fn dealloc(&self, block: *mut u8, layout: Layout) {
        unsafe { System.dealloc(block, layout) }
    }
}

#[global_allocator]
static ALLOCATOR: Refusing = Refusing;

/// How many bytes a buffer of one chunk has at most of which each allocation fails in turn; and how many chunks a buffer
/// of any length, if `IOBUFS_LARGE` is set.
const LARGEST: usize = 64;
const FEW: usize = 5;
/// How many chunks a buffer has at most unless `IOBUFS_LARGE` is set.
const MANY: usize = 4097;
/// How many tests `tests_allocation` has, of how many that number ended, and how many allocations failed in
/// these: at least so many in all.
const TESTS: &str = env!("ALLOCATION_TESTS");
static ENDED: AtomicU64 = AtomicU64::new(0);
static FAILED: AtomicU64 = AtomicU64::new(0);
const LEAST: u64 = 400;

/// Why a run ends early.
struct TooLarge;

/// Hears what a test prints.
fn hear(what: &dyn Display) {
    LEFT.set(u64::MAX);
    let line = what.to_string();
    let words: Vec<&str> = line.split_whitespace().collect();
    match words[..] {
        ["call"] => {
            CALLED.set(true);
            LEFT.set(NUMBER.get().checked_sub(1).unwrap_or(u64::MAX));
        }
        ["done"] | [] => {}
        [.., outcome] => hear_end(&line, &words, outcome),
    }
}

/// Hears how a call ended.
fn hear_end(line: &str, words: &[&str], outcome: &str) {
    let (was, chunks) = (WAS.replace(false), number(words, 2));
    if NUMBER.get() > 0 && !was && is_large(words) || chunks > MANY && !has_large() {
        resume_unwind(Box::new(TooLarge));
    }
    // The layer's `BytesMut::from` of a vector allocates, and the kit's doesn't.
    let is_made = words[0].ends_with("BytesMut") && was;
    if ["Done", "Declined", "Several", "Refused"].contains(&outcome) && !is_made {
        assert_eq!(was, outcome == "Refused", "{line}, allocation {}", NUMBER.get());
    }
}

/// Whether the variable `IOBUFS_LARGE` is set: then a run takes a minute longer.
fn has_large() -> bool {
    env::var_os("IOBUFS_LARGE").is_some()
}

/// The number of a line of a table: CALL STORAGE CHUNKS LENGTH SHARING ORIGINAL OUTCOME.
fn number(words: &[&str], n: usize) -> usize {
    if words.len() == 7 { words[n].parse().unwrap_or(0) } else { 0 }
}

/// Whether a line of a table tells of a buffer above the limit.
fn is_large(words: &[&str]) -> bool {
    let (chunks, len) = (number(words, 2), number(words, 3));
    if HAS_CHUNKS.get() && has_large() { chunks > FEW } else { chunks > 1 || len > LARGEST }
}

/// Runs a test with one allocation of each call failing, or none. Returns how many failed.
fn run_with(number: u64, case: impl Fn()) -> u64 {
    NUMBER.set(number);
    ALL.set(0);
    WAS.set(false);
    CALLED.set(false);
    let ended = catch_unwind(AssertUnwindSafe(case));
    NUMBER.set(0);
    LEFT.set(u64::MAX);
    match ended {
        Err(why) if !why.is::<TooLarge>() => resume_unwind(why),
        _ => ALL.get(),
    }
}

/// Runs a test. The last one of `tests_allocation` also looks at how many allocations failed in all.
pub fn run<T: Ended, F: Fn(HostRuntime) -> T>(case: F) {
    listen(hear);
    let (name, case) = (type_name::<F>(), || case(HostRuntime).assert_passed());
    HAS_CHUNKS.set(["::texts::case", "::rows::case"].iter().any(|it| name.ends_with(it)));
    run_with(0, case);
    // These compare what is held, and buffers of drawn sizes.
    if CALLED.get() && !name.contains("::held::") && !name.contains("::drawn::") {
        let failed: u64 = (1..).map(|number| run_with(number, case)).take_while(|it| *it > 0).sum();
        FAILED.fetch_add(failed, Ordering::Relaxed);
    }
    if name.contains("tests_allocation") && (ENDED.fetch_add(1, Ordering::AcqRel) + 1).to_string() == TESTS {
        let all = FAILED.load(Ordering::Relaxed);
        assert!(all >= LEAST, "{all} allocations failed in all tests");
    }
}
