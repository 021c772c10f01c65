//! The owner machine executes a log, in a format in which no descriptor fits: each handle has a record. docs/OWNER.md
//! says which step an access is. A count is that of a record, by its address, and storage is a block. Storage that has
//! left to a `Bytes` has a writable handle, whose accesses are none of the protocol's.
#![forbid(unsafe_code)]

use crate::kit::std::alloc::Global;
use crate::log::{Entry, Event};
use crate::order::in_order;
use crate::proved::iobufs_owner::{Act, Call, Format, Handle, Kind, Machine, Pending, Reply, Step, Word};
use std::collections::{BTreeMap, HashMap};

/// Whether a drop of a view may free the storage without a subtraction, if its count was never accessed, as the layer's
/// does.
pub const FREES_UNSHARED: bool = true;

/// What was executed.
#[derive(Default)]
pub struct Tally {
    pub runs: usize,
    pub steps: usize,
    pub recovered: usize,
    pub declined: usize,
    /// Loads of older values.
    pub older: usize,
}

/// The machine, and what it doesn't know of the layer. Counts and memory go by their addresses.
struct Checker<'a> {
    machine: Machine,
    frees_unshared: bool,
    /// The call of each thread, and the machine's reply once that is done.
    calls: HashMap<usize, (Call, Option<Reply>)>,
    /// The record of each count.
    counts: HashMap<usize, usize>,
    /// The sizes of what is allocated besides storage.
    allocated: BTreeMap<usize, usize>,
    tally: &'a mut Tally,
}

type Checked<T = ()> = Result<T, String>;

fn ensure(is: bool, why: impl FnOnce() -> String) -> Checked {
    if is { Ok(()) } else { Err(why()) }
}

/// Executes a log. Returns the entry that is no step of the machine, and why.
pub fn check(log: Vec<Entry>, frees_unshared: bool, tally: &mut Tally) -> Checked {
    let (entries, older) = in_order(log);
    let threads = entries.iter().map(|it| it.thread + 1).max().unwrap_or(0);
    let format = Format::new(0, 0, 0).expect("a format");
    (tally.runs, tally.older) = (tally.runs + 1, tally.older + older);
    let mut checker = Checker {
        machine: Machine::new(Global, threads, isize::MAX as u64, format).expect("there is memory"),
        frees_unshared,
        calls: HashMap::new(),
        counts: HashMap::new(),
        allocated: BTreeMap::new(),
        tally,
    };
    for (i, Entry { thread, event }) in entries.iter().enumerate() {
        checker.execute(*thread, *event).map_err(|why| {
            let last = entries[i.saturating_sub(15)..=i].iter().map(|it| format!("\n  {it:x?}"));
            format!("{why}, at entry {i}:{}", last.collect::<String>())
        })?;
    }
    checker.is_over()
}

impl Checker<'_> {
    fn execute(&mut self, thread: usize, event: Event) -> Checked {
        match event {
            Event::Begin(call) => self.begin(thread, call),
            Event::End(reply) => self.end(thread, reply),
            Event::Shows(number, handle) => self.shows(number, handle),
            Event::Load(count, n) => self.load(thread, count, n),
            Event::Change(count, n, new) if new == n.wrapping_add(1) => self.add(thread, count, n),
            Event::Change(count, n, new) if new == n.wrapping_sub(1) => self.subtract(thread, count, n),
            Event::Change(..) => Err("no access of the protocol".to_owned()),
            Event::Allocate(at, size) => ensure(self.allocated.insert(at, size).is_none(), || "made twice".to_owned()),
            Event::Free(at) if self.machine.blocks().iter().any(|it| it.base == at as u64) => self.free(thread, at),
            Event::Free(at) => self.free_other(at),
        }
    }

    /// The machine takes a step of a thread.
    fn step(&mut self, thread: usize, act: Act) -> Checked {
        self.tally.steps += 1;
        let replies = self.machine.run(&[Step { thread, act }]).map_err(|it| format!("{it:?}"))?;
        let call = self.calls.get_mut(&thread).ok_or("outside of a call")?;
        call.1 = match replies.as_slice()[0] {
            Reply::More => None,
            Reply::Refused(why) => return Err(format!("the machine refuses {act:?}: {why:?}")),
            reply => Some(reply),
        };
        Ok(())
    }

    /// The machine begins the call of a thread.
    fn start(&mut self, thread: usize) -> Checked {
        let call = self.active(thread)?;
        self.step(thread, Act::Begin(call, true))
    }

    /// The call of a thread, with which the machine isn't done.
    fn active(&self, thread: usize) -> Checked<Call> {
        match self.calls.get(&thread) {
            Some((call, None)) => Ok(*call),
            other => Err(format!("no call to go on with: the machine has {other:?}")),
        }
    }

    fn handle(&self, number: usize) -> Checked<Handle> {
        self.machine.handles().get(number).copied().flatten().ok_or_else(|| format!("{number} is no handle"))
    }

    /// Whether a handle writes, or is that of a `Bytes`, which has a count of its own.
    fn is_writable(&self, number: usize) -> bool {
        self.handle(number).is_ok_and(|it| it.kind == Kind::Mut)
    }

    fn record(&self, number: usize) -> Checked<usize> {
        let word = self.handle(number)?.word;
        if let Word::Record(record) = word { Ok(record) } else { Err(format!("a handle with {word:?}")) }
    }

    /// The count at this address is that of the handle's record, and has this value.
    fn check_count(&mut self, number: usize, count: usize, n: usize) -> Checked {
        let record = self.record(number)?;
        let known = *self.counts.entry(count).or_insert(record);
        let is_only = self.counts.values().filter(|it| **it == record).count() == 1;
        ensure(known == record && is_only, || format!("the count of record {known}, of a handle of {record}"))?;
        let counted = self.machine.records()[record].count;
        ensure(counted == n as u64, || format!("the count is {n}, and that of record {record} {counted}"))
    }

    /// A call without an access is executed at once.
    fn begin(&mut self, thread: usize, call: Call) -> Checked {
        ensure(self.calls.insert(thread, (call, None)).is_none(), || "a call in a call".to_owned())?;
        match call {
            Call::New(..) | Call::Put(..) | Call::Advance(..) | Call::Freeze(_) => self.start(thread),
            _ => Ok(()),
        }
    }

    fn end(&mut self, thread: usize, reply: Reply) -> Checked {
        let (ended, pending) = (self.calls.remove(&thread), self.machine.calls()[thread]);
        let is_same = ended.is_some_and(|it| it.1 == Some(reply));
        ensure(is_same, || format!("a call ends, {reply:?}, and the machine has {ended:?} at {pending:?}"))
    }

    fn shows(&self, number: usize, handle: Handle) -> Checked {
        let known = Handle { word: Word::Empty, ..self.handle(number)? };
        ensure(known == handle, || format!("the machine has {known:x?}"))
    }

    fn add(&mut self, thread: usize, count: usize, n: usize) -> Checked {
        let call = self.active(thread)?;
        let (Call::Clone(number) | Call::Slice(number, ..) | Call::SplitTo(number, _)) = call else {
            return Err(format!("adds in {call:?}"));
        };
        self.check_count(number, count, n)?;
        self.start(thread)?;
        if let Call::SplitTo(..) = call { Ok(()) } else { self.step(thread, Act::Go(true)) }
    }

    fn subtract(&mut self, thread: usize, count: usize, n: usize) -> Checked {
        let call = self.active(thread)?;
        let Call::Drop(number) = call else { return Err(format!("subtracts in {call:?}")) };
        if self.is_writable(number) {
            return Ok(());
        }
        self.check_count(number, count, n)?;
        self.start(thread)?;
        if n == 1 { Ok(()) } else { self.step(thread, Act::Go(true)) }
    }

    fn load(&mut self, thread: usize, count: usize, n: usize) -> Checked {
        match (self.active(thread)?, self.machine.calls()[thread]) {
            (Call::TryIntoMut(number), None) => {
                self.check_count(number, count, n)?;
                if n == 1 {
                    // Its record gets another place.
                    self.counts.remove(&count);
                }
                self.tally.recovered += usize::from(n == 1);
                self.tally.declined += usize::from(n > 1);
                self.start(thread)
            }
            (Call::Drop(number), None) if self.is_writable(number) => Ok(()),
            (Call::Drop(number), None) => {
                self.start_unshared(thread, number)?;
                ensure(n == 1, || format!("the count is {n}"))
            }
            (Call::Drop(_), Some(Pending::Release(record))) => {
                ensure(n == 0 && self.counts.get(&count) == Some(&record), || "another count, or it isn't 0".to_owned())
            }
            (call, pending) => Err(format!("loads in {call:?}, at {pending:?}")),
        }
    }

    /// The machine begins to drop a view without a subtraction, if its count was never accessed before.
    fn start_unshared(&mut self, thread: usize, number: usize) -> Checked {
        let record = self.record(number)?;
        let is_admitted = self.frees_unshared && self.counts.values().all(|it| *it != record);
        ensure(is_admitted, || "dropped without a subtraction".to_owned())?;
        self.start(thread)
    }

    /// The layer frees storage, and so does the machine.
    fn free(&mut self, thread: usize, at: usize) -> Checked {
        let call = self.active(thread)?;
        let Call::Drop(number) = call else { return Err(format!("freed in {call:?}")) };
        match self.machine.calls()[thread] {
            Some(_) => self.step(thread, Act::Go(true))?,
            None if self.is_writable(number) => self.start(thread)?,
            None => self.start_unshared(thread, number).and_then(|()| self.step(thread, Act::Go(true)))?,
        }
        let records = self.machine.records();
        self.counts.retain(|_, record| records[*record].live);
        let freed = self.machine.freed_blocks().last().map(|it| it.base);
        ensure(freed == Some(at as u64), || format!("the machine's last free is of {freed:x?}"))
    }

    /// The layer frees the place of a count, at any time after its record.
    fn free_other(&mut self, at: usize) -> Checked {
        let size = self.allocated.remove(&at).ok_or("freed twice")?;
        let left = self.counts.iter().find(|it| (at..at + size).contains(it.0));
        ensure(left.is_none(), || format!("the place of a count and its record, {left:x?}, is freed"))
    }

    /// Nothing is left.
    fn is_over(&self) -> Checked {
        ensure(self.calls.is_empty(), || format!("unfinished: {:?}", self.calls))?;
        ensure(self.machine.handles().iter().all(Option::is_none), || "a handle is left".to_owned())?;
        ensure(self.machine.freed_blocks().len() == self.machine.blocks().len(), || "storage is left".to_owned())?;
        ensure(self.machine.freed_records().len() == self.machine.records().len(), || "a record is left".to_owned())?;
        ensure(self.allocated.is_empty(), || format!("allocated and left: {:x?}", self.allocated))
    }
}
