//! Handles of storage, whose calls of the layer are logged.
#![forbid(unsafe_code)]

use super::layer::base::{AllocError, Global};
use super::layer::block::{Block, Shell, Space};
use super::layer::bytes::Bytes;
use super::layer::held::{Held, Native};
use super::layer::vec;
use super::sync::Memory;
use crate::log::{Event, done, is_freed, note};
use crate::proved::iobufs_owner::{self as owner, Call, Kind, Reply, Word};
use std::{mem, thread};

/// What a handle has of the layer.
pub enum Storage {
    /// The bytes begin at this offset.
    Writable(Space, usize),
    View(Held),
    Foreign(Bytes),
    Gone,
}

/// A handle, by the machine's number.
pub struct Handle {
    number: usize,
    /// The address of the storage.
    base: usize,
    memory: Memory,
    pub storage: Storage,
}

/// Logs a call. Returns its result, and the handle that it made.
fn called<R>(call: Call, run: impl FnOnce() -> R) -> (R, Option<usize>) {
    note(Event::Begin(call));
    (run(), done())
}

impl Handle {
    /// Makes a view of `n` bytes and so much spare capacity: with room for a count after that, or in an adopted `Vec`.
    pub fn new(n: usize, spare: usize, has_room: bool) -> Handle {
        let space = if has_room {
            Space::new(Global, n + spare, Shell::none()).expect("there is memory").0
        } else {
            Space::of(vec::Vec::with_capacity(Global, n + spare).expect("there is memory"), n + spare)
        };
        let base = space.as_slice().as_ptr().addr();
        let (_, number) = called(Call::New(base as u64, space.allocated() as u64, 1), || ());
        let (number, storage) = (number.expect("it is made"), Storage::Writable(space, 0));
        let mut handle = Handle { number, base, memory: Memory::new(), storage };
        handle.put(n);
        handle.freeze();
        handle
    }

    /// Logs its range, which it reads or writes.
    fn show(&self) {
        let (kind, at, cap) = match &self.storage {
            Storage::Writable(space, start) => (Kind::Mut, self.base + start, space.allocated() - start),
            Storage::View(held) => (Kind::View, held.as_slice().as_ptr().addr(), 0),
            Storage::Foreign(_) | Storage::Gone => return self.memory.write(),
        };
        let (ptr, len, cap) = (at as u64, self.len() as u64, cap as u64);
        note(Event::Shows(self.number, owner::Handle { kind, ptr, len, cap, word: Word::Empty }));
        if kind == Kind::Mut { self.memory.write() } else { self.memory.read() }
    }

    pub fn len(&self) -> usize {
        match &self.storage {
            Storage::Writable(space, start) => space.len() - start,
            Storage::View(held) => held.len(),
            Storage::Foreign(bytes) => bytes.len(),
            Storage::Gone => 0,
        }
    }

    /// Puts `n` bytes, or as many as there is space for, if it writes.
    pub fn put(&mut self, n: usize) {
        let Storage::Writable(space, _) = &mut self.storage else { return };
        let bytes = vec![7; n.min(space.spare())];
        called(Call::Put(self.number, bytes.len() as u64), || space.put(&bytes));
        self.show();
    }

    /// Shares its storage, if it writes and has bytes.
    pub fn freeze(&mut self) {
        let len = self.len();
        self.storage = match mem::replace(&mut self.storage, Storage::Gone) {
            Storage::Writable(space, start) if len > 0 => {
                let (block, _) = called(Call::Freeze(self.number), || Block::new(Global, Shell::none(), space));
                let block = block.expect("there is memory");
                Storage::View(Held::of_native(Native { block, start, len }))
            }
            other => other,
        };
        self.show();
    }

    /// The handle that a call on a view made.
    fn made(&self, (held, number): (Result<Held, AllocError>, Option<usize>)) -> Handle {
        let (number, storage) = (number.unwrap_or(usize::MAX), Storage::View(held.expect("it can be shared")));
        let made = Handle { number, base: self.base, memory: self.memory.clone(), storage };
        made.show();
        made
    }

    pub fn try_clone(&self) -> Handle {
        let Storage::View(held) = &self.storage else { panic!("it is no view") };
        self.made(called(Call::Clone(self.number), || held.try_clone()))
    }

    pub fn slice(&self, lo: usize, hi: usize) -> Handle {
        let Storage::View(held) = &self.storage else { panic!("it is no view") };
        self.made(called(Call::Slice(self.number, lo as u64, hi as u64), || held.share(lo, hi)))
    }

    /// Takes the first `n` bytes of a view.
    pub fn split_to(&mut self, n: usize) -> Handle {
        let Storage::View(held) = &mut self.storage else { panic!("it is no view") };
        let front = called(Call::SplitTo(self.number, n as u64), || held.split_to(n));
        self.show();
        self.made(front)
    }

    /// Drops the first `n` bytes of a view.
    pub fn advance(&mut self, n: usize) {
        let Storage::View(held) = &mut self.storage else { panic!("it is no view") };
        called(Call::Advance(self.number, n as u64), || held.advance(n));
        self.show();
    }

    /// Recovers the storage of a view for writing, if no other handle has it.
    pub fn try_into_mut(&mut self) {
        let len = self.len();
        self.recover(|block, start| {
            let (mut space, _) = block.take()?;
            space.truncate(start + len);
            Ok(Storage::Writable(space, start))
        });
    }

    /// Recovers the storage of a view as a `Bytes`, if no other handle has it.
    pub fn convert_to_bytes(&mut self) {
        self.recover(|block, _| Ok(Storage::Foreign(block.into_bytes(Global)?.ok().expect("there is memory"))));
    }

    fn recover(&mut self, call: impl FnOnce(Block, usize) -> Result<Storage, Block>) {
        let Storage::View(held) = mem::replace(&mut self.storage, Storage::Gone) else { panic!("it is no view") };
        let Native { block, start, len } = held.into_native().ok().expect("native storage");
        self.memory.read();
        note(Event::Begin(Call::TryIntoMut(self.number)));
        let recovered = call(block, start);
        note(Event::End(if recovered.is_ok() { Reply::Done } else { Reply::Declined }));
        self.storage = recovered.unwrap_or_else(|block| Storage::View(Held::of_native(Native { block, start, len })));
        self.show();
    }
}

impl Drop for Handle {
    fn drop(&mut self) {
        let storage = mem::replace(&mut self.storage, Storage::Gone);
        if thread::panicking() {
            return mem::forget(storage);
        }
        self.memory.read();
        called(Call::Drop(self.number), || drop(storage));
        if is_freed(self.base) {
            self.memory.write();
        }
    }
}
