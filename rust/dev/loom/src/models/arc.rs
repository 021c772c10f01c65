//! A model of the `Arc` of rust/dev/kit, which has the layer's count, and its own loads and frees.
#![forbid(unsafe_code)]

use super::layer::arc::Arc;
use super::layer::base::Global;
use super::sync::Memory;
use loom::thread;

/// A value whose drop is a write.
struct Tracked(Memory);

impl Drop for Tracked {
    fn drop(&mut self) {
        self.0.write();
    }
}

#[test]
fn reads_and_writes_are_ordered() {
    loom::model(|| {
        let memory = Memory::new();
        let mut handle = Arc::new(Global, Tracked(memory.clone())).expect("there is memory");
        let clone = Arc::try_clone(&handle).expect("there are few");
        let thread = thread::spawn(move || {
            let more = Arc::try_clone(&clone).expect("there are few");
            drop(clone);
            more.0.read();
        });
        if let Some(tracked) = Arc::get_mut(&mut handle) {
            tracked.0.write();
        }
        handle.0.read();
        drop(handle);
        thread.join().expect("it reads");
        assert!(memory.is_only(), "the value is dropped once");
    });
}
