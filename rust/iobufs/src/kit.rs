//! The calls of the kit's std and `bytes` that the proved sources make: those that the program and the C library have,
//! but `bytes` over the crate of that name.
#[path = "../layer/base.rs"]
mod base;
#[allow(unsafe_code)]
#[path = "../layer/block.rs"]
pub mod block;
#[path = "kit/bytes.rs"]
pub mod bytes;
#[path = "../layer/count.rs"]
mod count;
#[allow(unsafe_code)]
#[path = "../layer/deque.rs"]
mod deque;
#[allow(unsafe_code)]
#[path = "../layer/few.rs"]
mod few;
#[allow(unsafe_code)]
#[path = "../layer/held.rs"]
pub mod held;
#[path = "../layer/io.rs"]
pub mod io;
#[path = "../layer/names.rs"]
mod names;
#[allow(unsafe_code)]
#[path = "spare/block.rs"]
mod spare;
#[allow(unsafe_code)]
#[path = "../layer/vec.rs"]
mod vec;

pub use base::{Clone, Global};
pub use names::{prelude, std};

// The kit's `Bytes` has its address elsewhere, and there no thread keeps space.
#[cfg(test)]
#[allow(unsafe_code)]
mod tests {
    use super::bytes::Bytes;
    use super::held::Held;
    use super::{few, vec};

    /// Which words of a view are its address and its length.
    fn places(held: &Held) -> [Option<usize>; 2] {
        assert_eq!((size_of::<Held>(), align_of::<Held>()), (32, 8));
        // SAFETY: it has the size and the alignment of four words, and all are written: a `Bytes` has four, and the others
        // have their kind, an address, a length and a block.
        let words = unsafe { &*(&raw const *held).cast::<[usize; 4]>() };
        [held.as_slice().as_ptr().addr(), held.len()].map(|it| words.iter().position(|word| *word == it))
    }

    /// A read asks for no kind of storage: each has its address and its length at the same places.
    #[test]
    fn kinds_have_the_same_places() {
        let (own, shared) = (Held::of_static(b"abcde"), Held::of_bytes(Bytes::from_static(b"abcdefg")));
        assert_eq!((own.is_shared(), shared.is_shared()), (false, true));
        assert!(places(&own).iter().all(Option::is_some) && places(&own) == places(&shared));
    }

    /// A thread keeps the space of four items alone, and gives it once.
    #[test]
    fn space_of_four_is_kept() {
        let kept = || few::kept::<[u64; 5]>().map(|it| (it.len(), it.capacity()));
        for n in 1..9 {
            few::keep(vec::Vec::from_elem(super::Global, [7_u64; 5], n).expect("there is memory").0);
            assert_eq!((kept(), kept()), ((n == 4).then_some((0, 4)), None), "{n}");
        }
    }
}
