//! The names by which all sources call the layer.
#![forbid(unsafe_code)]

/// What each source imports.
pub mod prelude {
    pub use super::super::base::{CastSign as _, Clone, Drop, FromIterator};
    pub use super::super::vec::Vec;
}

/// The kit's std.
pub mod std {
    pub use super::super::io;
    pub use ::std::{fmt, mem, ops};

    pub mod alloc {
        pub use super::super::super::base::{AllocError, AllocFailed, Global};
        pub use ::std::alloc::Layout;
    }

    pub mod collections {
        pub use super::super::super::deque::VecDeque;
    }

    pub mod marker {
        /// What a type has whose clauses see another value. Nothing is left of its impls.
        pub trait Model {}
    }
}
