//! The names by which programs and tests call the layer.
#![forbid(unsafe_code)]

/// What each source imports.
pub mod prelude {
    pub use super::super::host::HostRuntime;
    pub use super::super::names::prelude::*;
    pub use super::super::test::{AllocGlobal, Print};
    pub use super::super::text::String;
}

/// The kit's std.
pub mod std {
    pub use super::super::names::std::*;
    pub use super::super::{fs, host::env, test};
    pub use ::std::{cmp, hash, str};

    pub mod collections {
        pub use super::super::super::map::HashMap;
        pub use super::super::super::names::std::collections::*;
    }

    pub mod marker {
        pub use super::super::super::names::std::marker::*;
        pub use ::std::marker::Send;
    }

    pub mod process {
        pub use super::super::super::test::Abort;
        pub use ::std::process::*;
    }

    pub mod sync {
        pub use super::super::super::arc::Arc;
    }
}
