//! The tests of the proved sources, over the layer `kit`. `rt` runs the same ones over its own.
#![cfg(test)]

mod refusing;

/// The layer, whose `test::run` also fails allocations.
mod kit {
    pub use ::kit::*;

    pub mod test {
        pub use crate::refusing::run;
    }
}

/// Tests that have to fail, through the same generator and runner.
#[allow(unused_variables, clippy::all)]
#[forbid(unsafe_code)]
mod failing {
    include!(concat!(env!("OUT_DIR"), "/failing.rs"));
}

#[allow(dead_code, unused_imports, unused_macros, unused_variables, unstable_name_collisions, clippy::all)]
#[forbid(unsafe_code)]
mod proved {
    include!(concat!(env!("OUT_DIR"), "/proved.rs"));
}
