//! The program `iobuf`, from its proved sources.
#![forbid(unsafe_code)]

#[cfg(not(target_pointer_width = "64"))]
compile_error!("the proofs are of 64-bit machines");

use ::kit;
use kit::prelude::HostRuntime;
use std::process::ExitCode;

#[allow(dead_code, unused_imports, unused_variables, clippy::all)]
mod proved {
    include!(concat!(env!("OUT_DIR"), "/proved.rs"));
}

fn main() -> ExitCode {
    proved::iobuf::main(HostRuntime)
}

/// Refusals that no session meets: lengths stay below 2^63, and a failed allocation is `N9 Memory`.
#[test]
fn rare_refusals_are_printed() {
    use proved::{iobufs_core::codec::Error, iobufs_run::command::Refusal};
    let rows = [
        (Refusal::TooLong, "N6 TooLong"),
        (Refusal::Codec(Error::Memory), "N8 C4 Memory"),
        (Refusal::Codec(Error::TooLong), "N8 C5 TooLong"),
        (Refusal::Codec(Error::BadLayout), "N8 C6 BadLayout"),
    ];
    rows.into_iter().for_each(|(refusal, text)| assert_eq!(refusal.to_string(), text));
}
