//! strip FOLDER: writes the Rust of the proved program and C library, less the contracts, below a folder, for readers.
#![forbid(unsafe_code)]

use std::path::Path;

fn main() -> Result<(), String> {
    let folder = std::env::args_os().nth(1).ok_or("usage: strip FOLDER")?;
    let top = Path::new(env!("CARGO_MANIFEST_DIR")).join("../../..");
    let mut crates = [strip::crates_of("iobuf", &top)?, strip::crates_of("iobufs_c", &top)?].concat();
    crates.sort();
    crates.dedup();
    strip::write_crates(&crates, strip::Also::default(), &top.join("crates"), Path::new(&folder))
}
