//! Writes the Rust of the proved owner machine, and of the crates that it uses, for `src/lib.rs`.
use std::env;
use std::path::Path;

fn main() -> Result<(), String> {
    let (top, out) = (Path::new("../../.."), env::var_os("OUT_DIR").expect("cargo says where"));
    let crates = strip::crates_of("iobufs_owner", top)?;
    strip::write_crates(&crates, strip::Also::default(), &top.join("crates"), Path::new(&out))
}
