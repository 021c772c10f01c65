//! Writes the Rust of the proved C library, and of the crates that it uses, for `src/lib.rs`.
use std::fs;
use std::path::Path;

pub fn write(here: &Path, to: &Path) -> Result<(), String> {
    let top = here.join("../..");
    strip::write_crates(&strip::crates_of("iobufs_c", &top)?, strip::Also::default(), &top.join("crates"), to)?;
    fs::copy(here.join("src/built.rs"), to.join("iobufs_c/built.rs")).expect("the folder is there");
    Ok(())
}

fn main() -> Result<(), String> {
    let [here, to] = strip::folders();
    println!("cargo:rerun-if-changed=src/built.rs");
    let (major, minor) = (env!("CARGO_PKG_VERSION_MAJOR"), env!("CARGO_PKG_VERSION_MINOR"));
    println!("cargo:rustc-cdylib-link-arg=-Wl,-soname,libiobufs.so.{major}.{minor}");
    write(&here, &to)
}
