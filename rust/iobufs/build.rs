//! Writes the Rust of the proved buffers, frames and values for `src/lib.rs`.
use std::path::Path;

#[allow(dead_code)]
#[path = "strip/lib.rs"]
mod strip;

const CRATES: [&str; 4] = ["iobufs_core", "iobufs", "iobufs_frames", "iobufs_codec"];
/// Proved files that have a private module by hand.
pub const SPARES: [(&str, &str); 6] = [
    ("iobufs_core/buf/part.rt", "part.rs"),
    ("iobufs_core/buf/view.rt", "view.rs"),
    ("iobufs/bufs_mut.rt", "bufs_mut.rs"),
    ("iobufs/bufs_mut/several.rt", "several.rs"),
    ("iobufs/builder.rt", "builder.rs"),
    ("iobufs_codec/list.rt", "list.rs"),
];

/// Calls that are `const`, by their files and heads.
pub const CONSTS: [(&str, &str); 4] = [
    ("iobufs_core/buf/part.rt", "pub fn capacity(&self) -> usize"),
    ("iobufs_core/buf/view.rt", "pub fn len(&self) -> usize"),
    ("iobufs_core/buf/view.rt", "pub fn is_empty(&self) -> bool"),
    ("iobufs/bufs.rt", "pub fn is_empty(&self) -> bool"),
];

pub fn write(here: &Path, to: &Path) -> Result<(), String> {
    // `rust/package` puts the sources into `proved`.
    let (packed, crates) = (here.join("proved"), here.join("../../crates"));
    if packed.is_dir() && crates.join("iobufs_core/src").is_dir() {
        return Err(format!("{}: the sources are in {} too: remove one", packed.display(), crates.display()));
    }
    let files = SPARES.map(|(_, file)| here.join("src/spare").join(file));
    let spares: Vec<_> = SPARES.iter().zip(&files).map(|((of, _), file)| (*of, file.as_path())).collect();
    let also = strip::Also { spares: &spares, consts: &CONSTS, ..Default::default() };
    strip::write_crates(&CRATES, also, if packed.is_dir() { &packed } else { &crates }, to)
}

fn main() -> Result<(), String> {
    let [here, to] = strip::folders();
    write(&here, &to)
}
