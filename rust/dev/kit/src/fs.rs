//! Files, which the program's host gives.
#![forbid(unsafe_code)]
use super::host::HostRuntime;
use super::vec::Vec;
use std::{fs, io};

/// An open file.
pub struct File;

impl File {
    /// Creates a file in the host's folder of temporary files.
    pub fn create(_: &HostRuntime, name: &str) -> io::Result<fs::File> {
        fs::File::create(path(name))
    }
}

/// Returns the bytes of a file.
pub fn read(_: &HostRuntime, name: &str) -> io::Result<Vec<u8>> {
    fs::read(path(name)).map(Vec)
}

fn path(name: &str) -> std::path::PathBuf {
    std::env::temp_dir().join(format!("iobufs-{}-{name}", std::process::id()))
}
