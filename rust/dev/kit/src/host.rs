//! What the program is given by its host.
#![forbid(unsafe_code)]
use super::base::Global;
use super::text::String;
use std::fs::File;
use std::io::{self, ErrorKind};
use std::os::fd::{AsFd, BorrowedFd};

/// The allocator, the arguments and the standard streams.
pub struct HostRuntime;

impl HostRuntime {
    /// Returns the allocator.
    pub fn alloc(&self) -> Global {
        Global
    }

    /// Returns the standard error, which std doesn't buffer.
    pub fn stderr(&self) -> io::Stderr {
        io::stderr()
    }

    /// The standard output without std's buffer, which is flushed at the end of each line.
    pub fn stdout(&self) -> Stream {
        Stream(cloned(io::stdout().as_fd()))
    }

    /// The standard input without std's buffer.
    pub fn reader(&self) -> Stream {
        Stream(cloned(io::stdin().as_fd()))
    }
}

// The same open file, by another descriptor.
fn cloned(descriptor: BorrowedFd<'_>) -> Option<File> {
    descriptor.try_clone_to_owned().ok().map(File::from)
}

/// A standard stream. If there is no descriptor for it, each call fails.
pub struct Stream(Option<File>);

impl Stream {
    fn file(&mut self) -> io::Result<&mut File> {
        self.0.as_mut().ok_or(ErrorKind::Other.into())
    }
}

impl io::Read for Stream {
    fn read(&mut self, to: &mut [u8]) -> io::Result<usize> {
        self.file()?.read(to)
    }
}

impl io::Write for Stream {
    fn write(&mut self, bytes: &[u8]) -> io::Result<usize> {
        self.file()?.write(bytes)
    }

    fn flush(&mut self) -> io::Result<()> {
        Ok(())
    }
}

pub mod env {
    use super::{ErrorKind, HostRuntime, String, io};

    /// What has the environment.
    pub trait Env {
        /// Writes what a name has in the environment, and returns how many bytes these are, if they fit.
        fn var(&self, name: &str, to: &mut [u8]) -> Option<usize>;
    }

    impl Env for HostRuntime {
        fn var(&self, name: &str, to: &mut [u8]) -> Option<usize> {
            let found = std::env::var_os(name)?.into_encoded_bytes();
            to.get_mut(..found.len())?.copy_from_slice(&found);
            Some(found.len())
        }
    }

    /// Returns the arguments in order. One that isn't UTF-8 is an error, whose kind is `InvalidData`.
    pub fn args(_: &HostRuntime) -> io::Result<impl Iterator<Item = String>> {
        let words = std::env::args_os().map(|word| word.into_string().map(String));
        let words: Vec<String> =
            words.collect::<Result<_, _>>().map_err(|_| io::Error::from(ErrorKind::InvalidData))?;
        Ok(words.into_iter())
    }
}
