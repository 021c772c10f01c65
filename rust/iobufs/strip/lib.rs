//! Rust from proved Rattle sources: what a `.rt` file says without its contracts, each line where it is.
//!
//! | what isn't Rust | here |
//! |---|---|
//! | `ghost use ..;`, `ghost name = { .. };`, `ghost name: { .. };`, a ghost field | nothing |
//! | `ensures name { .. }`, `#[tactic(..)]`, `#![tactic(..)]`, `impl Model for T { .. }` | nothing |
//! | `requires { .. }` | a comment |
//! | `impl Drop for T` that drops the fields, `Drop` in a derive list | nothing: Rust does so by itself |
//! | `thiserror::Error` in a derive list, `#[error(..)]` | nothing: no source shows these errors; `impl Display` for tests |
//! | `#[test] fn f(rt: HostRuntime) -> ..` | `#[test] fn f()`, which calls it with the layer's runtime |
//! | `assert!(rt; ..)`, `println!(rt; ..)`, `format!(in alloc; ..)`, `vec![in alloc; ..]`, `.expect(rt, ..)` | `assert!(..)`, calls of the layer, `.expect(..)` |
//! | `Variant(#[from] Type)` | `impl From<Type> for ..` |
//! | `final fn`, `prove!(..)` | `fn`, `debug_assert!(..)` |
//! | `fn f<W: fmt::Write>(.., f: &mut fmt::Formatter<W>)` | `fn f(.., f: &mut fmt::Formatter<'_>)` |
//! | `crate::`, `$crate::`, `iobufs_core::` and the other proved crates | a module of `crate::proved` |
//! | `#[macro_export] macro_rules! name` | `macro_rules! name` and `pub(crate) use name;` |
//! | `std::`, `bytes::`, `hex::`, `memchr::` | the modules of `crate::kit` that have their signatures |
//! | `fn main` of a program | `pub fn main`, which the binary calls |
//! | `fn` of `Also::consts` | `const fn` |
//! | a file of `BY_HAND` | the names of a module of `crate::kit`, which is written by hand |
//! | a function that takes `impl Abort` | `#[track_caller]`: a failed test names its own line |
//! | another function with a body | `#[inline]`, since across crates rustc inlines few others |
//!
//! A comment directly above what goes as an item goes with it. Whatever else isn't Rust is refused, here or by rustc.
#![forbid(unsafe_code)]

mod item;
mod lexer;

use lexer::Token;
use std::path::{Path, PathBuf};
use std::{env, fs, io};

/// Proved files in whose place a module of `crate::kit` is, which has the same calls.
pub const BY_HAND: [(&str, &str); 2] = [("iobufs_core/buf/block.rt", "block"), ("iobufs_core/buf/held.rt", "held")];

const IMPORT: &str = "use crate::kit::prelude::*;";

/// A file of a proved crate, as in `iobufs/bufs_mut.rt`, and a Rust file by hand that becomes its private module
/// `spare`.
pub type Spare<'a> = (&'a str, &'a Path);

/// What else is written, and what isn't.
#[derive(Clone, Copy, Default)]
pub struct Also<'a> {
    pub spares: &'a [Spare<'a>],
    /// Functions that become `const`: the file and the head of each, as in `pub fn len(&self)`.
    pub consts: &'a [(&'a str, &'a str)],
    /// Files that are left empty, as in `iobufs_examples/web.rt`.
    pub left_out: &'a [&'a str],
    /// Whether these are tests: an error shows what `#[error(..)]` says, and kinds of error that Rust 1.85 hasn't are
    /// `Other`.
    pub is_tests: bool,
}

/// Returns the folders of a build script: its package's, and the one that it writes to.
pub fn folders() -> [PathBuf; 2] {
    ["CARGO_MANIFEST_DIR", "OUT_DIR"].map(|name| env::var_os(name).expect("cargo says where").into())
}

/// Returns the crates that a crate of the repository uses, by its row of `crates.txt`, and itself.
pub fn crates_of(name: &str, top: &Path) -> Result<Vec<String>, String> {
    let table = top.join("crates.txt");
    println!("cargo:rerun-if-changed={}", table.display());
    let rows = named(&table, fs::read_to_string(&table))?;
    let row = rows.lines().filter_map(|row| row.split_once(':')).find(|(of, _)| of.split(' ').next() == Some(name));
    let (_, used) = row.ok_or(format!("{}: no crate {name}", table.display()))?;
    let own = used.split(' ').filter(|it| top.join("crates").join(it).join("src").is_dir());
    Ok(own.chain([name]).map(str::to_owned).collect())
}

/// Writes `to/CRATE/*.rs` of `from/CRATE/src/*.rt` for each of these crates, and `to/proved.rs`, which declares each as
/// a module. A crate may name only others of the list. Prints the lines by which cargo runs a build script again if a
/// source changes. Returns an error that begins with the file and the line if something in it is refused.
pub fn write_crates<S: AsRef<str>>(crates: &[S], also: Also<'_>, from: &Path, to: &Path) -> Result<(), String> {
    let crates: Vec<&str> = crates.iter().map(AsRef::as_ref).collect();
    let mut modules = String::new();
    for name in &crates {
        let sources = from.join(name).join("src");
        println!("cargo:rerun-if-changed={}", sources.display());
        let mut root = "lib.rs";
        for file in named(&sources, files_below(&sources))? {
            let below = file.strip_prefix(&sources).expect("found there");
            let mut source = named(&file, fs::read_to_string(&file))?;
            if also.left_out.iter().any(|of| Path::new(name).join(below) == Path::new(of)) {
                source.clear();
            }
            let mut rust = rust_of(&source, name, &crates, also.is_tests)
                .map_err(|(line, why)| format!("{}:{line}: {why}", file.display()))?;
            if let Some((_, module)) = BY_HAND.iter().find(|(of, _)| Path::new(name).join(below) == Path::new(of)) {
                rust = format!("pub(super) use crate::kit::{module}::*;\n");
            }
            for (_, head) in also.consts.iter().filter(|(of, _)| Path::new(name).join(below) == Path::new(of)) {
                rust = made_const(&rust, head).ok_or(format!("{}: not one `{head}`", file.display()))?;
            }
            for (_, spare) in also.spares.iter().filter(|(of, _)| Path::new(name).join(below) == Path::new(of)) {
                rust += &format!("\n#[path = {spare:?}]\nmod spare;\n");
            }
            let made = to.join(name).join(below).with_extension("rs");
            let folder = made.parent().expect("a file has a folder");
            named(&made, fs::create_dir_all(folder).and_then(|()| fs::write(&made, rust)))?;
            root = if below == Path::new("main.rt") { "main.rs" } else { root };
        }
        modules += &format!("#[path = {:?}]\npub mod {name};\n", to.join(name).join(root));
    }
    named(to, fs::write(to.join("proved.rs"), modules))
}

/// Makes the function with this head `const`, if there is just one.
fn made_const(rust: &str, head: &str) -> Option<String> {
    let is_one = rust.matches(head).count() == 1;
    is_one.then(|| rust.replace(head, &head.replacen("fn ", "const fn ", 1)))
}

fn named<T>(file: &Path, done: io::Result<T>) -> Result<T, String> {
    done.map_err(|error| format!("{}: {error}", file.display()))
}

/// Returns the sources of a folder in order.
pub fn files_below(folder: &Path) -> io::Result<Vec<PathBuf>> {
    let mut entries = fs::read_dir(folder)?.map(|it| Ok(it?.path())).collect::<io::Result<Vec<_>>>()?;
    entries.sort();
    let mut files = Vec::new();
    for entry in entries {
        if entry.is_dir() {
            files.extend(files_below(&entry)?);
        } else if entry.extension().is_some_and(|it| it == "rt") {
            files.push(entry);
        }
    }
    Ok(files)
}

/// Returns the Rust of a source of the crate `name`, or the line that is refused and why.
pub fn rust_of(source: &str, name: &str, crates: &[&str], is_tests: bool) -> Result<String, (usize, String)> {
    let at_line = |(at, why): Fault| (1 + source[..at].matches('\n').count(), why);
    let all = lexer::tokens(source).map_err(|at| at_line((at, "a literal or comment without an end".to_owned())))?;
    let (comments, code) = all.into_iter().partition(Token::is_comment);
    let mut file = File { source, name, crates, code, comments, edits: Vec::new(), is_marked: false, is_tests };
    file.strip().map_err(at_line)?;
    Ok(file.rust())
}

// A byte of a source, and why it is refused.
type Fault = (usize, String);

// A source, and what is to be changed in it: bytes, and what takes their place.
struct File<'a> {
    source: &'a str,
    name: &'a str,
    crates: &'a [&'a str],
    code: Vec<Token<'a>>,
    comments: Vec<Token<'a>>,
    edits: Vec<(usize, usize, String)>,
    // Whether an attribute says how the next function is inlined.
    is_marked: bool,
    is_tests: bool,
}

impl<'a> File<'a> {
    // The text of a token, or nothing after the last.
    fn text(&self, i: usize) -> &'a str {
        self.code.get(i).map_or("", |it| it.text)
    }

    // Whether these are the next tokens.
    fn has(&self, i: usize, words: &str) -> bool {
        words.split(' ').enumerate().all(|(n, word)| self.text(i + n) == word)
    }

    fn fault<T>(&self, i: usize, why: &str) -> Result<T, Fault> {
        let token = self.code.get(i).or(self.code.last()).expect("a token was read");
        Err((token.at, format!("{why}: `{}`", token.text)))
    }

    // The token after the bracket that opens here.
    fn after(&self, open: usize) -> Result<usize, Fault> {
        let is_angle = self.text(open) == "<";
        let mut depth = 0;
        for i in open..self.code.len() {
            match self.text(i) {
                "{" | "(" | "[" => depth += 1,
                "}" | ")" | "]" => depth -= 1,
                "<" if is_angle => depth += 1,
                ">" if is_angle && self.text(i - 1) != "-" => depth -= 1,
                _ => {}
            }
            if depth == 0 {
                return Ok(i + 1);
            }
        }
        self.fault(open, "a bracket that isn't closed")
    }

    // Puts `rust` in the place of the tokens `from..to`, and returns `to`.
    fn replace(&mut self, from: usize, to: usize, rust: &str) -> usize {
        self.edits.push((self.code[from].at, self.code[to - 1].end(), rust.to_owned()));
        to
    }

    // Drops an item with the comments directly above it, and returns `to`.
    fn drop_item(&mut self, from: usize, to: usize) -> usize {
        let mut first = self.code[from].at;
        let above = self.comments.partition_point(|it| it.at < first);
        for comment in self.comments[..above].iter().rev().filter(|it| !it.text.starts_with("//!")) {
            let begins_line = self.source[..comment.at].trim_end_matches(' ').ends_with('\n');
            if !begins_line || self.source[comment.end()..first].trim_end_matches(' ') != "\n" {
                break;
            }
            first = comment.at;
        }
        self.edits.push((first, self.code[to - 1].end(), String::new()));
        to
    }

    fn strip(&mut self) -> Result<(), Fault> {
        let Some(at) = self.code.first().map(|it| it.at) else { return Ok(()) };
        let mut i = self.item(0)?;
        // The import takes the place of the file's first item if that goes.
        match self.edits.first_mut() {
            Some((from, _, rust)) if *from == at && rust.is_empty() => *rust = IMPORT.to_owned(),
            _ => self.edits.insert(0, (at, at, format!("{IMPORT} "))),
        }
        while i < self.code.len() {
            i = self.item(i)?;
        }
        Ok(())
    }

    // The source with all changes. Each keeps the ends of lines, and leaves no space before one.
    fn rust(mut self) -> String {
        self.edits.sort_by_key(|it| (it.0, it.1));
        let (mut rust, mut at) = (String::new(), 0);
        for (from, to, new) in &self.edits {
            rust += &self.source[at..*from];
            rust += new;
            if self.source[*to..].starts_with('\n') {
                rust.truncate(rust.trim_end_matches(' ').len());
            }
            rust += &"\n".repeat(self.source[*from..*to].matches('\n').count() - new.matches('\n').count());
            at = *to;
        }
        rust + &self.source[at..]
    }
}
