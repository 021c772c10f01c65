//! A second reading of what the build scripts write, by a tokenizer and rules of its own: each file is its source, token
//! by token and line by line, but for what only Rattle has.
use std::fs;
use std::path::{Path, PathBuf};
use std::process::Command;
use strip::{Also, BY_HAND};

#[allow(dead_code)]
#[path = "../../../c/build.rs"]
mod c;
#[allow(dead_code)]
#[path = "../../../iobuf/build.rs"]
mod iobuf;
#[allow(dead_code)]
#[path = "../../../iobufs/build.rs"]
mod iobufs;
#[allow(dead_code)]
#[path = "../../tests/build.rs"]
mod tests;

/// A token, and its line.
type Token<'a> = (usize, &'a str);

/// The length of the token that begins a text: a comment, a literal, a word or a mark.
fn length(text: &str) -> usize {
    let until = |end: &str, from: usize| text[from..].find(end).map_or(text.len(), |at| from + at + end.len());
    let quoted = |quote: char| {
        let mut is_escaped = false;
        let end = text.char_indices().skip(1).find(|(_, c)| {
            let ends = *c == quote && !is_escaped;
            is_escaped = *c == '\\' && !is_escaped;
            ends
        });
        end.map_or(text.len(), |(at, _)| at + 1)
    };
    let is_word = |c: char| c.is_alphanumeric() || c == '_';
    match text.as_bytes() {
        [b'/', b'/', ..] => until("\n", 0),
        [b'/', b'*', ..] => until("*/", 2),
        [b'"', ..] => quoted('"'),
        [b'b', b'"', ..] => 1 + length(&text[1..]),
        [b'\'', b'\\', ..] => quoted('\''),
        [b'\'', _, b'\'', ..] => 3,
        [b'b', b'\'', ..] => 1 + length(&text[1..]),
        _ if text.starts_with(is_word) => text.find(|c| !is_word(c)).unwrap_or(text.len()),
        _ => text.chars().next().map_or(0, char::len_utf8),
    }
}

fn tokens(mut text: &str) -> Vec<Token<'_>> {
    let (mut found, mut line) = (Vec::new(), 1);
    while !text.is_empty() {
        let (token, rest) = text.split_at(length(text));
        text = rest;
        if !token.starts_with("//") && !token.starts_with("/*") && !token.trim().is_empty() {
            found.push((line, token));
        }
        line += token.matches('\n').count();
    }
    found
}

/// The tokens that are left of a text.
struct Left<'a> {
    all: Vec<Token<'a>>,
    at: usize,
    kept: Vec<Token<'a>>,
}

impl<'a> Left<'a> {
    fn of(text: &'a str, rule: impl Fn(&mut Self) -> bool) -> Vec<Token<'a>> {
        let mut left = Left { all: tokens(text), at: 0, kept: Vec::new() };
        while left.at < left.all.len() {
            if !rule(&mut left) {
                left.keep(1);
            }
        }
        left.kept
    }

    fn text(&self, at: usize) -> &'a str {
        self.all.get(at).map_or("", |it| it.1)
    }

    /// Whether these are the next tokens.
    fn has(&self, words: &str) -> bool {
        words.split(' ').enumerate().all(|(n, word)| self.text(self.at + n) == word)
    }

    /// The token after the bracket that opens at `at`.
    fn after(&self, at: usize) -> usize {
        let mut depth = 0;
        let closes = |token: &Token| {
            depth += i32::from(matches!(token.1, "{" | "(" | "[")) - i32::from(matches!(token.1, "}" | ")" | "]"));
            depth == 0
        };
        self.all[at..].iter().position(closes).map_or(self.all.len(), |n| at + n + 1)
    }

    /// The next of these tokens from `at` on, outside of brackets.
    fn find(&self, mut at: usize, ends: &[&str]) -> usize {
        while at < self.all.len() && !ends.contains(&self.text(at)) {
            at = if matches!(self.text(at), "{" | "(" | "[") { self.after(at) } else { at + 1 };
        }
        at
    }

    fn keep(&mut self, n: usize) -> bool {
        self.kept.extend(&self.all[self.at..self.at + n]);
        self.drop_to(self.at + n)
    }

    fn drop_to(&mut self, at: usize) -> bool {
        self.at = at;
        true
    }

    /// Puts these words in the place of `n` tokens.
    fn put(&mut self, n: usize, words: &'static str) -> bool {
        let line = self.all[self.at].0;
        self.kept.extend(words.split(' ').filter(|it| !it.is_empty()).map(|it| (line, it)));
        self.drop_to(self.at + n)
    }

    /// The names of `#[derive(..)]` that Rust has.
    fn derive(&mut self) -> bool {
        let end = self.after(self.at + 1);
        let names = self.all[self.at + 4..end - 2].split(|it| it.1 == ",");
        let is_ours = |name: &&[Token]| !matches!(name.last(), Some((_, "Drop" | "Error")) | None);
        let names: Vec<_> = names.filter(is_ours).map(<[Token]>::to_vec).collect();
        if names.is_empty() {
            return self.drop_to(end);
        }
        self.keep(4);
        self.kept.extend(names.join(&(self.all[self.at].0, ",")));
        self.at = end - 2;
        self.keep(2)
    }

    /// `assert!(rt; ..)` and the other macros that take the runtime or the allocator first.
    fn given(&mut self) -> bool {
        let (open, end) = (self.at + 2, self.after(self.at + 2));
        let semicolon = self.find(open + 1, &[";"]);
        if semicolon >= end {
            return false;
        }
        let times = self.find(semicolon + 1, &[";"]);
        let (head, middle, tail) = match self.text(self.at) {
            "vec" if times < end => ("Vec : : from_elem (", ",", ")"),
            "vec" => ("Vec : : from_array (", ", [", "] )"),
            "format" => ("text : : format (", ", format_args ! (", ") )"),
            "println" => ("(", ") . println ( format_args ! (", ") )"),
            _ => {
                self.all.drain(open + 1..=semicolon);
                return self.keep(2);
            }
        };
        if times < end {
            self.all[times].1 = ",";
        }
        let words = |at: usize, words: &'static str| words.split(' ').map(move |it| (at, it)).collect::<Vec<_>>();
        let (first, last) = (self.all[self.at].0, self.all[end - 1].0);
        let given = open + 1 + usize::from(self.text(open + 1) == "in");
        let (given, rest) = (self.all[given..semicolon].to_vec(), self.all[semicolon + 1..end - 1].to_vec());
        let new = [words(first, head), given, words(first, middle), rest, words(last, tail)].concat();
        self.all.splice(self.at..end, new);
        self.keep(1)
    }

    /// What a source has and Rust hasn't. Returns whether something is.
    fn of_source(&mut self, is_tests: bool) -> bool {
        match self.text(self.at) {
            "ghost" => self.drop_to(self.find(self.at, &[";", ","]) + 1),
            "pub" if self.text(self.at + 1) == "ghost" => self.drop_to(self.find(self.at, &[";", ","]) + 1),
            "requires" | "ensures" => self.drop_to(self.after(self.find_brace())),
            "#" if self.has("# [ from ]") || self.has("# [ tactic") || self.has("# [ error") => {
                self.drop_to(self.after(self.at + 1))
            }
            "#" if self.has("# ! [ tactic") => self.drop_to(self.after(self.at + 2)),
            "#" if self.has("# [ inline ]") || self.has("# [ macro_export ]") => self.put(4, ""),
            "$" if self.has("$ crate : :") => self.put(1, ""),
            "#" if self.has("# [ derive") => self.derive(),
            "use" if self.has("use thiserror : : Error ;") => self.put(6, ""),
            "impl" => self.implementation(),
            "fn" => self.formatter(),
            "final" => self.put(1, ""),
            "prove" => self.put(1, "debug_assert"),
            "FilesystemLoop" | "InvalidFilename" | "InProgress" | "Uncategorized" if is_tests => self.put(1, "Other"),
            "assert" | "assert_eq" | "assert_ne" | "panic" | "vec" | "format" | "println" => {
                self.text(self.at + 1) == "!" && self.given()
            }
            "expect" => self.expect(),
            _ => false,
        }
    }

    fn find_brace(&self) -> usize {
        self.at + self.all[self.at..].iter().position(|it| it.1 == "{").expect("a clause has braces")
    }

    /// `impl Model for ..`, and an `impl Drop for ..` that only drops the fields.
    fn implementation(&mut self) -> bool {
        let open = self.find(self.at, &["{", ";"]);
        let head: Vec<_> = self.all[self.at..open].iter().map(|it| it.1).collect();
        let is_of = |name| head.windows(2).any(|it| it == [name, "for"]);
        let end = self.after(open);
        let body: Vec<_> = self.all[open..end].iter().map(|it| it.1).collect();
        let body = body.join(" ");
        let drops = body.contains("fn drop ( self ) { let ") && body.ends_with(" } = self ; } }");
        (is_of("Model") || is_of("Drop") && drops) && self.drop_to(end)
    }

    /// The kit's formatter is generic over where it writes.
    fn formatter(&mut self) -> bool {
        let is_generic = self.has(&format!("fn {} < W : fmt : : Write >", self.text(self.at + 1)));
        let to = self.all[self.at..].windows(3).position(|it| [it[0].1, it[1].1, it[2].1] == ["Formatter", "<", "W"]);
        let Some(to) = to.filter(|_| is_generic).map(|to| self.at + to) else { return false };
        self.keep(2);
        self.put(8, "");
        self.keep(to + 2 - self.at);
        self.put(1, "' _")
    }

    /// `.expect(rt, "..")`.
    fn expect(&mut self) -> bool {
        let (end, comma) = (self.after(self.at + 1), self.find(self.at + 2, &[","]));
        let has_two = self.at > 0 && self.text(self.at - 1) == "." && comma + 2 < end;
        has_two && self.keep(2) && self.drop_to(comma + 1)
    }

    /// What the Rust of a crate has and its source hasn't.
    fn of_rust(&mut self, name: &str) -> bool {
        let is_last = |it: &Token| it.1 == "}" && it.0 == self.all[self.at].0;
        match self.text(self.at) {
            "crate" if self.has(&format!("crate : : proved : : {name} : :")) => self.put(9, "crate : :"),
            "crate" if self.has("crate : : proved : :") || self.has("crate : : kit : :") => self.put(6, ""),
            "use" if self.has("use crate : : kit : : prelude : : * ;") => self.put(12, ""),
            "#" if self.has("# [ inline ]") || self.has("# [ track_caller ]") => self.put(4, ""),
            "pub" if self.has("pub fn main") => self.put(1, ""),
            "pub" if self.has("pub ( crate ) use") && self.kept.last().is_some_and(is_last) => self.put(7, ""),
            // An impl that is made of attributes: it begins on the line on which its type ends.
            "impl" if self.kept.last().is_some_and(is_last) => self.drop_to(self.after(self.find(self.at, &["{"]))),
            "(" if self.has("( ) { crate : : kit : : test : : run ( case ) ; fn case (") => {
                let end = self.after(self.at + 2) - 1;
                self.all.remove(end);
                self.put(20, "(")
            }
            _ => false,
        }
    }
}

/// Where a source and its Rust differ first.
fn difference(source: &str, rust: &str, name: &str, is_tests: bool) -> Option<String> {
    let wanted = Left::of(source, |it| it.of_source(is_tests));
    let found = Left::of(rust, |it| it.of_rust(name));
    let n = wanted.iter().zip(&found).take_while(|(a, b)| a == b).count();
    let lines = source.lines().count() != rust.lines().count();
    let differs = wanted.len().max(found.len()) > n || lines;
    differs.then(|| format!("{:?} and not {:?}", found.get(n), wanted.get(n)))
}

fn files_below(folder: &Path) -> Vec<PathBuf> {
    let entries = fs::read_dir(folder).unwrap().map(|it| it.unwrap().path());
    let files = entries.flat_map(|it| if it.is_dir() { files_below(&it) } else { vec![it] });
    files.collect()
}

/// What is wrong with what a build script wrote of a source.
fn fault_of_file(of: &Path, written: &Path, name: &str, also: Also) -> Option<String> {
    let Ok(rust) = fs::read_to_string(written) else { return Some("it isn't written".to_owned()) };
    let is = |it: &str| of.ends_with(it.replacen('/', "/src/", 1));
    let by_hand = BY_HAND.iter().find(|it| is(it.0)).map(|it| format!("pub(super) use crate::kit::{}::*;\n", it.1));
    let by_hand =
        by_hand.or_else(|| is("iobufs_c/built.rt").then(|| fs::read_to_string("../../c/src/built.rs").unwrap()));
    let by_hand = by_hand.or_else(|| also.left_out.iter().any(|it| is(it)).then(String::new));
    if let Some(wanted) = by_hand {
        return (rust != wanted).then_some(rust);
    }
    let spares = also.spares.iter().filter(|it| is(it.0));
    let added: String = spares.map(|it| format!("\n#[path = {:?}]\nmod spare;\n", it.1)).collect();
    let mut rust = rust;
    for (_, head) in also.consts.iter().filter(|it| is(it.0)) {
        let [before, after] = rust.split(&head.replace("pub fn", "pub const fn")).collect::<Vec<_>>()[..] else {
            return Some(format!("{head} isn't const"));
        };
        rust = format!("{before}{head}{after}");
    }
    match rust.strip_suffix(&added) {
        Some(rust) => difference(&fs::read_to_string(of).unwrap(), rust, name, also.is_tests),
        None => Some(format!("no {added}")),
    }
}

/// A new folder that goes with its value. It is outside of the repository, where `rt` reads each `crates.txt` that it finds.
struct Room(PathBuf);

impl Room {
    fn new(name: &str) -> Self {
        let room = std::env::temp_dir().join(format!("strip-{}-{name}", std::process::id()));
        fs::create_dir_all(&room).unwrap();
        Room(room)
    }
}

impl Drop for Room {
    fn drop(&mut self) {
        let _ = fs::remove_dir_all(&self.0);
    }
}

/// Has the build script of a folder write, and looks at each file of each crate that it declares. Returns how many
/// there are.
fn look_at(folder: &str, write: fn(&Path, &Path) -> Result<(), String>, also: Also) -> usize {
    let room = Room::new(&folder.replace("../", ""));
    let to = &room.0;
    write(Path::new(folder), to).unwrap();
    let (modules, mut count) = (fs::read_to_string(to.join("proved.rs")).unwrap(), 0);
    for name in modules.lines().filter_map(|it| it.strip_prefix("pub mod ")?.strip_suffix(';')) {
        let sources = Path::new("../../../crates").join(name).join("src");
        for of in files_below(&sources) {
            let written = to.join(name).join(of.strip_prefix(&sources).unwrap()).with_extension("rs");
            let fault = fault_of_file(&of, &written, name, also);
            assert!(fault.is_none(), "{folder}: {}: {}", of.display(), fault.unwrap());
            count += 1;
        }
        let root = if sources.join("main.rt").is_file() { "main.rs" } else { "lib.rs" };
        assert!(modules.contains(&format!("#[path = {:?}]\npub mod {name};\n", to.join(name).join(root))), "{modules}");
    }
    count
}

#[test]
fn what_is_written_is_the_source() {
    let files = iobufs::SPARES.map(|(_, file)| Path::new("../../iobufs/src/spare").join(file));
    let spares: Vec<_> = iobufs::SPARES.iter().zip(&files).map(|((of, _), file)| (*of, file.as_path())).collect();
    let counts = [
        look_at("../../iobuf", iobuf::write, Also::default()),
        look_at("../../c", c::write, Also::default()),
        look_at("../../iobufs", iobufs::write, Also { spares: &spares, consts: &iobufs::CONSTS, ..Default::default() }),
        look_at("../tests", tests::write, Also { left_out: &tests::LEFT_OUT, is_tests: true, ..Default::default() }),
    ];
    assert!(counts.iter().all(|it| *it > 50), "{counts:?}");
}

#[test]
fn a_difference_is_found() {
    let source = "
#[repr(C)]
#[derive(Clone, Drop)]
pub struct S {
    n: usize,
}

const N: usize = 9;

pub fn f(n: &mut usize) -> usize
    ensures a { n > 0 }
{
    // One.
    *n += 1;
    *(n + 2)
}

#[test]
fn g(rt: HostRuntime) {
    assert!(rt; f(n) == 3);
}
";
    let rust = strip::rust_of(source, "one", &["one"], true).unwrap();
    assert_eq!(difference(source, &rust, "one", true), None);
    let lost =
        ["#[repr(C)]", "*n += 1;", "assert!( f(n) == 3);", "#[derive(Clone)]", "const N: usize = 9;", "#[test]\n"];
    let changed =
        [("+= 1", "+= 2"), ("&mut usize", "&mut u64"), ("fn f", "fn g"), ("*(n + 2)", "*n + 2"), ("= 9", "= 8")];
    let moved = [("    // One.\n", "")];
    for (old, new) in lost.map(|it| (it, "")).into_iter().chain(changed).chain(moved) {
        assert!(rust.contains(old), "{old}: {rust}");
        assert!(difference(source, &rust.replace(old, new), "one", true).is_some(), "{old}");
    }
}

/// A package whose build script writes what its program prints.
const PACKAGE: [(&str, &str); 5] = [
    (
        "Cargo.toml",
        "[package]\nname = \"again\"\nedition = \"2024\"\n[workspace]\n[build-dependencies]\nstrip = { path = STRIP }\n",
    ),
    ("crates.txt", "one:\n"),
    ("crates/one/src/lib.rt", "pub const N: u8 = 1;\n"),
    (
        "build.rs",
        "fn main() {\n    let ([here, to], also) = (strip::folders(), Default::default());\n    let crates = \
         strip::crates_of(\"one\", &here).unwrap();\n    strip::write_crates(&crates, also, &here.join(\"crates\"), \
         &to).unwrap();\n}\n",
    ),
    (
        "src/main.rs",
        "mod kit {\n    pub mod prelude {}\n}\nmod proved {\n    include!(concat!(env!(\"OUT_DIR\"), \
         \"/proved.rs\"));\n}\nfn main() {\n    print!(\"{}\", proved::one::N);\n}\n",
    ),
];

/// A build after a change of a source, and after a further one, has the change. One after the table of crates has lost the
/// crate fails.
#[test]
fn a_changed_source_is_built_again() {
    let room = Room::new("again");
    for (file, text) in PACKAGE {
        let file = room.0.join(file);
        fs::create_dir_all(file.parent().unwrap()).unwrap();
        fs::write(file, text.replace("STRIP", &format!("{:?}", env!("CARGO_MANIFEST_DIR")))).unwrap();
    }
    let run = || {
        let words = ["run", "--quiet", "--offline", "--target-dir", "target"];
        Command::new(env!("CARGO")).args(words).current_dir(&room.0).output().unwrap()
    };
    for n in 1..=3 {
        let source = format!("pub const N: u8 = M;\nconst M: u8 = {n};\n");
        fs::write(room.0.join("crates/one/src/lib.rt"), source).unwrap();
        let ran = run();
        assert_eq!(String::from_utf8_lossy(&ran.stdout), n.to_string(), "{}", String::from_utf8_lossy(&ran.stderr));
    }
    fs::write(room.0.join("crates.txt"), "two:\n").unwrap();
    assert!(String::from_utf8_lossy(&run().stderr).contains("no crate one"));
}

/// Sources that are packed may not be beside those of the repository: then nobody sees which are built.
#[test]
fn two_folders_of_sources_are_refused() {
    let room = Room::new("both");
    for folder in ["rust/iobufs/proved", "crates/iobufs_core/src"] {
        fs::create_dir_all(room.0.join(folder)).unwrap();
    }
    let error = iobufs::write(&room.0.join("rust/iobufs"), &room.0).unwrap_err();
    assert!(error.contains("proved: the sources are in"), "{error}");
}
