//! What is kept, what goes, and what is refused.
use std::fs;
use std::path::Path;
use strip::{BY_HAND, rust_of};

const CRATES: [&str; 2] = ["one", "two"];
const HEAD: &str = "use crate::kit::prelude::*; ";

/// A source, and what is left of it, but for the import before its first item. `\n` where lines stay empty.
const LEFT: [(&str, &str); 44] = [
    ("fn f() {\n    g();\n    h();\n}\n", "#[inline] fn f() {\n    g();\n    h();\n}\n"),
    (
        "fn f(n: u8) -> u8\n    requires { n < 9 }\n{\n    n\n}\n",
        "#[inline] fn f(n: u8) -> u8\n    // requires { n < 9 }\n{\n    n\n}\n",
    ),
    (
        "fn f()\n    requires some { a ×\n        b }\n{}\n",
        "#[inline] fn f()\n    // requires some { a ×\n        // b }\n{}\n",
    ),
    (
        "trait T {\n    fn f()\n        requires { a ×\n            b };\n}\n",
        "trait T {\n    fn f()\n        /* requires { a ×\n            b } */;\n}\n",
    ),
    ("mod a; // Stays.\nghost b = { c };\n", "mod a; // Stays.\n\n"),
    ("const A: &[u8] = br\"\\\";\nghost b = { c };\n", "const A: &[u8] = br\"\\\";\n\n"),
    ("fn f()\n    ensures { a }\n    ensures* b { c {0} }\n{}\n", "#[inline] fn f()\n\n\n{}\n"),
    ("fn f()\n    ensures { codes \"} {\" }\n{}\n", "#[inline] fn f()\n\n{}\n"),
    (
        "fn f<F: Fn(u8) -> u8>(g: F)\nwhere\n    F: Copy,\n    ensures { a }\n{}\n",
        "#[inline] fn f<F: Fn(u8) -> u8>(g: F)\nwhere\n    F: Copy,\n\n{}\n",
    ),
    (
        "trait T {\n    fn f(&self) -> u8\n        ensures { a };\n}\n",
        "trait T {\n    fn f(&self) -> u8\n        ;\n}\n",
    ),
    ("trait T {\n    final fn f(&self) {}\n}\n", "trait T {\n    #[inline] fn f(&self) {}\n}\n"),
    ("#[inline(never)]\npub fn f() {}\n", "#[inline(never)]\npub fn f() {}\n"),
    ("#[inline(never)]\nfn f() {}\nfn g() {}\n", "#[inline(never)]\nfn f() {}\n#[inline] fn g() {}\n"),
    (
        "fn f() {\n    g(\"\\\\\", \"ghost use a;\");\n}\n",
        "#[inline] fn f() {\n    g(\"\\\\\", \"ghost use a;\");\n}\n",
    ),
    ("#[cold]\npub(crate) fn f() {}\n", "#[cold]\n#[inline] pub(crate) fn f() {}\n"),
    ("#[unsafe(no_mangle)]\npub extern \"C\" fn f() {}\n", "#[unsafe(no_mangle)]\npub extern \"C\" fn f() {}\n"),
    ("const F: fn(u8) -> u8 = g;\n", "const F: fn(u8) -> u8 = g;\n"),
    (
        "fn f() {\n    g(\"ghost use a; fn g() ensures { b }\");\n}\n",
        "#[inline] fn f() {\n    g(\"ghost use a; fn g() ensures { b }\");\n}\n",
    ),
    (
        "fn f() {\n    g(r#\"a \" ghost { \\\"#, br\"}\", b\"\\\"}\");\n}\n",
        "#[inline] fn f() {\n    g(r#\"a \" ghost { \\\"#, br\"}\", b\"\\\"}\");\n}\n",
    ),
    (
        "fn f<'a>(c: &'a u8) {\n    g('{', '\\'', b'\"', 'ü');\n}\n",
        "#[inline] fn f<'a>(c: &'a u8) {\n    g('{', '\\'', b'\"', 'ü');\n}\n",
    ),
    (
        "mod a; /* ghost /* fn f() */ { */\nconst A: u8 = 1; // ensures { a }\n",
        "mod a; /* ghost /* fn f() */ { */\nconst A: u8 = 1; // ensures { a }\n",
    ),
    ("mod a;\n\n// Goes.\nghost a = { b };\nmod c;\n", "mod a;\n\n\n\nmod c;\n"),
    (
        "mod a;\n// Stays.\n\n// Goes.\n/// Too.\npub ghost a: { b } = { c };\nmod c;\n",
        "mod a;\n// Stays.\n\n\n\n\nmod c;\n",
    ),
    (
        "struct S {\n    // Goes.\n    ghost a: { b },\n    c: u8, // Stays.\n}\n",
        "struct S {\n\n\n    c: u8, // Stays.\n}\n",
    ),
    ("mod a;\nimpl<'a> Model for S<'a> {\n    ghost use b.{c};\n    ghost d = { e };\n}\n", "mod a;\n\n\n\n\n"),
    (
        "mod a;\nimpl Drop for S {\n    fn drop(self) {\n        let S { a: _, b: _ } = self;\n    }\n}\n",
        "mod a;\n\n\n\n\n\n",
    ),
    (
        "#[derive(Clone, Drop, Debug)]\nstruct S;\n#[derive(Drop)]\nstruct T;\n",
        "#[derive(Clone, Debug)]\nstruct S;\n\nstruct T;\n",
    ),
    (
        "#[derive(Debug, thiserror::Error)]\nenum E {\n    #[error(\"a {0}\")]\n    A(u8),\n}\n",
        "#[derive(Debug)]\nenum E {\n\n    A(u8),\n}\n",
    ),
    (
        "mod a;\nuse thiserror::Error;\nuse std::marker::{Model, Send};\n",
        "mod a;\n\nuse crate::kit::std::marker::{Model, Send};\n",
    ),
    (
        "use crate::a;\nuse two::b;\nuse std::{fmt, mem};\nuse three::c;\n",
        "use crate::proved::one::a;\nuse crate::proved::two::b;\nuse crate::kit::std::{fmt, mem};\nuse three::c;\n",
    ),
    (
        "mod a;\n#[macro_export]\nmacro_rules! m {\n    ($a:expr) => { $crate::b($a, $b) };\n}\nmacro_rules! n {}\n",
        "mod a;\n\nmacro_rules! m {\n    ($a:expr) => { crate::proved::one::b($a, $b) };\n} pub(crate) use m;\nmacro_rules! n {}\n",
    ),
    (
        "fn f(n: std::ops::Bound<u8>) -> bytes::Bytes\n    ensures { a }\n{\n    two::bytes::of(n)\n}\n",
        "#[inline] fn f(n: crate::kit::std::ops::Bound<u8>) -> crate::kit::bytes::Bytes\n\n{\n    crate::proved::two::bytes::of(n)\n}\n",
    ),
    (
        "#[test]\nfn f(rt: HostRuntime) -> R {\n    g({})\n}\nmod b;\n",
        "#[test]\nfn f() { crate::kit::test::run(case); fn case(rt: HostRuntime) -> R {\n    g({})\n} }\nmod b;\n",
    ),
    (
        "mod a;\nfn f() {\n    assert!(rt; a == b, \"c\");\n    x.expect(&rt, \"y\").expect(\"z\");\n}\n",
        "mod a;\n#[inline] fn f() {\n    assert!( a == b, \"c\");\n    x.expect( \"y\").expect(\"z\");\n}\n",
    ),
    (
        "mod a;\nconst B: u8 = f(vec![in g(a); 1, 2], vec![in a; 0u8; 9], format!(in a; \"{b}\"), println!(rt; \"{b}\")?);\n",
        "mod a;\nconst B: u8 = f(Vec::from_array(g(a), [ 1, 2]), Vec::from_elem(a,  0u8, 9), crate::kit::text::format(a, format_args!( \"{b}\")), (rt).println(format_args!( \"{b}\"))?);\n",
    ),
    (
        "mod a;\nenum E {\n    A(#[from] B),\n}\n",
        "mod a;\nenum E {\n    A( B),\n} impl From<B> for E { fn from(it: B) -> E { E::A(it) } }\n",
    ),
    (
        "mod a;\nfn f() {\n    assert_eq!(rt; a, b);\n    assert_ne!(&rt; a, b[..], \"{c}\");\n    panic!(rt; \"d\");\n}\n",
        "mod a;\n#[inline] fn f() {\n    assert_eq!( a, b);\n    assert_ne!( a, b[..], \"{c}\");\n    panic!( \"d\");\n}\n",
    ),
    (
        "fn f() {\n    assert!(a == [0; 2], \"b; c\");\n}\n",
        "#[inline] fn f() {\n    assert!(a == [0; 2], \"b; c\");\n}\n",
    ),
    ("#[cfg(test)]\nmod a;\n", "#[cfg(test)]\nmod a;\n"),
    (
        "fn f(rt: &(impl Print + Abort)) -> u8\n    requires { a }\n{}\n",
        "#[track_caller] #[inline] fn f(rt: &(impl Print + Abort)) -> u8\n    // requires { a }\n{}\n",
    ),
    ("fn f() {\n    prove!(a);\n}\n", "#[inline] fn f() {\n    debug_assert!(a);\n}\n"),
    (
        "fn f<W: fmt::Write>(n: u8, f: &mut fmt::Formatter<W>) -> fmt::Result {}\n",
        "#[inline] fn f(n: u8, f: &mut fmt::Formatter<'_>) -> fmt::Result {}\n",
    ),
    ("fn f<W: fmt::Write>(f: &mut W) {}\n", "#[inline] fn f<W: fmt::Write>(f: &mut W) {}\n"),
    (
        "mod a;\nconst B: u8 = -(a + b) * *(c + &d) ^ !(e | f) << (g - 1);\n",
        "mod a;\nconst B: u8 = -(a + b) * *(c + &d) ^ !(e | f) << (g - 1);\n",
    ),
];

#[test]
fn what_is_left() {
    for (source, left) in LEFT {
        // Errors that tests show have a table of their own.
        for is_tests in [false, true].into_iter().take(if source.contains("#[error") { 1 } else { 2 }) {
            assert_eq!(rust_of(source, "one", &CRATES, is_tests).unwrap().strip_prefix(HEAD), Some(left), "{source}");
        }
    }
}

/// Likewise of tests.
const LEFT_OF_TESTS: [(&str, &str); 4] = [
    (
        "mod a;\n#[derive(thiserror::Error)]\nenum E {\n    #[error(\"a\")]\n    A,\n    #[error(\"b {0} {1}\")]\n    B(u8, u8),\n}\n",
        "mod a;\n\nenum E {\n\n    A,\n\n    B(u8, u8),\n} impl std::fmt::Display for E { fn fmt(&self, f: &mut std::fmt::Formatter<'_>) -> std::fmt::Result { match self { E::A{ .. } => write!(f, \"a\"), E::B(_0, _1, ) => write!(f, \"b {0} {1}\", _0, _1, ),  } } }\n",
    ),
    (
        "mod a;\n#[derive(Debug, thiserror::Error)]\n#[error(\"{why}\")]\nstruct S<T> {\n    why: u8,\n    of: T,\n}\n",
        "mod a;\n#[derive(Debug)]\n\nstruct S<T> {\n    why: u8,\n    of: T,\n} impl<T> std::fmt::Display for S<T> { fn fmt(&self, f: &mut std::fmt::Formatter<'_>) -> std::fmt::Result { match self { S{ why, .. } => write!(f, \"{why}\") } } }\n",
    ),
    ("mod a;\nstruct S;\nenum E {\n    A,\n}\n", "mod a;\nstruct S;\nenum E {\n    A,\n}\n"),
    (
        "mod a;\nconst K: [E; 2] = [E::NotFound, E::InvalidFilename];\n",
        "mod a;\nconst K: [E; 2] = [E::NotFound, E::Other];\n",
    ),
];

#[test]
fn what_is_left_of_tests() {
    for (source, left) in LEFT_OF_TESTS {
        assert_eq!(rust_of(source, "one", &CRATES, true).unwrap().strip_prefix(HEAD), Some(left), "{source}");
    }
}

#[test]
fn the_import_stands_where_the_first_item_goes() {
    let import = HEAD.trim();
    for (source, left) in [
        ("// A file.\nghost use a.{b};\nghost use c;\n\nmod d;\n", format!("// A file.\n{import}\n\n\nmod d;\n")),
        ("//! A crate.\n#![tactic(auto)]\n\nmod d;\n", format!("//! A crate.\n{import}\n\nmod d;\n")),
        ("// A file.\nmod d;\n", format!("// A file.\n{HEAD}mod d;\n")),
        (
            "//! A crate.\n//! Its end.\nghost a = { b };\nmod d;\n",
            format!("//! A crate.\n//! Its end.\n{import}\nmod d;\n"),
        ),
    ] {
        assert_eq!(rust_of(source, "one", &CRATES, false).unwrap(), left);
    }
}

/// A source, and the line that is refused.
const REFUSED: [(&str, usize); 19] = [
    ("mod a;\nghost fn f() {}\n", 2),
    ("mod a;\nghost a = b;\n", 2),
    ("mod a;\nghost a = { b }\n", 2),
    ("ghost use a.{b}", 1),
    ("mod a;\n\n#[ignore]\nfn f() {}\n", 3),
    ("#![allow(a)]\n", 1),
    ("mod a;\n#[macro_export]\nfn f() {}\n", 2),
    ("struct S {\n    #[from]\n    a: u8,\n}\n", 2),
    ("mod a;\n#[test]\nfn f() {}\n", 3),
    ("mod a;\n#[test]\nfn f(rt: HostRuntime, a: u8) {}\n", 3),
    ("impl Drop for S {\n    fn drop(self) {\n        let S { a } = self;\n    }\n}\n", 1),
    ("impl Drop for S {\n    fn drop(self) {\n        let S { a: _ } = self;\n        g();\n    }\n}\n", 1),
    ("mod a;\nimpl<T> Drop for S<T> {\n    fn drop(&mut self) {}\n}\n", 2),
    ("impl Model for S {\n    fn f() {}\n}\n", 1),
    ("fn f() -> S<u8>\n    ensures { a }\n    changes { b }\n{\n}\n", 3),
    ("fn f()\n    ensures a;\n", 2),
    ("fn f() {\n    while a ensures { b } {}\n}\n", 2),
    ("fn f() {\n    g(\"a);\n}\n", 2),
    ("/* /* */\n", 1),
];

#[test]
fn what_is_refused() {
    for (source, line) in REFUSED {
        match rust_of(source, "one", &CRATES, false) {
            Ok(rust) => panic!("{source} is taken: {rust}"),
            Err((at, why)) => assert_eq!(at, line, "{source}: {why}"),
        }
    }
}

/// What a file offers: each public function, type and field, in one line without its body.
fn offered(rust: &str) -> Vec<String> {
    let lines: Vec<&str> = rust.lines().filter_map(|line| line.split("//").next()).collect();
    let code =
        lines.join(" ").replace("pub(super) ", "pub ").replace("pub const fn", "pub fn").replace("(mut self", "(self");
    let ends = |it: &str| match it.split_whitespace().next() {
        Some("fn") => it.find('{'),
        Some("struct" | "enum") => it.find(['{', '(', ';']),
        _ => it.find(','),
    };
    let until_end = |it: &str| it[..ends(it).unwrap_or(it.len())].split_whitespace().collect::<Vec<_>>().join(" ");
    let mut found: Vec<String> = code.split("pub ").skip(1).map(until_end).collect();
    // A long list of arguments has a line for each.
    found.iter_mut().for_each(|it| *it = it.replace("( ", "(").replace(", )", ")"));
    found.sort();
    found
}

#[test]
fn a_file_by_hand_offers_what_the_proved_one_does() {
    let rust = Path::new(env!("CARGO_MANIFEST_DIR")).join("../..");
    for (of, module) in BY_HAND {
        let (name, file) = of.split_once('/').unwrap();
        let source = fs::read_to_string(rust.join("../crates").join(name).join("src").join(file)).unwrap();
        let by_hand = fs::read_to_string(rust.join(format!("iobufs/layer/{module}.rs"))).unwrap();
        let proved = offered(&rust_of(&source, name, &[name], false).unwrap());
        assert_eq!(offered(&by_hand), proved);
        for (old, new) in [(", n: usize", ", n: u32"), ("(self)", "(&self)"), ("pub struct", "struct")] {
            assert_ne!(offered(&by_hand.replacen(old, new, 1)), proved, "{of}: {new}");
        }
    }
}
