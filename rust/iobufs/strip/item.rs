//! The rules, by the word that begins what isn't Rust.
#![forbid(unsafe_code)]

use super::{Fault, File};
use std::mem;

/// Attributes that Rust has, too.
const KEPT: [&str; 5] = ["inline", "cold", "repr", "unsafe", "cfg"];
/// Macros that take the runtime or an allocator first.
const GIVEN: [&str; 7] = ["assert", "assert_eq", "assert_ne", "panic", "println", "format", "vec"];
/// Names in a derive list that Rust hasn't, or doesn't need.
const DERIVED: [&str; 3] = ["Drop", "Error", "thiserror::Error"];
/// Kinds of error that Rust 1.85 hasn't.
const KINDS: [&str; 4] = ["FilesystemLoop", "InvalidFilename", "InProgress", "Uncategorized"];
/// Crates of the kit.
const KIT: [&str; 4] = ["std", "bytes", "hex", "memchr"];

impl File<'_> {
    /// Changes what begins at this token, and returns the token after what it has looked at.
    pub(super) fn item(&mut self, i: usize) -> Result<usize, Fault> {
        match self.text(i) {
            "ghost" => self.ghost(i, i),
            "pub" if self.text(i + 1) == "ghost" => self.ghost(i, i + 1),
            "requires" | "ensures" => self.fault(i, "a clause that no function's head has"),
            "#" => self.attribute(i),
            "impl" => self.implementation(i),
            "fn" if self.code.get(i + 1).is_some_and(|it| it.is_word()) => self.function(i),
            "enum" | "struct" if self.is_tests => self.shown(i),
            name if self.is_tests && KINDS.contains(&name) => Ok(self.replace(i, i + 1, "Other")),
            "use" if self.has(i + 1, "thiserror : : Error ;") => Ok(self.replace(i, i + 6, "")),
            "prove" if self.text(i + 1) == "!" => Ok(self.replace(i, i + 1, "debug_assert")),
            name if GIVEN.contains(&name) && self.text(i + 1) == "!" => self.given(i),
            "expect" if i > 0 && self.text(i - 1) == "." && self.text(i + 1) == "(" => self.expect(i),
            _ => Ok(self.path(i)),
        }
    }

    // Drops what begins at `from`, and is ghost at `i`.
    fn ghost(&mut self, from: usize, i: usize) -> Result<usize, Fault> {
        let end = self.after_ghost(i)?;
        Ok(if self.text(i + 1) == "use" { self.replace(from, end, "") } else { self.drop_item(from, end) })
    }

    // The token after `ghost use ..;`, `ghost name = { .. };`, `ghost name: { .. };`, `ghost name: { .. } = { .. };`,
    // or a field.
    fn after_ghost(&self, i: usize) -> Result<usize, Fault> {
        let mut end = i + 2;
        if self.text(i + 1) == "use" {
            end += self.code[end..].iter().position(|it| it.text == ";").unwrap_or(0);
        }
        for mark in [": {", "= {"] {
            if self.has(end, mark) {
                end = self.after(end + 1)?;
            }
        }
        let is_known = end > i + 2 && matches!(self.text(end), ";" | ",");
        if is_known { Ok(end + 1) } else { self.fault(i + 1, "a ghost form that isn't known") }
    }

    fn attribute(&mut self, i: usize) -> Result<usize, Fault> {
        let open = i + 1 + usize::from(self.text(i + 1) == "!");
        if self.text(open) != "[" {
            return Ok(i + 1);
        }
        let end = self.after(open)?;
        match self.text(open + 1) {
            "tactic" | "error" => return Ok(self.replace(i, end, "")),
            "test" => return self.test(end),
            "from" => return self.from(i, end),
            "macro_export" => return self.exported(i, end),
            "derive" => self.derive(i, end),
            name if KEPT.contains(&name) => self.is_marked |= name == "inline",
            _ => return self.fault(open + 1, "an attribute that isn't known"),
        }
        Ok(end)
    }

    // A test, whose function begins at `i`: the layer gives it a runtime, and looks at what it returns.
    fn test(&mut self, i: usize) -> Result<usize, Fault> {
        let Some(rt) = self.code.get(i + 3).filter(|_| self.has(i + 4, ": HostRuntime )")) else {
            return self.fault(i + 1, "a test that doesn't take the runtime alone");
        };
        let open = i + self.code[i..].iter().position(|it| it.text == "{").unwrap_or(0);
        let close = self.code[self.after(open)? - 1].at;
        let head = format!("() {{ crate::kit::test::run(case); fn case({}: HostRuntime)", rt.text);
        self.replace(i + 2, i + 7, &head);
        self.edits.push((close, close, "} ".to_owned()));
        Ok(i + 7)
    }

    // `Variant(#[from] Type)` of an enum.
    fn from(&mut self, i: usize, end: usize) -> Result<usize, Fault> {
        let name = self.code[..i].iter().rposition(|it| it.text == "enum").map_or(0, |at| at + 1);
        if name == 0 || self.text(i - 1) != "(" {
            return self.fault(i + 2, "an attribute that isn't known");
        }
        let (variant, close) = (self.text(i - 2), self.after(i - 1)? - 1);
        let taken = &self.source[self.code[end].at..self.code[close].at];
        let named = self.text(name);
        let made = format!(
            " impl From<{taken}> for {named} {{ fn from(it: {taken}) -> {named} {{ {named}::{variant}(it) }} }}"
        );
        let after = self.code[self.after(name + 1)? - 1].end();
        self.edits.push((after, after, made));
        Ok(self.replace(i, end, ""))
    }

    // A macro that other crates use: a module exports it by a `use`.
    fn exported(&mut self, i: usize, end: usize) -> Result<usize, Fault> {
        if !self.has(end, "macro_rules !") {
            return self.fault(i + 2, "an attribute that isn't known");
        }
        let after = self.code[self.after(end + 3)? - 1].end();
        self.edits.push((after, after, format!(" pub(crate) use {};", self.text(end + 2))));
        Ok(self.replace(i, end, ""))
    }

    // `#[error(..)]` of an enum's variants, or of a struct.
    fn shown(&mut self, i: usize) -> Result<usize, Fault> {
        let (name, mut open) = (self.text(i + 1), i + 2);
        let mut generics = String::new();
        if self.text(open) == "<" {
            let end = self.after(open)?;
            generics = self.code[open..end].iter().map(|it| it.text).collect();
            open = end;
        }
        if self.text(open) != "{" {
            return Ok(i + 1);
        }
        let end = self.after(open)?;
        let arm = |text: &str, of: &str, shown: &str| {
            if text.contains('{') { format!("{of}{shown}") } else { format!("{of}{{ .. }} => write!(f, {text})") }
        };
        let mut arms = String::new();
        for k in open..end {
            if self.text(i) == "enum" && self.has(k, "# [ error (") {
                let text = self.text(k + 4);
                let of = format!("{name}::{}", self.text(self.after(k + 1)?));
                let fields: String = (0..text.matches('{').count()).map(|n| format!("_{n}, ")).collect();
                arms += &format!("{}, ", arm(text, &of, &format!("({fields}) => write!(f, {text}, {fields})")));
            }
        }
        if let Some(at) = self.code[..i].iter().rposition(|it| it.text == "#").filter(|at| self.has(*at, "# [ error ("))
        {
            let text = self.text(at + 4);
            let field = text.trim_matches(['"', '{', '}']);
            arms += &arm(text, name, &format!("{{ {field}, .. }} => write!(f, {text})"));
        }
        if !arms.is_empty() {
            let after = self.code[end - 1].end();
            let made = format!(
                " impl{generics} std::fmt::Display for {name}{generics} {{ fn fmt(&self, f: &mut \
                 std::fmt::Formatter<'_>) -> std::fmt::Result {{ match self {{ {arms} }} }} }}"
            );
            self.edits.push((after, after, made));
        }
        Ok(i + 1)
    }

    // `assert!(rt; ..)`, `println!(rt; ..)`, `format!(in alloc; ..)`, `vec![in alloc; ..]`, and those without `rt;`.
    fn given(&mut self, i: usize) -> Result<usize, Fault> {
        let (open, end) = (i + 2, self.after(i + 2)?);
        let Some(semicolon) = self.next(open, end, ";") else { return Ok(i + 1) };
        let first = open + 1 + usize::from(self.text(open + 1) == "in");
        let given = &self.source[self.code[first].at..self.code[semicolon].at];
        let times = self.next(semicolon, end, ";");
        let (head, tail) = match self.text(i) {
            "println" => (format!("({given}).println(format_args!("), "))"),
            "format" => (format!("crate::kit::text::format({given}, format_args!("), "))"),
            "vec" if times.is_some() => (format!("Vec::from_elem({given}, "), ")"),
            "vec" => (format!("Vec::from_array({given}, ["), "])"),
            name => (format!("{name}!("), ")"),
        };
        if let Some(times) = times {
            self.replace(times, times + 1, ",");
        }
        self.replace(end - 1, end, tail);
        Ok(self.replace(i, semicolon + 1, &head))
    }

    // `.expect(rt, "..")`.
    fn expect(&mut self, i: usize) -> Result<usize, Fault> {
        let end = self.after(i + 1)?;
        match self.next(i + 1, end, ",") {
            Some(comma) if comma + 2 < end => Ok(self.replace(i + 2, comma + 1, "")),
            _ => Ok(i + 1),
        }
    }

    // The next token of this text after the token `from`, and before `end`, that isn't in a bracket.
    fn next(&self, from: usize, end: usize, text: &str) -> Option<usize> {
        let mut at = from + 1;
        while at < end - 1 {
            if self.text(at) == text {
                return Some(at);
            }
            at = if matches!(self.text(at), "(" | "[" | "{") { self.after(at).ok()? } else { at + 1 };
        }
        None
    }

    // Drops names from `#[derive(..)]`.
    fn derive(&mut self, i: usize, end: usize) {
        let names: String = self.code[i + 4..end - 2].iter().map(|it| it.text).collect();
        let kept: Vec<_> = names.split(',').filter(|it| !it.is_empty() && !DERIVED.contains(it)).collect();
        if kept.is_empty() {
            self.replace(i, end, "");
        } else if kept.len() < names.split(',').count() {
            self.replace(i + 4, end - 2, &kept.join(", "));
        }
    }

    // `impl Model for T`, which has ghost items alone, and `impl Drop for T`, which drops the fields.
    fn implementation(&mut self, i: usize) -> Result<usize, Fault> {
        let name = if self.text(i + 1) == "<" { self.after(i + 1)? } else { i + 1 };
        if !(self.has(name, "Model for") || self.has(name, "Drop for")) {
            return Ok(i + 1);
        }
        let open = name + self.code[name..].iter().position(|it| it.text == "{").unwrap_or(0);
        let end = self.after(open)?;
        let mut at = open + 1;
        while self.text(at) == "ghost" {
            at = self.after_ghost(at)?;
        }
        if self.text(name) == "Drop" {
            at = self.after_drop(at);
        }
        if at + 1 != end {
            return self.fault(name, "an impl that isn't the trivial one");
        }
        Ok(self.drop_item(i, end))
    }

    // The token after `fn drop(self) { let T { a: _, .. } = self; }`, or 0.
    fn after_drop(&self, i: usize) -> usize {
        let mut at = i + 9;
        while self.has(at + 1, ": _") {
            at += 3 + usize::from(self.text(at + 3) == ",");
        }
        let has_head = self.has(i, "fn drop ( self ) { let") && self.text(i + 8) == "{";
        if has_head && self.has(at, "} = self ; }") { at + 5 } else { 0 }
    }

    // A function's head: its clauses, and what marks it.
    fn function(&mut self, i: usize) -> Result<usize, Fault> {
        let open = if self.text(i + 2) == "<" { self.after(i + 2)? } else { i + 2 };
        let result = self.after(open)?;
        let mut at = result;
        while !matches!(self.text(at), "{" | ";" | "requires" | "ensures" | "") {
            at = if matches!(self.text(at), "(" | "[") { self.after(at)? } else { at + 1 };
        }
        self.write_to(i + 2, open, result);
        for n in open..at {
            self.path(n);
        }
        while matches!(self.text(at), "requires" | "ensures") {
            at = self.clause(at)?;
        }
        if !matches!(self.text(at), "{" | ";") {
            return self.fault(at, "a clause that isn't known");
        }
        let may_abort = (i..at).any(|n| self.text(n) == "Abort");
        self.mark(i, self.text(at) == "{", if may_abort { "#[track_caller] " } else { "" });
        Ok(at)
    }

    // `ensures* name { .. }`.
    fn clause(&mut self, i: usize) -> Result<usize, Fault> {
        let name = i + 1 + usize::from(self.text(i + 1) == "*");
        let open = name + usize::from(self.text(name) != "{");
        if self.text(open) != "{" {
            return self.fault(i, "a clause without braces");
        }
        let end = self.after(open)?;
        let (said, rest) = self.source[self.code[i].at..].split_at(self.code[end - 1].end() - self.code[i].at);
        let left = match self.text(i) {
            "requires" if rest.starts_with('\n') => commented(said),
            "requires" => format!("/* {said} */"),
            _ => String::new(),
        };
        Ok(self.replace(i, end, &left))
    }

    // Marks a function that isn't marked, and isn't for C. `more` comes before the mark.
    fn mark(&mut self, i: usize, has_body: bool, more: &str) {
        let at = self.code[i].at;
        let head = self.source[..at].rsplit('\n').next().map_or("", str::trim_start);
        if head.ends_with("final ") {
            self.edits.push((at - "final ".len(), at, String::new()));
        }
        if !mem::take(&mut self.is_marked) && has_body && !head.contains("extern") {
            let mark = if self.text(i + 1) == "main" { "pub " } else { "#[inline] " };
            self.edits.push((at - head.len(), at - head.len(), format!("{more}{mark}")));
        }
    }

    // Rust's formatter has no parameter for what it writes to.
    fn write_to(&mut self, generics: usize, open: usize, result: usize) {
        let formatter = (open..result).find(|n| self.has(*n, "Formatter < W >"));
        if let Some(at) = formatter.filter(|_| self.has(generics, "< W : fmt : : Write >")) {
            self.replace(generics, open, "");
            self.replace(at + 2, at + 3, "'_");
        }
    }

    // A path of another crate, or of this one's root.
    fn path(&mut self, i: usize) -> usize {
        let name = self.text(i);
        if self.has(i + 1, ": :") && !(i > 1 && self.has(i - 2, ": :")) {
            if name == "crate" || self.crates.contains(&name) {
                let from = if i > 0 && self.text(i - 1) == "$" { i - 1 } else { i };
                let of = if name == "crate" { self.name } else { name };
                self.replace(from, i + 1, &format!("crate::proved::{of}"));
            } else if KIT.contains(&name) {
                self.replace(i, i + 1, &format!("crate::kit::{name}"));
            }
        }
        i + 1
    }
}

// Each line as a comment.
fn commented(text: &str) -> String {
    let lines = text.split('\n').map(|line| line.split_at(line.len() - line.trim_start().len()));
    lines.map(|(space, said)| format!("{space}// {said}")).collect::<Vec<_>>().join("\n")
}
