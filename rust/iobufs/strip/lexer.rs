//! The tokens of a source.
#![forbid(unsafe_code)]

/// A word (a name, keyword or number), a literal in quotes, a comment, or a single other character.
#[derive(Clone, Copy)]
pub struct Token<'a> {
    /// The byte at which it begins.
    pub at: usize,
    pub text: &'a str,
}

impl Token<'_> {
    pub fn end(&self) -> usize {
        self.at + self.text.len()
    }

    pub fn is_comment(&self) -> bool {
        self.text.starts_with("//") || self.text.starts_with("/*")
    }

    pub fn is_word(&self) -> bool {
        word(self.text) == self.text.len()
    }
}

/// Returns the tokens in order, or the byte at which a literal or comment begins that has no end.
pub fn tokens(source: &str) -> Result<Vec<Token<'_>>, usize> {
    let mut found = Vec::new();
    let mut rest = source.trim_start();
    while !rest.is_empty() {
        let at = source.len() - rest.len();
        let (text, others) = rest.split_at(length(rest).ok_or(at)?);
        found.push(Token { at, text });
        rest = others.trim_start();
    }
    Ok(found)
}

// The length of the token that begins `rest`, unless it has no end.
fn length(rest: &str) -> Option<usize> {
    if rest.starts_with("//") {
        return Some(rest.find('\n').unwrap_or(rest.len()));
    }
    if rest.starts_with("/*") {
        return block_comment(rest);
    }
    let body = rest.strip_prefix(['b', 'c']).unwrap_or(rest);
    let raw = body.strip_prefix('r').map(|raw| raw.trim_start_matches('#'));
    if let Some(text) = raw.and_then(|raw| raw.strip_prefix('"')) {
        let close = format!("\"{}", "#".repeat(body.len() - text.len() - 2));
        return Some(rest.len() - text.len() + text.find(&close)? + close.len());
    }
    let is_char = |c: char, rest: &str| c == '\\' || rest.starts_with('\'');
    let text = body.strip_prefix(['"', '\'']).filter(|text| {
        let mut chars = text.chars();
        body.starts_with('"') || chars.next().is_some_and(|c| is_char(c, chars.as_str()))
    });
    if let Some(text) = text {
        return Some(rest.len() - text.len() + quoted(text, body.starts_with('"'))?);
    }
    Some(match word(rest) {
        0 => rest.chars().next()?.len_utf8(),
        len => len,
    })
}

fn word(text: &str) -> usize {
    text.find(|c: char| !c.is_alphanumeric() && c != '_').unwrap_or(text.len())
}

// The length of a block comment, which may contain others.
fn block_comment(rest: &str) -> Option<usize> {
    let (mut at, mut depth) = (2, 1);
    while depth > 0 {
        let (open, close) = (rest[at..].find("/*"), rest[at..].find("*/")?);
        let is_open = open.is_some_and(|open| open < close);
        at += 2 + if is_open { open? } else { close };
        depth = if is_open { depth + 1 } else { depth - 1 };
    }
    Some(at)
}

// The length of what is before a quote and the quote.
fn quoted(text: &str, is_string: bool) -> Option<usize> {
    let mut is_escaped = false;
    let end = text.find(|c| {
        let is_end = !is_escaped && c == if is_string { '"' } else { '\'' };
        is_escaped = !is_escaped && c == '\\';
        is_end
    });
    Some(end? + 1)
}
