//! The tokens of a source: Rust's, and in contracts those of their language, which has the same brackets and strings.

/// The kinds of tokens that the rules distinguish.
#[derive(Clone, Copy, Debug, PartialEq, Eq)]
pub enum Kind {
    /// A name or a keyword.
    Word,
    /// A sign; `::` is one.
    Sign,
    /// A number, a string, a character or a lifetime.
    Literal,
    /// A comment.
    Comment,
}

/// A token, and the byte where it begins.
#[derive(Clone, Copy, Debug)]
pub struct Token<'s> {
    pub kind: Kind,
    pub text: &'s str,
    pub start: usize,
}

impl Token<'_> {
    /// Where it ends.
    pub fn end(&self) -> usize {
        self.start + self.text.len()
    }
}

/// All tokens of a text, with its comments. Err has the byte where a token begins that doesn't end.
pub fn tokens(text: &str) -> Result<Vec<Token<'_>>, usize> {
    let mut tokens = Vec::new();
    let mut start = 0;
    while let Some(first) = text[start..].chars().next() {
        if first.is_whitespace() {
            start += first.len_utf8();
            continue;
        }
        let (kind, length) = first_token(&text[start..]).ok_or(start)?;
        tokens.push(Token { kind, text: &text[start..start + length], start });
        start += length;
    }
    Ok(tokens)
}

/// The kind and the length of the token with which a text begins.
fn first_token(text: &str) -> Option<(Kind, usize)> {
    if text.starts_with("//") {
        return Some((Kind::Comment, text.find('\n').unwrap_or(text.len())));
    }
    if text.starts_with("/*") {
        return Some((Kind::Comment, block_comment(text)?));
    }
    if let Some(length) = literal_with_quotes(text) {
        return Some((Kind::Literal, length?));
    }
    let word = text.chars().take_while(|c| is_of_word(*c)).map(char::len_utf8).sum();
    match text.chars().next()? {
        c if c.is_ascii_digit() => Some((Kind::Literal, number(text, word))),
        c if is_of_word(c) => Some((Kind::Word, word)),
        _ if text.starts_with("::") => Some((Kind::Sign, 2)),
        c => Some((Kind::Sign, c.len_utf8())),
    }
}

fn is_of_word(c: char) -> bool {
    c == '_' || c.is_alphanumeric()
}

/// The length of a comment, which may contain others.
fn block_comment(text: &str) -> Option<usize> {
    let (mut depth, mut at) = (0, 0);
    loop {
        let rest = &text.as_bytes()[at..];
        match rest {
            [b'/', b'*', ..] => (depth, at) = (depth + 1, at + 2),
            [b'*', b'/', ..] if depth == 1 => return Some(at + 2),
            [b'*', b'/', ..] => (depth, at) = (depth - 1, at + 2),
            [_, ..] => at += 1,
            [] => return None,
        }
    }
}

/// The length of a string, a character or a lifetime, if the text begins with one. Some(None) if it has no end.
fn literal_with_quotes(text: &str) -> Option<Option<usize>> {
    let prefix = ["br", "b", "r", ""].into_iter().find(|prefix| {
        let rest = text.strip_prefix(prefix);
        rest.is_some_and(|rest| {
            rest.trim_start_matches('#').starts_with('"') || rest.starts_with('\'')
        })
    })?;
    let rest = &text[prefix.len()..];
    let hashes = rest.len() - rest.trim_start_matches('#').len();
    let length = match (prefix.ends_with('r'), hashes, rest.starts_with('"')) {
        (true, _, _) if !rest.starts_with('\'') => {
            let end = format!("\"{}", "#".repeat(hashes));
            let open = hashes + 1;
            rest[open..].find(&end).map(|length| open + length + end.len())
        }
        (false, 0, true) => closed(rest, '"'),
        (_, 0, false) if matches!(prefix, "" | "b") => {
            return quoted(rest).map(|n| n.map(|n| prefix.len() + n))
        }
        _ => return None,
    };
    Some(length.map(|length| prefix.len() + length))
}

/// The length of a character or a lifetime; None for a quote that is a sign, as in names of contracts.
fn quoted(text: &str) -> Option<Option<usize>> {
    let mut rest = text.chars().skip(1);
    let (first, second) = (rest.next()?, rest.next());
    match first {
        '\\' => Some(closed(text, '\'')),
        '\'' | '\n' => None,
        _ if second == Some('\'') => Some(Some(2 + first.len_utf8())),
        _ if is_of_word(first) && !first.is_ascii_digit() => Some(Some(
            1 + text[1..].chars().take_while(|c| is_of_word(*c)).map(char::len_utf8).sum::<usize>(),
        )),
        _ => None,
    }
}

/// The length up to the closing quote. A backslash escapes the next character.
fn closed(text: &str, quote: char) -> Option<usize> {
    let mut is_escaped = false;
    for (at, c) in text.char_indices().skip(1) {
        match c {
            _ if is_escaped => is_escaped = false,
            '\\' => is_escaped = true,
            c if c == quote => return Some(at + 1),
            _ => {}
        }
    }
    None
}

/// The length of a number whose first `word` bytes are digits and letters; with a fraction, if that begins with a
/// digit.
fn number(text: &str, word: usize) -> usize {
    let fraction = text[word..].strip_prefix('.').unwrap_or_default();
    if !fraction.starts_with(|c: char| c.is_ascii_digit()) {
        return word;
    }
    word + 1 + fraction.chars().take_while(|c| is_of_word(*c)).map(char::len_utf8).sum::<usize>()
}
