//! JSON (RFC 8259): its values, read from a text and written.

use std::{fmt, ops::Index};

/// How deep lists and objects may nest.
pub const MAX_DEPTH: usize = 128;

/// An object with these members, as JSON writes it.
macro_rules! object {
    ($($name:literal: $value:expr),* $(,)?) => {
        Json::Object(vec![$(($name.into(), Json::from($value))),*])
    };
}

/// A value.
#[derive(Clone, PartialEq, Eq)]
pub enum Json {
    Null,
    Bool(bool),
    /// As it is written.
    Number(String),
    Text(String),
    List(Vec<Json>),
    /// Of two members with a name the last one counts.
    Object(Vec<(String, Json)>),
}

impl Json {
    /// The list without items.
    pub const NONE: Json = Json::List(Vec::new());

    /// Reads a text that is one value. The error is the index of the first byte that can't stand there.
    pub fn read(text: &str) -> Result<Json, usize> {
        let mut reader = Reader { text, at: 0 };
        let value = reader.value(0).ok_or(reader.at)?;
        reader.skip_blanks();
        Some(value).filter(|_| reader.at == text.len()).ok_or(reader.at)
    }

    /// The object with one more member, if there is a value for it.
    pub fn with(mut self, name: &str, value: Option<impl Into<Json>>) -> Json {
        if let Json::Object(members) = &mut self {
            members.extend(value.map(|value| (name.into(), value.into())));
        }
        self
    }

    /// The member with a name.
    pub fn get(&self, name: &str) -> Option<&Json> {
        let Json::Object(members) = self else { return None };
        members.iter().rev().find(|member| member.0 == name).map(|member| &member.1)
    }

    pub fn as_text(&self) -> Option<&str> {
        let Json::Text(text) = self else { return None };
        Some(text)
    }

    pub fn as_list(&self) -> &[Json] {
        let Json::List(items) = self else { return &[] };
        items
    }

    /// A number without a sign, fraction and exponent.
    pub fn as_count(&self) -> Option<usize> {
        let Json::Number(digits) = self else { return None };
        digits.parse().ok()
    }
}

/// The member with a name, or null.
impl Index<&str> for Json {
    type Output = Json;

    fn index(&self, name: &str) -> &Json {
        self.get(name).unwrap_or(&Json::Null)
    }
}

/// What is a value of JSON.
macro_rules! values {
    ($($ty:ty: $value:ident => $json:expr;)*) => {$(
        impl From<$ty> for Json {
            fn from($value: $ty) -> Json {
                $json
            }
        }
    )*};
}

values! {
    bool: value => Json::Bool(value);
    usize: count => Json::Number(count.to_string());
    i32: number => Json::Number(number.to_string());
    &str: text => Json::Text(text.into());
    String: text => Json::Text(text);
}

/// The value, or null.
impl<Value: Into<Json>> From<Option<Value>> for Json {
    fn from(value: Option<Value>) -> Json {
        value.map_or(Json::Null, Value::into)
    }
}

impl<Value: Into<Json>> FromIterator<Value> for Json {
    fn from_iter<Items: IntoIterator<Item = Value>>(items: Items) -> Json {
        Json::List(items.into_iter().map(Value::into).collect())
    }
}

/// A text, of which a part is read. Where a method returns None, the byte at `at` can't stand there.
struct Reader<'t> {
    text: &'t str,
    at: usize,
}

impl Reader<'_> {
    fn byte(&self) -> Option<u8> {
        self.text.as_bytes().get(self.at).copied()
    }

    fn skip(&mut self, is_skipped: impl Fn(u8) -> bool) -> usize {
        let start = self.at;
        while self.byte().is_some_and(&is_skipped) {
            self.at += 1;
        }
        self.at - start
    }

    fn skip_blanks(&mut self) {
        self.skip(|byte| matches!(byte, b' ' | b'\t' | b'\n' | b'\r'));
    }

    /// Consumes a byte if it is next, and whether it was.
    fn take(&mut self, byte: u8) -> bool {
        let is_next = self.byte() == Some(byte);
        self.at += usize::from(is_next);
        is_next
    }

    fn expect(&mut self, byte: u8) -> Option<()> {
        self.take(byte).then_some(())
    }

    fn value(&mut self, depth: usize) -> Option<Json> {
        self.skip_blanks();
        match self.byte()? {
            b'{' | b'[' if depth == MAX_DEPTH => None,
            b'{' => self.items(b'}', |reader| reader.member(depth)).map(Json::Object),
            b'[' => self.items(b']', |reader| reader.value(depth + 1)).map(Json::List),
            b'"' => self.string().map(Json::Text),
            b'n' => self.word("null", Json::Null),
            b't' => self.word("true", Json::Bool(true)),
            b'f' => self.word("false", Json::Bool(false)),
            _ => self.number(),
        }
    }

    fn word(&mut self, word: &str, value: Json) -> Option<Json> {
        word.bytes().try_for_each(|byte| self.expect(byte))?;
        Some(value)
    }

    fn member(&mut self, depth: usize) -> Option<(String, Json)> {
        self.skip_blanks();
        let name = self.string()?;
        self.skip_blanks();
        self.expect(b':')?;
        Some((name, self.value(depth + 1)?))
    }

    /// Reads items with commas between, in the brackets of which the first one is next.
    fn items<T>(&mut self, close: u8, item: impl Fn(&mut Self) -> Option<T>) -> Option<Vec<T>> {
        self.at += 1;
        self.skip_blanks();
        let mut items = Vec::new();
        while !self.take(close) {
            if !items.is_empty() {
                self.expect(b',')?;
            }
            items.push(item(self)?);
            self.skip_blanks();
        }
        Some(items)
    }

    fn number(&mut self) -> Option<Json> {
        let start = self.at;
        self.take(b'-');
        if !self.take(b'0') {
            self.digits()?;
        }
        if self.take(b'.') {
            self.digits()?;
        }
        if self.take(b'e') || self.take(b'E') {
            let _ = self.take(b'+') || self.take(b'-');
            self.digits()?;
        }
        Some(Json::Number(self.text[start..self.at].into()))
    }

    fn digits(&mut self) -> Option<()> {
        (self.skip(|byte| byte.is_ascii_digit()) > 0).then_some(())
    }

    fn string(&mut self) -> Option<String> {
        self.expect(b'"')?;
        let mut text = String::new();
        loop {
            let start = self.at;
            self.skip(|byte| byte >= 0x20 && !matches!(byte, b'"' | b'\\'));
            text.push_str(&self.text[start..self.at]);
            if self.take(b'"') {
                return Some(text);
            }
            self.expect(b'\\')?;
            text.push(self.escaped()?);
        }
    }

    /// The character that an escape stands for; of half a surrogate pair U+FFFD.
    fn escaped(&mut self) -> Option<char> {
        let letter = match self.byte()? {
            byte @ (b'"' | b'\\' | b'/') => char::from(byte),
            b'b' => '\u{8}',
            b'f' => '\u{c}',
            b'n' => '\n',
            b'r' => '\r',
            b't' => '\t',
            b'u' => return self.encoded(),
            _ => return None,
        };
        self.at += 1;
        Some(letter)
    }

    fn encoded(&mut self) -> Option<char> {
        let first = self.code_unit()?;
        let behind = self.at;
        let second = if self.take(b'\\') { self.code_unit() } else { None };
        let units = [first].into_iter().chain(second);
        let letter = char::decode_utf16(units).next()?;
        if !letter.as_ref().is_ok_and(|letter| letter.len_utf16() == 2) {
            self.at = behind;
        }
        Some(letter.unwrap_or(char::REPLACEMENT_CHARACTER))
    }

    fn code_unit(&mut self) -> Option<u16> {
        self.expect(b'u')?;
        (0..4).try_fold(0, |code, _| {
            let digit = char::from(self.byte()?).to_digit(16)?;
            self.at += 1;
            Some(code * 16 + digit as u16)
        })
    }
}

impl fmt::Display for Json {
    fn fmt(&self, f: &mut fmt::Formatter<'_>) -> fmt::Result {
        match self {
            Json::Null => f.write_str("null"),
            Json::Bool(value) => value.fmt(f),
            Json::Number(digits) => f.write_str(digits),
            Json::Text(text) => write!(f, "{:?}", Quoted(text)),
            Json::List(items) => f.debug_list().entries(items).finish(),
            Json::Object(members) => f
                .debug_map()
                .entries(members.iter().map(|(name, value)| (Quoted(name), value)))
                .finish(),
        }
    }
}

impl fmt::Debug for Json {
    fn fmt(&self, f: &mut fmt::Formatter<'_>) -> fmt::Result {
        fmt::Display::fmt(self, f)
    }
}

/// A text as JSON writes it.
struct Quoted<'t>(&'t str);

impl fmt::Debug for Quoted<'_> {
    fn fmt(&self, f: &mut fmt::Formatter<'_>) -> fmt::Result {
        f.write_str("\"")?;
        let is_escaped = |c: char| c < ' ' || matches!(c, '"' | '\\');
        for piece in self.0.split_inclusive(is_escaped) {
            let plain = piece.trim_end_matches(is_escaped);
            f.write_str(plain)?;
            for letter in piece[plain.len()..].chars() {
                write!(f, "\\u{:04x}", u32::from(letter))?;
            }
        }
        f.write_str("\"")
    }
}
