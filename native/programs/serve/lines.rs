//! Places of a document as the protocol counts them: lines, and characters in units of an encoding.

use super::{document::Document, json::Json};
use std::ops::Range;

/// The units in which the characters of a line are counted.
#[derive(Clone, Copy, Debug, PartialEq, Eq)]
pub enum Encoding {
    Utf8,
    Utf16,
}

impl Encoding {
    /// How many units these bytes are.
    fn units(self, bytes: &[u8]) -> usize {
        let units = |byte: &u8| usize::from(byte & 0xC0 != 0x80) + usize::from(*byte >= 0xF0);
        match self {
            Encoding::Utf8 => bytes.len(),
            Encoding::Utf16 => bytes.iter().map(units).sum(),
        }
    }
}

/// Where the lines of a text begin, which end at `\n`, `\r\n` and `\r`.
pub fn starts_of_lines(text: &str) -> Vec<usize> {
    let bytes = text.as_bytes();
    let is_end = |at: &usize| match bytes[*at] {
        b'\r' => bytes.get(at + 1) != Some(&b'\n'),
        byte => byte == b'\n',
    };
    [0].into_iter().chain((0..bytes.len()).filter(is_end).map(|at| at + 1)).collect()
}

impl Document {
    /// The position of a byte of the text, or of its end if that is in front of it.
    pub fn position(&self, byte: usize) -> Json {
        let bytes = self.written.text.as_bytes();
        let byte = byte.min(bytes.len());
        let line = self.starts.partition_point(|start| *start <= byte) - 1;
        let character = self.encoding.units(&bytes[self.starts[line]..byte]);
        object! { "line": line, "character": character }
    }

    pub fn range(&self, bytes: &Range<usize>) -> Json {
        object! { "start": self.position(bytes.start), "end": self.position(bytes.end) }
    }

    /// Bytes of it, as the client names them.
    pub fn location(&self, bytes: &Range<usize>) -> Json {
        object! { "uri": self.uri.as_str(), "range": self.range(bytes) }
    }

    /// The byte at a position: the end of the line or of the text if it has no such character or line, and the beginning of the
    /// character if the position is inside it.
    pub fn byte(&self, position: &Json) -> Option<usize> {
        let line = position["line"].as_count()?;
        let character = position["character"].as_count()?;
        let text = &self.written.text;
        let Some(start) = self.starts.get(line) else { return Some(text.len()) };
        let end = self.starts.get(line + 1).copied().unwrap_or(text.len());
        let line = text[*start..end].trim_end_matches(['\r', '\n']);
        let mut units = 0;
        let is_in_front = |letter: &char| {
            units += self.encoding.units(letter.encode_utf8(&mut [0; 4]).as_bytes());
            units <= character
        };
        Some(start + line.chars().take_while(is_in_front).map(char::len_utf8).sum::<usize>())
    }

    /// The bytes of a range.
    pub fn bytes(&self, range: &Json) -> Option<Range<usize>> {
        let bytes = self.byte(&range["start"])?..self.byte(&range["end"])?;
        Some(bytes).filter(|bytes| bytes.start <= bytes.end)
    }
}
