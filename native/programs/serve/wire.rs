//! Messages as bytes: a header with the length, and JSON (LSP, "Base Protocol").

use super::json::Json;
use std::io::{self, BufRead, Read, Write};

/// The longest line of a header, and the longest message.
const MAX_LINE: u64 = 4096;

const MAX_LEN: u64 = 1 << 30;

/// What is wrong with a message (JSON-RPC, "Error object"; LSP, "Response Message").
#[derive(Clone, Copy, Debug, PartialEq, Eq)]
pub enum ErrorCode {
    Parse = -32700,
    InvalidRequest = -32600,
    MethodNotFound = -32601,
    InvalidParams = -32602,
    NotInitialized = -32002,
    Failed = -32803,
    Cancelled = -32800,
}

/// Why a request has no result.
#[derive(Debug)]
pub struct Refused(pub ErrorCode, pub String);

/// A message of the client.
#[derive(Debug)]
pub enum Message {
    Request { id: Json, method: String, params: Json },
    Notification { method: String, params: Json },
    Response,
    Invalid(Refused),
}

impl Message {
    /// The message that the bytes behind a header are.
    pub fn of(bytes: &[u8]) -> Message {
        let text = std::str::from_utf8(bytes).map_err(|error| error.valid_up_to());
        let message = match text.and_then(Json::read) {
            Ok(message) => message,
            Err(at) => {
                let text = format!("this is no JSON from byte {at} on");
                return Message::Invalid(Refused(ErrorCode::Parse, text));
            }
        };
        let is_response = message.get("result").or(message.get("error")).is_some();
        let (method, params) = (message["method"].as_text(), message["params"].clone());
        match (message["jsonrpc"].as_text(), message.get("id"), method.map(String::from)) {
            (Some("2.0"), Some(id @ (Json::Number(_) | Json::Text(_))), Some(method)) => {
                Message::Request { id: id.clone(), method, params }
            }
            (Some("2.0"), None, Some(method)) => Message::Notification { method, params },
            (Some("2.0"), Some(_), None) if is_response => Message::Response,
            _ => Message::Invalid(Refused(ErrorCode::InvalidRequest, "no request".into())),
        }
    }
}

/// Reads the bytes of a message; None at the end of the input.
///
/// # Errors
///
/// That of the input, or `InvalidData` if there is no header from which the next message could be found.
pub fn read(input: &mut impl BufRead) -> io::Result<Option<Vec<u8>>> {
    let mut len = None;
    loop {
        let mut line = Vec::new();
        input.by_ref().take(MAX_LINE).read_until(b'\n', &mut line)?;
        if line.last() != Some(&b'\n') && (line.len() as u64) < MAX_LINE {
            return Ok(None);
        }
        let line = std::str::from_utf8(&line).ok().and_then(|line| line.strip_suffix("\r\n"));
        let line = line.ok_or_else(|| broken("no line of a header"))?;
        if line.is_empty() {
            break;
        }
        let (name, value) = line.split_once(':').ok_or_else(|| broken("no field of a header"))?;
        if name.eq_ignore_ascii_case("Content-Length") {
            len = value.trim().parse().ok().filter(|len| *len <= MAX_LEN);
        }
    }
    let len = len.ok_or_else(|| broken("no length of a message"))?;
    let mut bytes = Vec::new();
    input.take(len).read_to_end(&mut bytes)?;
    Ok((bytes.len() as u64 == len).then_some(bytes))
}

fn broken(text: &str) -> io::Error {
    io::Error::new(io::ErrorKind::InvalidData, text)
}

fn write(output: &mut impl Write, message: Json) -> io::Result<()> {
    let text = message.with("jsonrpc", Some("2.0")).to_string();
    write!(output, "Content-Length: {}\r\n\r\n{text}", text.len())?;
    output.flush()
}

/// Answers a request.
pub fn respond(output: &mut impl Write, id: Json, result: Result<Json, Refused>) -> io::Result<()> {
    let answer = match result {
        Ok(result) => object! { "id": id, "result": result },
        Err(Refused(code, text)) => {
            object! { "id": id, "error": object! { "code": code as i32, "message": text } }
        }
    };
    write(output, answer)
}

/// Tells the client something.
pub fn notify(output: &mut impl Write, method: &str, params: Json) -> io::Result<()> {
    write(output, object! { "method": method, "params": params })
}
