//! A client of `wgsl serve`.

use super::json::Json;
use std::io::{BufRead, BufReader, Read, Write};
use std::ops::Range;
use std::process::{Child, ChildStdin, ChildStdout, Command, Stdio};

/// What an editor can do that counts bytes.
pub const BYTES: &str = r#"{"general": {"positionEncodings": ["utf-8"]}, "textDocument": {
    "publishDiagnostics": {"relatedInformation": true}, "hover": {"contentFormat": ["markdown"]},
    "signatureHelp": {"signatureInformation": {"parameterInformation": {"labelOffsetSupport": true}}}}}"#;

/// A server that runs.
pub struct Client {
    child: Child,
    pub input: Option<ChildStdin>,
    output: BufReader<ChildStdout>,
    count: usize,
}

impl Client {
    /// A server that isn't initialized.
    pub fn spawn() -> Client {
        let mut command = Command::new(env!("CARGO_BIN_EXE_wgsl"));
        command.arg("serve").stdin(Stdio::piped()).stdout(Stdio::piped()).stderr(Stdio::null());
        let mut child = command.spawn().unwrap();
        let (input, output) = (child.stdin.take(), BufReader::new(child.stdout.take().unwrap()));
        Client { child, input, output, count: 0 }
    }

    /// A server that is initialized by a client that can do this, in JSON.
    pub fn start(capabilities: &str, options: &str) -> Client {
        let mut client = Client::spawn();
        let [capabilities, options] = [capabilities, options].map(|text| Json::read(text).unwrap());
        let params = object! { "capabilities": capabilities, "initializationOptions": options };
        let reply = client.request("initialize", params);
        assert_eq!(reply["result"]["serverInfo"]["name"].as_text(), Some("wgsl"));
        client.tell("initialized", object! {});
        client
    }

    /// A server of a client that counts bytes.
    pub fn of_bytes() -> Client {
        Client::start(BYTES, "null")
    }

    /// Writes bytes; of a server that has ended none arrive.
    pub fn write(&mut self, bytes: &[u8]) {
        let input = self.input.as_mut().unwrap();
        let _ = input.write_all(bytes).and_then(|()| input.flush());
    }

    pub fn tell(&mut self, method: &str, params: Json) {
        let message = object! { "jsonrpc": "2.0", "method": method, "params": params };
        self.write(&framed(&message.to_string()));
    }

    /// The response to a request; what the server says in front of it is passed over.
    pub fn request(&mut self, method: &str, params: Json) -> Json {
        self.count += 1;
        let id = Json::from(self.count);
        let message =
            object! { "jsonrpc": "2.0", "id": self.count, "method": method, "params": params };
        self.write(&framed(&message.to_string()));
        loop {
            let message = self.read().expect(method);
            if message["id"] == id {
                return message;
            }
        }
    }

    /// The result of a request about a document.
    pub fn ask(&mut self, method: &str, params: Json) -> Json {
        self.request(&format!("textDocument/{method}"), params)["result"].clone()
    }

    pub fn open(&mut self, uri: &str, text: &str) {
        let document = object! { "uri": uri, "version": 1, "text": text };
        self.tell("textDocument/didOpen", object! { "textDocument": document });
    }

    /// Tells that a document has another text, in place of a range of its own if there is one.
    pub fn change(&mut self, uri: &str, version: usize, range: Option<Json>, text: &str) {
        self.change_all(uri, version, [(range, text)]);
    }

    /// Tells several such changes at once, each of what those before it left.
    pub fn change_all<const N: usize>(
        &mut self,
        uri: &str,
        version: usize,
        changes: [(Option<Json>, &str); N],
    ) {
        let document = object! { "uri": uri, "version": version };
        let changes = changes.map(|(range, text)| object! { "text": text }.with("range", range));
        let params =
            object! { "textDocument": document, "contentChanges": Json::List(changes.into()) };
        self.tell("textDocument/didChange", params);
    }

    /// The next message, or None at the end of the output.
    pub fn read(&mut self) -> Option<Json> {
        let lines = self.output.by_ref().lines().map(Result::unwrap);
        let header: Vec<String> = lines.take_while(|line| !line.is_empty()).collect();
        let len = header.iter().find_map(|line| line.strip_prefix("Content-Length: "))?;
        let mut bytes = vec![0; len.parse().unwrap()];
        self.output.read_exact(&mut bytes).unwrap();
        Some(Json::read(std::str::from_utf8(&bytes).unwrap()).unwrap())
    }

    /// The faults of a document that are told next.
    pub fn faults(&mut self) -> Json {
        loop {
            let message = self.read().unwrap();
            if message["method"].as_text() == Some("textDocument/publishDiagnostics") {
                return message["params"].clone();
            }
        }
    }

    /// All messages that are left, and the status, when the input has ended.
    pub fn rest(mut self) -> (Vec<Json>, Option<i32>) {
        self.input = None;
        let rest = std::iter::from_fn(|| self.read()).collect();
        (rest, self.child.wait().unwrap().code())
    }

    /// The status of a server that is shut down.
    pub fn end(mut self) -> Option<i32> {
        self.request("shutdown", Json::Null);
        self.tell("exit", Json::Null);
        self.rest().1
    }
}

/// A message with its header.
pub fn framed(text: &str) -> Vec<u8> {
    format!("Content-Length: {}\r\n\r\n{text}", text.len()).into_bytes()
}

/// The parameters of a request about a document.
pub fn opened(uri: &str) -> Json {
    object! { "textDocument": object! { "uri": uri } }
}

/// The parameters of a request about a byte of a document with a text, and about what is behind it.
pub fn about(uri: &str, text: &str, byte: usize) -> Json {
    let range = range(text, &(byte..text.len()));
    opened(uri).with("position", Some(at(text, byte))).with("range", Some(range))
}

/// The position of a byte, counted in bytes.
pub fn at(text: &str, byte: usize) -> Json {
    let line = text[..byte].matches('\n').count();
    let start = text[..byte].rfind('\n').map_or(0, |at| at + 1);
    object! { "line": line, "character": byte - start }
}

/// The range of some bytes.
pub fn range(text: &str, bytes: &Range<usize>) -> Json {
    object! { "start": at(text, bytes.start), "end": at(text, bytes.end) }
}
