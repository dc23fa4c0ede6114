//! The server: which messages it takes when, the documents that are open, and the answers.

use super::completion::completion;
use super::diagnostics::diagnostics;
use super::document::Document;
use super::hover::hover;
use super::json::Json;
use super::lines::Encoding;
use super::references::{definition, prepare_rename, references, rename};
use super::signature::signature_help;
use super::symbols::{document_symbols, inlay_hints, HintOptions};
use super::wire::{notify, respond, ErrorCode, Message, Refused};
use std::collections::{BTreeMap, BTreeSet, VecDeque};
use std::io::{self, Write};
use std::process::ExitCode;
use std::sync::mpsc::Receiver;

/// How far the client is.
#[derive(Clone, Copy, PartialEq, Eq)]
enum State {
    Started,
    Initialized,
    ShutDown,
}

/// What the client can do, and what it asked for, when it initialized the server.
struct Options {
    encoding: Encoding,
    has_related: bool,
    has_offsets: bool,
    is_markdown: bool,
    prepares: bool,
    hints: HintOptions,
}

impl Options {
    fn of(params: &Json) -> Options {
        let (general, client) =
            (&params["capabilities"]["general"], &params["capabilities"]["textDocument"]);
        let known = |name: &Json| match name.as_text()? {
            "utf-8" => Some(Encoding::Utf8),
            "utf-16" => Some(Encoding::Utf16),
            _ => None,
        };
        let encoding = general["positionEncodings"].as_list().iter().find_map(known);
        let formats = client["hover"]["contentFormat"].as_list();
        let parameters = &client["signatureHelp"]["signatureInformation"]["parameterInformation"];
        let is_on = |name| params["initializationOptions"]["inlayHints"][name] != false.into();
        let [types, offsets, paddings] = ["types", "offsets", "paddings"].map(is_on);
        Options {
            encoding: encoding.unwrap_or(Encoding::Utf16),
            has_related: client["publishDiagnostics"]["relatedInformation"] == true.into(),
            has_offsets: parameters["labelOffsetSupport"] == true.into(),
            is_markdown: formats.iter().any(|format| format.as_text() == Some("markdown")),
            prepares: client["rename"]["prepareSupport"] == true.into(),
            hints: HintOptions { types, offsets, paddings },
        }
    }
}

/// A server that writes to an output.
pub struct Server<Output> {
    incoming: Receiver<Message>,
    output: Output,
    /// What has come, and isn't handled yet.
    queue: VecDeque<Message>,
    state: State,
    options: Options,
    documents: BTreeMap<String, Document>,
    /// The documents whose faults aren't told yet.
    untold: BTreeSet<String>,
}

impl<Output: Write> Server<Output> {
    pub fn new(incoming: Receiver<Message>, output: Output) -> Self {
        Server {
            incoming,
            output,
            queue: VecDeque::new(),
            state: State::Started,
            options: Options::of(&Json::Null),
            documents: BTreeMap::new(),
            untold: BTreeSet::new(),
        }
    }

    /// Handles messages up to `exit` or the end of the input. A client that doesn't read any more has gone too.
    pub fn run(mut self) -> ExitCode {
        let _ = self.handle_all();
        ExitCode::from(u8::from(self.state != State::ShutDown))
    }

    fn handle_all(&mut self) -> io::Result<()> {
        loop {
            self.queue.extend(self.incoming.try_iter());
            self.tell_faults()?;
            let next = self.queue.pop_front().or_else(|| self.incoming.recv().ok());
            match next {
                Some(Message::Request { id, method, params }) => {
                    let result = self.result(&id, &method, &params);
                    respond(&mut self.output, id, result)?;
                }
                Some(Message::Notification { method, params }) if method != "exit" => {
                    self.note(&method, &params)?;
                }
                Some(Message::Invalid(refused)) => {
                    respond(&mut self.output, Json::Null, Err(refused))?;
                }
                Some(Message::Response) => {}
                Some(Message::Notification { .. }) | None => return Ok(()),
            }
        }
    }

    /// Tells the faults of the documents that no waiting message changes.
    fn tell_faults(&mut self) -> io::Result<()> {
        let changed: BTreeSet<&str> = self.queue.iter().filter_map(document_of_note).collect();
        let (later, now): (BTreeSet<String>, BTreeSet<String>) = std::mem::take(&mut self.untold)
            .into_iter()
            .partition(|uri| changed.contains(uri.as_str()));
        self.untold = later;
        for uri in now {
            if let Some(document) = self.documents.get(&uri) {
                let told = diagnostics(document, self.options.has_related);
                notify(&mut self.output, "textDocument/publishDiagnostics", told)?;
            }
        }
        Ok(())
    }

    /// The result of a request, unless it is cancelled or comes too early or too late.
    fn result(&mut self, id: &Json, method: &str, params: &Json) -> Result<Json, Refused> {
        self.queue.extend(self.incoming.try_iter());
        let refuse = |code, text: &str| Err(Refused(code, text.into()));
        match (self.state, method) {
            (State::Started, "initialize") => Ok(self.initialize(params)),
            (State::Started, _) => refuse(ErrorCode::NotInitialized, "not initialized"),
            (State::ShutDown, _) => refuse(ErrorCode::InvalidRequest, "shut down"),
            (State::Initialized, "initialize") => refuse(ErrorCode::InvalidRequest, "initialized"),
            (State::Initialized, "shutdown") => {
                self.state = State::ShutDown;
                Ok(Json::Null)
            }
            _ if self.queue.iter().any(|next| cancels(next, id)) => {
                refuse(ErrorCode::Cancelled, "cancelled")
            }
            _ => self.answer(method, params),
        }
    }

    fn initialize(&mut self, params: &Json) -> Json {
        self.state = State::Initialized;
        self.options = Options::of(params);
        object! {
            "capabilities": capabilities(&self.options),
            "serverInfo": object! { "name": "wgsl", "version": env!("CARGO_PKG_VERSION") },
        }
    }

    /// What the client tells of its documents.
    fn note(&mut self, method: &str, params: &Json) -> io::Result<()> {
        let document = &params["textDocument"];
        let Some(uri) = document["uri"].as_text().filter(|_| self.state == State::Initialized)
        else {
            return Ok(());
        };
        let (version, encoding) = (document["version"].clone(), self.options.encoding);
        let changed = match (method, self.documents.get(uri)) {
            ("textDocument/didOpen", _) => {
                let text = document["text"].as_text();
                text.map(|text| Document::new(uri, text.into(), version, encoding))
            }
            ("textDocument/didChange", Some(before)) => {
                before.changed(params["contentChanges"].as_list(), version)
            }
            ("textDocument/didClose", Some(_)) => {
                self.documents.remove(uri);
                let none = object! { "uri": uri, "diagnostics": Json::NONE };
                return notify(&mut self.output, "textDocument/publishDiagnostics", none);
            }
            _ => None,
        };
        if let Some(document) = changed {
            self.documents.insert(uri.into(), document);
            self.untold.insert(uri.into());
        }
        Ok(())
    }

    fn answer(&self, method: &str, params: &Json) -> Result<Json, Refused> {
        let invalid = |text: &str| Refused(ErrorCode::InvalidParams, text.into());
        let uri = params["textDocument"]["uri"].as_text().unwrap_or_default();
        let document = || self.documents.get(uri).ok_or(invalid("no such document is open"));
        let at = || document()?.byte(&params["position"]).ok_or(invalid("no position"));
        let options = &self.options;
        Ok(match method {
            "textDocument/hover" => hover(document()?, at()?, options.is_markdown),
            "textDocument/signatureHelp" => signature_help(document()?, at()?, options.has_offsets),
            "textDocument/completion" => completion(document()?, at()?),
            "textDocument/definition" => definition(document()?, at()?),
            "textDocument/references" => {
                let with_declaration = params["context"]["includeDeclaration"] == true.into();
                references(document()?, at()?, with_declaration)
            }
            "textDocument/prepareRename" => prepare_rename(document()?, at()?),
            "textDocument/rename" => {
                let new = params["newName"].as_text().ok_or(invalid("no new name"))?;
                rename(document()?, at()?, new)?
            }
            "textDocument/documentSymbol" => document_symbols(document()?),
            "textDocument/inlayHint" => {
                let range = document()?.bytes(&params["range"]).ok_or(invalid("no range"))?;
                inlay_hints(document()?, &range, options.hints)
            }
            _ => return Err(Refused(ErrorCode::MethodNotFound, format!("no method {method}"))),
        })
    }
}

/// The document that a waiting message changes or closes.
fn document_of_note(message: &Message) -> Option<&str> {
    let Message::Notification { method, params } = message else { return None };
    let is_change = matches!(method.as_str(), "textDocument/didChange" | "textDocument/didClose");
    params["textDocument"]["uri"].as_text().filter(|_| is_change)
}

fn cancels(message: &Message, id: &Json) -> bool {
    matches!(message, Message::Notification { method, params }
        if method == "$/cancelRequest" && params["id"] == *id)
}

fn capabilities(options: &Options) -> Json {
    let triggers = |texts: &[&str]| {
        object! { "triggerCharacters": texts.iter().copied().collect::<Json>() }
    };
    let encoding = match options.encoding {
        Encoding::Utf8 => "utf-8",
        Encoding::Utf16 => "utf-16",
    };
    let rename = match options.prepares {
        true => object! { "prepareProvider": true },
        false => true.into(),
    };
    object! {
        "positionEncoding": encoding,
        "textDocumentSync": object! { "openClose": true, "change": 1 },
        "hoverProvider": true,
        "signatureHelpProvider": triggers(&["(", ","]),
        "completionProvider": triggers(&[".", "@", "<"]),
        "definitionProvider": true,
        "referencesProvider": true,
        "renameProvider": rename,
        "documentSymbolProvider": true,
        "inlayHintProvider": true,
    }
}
