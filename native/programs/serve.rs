//! The command `wgsl serve`: a language server over standard input and output (LSP 3.17).

#[macro_use]
mod json;

mod completion;
mod cursor;
mod diagnostics;
mod document;
mod hover;
mod lines;
mod mend;
mod references;
mod server;
mod signature;
mod symbols;
mod wire;

use server::Server;
use std::ffi::OsString;
use std::io::{self, Write};
use std::process::ExitCode;
use std::sync::mpsc::{channel, Sender};
use std::thread;
use wire::Message;

const HELP: &str = "\
usage: wgsl serve [--stdio]
       wgsl serve --help

Answers an editor on standard input and output, as a language server for WGSL by the Language Server Protocol 3.17. Of open files
it tells what `wgsl check` does, types, layouts, signatures, names and where they are used, and it renames.

The initialization options can turn inlay hints off, each of which is on if it isn't there:

  inlayHints.types     the types of names that are declared without one
  inlayHints.offsets   the offsets of members
  inlayHints.paddings  the bytes behind members that no member has

Exit status: 0 if the client shut the server down, 1 if it didn't, or if a message has no header, 2 for wrong arguments.
";

/// Runs the command with these words behind it.
pub fn run(words: &[OsString]) -> ExitCode {
    if words.is_empty() || words == ["--stdio"] {
        serve()
    } else if words == ["--help"] || words == ["-h"] {
        ExitCode::from(u8::from(io::stdout().write_all(HELP.as_bytes()).is_err()))
    } else {
        eprintln!("wgsl: serve takes no other argument than --stdio: see wgsl serve --help");
        ExitCode::from(2)
    }
}

fn serve() -> ExitCode {
    let (sender, incoming) = channel();
    thread::spawn(move || receive(&sender));
    Server::new(incoming, io::stdout().lock()).run()
}

/// Sends the messages on standard input, up to its end, or to where none can be found in what is left of it.
fn receive(sender: &Sender<Message>) {
    let mut input = io::stdin().lock();
    loop {
        match wire::read(&mut input) {
            Ok(Some(bytes)) if sender.send(Message::of(&bytes)).is_ok() => {}
            Err(error) => return eprintln!("wgsl: serve: {error}"),
            Ok(_) => return,
        }
    }
}
