//! What is wrong with a document, as the client shows it.

use super::{document::Document, json::Json};
use wgsl_types_proved::module::{Fault, Note};

/// How many faults of a document are told.
const MOST_FAULTS: usize = 1000;

/// The kinds of diagnostics that there are (LSP, "DiagnosticSeverity").
enum Severity {
    Error = 1,
    Information = 3,
}

/// The faults of a document. Notes of other places are told with these if the client shows them so.
pub fn diagnostics(document: &Document, has_related: bool) -> Json {
    let faults = &document.written.checked().faults;
    let (told, left) = faults.split_at(faults.len().min(MOST_FAULTS));
    let told = told.iter().map(|fault| diagnostic(document, fault, has_related));
    let more = left.first().map(|first| {
        object! {
            "range": document.range(&first.bytes), "severity": Severity::Information as i32,
            "source": "wgsl", "message": format!("and {} more", left.len()),
        }
    });
    let version = Some(document.version.clone()).filter(|version| *version != Json::Null);
    object! { "uri": document.uri.as_str(), "diagnostics": told.chain(more).collect::<Json>() }
        .with("version", version)
}

fn diagnostic(document: &Document, fault: &Fault, has_related: bool) -> Json {
    let is_related = |note: &&Note| has_related && note.bytes != fault.bytes;
    let (related, here): (Vec<&Note>, Vec<&Note>) = fault.notes.iter().partition(is_related);
    let messages = [&fault.message].into_iter().chain(here.into_iter().map(|note| &note.message));
    let related = related.iter().map(|note| {
        object! { "location": document.location(&note.bytes), "message": note.message.as_str() }
    });
    let related = Some(related.collect::<Vec<_>>()).filter(|related| !related.is_empty());
    object! {
        "range": document.range(&fault.bytes), "severity": Severity::Error as i32,
        "code": fault.rule.word().replace(' ', "-"), "source": "wgsl",
        "message": messages.map(String::as_str).collect::<Vec<_>>().join("\n"),
    }
    .with("relatedInformation", related.map(|related| related.into_iter().collect::<Json>()))
}
