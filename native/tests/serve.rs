//! The language server `wgsl serve`, over pipes.

#[path = "../programs/serve/json.rs"]
#[allow(dead_code)]
#[macro_use]
mod json;
mod serving;

use crate::{random::Random, tables::rows};
use json::Json;
use serving::{about, at, framed, opened, range, Client};
use std::{fs, ops::Range};
use wgsl_types_proved::{module::check, predeclared::attributes};

fn shader(name: &str) -> String {
    fs::read_to_string(format!("tests/sourced/{name}.wgsl")).expect(name)
}

fn position(of: &Json) -> String {
    let [line, character] = ["line", "character"].map(|name| of[name].as_count().unwrap() + 1);
    format!("{line}:{character}")
}

/// A range: its beginning and the word there, or its ends in two lines.
fn place(range: &Json, text: &str) -> String {
    let [start, end] = ["start", "end"].map(|end| &range[end]);
    if start["line"] != end["line"] {
        return format!("{}-{}", position(start), position(end));
    }
    let line = text.split('\n').nth(start["line"].as_count().unwrap()).unwrap();
    let [start_of_word, end] = [start, end].map(|end| end["character"].as_count().unwrap());
    format!("{} {}", position(start), &line[start_of_word..end])
}

/// An answer in short: places with the words there, and of a long list the first items.
fn shown(answer: &Json, text: &str) -> String {
    let all = |list: &[Json]| list.iter().map(|of| shown(of, text)).collect::<Vec<_>>().join("; ");
    match answer {
        Json::Text(value) => {
            let plain = value.replace("```wgsl\n", "").replace("\n```", "");
            plain.replace("\n\n", " | ").replace('\n', " / ")
        }
        Json::List(items) if items.len() > 50 => {
            format!("{} items: {}; ..", items.len(), all(&items[..3]))
        }
        Json::List(items) => all(items),
        Json::Object(_) if answer.get("line").is_some() => position(answer),
        Json::Object(_) if answer.get("start").is_some() => place(answer, text),
        Json::Object(members) => {
            let shown = members.iter().map(|(name, value)| match value {
                Json::List(_) => format!("{name}=({})", shown(value, text)),
                _ => format!("{name}={}", shown(value, text)),
            });
            shown.collect::<Vec<_>>().join(" ")
        }
        _ => answer.to_string(),
    }
}

/// Each request has its answer; of completion also the items alone that begin with a word.
#[test]
fn requests_are_answered() {
    let mut client = Client::of_bytes();
    for [name, method, cursor, answer] in rows::<4>("tables/served.tsv") {
        let mut text = shader(&name);
        let plain = cursor.replace('‸', "");
        let (found, written) = cursor.split_once(" => ").unwrap_or((&plain, &cursor));
        let start = text.find(found).expect(&cursor);
        text.replace_range(start..start + found.len(), &written.replace('‸', ""));
        client.open("it", &text);
        let (called, word) = method.split_once(' ').unwrap_or((&method, ""));
        let params = about("it", &text, start + written.find('‸').unwrap())
            .with("newName", Some(word))
            .with("context", Some(object! { "includeDeclaration": word == "all" }));
        let reply = client.request(&format!("textDocument/{called}"), params);
        let mut result = reply.get("result").unwrap_or(&reply["error"]).clone();
        if let ("completion", Json::List(items)) = (called, &mut result) {
            items.retain(|item| item["label"].as_text().unwrap().starts_with(word));
        }
        assert_eq!(shown(&result, &text), answer, "{name}\t{method}\t{cursor}");
    }
    assert_eq!(client.end(), Some(0));
}

/// The faults of each module of the list are told as the check finds them.
#[test]
fn faults_are_told() {
    let mut client = Client::of_bytes();
    client.open("it", "");
    assert_eq!(client.faults()["diagnostics"], Json::NONE);
    for (version, [_, _, text]) in rows("modules/modules.txt").into_iter().enumerate() {
        client.change("it", version, None, &text);
        let expected = check(&text).faults.into_iter().map(|fault| {
            let code = fault.rule.word().replace(' ', "-");
            object! { "range": range(&text, &fault.bytes), "code": code, "message": fault.message }
        });
        let told = client.faults()["diagnostics"].clone();
        let told = told.as_list().iter().map(|of| {
            let message = of["message"].as_text().and_then(|message| message.lines().next());
            object! { "range": of["range"].clone(), "code": of["code"].clone(), "message": message }
        });
        assert_eq!(told.collect::<Json>(), expected.collect(), "{text}");
    }
    client.tell("textDocument/didClose", opened("it"));
    assert_eq!(client.faults()["diagnostics"], Json::NONE);
    assert_eq!(client.end(), Some(0));
}

/// Of very many faults the first ones are told, and how many there are more.
#[test]
fn many_faults_are_cut() {
    let mut client = Client::of_bytes();
    let last_of_1000 = "`x` stands for no value";
    for (count, told, last) in [(1000, 1000, last_of_1000), (1002, 1001, "and 2 more")] {
        let lines = (0..count).map(|number| format!("const a{number} = x;\n"));
        client.open("a", &lines.collect::<String>());
        let faults = client.faults()["diagnostics"].clone();
        assert_eq!(faults.as_list().len(), told);
        let fault = &faults.as_list()[told - 1];
        assert_eq!(fault["message"].as_text(), Some(last));
        assert_eq!(fault["range"]["start"]["line"], (told - 1).into());
    }
}

/// A client is sent what it can read and asks for, by the parameters of its `initialize`.
#[test]
fn clients_have_options() {
    for [params, text, asked, answers] in rows::<4>("tables/clients.tsv") {
        let mut client = Client::spawn();
        let reply = client.request("initialize", Json::read(&params).unwrap());
        client.open("a", &text);
        let faults = client.faults()["diagnostics"].clone();
        let found = asked.split(" + ").map(|asked| match asked.split_once(' ') {
            Some((method, place)) => {
                let position = Json::read(place).unwrap();
                let whole = range(&text, &(0..text.len()));
                let about = opened("a").with("position", Some(position)).with("range", Some(whole));
                client.ask(method, about).to_string()
            }
            None if asked == "faults" => faults.to_string(),
            None => reply["result"]["capabilities"].to_string(),
        });
        assert_eq!(found.collect::<Vec<_>>().join(" + "), answers, "{params}");
    }
}

/// The bytes of a cell of `protocol.tsv`.
fn sent(cell: &str) -> Vec<u8> {
    let json = |rest: &str| framed(&format!("{{\"jsonrpc\":\"2.0\",{rest},\"params\":{{}}}}"));
    let messages = cell.split(" + ").map(|message| {
        if let Some(text) = message.strip_prefix('<').and_then(|text| text.strip_suffix('>')) {
            framed(text)
        } else if let Some(method) = message.strip_prefix('!') {
            json(&format!("\"method\":\"{method}\""))
        } else {
            match message.split_once(' ') {
                Some((id, method)) if !id.contains(':') && Json::read(id).is_ok() => {
                    json(&format!("\"id\":{id},\"method\":\"{method}\""))
                }
                _ => message.replace('↵', "\r\n").into_bytes(),
            }
        }
    });
    messages.collect::<Vec<_>>().concat()
}

#[test]
fn the_protocol_is_kept() {
    for [cell, answers, status] in rows::<3>("tables/protocol.tsv") {
        let mut client = Client::spawn();
        client.write(&sent(&cell));
        let (messages, found) = client.rest();
        let answered = messages.iter().map(|message| match &message["error"] {
            Json::Null => format!("{} -", message["id"]),
            error => {
                let told = error["message"].as_text().unwrap();
                format!("{} {} {told}", message["id"], error["code"])
            }
        });
        let answered = answered.collect::<Vec<_>>().join("; ");
        assert_eq!(answered, answers.trim_start_matches('-'), "{cell}");
        assert_eq!(found.map(|status| status.to_string()), Some(status), "{cell}");
    }
}

/// A message may arrive in any pieces, and the input may end in any of its bytes.
#[test]
fn messages_are_cut_anywhere() {
    let message =
        framed("{\"jsonrpc\":\"2.0\",\"id\":1,\"method\":\"initialize\",\"params\":{\"a\":\"é\"}}");
    for cut in 0..message.len() {
        let mut client = Client::spawn();
        client.write(&message[..cut]);
        if cut % 2 == 0 {
            assert_eq!(client.rest(), (Vec::new(), Some(1)));
            continue;
        }
        client.write(&message[cut..]);
        assert_eq!(client.read().unwrap()["id"], 1.into());
    }
}

/// Behind a document of ten megabytes a request waits, and is cancelled. The other document has its own faults.
#[test]
fn a_long_document_is_served() {
    let mut client = Client::start("{}", "null");
    client.open("b", "const b = c;");
    assert_eq!(client.faults()["uri"].as_text(), Some("b"));
    let text = shader("tiled") + &"// Nothing is here.\n".repeat(500_000) + "const b = c;";
    client.open("a", &text);
    let request = "\"id\":\"it\",\"method\":\"textDocument/hover\",\"params\":{}";
    let cancel = "\"method\":\"$/cancelRequest\",\"params\":{\"id\":\"it\"}";
    let messages = [request, cancel].map(|rest| framed(&format!("{{\"jsonrpc\":\"2.0\",{rest}}}")));
    client.write(&messages.concat());
    let told = client.faults()["diagnostics"].clone();
    assert_eq!(told.as_list().last().unwrap()["range"]["start"], at(&text, text.len() - 2));
    assert_eq!(client.read().unwrap()["error"]["code"].to_string(), "-32800");
    assert_ne!(client.ask("hover", about("a", &text, text.len() - 6)), Json::Null);
    // Of a text that the next message changes no faults are told.
    client.open("a", &text);
    client.change("a", 2, None, "");
    assert_eq!(client.faults()["version"], 2.into());
    assert_eq!(client.end(), Some(0));
}

/// Each attribute is offered somewhere.
#[test]
fn attributes_are_complete() {
    let mut client = Client::of_bytes();
    let mut offered = Vec::new();
    for text in ["@", "struct S { @", "fn f(@", "fn f() { @"] {
        client.open("a", text);
        let items = client.ask("completion", about("a", text, text.len()));
        offered.extend(items.as_list().iter().map(|of| of["label"].as_text().unwrap().to_string()));
    }
    offered.sort();
    offered.dedup();
    assert!(attributes().eq(offered.iter().map(String::as_str)), "{offered:?}");
}

/// An edit: some bytes of a text, and what comes in their place, a piece of it or of the list, or nothing.
fn edit(random: &mut Random, text: &str) -> (Range<usize>, String) {
    const PIECES: &str = "{|}|(|)|;|,|<|>|@|.|é|#|/*|let x = |\n|fn f(";
    let mut place = |most: usize| {
        let byte = random.number(most + 1);
        (0..=byte).rev().find(|byte| text.is_char_boundary(*byte)).unwrap()
    };
    let (at, start) = (place(text.len()), place(text.len()));
    let end = start.max(place((start + 40).min(text.len())));
    let pieces: Vec<&str> = PIECES.split('|').collect();
    match random.number(8) {
        0 | 1 => (start..end, String::new()),
        2 => (at..at, text[start..end].into()),
        3 if at > text.len() / 2 => (at..text.len(), String::new()),
        _ => (at..at, pieces[random.number(pieces.len())].into()),
    }
}

#[test]
fn a_change_is_of_what_those_before_it_left() {
    let mut client = Client::of_bytes();
    client.open("a", "const a = 1;\n");
    let text = "const b = 2;\nconst a = 1;\n";
    let changes = [(range("", &(0..0)), "const b = 2;\n"), (range(text, &(23..24)), "b")];
    client.change_all("a", 2, changes.map(|(range, text)| (Some(range), text)));
    assert_eq!(client.ask("definition", about("a", text, 23))["range"], range(text, &(6..7)));
    assert_eq!(client.end(), Some(0));
}

/// After any edits, told as texts or as ranges, each answer is that of a server that has seen nothing else.
#[test]
fn answers_depend_on_the_text_alone() {
    const METHODS: &str =
        "hover signatureHelp completion definition references prepareRename rename \
                           documentSymbol inlayHint";
    let methods: Vec<&str> = METHODS.split(' ').collect();
    let count = std::env::var("WGSL_EDITS").map_or(300, |count| count.parse().unwrap());
    let shaders = ["boids", "light", "scene", "tiled", "clustered"].map(shader);
    let (mut random, mut client) = (Random::new(1), Client::of_bytes());
    let mut text = String::new();
    client.open("a", "");
    client.faults();
    for version in 0..count {
        let (bytes, piece) = match version % 20 {
            0 => (0..text.len(), shaders[version / 20 % 5].clone()),
            _ => edit(&mut random, &text),
        };
        let place = (version % 2 == 1).then(|| range(&text, &bytes));
        text.replace_range(bytes, &piece);
        let told = if place.is_some() { &piece } else { &text };
        client.change("a", version, place, told);
        let mut fresh = Client::of_bytes();
        fresh.open("a", &text);
        let expected = fresh.faults()["diagnostics"].clone();
        assert_eq!(client.faults()["diagnostics"], expected, "{text}");
        let byte = random.number(text.len() + 1);
        let byte = (0..=byte).rev().find(|byte| text.is_char_boundary(*byte)).unwrap();
        let method = format!("textDocument/{}", methods[random.number(methods.len())]);
        let params = about("a", &text, byte).with("newName", Some("renamed"));
        let [mine, other] =
            [&mut client, &mut fresh].map(|client| client.request(&method, params.clone()));
        for part in ["result", "error"] {
            assert_eq!(mine[part], other[part], "{method} {byte}: {text}");
        }
    }
}

/// JSON is read as RFC 8259 says, and nothing else is. What is written is read back.
#[test]
fn json_is_read() {
    let table = fs::read_to_string("tests/tables/json.tsv").unwrap();
    for row in table.lines().filter(|row| !row.starts_with("# ")) {
        let (text, value) = row.rsplit_once('\t').unwrap();
        let found = Json::read(text);
        let shown = found.as_ref().map_or_else(|at| format!("no {at}"), Json::to_string);
        assert_eq!(shown, value, "{text}");
        assert!(found.is_err() || Json::read(&shown) == found, "{text}");
    }
    for control in (0..0x20).map(char::from) {
        let is_blank = matches!(control, '\t' | '\n' | '\r');
        assert_eq!(Json::read(&format!("[1{control},2{control}]")).is_ok(), is_blank);
        assert_eq!(Json::read(&format!("\"{control}\"")), Err(1), "{control:?}");
        let text = Json::Text(control.into());
        assert_eq!(Json::read(&text.to_string()), Ok(text));
    }
    for (depth, is_read) in
        [(json::MAX_DEPTH, true), (json::MAX_DEPTH + 1, false), (1 << 20, false)]
    {
        for [open, inner, close] in [["[", "", "]"], ["{\"a\":", "1", "}"]] {
            let text = format!("{}{inner}{}", open.repeat(depth), close.repeat(depth));
            assert_eq!(Json::read(&text).is_ok(), is_read, "{depth}");
        }
    }
}
