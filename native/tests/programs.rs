//! The programs: their arguments, what they print, and their statuses, as `tests/tables/programs.tsv` says; and the command
//! `wgsl check` over texts, folders and the list of faults.

use crate::tables::rows;
use std::ffi::OsStr;
use std::fs;
use std::io::Write;
use std::path::PathBuf;
use std::process::{Command, Stdio};

/// A program with arguments, the first word its name.
fn command<S: AsRef<OsStr>>(words: &[S]) -> Command {
    let mut command = Command::new(match words[0].as_ref().to_str() {
        Some("wgsl_check") => env!("CARGO_BIN_EXE_wgsl_check"),
        _ => env!("CARGO_BIN_EXE_wgsl"),
    });
    command.args(&words[1..]);
    command
}

/// The status of a program, its output and its notes.
fn end<S: AsRef<OsStr>>(words: &[S], input: &[u8]) -> (Option<i32>, String, String) {
    let mut command = command(words);
    command.stdin(Stdio::piped()).stdout(Stdio::piped()).stderr(Stdio::piped());
    let mut run = command.spawn().unwrap();
    // A program that reads no input may have ended.
    let _ = run.stdin.take().unwrap().write_all(input);
    let done = run.wait_with_output().unwrap();
    let [output, notes] = [done.stdout, done.stderr].map(|text| String::from_utf8(text).unwrap());
    (done.status.code(), output, notes)
}

/// Whether a text is what a cell says.
fn is_told(text: &str, cell: &str) -> bool {
    match cell.split_once("..") {
        None => text == cell,
        Some(("", "")) => true,
        Some((front, "")) => text.starts_with(front) && text.lines().count() == 1,
        Some((front, behind)) => text.starts_with(front) && text.ends_with(behind),
    }
}

#[test]
fn programs_answer_as_the_table_says() {
    for [command, input, status, output, notes] in rows("tables/programs.tsv") {
        let words: Vec<&str> = command.split('|').collect();
        let (code, printed, told) = end(&words, input.as_bytes());
        assert_eq!(code, status.parse().ok(), "{command}: {input}");
        assert!(is_told(&printed, &output), "{command}: {input}: {printed}");
        assert!(is_told(&told, &notes), "{command}: {input}: {told}");
    }
}

#[cfg(unix)]
#[test]
fn an_argument_that_is_no_text_is_refused() {
    use std::os::unix::ffi::OsStrExt;
    for bytes in [&b"\xff"[..], b"--help\xff"] {
        for (words, status) in
            [(vec![&b"wgsl_check"[..], bytes], 64), (vec![b"wgsl", b"ask", bytes], 2)]
        {
            let words: Vec<&OsStr> = words.into_iter().map(OsStr::from_bytes).collect();
            assert_eq!(end(&words, b"").0, Some(status), "{words:?}");
        }
    }
}

#[cfg(target_os = "linux")]
#[test]
fn help_that_cannot_be_written_is_a_failure() {
    for words in
        ["wgsl_check --help", "wgsl_check --version", "wgsl ask --help", "wgsl ask --version"]
    {
        let words: Vec<&str> = words.split(' ').collect();
        let full = fs::File::options().write(true).open("/dev/full").unwrap();
        let status = command(&words).stdout(full).status().unwrap();
        assert_eq!(status.code(), Some(1), "{words:?}");
    }
}

/// What `wgsl check` prints for a text.
fn checked(words: &[&str], status: i32, input: &[u8]) -> String {
    let (code, output, notes) = end(&[&["wgsl", "check"], words].concat(), input);
    assert_eq!((code, notes.as_str()), (Some(status), ""), "{words:?}");
    output
}

#[test]
fn bytes_that_are_no_text_have_a_place() {
    let unread = "-:2:4: error: the text is not UTF-8 from here on\n";
    assert_eq!(checked(&["-"], 1, b"\nfn \xff"), unread);
    let unread = checked(&["--json", "-"], 1, b"\nfn \xff");
    let place = "\"line\":2,\"column\":4,\"utf16Column\":4";
    assert!(unread.contains(&format!("{place},\"end\":{{{place}}}")), "{unread}");
}

/// The inside of a code span.
fn code_of(span: &str) -> &str {
    span.strip_prefix("`` ")
        .and_then(|span| span.strip_suffix(" ``"))
        .unwrap_or_else(|| span.trim_matches('`'))
}

/// Each row of `docs/FAULTS.md` is what is printed, and each rule has one, with its comment.
#[test]
fn the_list_of_faults_is_right() {
    let [list, rules] = ["docs/FAULTS.md", "crates/wgsl_typing/src/fault.rt"]
        .map(|path| fs::read_to_string(path).unwrap());
    let mut codes: Vec<String> = Vec::new();
    for row in list.lines().filter(|line| line.starts_with("| `")) {
        let cells: Vec<&str> = row.trim_matches(['|', ' ']).split(" | ").collect();
        let [code, what, example, shown] = cells[..] else { panic!("{row}") };
        let (place, message) = code_of(shown).split_once(": ").unwrap();
        let wanted = format!("-:{place}: {}: {message}\n", code_of(code));
        assert_eq!(checked(&["--short", "-"], 1, code_of(example).as_bytes()), wanted);
        assert!(rules.contains(&format!("/// {what}\n")), "{what}");
        codes.push(code_of(code).replace('-', " "));
    }
    codes.dedup();
    let words: Vec<&str> = rules
        .lines()
        .filter_map(|line| line.trim().strip_prefix("Rule::")?.split_once("=> \""))
        .map(|(_, word)| word.trim_end_matches("\","))
        .collect();
    assert_eq!(codes, words);
}

/// A new folder with files, which have this text.
fn folder(name: &str, files: &str, text: &str) -> PathBuf {
    let top = PathBuf::from(env!("CARGO_TARGET_TMPDIR")).join(name);
    let _ = fs::remove_dir_all(&top);
    for file in files.split(' ').map(|file| top.join(file)) {
        fs::create_dir_all(file.parent().unwrap()).unwrap();
        fs::write(file, text).unwrap();
    }
    top
}

#[test]
fn a_folder_is_checked_with_those_inside_it() {
    let files = "b.wgsl a.wgsl c.txt .d.wgsl e/f/g.wgsl .i/j.wgsl d/k.wgsl e/h.wgsl";
    let top = folder("checked", files, "foo");
    fs::write(top.join("e/h.wgsl"), "").unwrap();
    let top = top.to_str().unwrap();
    let wanted = ["a", "b", "d/k", "e/f/g"]
        .map(|name| format!("{top}/{name}.wgsl:1:1: syntax: expected a declaration, found `foo`\n"))
        .concat();
    assert_eq!(checked(&["--short", top], 1, b""), wanted);
    assert_eq!(checked(&["--short", &format!("{top}//")], 1, b""), wanted);
    let good = format!("{top}/e/h.wgsl");
    assert_eq!(checked(&[&good], 0, b""), "");
    assert_eq!(checked(&[&good, &format!("{top}/e/f/.."), "--short"], 1, b"").lines().count(), 1);
    let empty = folder("empty", "a.txt", "");
    let (status, output, notes) = end(&["wgsl", "check", empty.to_str().unwrap()], b"");
    assert_eq!((status, output.as_str()), (Some(2), ""));
    let names_it = notes.starts_with("wgsl: no file in ");
    assert!(names_it && notes.ends_with(" ends in .wgsl\n"), "{notes}");
}
