//! Reads the tables of facts in `tests`.

/// The rows of a table, with their cells between tabs. Lines that begin with `# ` say what the rows below have in common.
pub fn rows<const CELLS: usize>(path: &str) -> Vec<[String; CELLS]> {
    let text = std::fs::read_to_string(format!("tests/{path}")).expect(path);
    let rows = text.lines().filter(|row| !row.starts_with("# "));
    let cells = |row: &str| row.split('\t').map(cell).collect::<Vec<_>>().try_into().expect(row);
    let rows: Vec<_> = rows.map(cells).collect();
    assert!(!rows.is_empty(), "{path} has no rows");
    rows
}

/// The text of a cell: in quotes `\n`, `\t` and `\u200e` are what can't be seen, and `\"` is a quote; anywhere `«3 ab»` is `ababab`.
fn cell(cell: &str) -> String {
    match cell.strip_prefix('"').and_then(|cell| cell.strip_suffix('"')) {
        Some(quoted) => repeated(&unescaped(quoted)),
        None => repeated(cell),
    }
}

fn repeated(text: &str) -> String {
    let mut parts = text.split('«');
    let front = parts.next().unwrap_or_default().to_string();
    parts.fold(front, |text, part| {
        let (many, rest) = part.split_once('»').expect(part);
        let (count, each) = many.split_once(' ').expect(many);
        text + &each.repeat(count.parse().expect(count)) + rest
    })
}

fn unescaped(quoted: &str) -> String {
    let mut parts = quoted.split('\\');
    let front = parts.next().unwrap_or_default().to_string();
    parts.fold(front, |text, part| match part.split_at(1) {
        ("n", rest) => text + "\n" + rest,
        ("t", rest) => text + "\t" + rest,
        ("\"", rest) => text + "\"" + rest,
        (_, rest) => {
            let letter = u32::from_str_radix(&rest[..4], 16).ok().and_then(char::from_u32);
            format!("{text}{}{}", letter.expect(quoted), &rest[4..])
        }
    })
}
