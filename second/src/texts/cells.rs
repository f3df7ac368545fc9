//! The cells of the table, each with the text that is made to fill it. Whether it does is for the judge to say.

use super::unlawful::{LINES, TOKENS, WORDS};
use super::{answers, blocks, limits};

#[derive(Clone, Debug)]
pub struct Cell {
    pub name: String,
    pub text: Vec<u8>,
    /// Whether the text is one of those that the repository keeps.
    pub stored: bool,
}

pub fn kept(name: impl Into<String>, text: Vec<u8>) -> Cell {
    Cell {
        name: name.into(),
        text,
        stored: true,
    }
}

pub fn passing(name: impl Into<String>, text: Vec<u8>) -> Cell {
    Cell {
        name: name.into(),
        text,
        stored: false,
    }
}

/// Kinds with a near relation among the texts that are kept.
const NOT_KEPT: [&str; 20] = [
    "point-in-number",
    "comma-in-number",
    "underscore-in-number",
    "other-mark-in-number",
    "number-of-eleven-digits",
    "blank-line",
    "word-cut-short",
    "other-control-byte",
    "few-for-hire",
    "few-for-fire",
    "few-for-ask",
    "many-for-hire",
    "many-for-fire",
    "many-for-ask",
    "word-for-a-number",
    "repeat-no-number",
    "repeat-padded",
    "repeat-too-large-for-a-number",
    "bad-first-of-two-numbers",
    "bad-second-of-three-numbers",
];

/// A short text, its lines parted by a semicolon and a space.
pub fn lines(short: &str) -> Vec<u8> {
    (short.replace("; ", "\n") + "\n").into_bytes()
}

/// These lines, the one in the middle of any bytes.
pub fn around(before: &str, line: &[u8], after: &str) -> Vec<u8> {
    [&lines(before), line, b"\n", &lines(after)].concat()
}

/// The line at fault inside so many blocks. What follows is such that whoever takes the line for a lawful one tells another line, or plays.
fn at_depth(line: &[u8], depth: usize) -> Vec<u8> {
    let opened = "; repeat 2".repeat(depth);
    let closed = "end; ".repeat(depth);
    let own_end = if depth < 4 && is_like(line, b"repeat") {
        "end; "
    } else {
        ""
    };
    around(
        &format!("make 2 2 3; hire 1{opened}; step 1"),
        line,
        &format!("take 1; {own_end}{closed}step 1"),
    )
}

fn is_like(line: &[u8], word: &[u8]) -> bool {
    line.trim_ascii_start().starts_with(word)
}

/// The line at fault in a short text; one like an end stands in a block.
fn alone(line: &[u8]) -> Vec<u8> {
    if is_like(line, b"repeat") || is_like(line, b"end") {
        return at_depth(line, usize::from(is_like(line, b"end")));
    }
    around("make 2 2 3; take 1", line, "hire 1")
}

pub fn all() -> Vec<Cell> {
    let mut cells = answers::cells();
    cells.extend(blocks::cells());
    cells.extend(limits::cells());
    let mut tokens: Vec<(&str, Vec<u8>)> = Vec::new();
    for (kind, examples) in TOKENS {
        tokens.push((kind, format!("step {}", examples[0]).into_bytes()));
    }
    let single = LINES
        .iter()
        .map(|(kind, examples)| (*kind, examples[0].to_vec()));
    let kinds: Vec<(&str, Vec<u8>)> = tokens.into_iter().chain(single).collect();
    for (kind, line) in &kinds {
        cells.push(Cell {
            name: format!("fault-{kind}"),
            text: alone(line),
            stored: !NOT_KEPT.contains(kind),
        });
    }
    for (kind, line) in &kinds {
        for depth in 0..=4 {
            let name = format!("fault-{kind}-depth-{depth}");
            cells.push(passing(name, at_depth(line, depth)));
        }
    }
    for (kind, examples) in TOKENS {
        for (word, start, _) in WORDS {
            let line = format!("{start}{}", examples[examples.len() - 1]);
            let text = match word {
                "make" => around_first(&line),
                "repeat" => around("make 2 2 3", line.as_bytes(), "step 1; end"),
                _ => around("make 2 2 3; hire 1", line.as_bytes(), "step 1"),
            };
            cells.push(passing(format!("fault-{kind}-in-{word}"), text));
        }
    }
    cells
}

fn around_first(line: &str) -> Vec<u8> {
    lines(&format!("{line}; take 1"))
}
