//! Texts on both sides of 16,384 bytes and of 100,000 calls.

use super::cells::{kept, lines, passing, Cell};

/// A lawful text of so many bytes in one long list, in many lines, or in many blocks.
fn long_list(bytes: usize) -> Vec<u8> {
    padded("make 2 2 3; take 1; give 1", " 1", bytes)
}

fn many_blocks(bytes: usize) -> Vec<u8> {
    padded("make 2 2 3; take 1", "\nrepeat 1000\nend", bytes)
}

/// The part is repeated as often as it fits, and ids of the last line make up the rest.
fn padded(start: &str, part: &str, bytes: usize) -> Vec<u8> {
    let mut text = lines(start);
    text.pop();
    let last = "\ngive 2 1";
    while text.len() + part.len() + last.len() < bytes {
        text.extend(part.as_bytes());
    }
    text.extend(last.as_bytes());
    while text.len() + 1 < bytes {
        // An odd byte is left to the last number.
        let more = if bytes - text.len() == 2 { "1" } else { " 1" };
        text.extend(more.as_bytes());
    }
    text.push(b'\n');
    text
}

/// A text of so many bytes with a fault in its last line alone.
fn faulty(bytes: usize) -> Vec<u8> {
    let mut text = long_list(bytes);
    let last = text.len() - 2;
    text[last] = b'x';
    text
}

/// So many calls with make among them, by blocks as large as they can be.
pub fn calls(count: u64) -> Vec<u8> {
    let (thousands, rest) = ((count - 1) / 1_000, (count - 1) % 1_000);
    let (hundreds, left) = (thousands / 100, thousands % 100);
    let mut text = "make 1 1 1".to_string();
    if hundreds > 0 {
        text += &format!("; repeat {hundreds}; repeat 100; repeat 1000; step 1; end; end; end");
    }
    if left > 0 {
        text += &format!("; repeat {left}; repeat 1000; step 1; end; end");
    }
    if rest > 0 {
        text += &format!("; repeat {rest}; step 1; end");
    }
    lines(&text)
}

/// The two sides of 100,000 calls that are played: their transcripts are too long to be kept.
pub const PLAYED: [u64; 2] = [99_999, 100_000];

pub fn cells() -> Vec<Cell> {
    let mut cells = Vec::new();
    for bytes in [16_383, 16_384, 16_385] {
        cells.push(kept(format!("bytes-{bytes}-lawful"), long_list(bytes)));
        cells.push(kept(format!("bytes-{bytes}-faulty"), faulty(bytes)));
    }
    cells.push(kept("bytes-16384-of-blocks", many_blocks(16_384)));
    cells.push(kept("bytes-16384-of-newlines", vec![b'\n'; 16_384]));
    cells.push(kept("bytes-16384-without-newline", vec![b'7'; 16_384]));
    cells.push(passing("bytes-more-than-64-kib", vec![b'\n'; 65_537]));
    cells.extend(PLAYED.map(|count| kept(format!("calls-{count}"), calls(count))));
    let too_many = [
        ("calls-100001", lines_of(&calls(100_001))),
        ("calls-1000-to-the-4", of_factors([1_000; 4], "step 1")),
        (
            "calls-round-32-bits",
            of_factors([512, 512, 512, 32], "step 1"),
        ),
        (
            "calls-of-two-blocks-too-many",
            format!("make 1 1 1; {}; {}", of_two(50, 1_000), of_two(50, 1_000)),
        ),
        (
            "calls-of-a-block-and-a-line-too-many",
            format!("make 1 1 1; {}; step 1", of_two(100, 1_000)),
        ),
        (
            "calls-too-many-by-make-alone",
            format!("make 1 1 1; {}", of_two(100, 1_000)),
        ),
        (
            "calls-too-many-after-a-refused-make",
            format!("make 0 0 0; {}", of_two(100, 1_000)),
        ),
    ];
    cells.extend(too_many.map(|(name, short)| kept(name, lines(&short))));
    cells
}

fn lines_of(text: &[u8]) -> String {
    let text = String::from_utf8_lossy(text);
    text.trim_end().replace('\n', "; ")
}

fn of_two(outer: u32, inner: u32) -> String {
    format!("repeat {outer}; repeat {inner}; step 1; end; end")
}

fn of_factors(times: [u32; 4], line: &str) -> String {
    let opened: String = times.map(|n| format!("repeat {n}; ")).concat();
    format!("make 1 1 1; {opened}{line}{}", "; end".repeat(4))
}
