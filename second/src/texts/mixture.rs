//! Random texts: runs from a fresh pool in many blocks, with their order, their lines or their bytes damaged, texts near a limit, and noise.

use super::piece::{self, Piece};
use super::unlawful::{LINES, TOKENS, WORDS};
use super::{answers, limits};
use crate::cases;
use crate::chance::Chance;

pub fn text(chance: &mut Chance, number: u64) -> (&'static str, Vec<u8>) {
    match chance.below(100) {
        0..=39 => ("run", joined(&run(chance, number))),
        40..=49 => {
            let mut lines = run(chance, number);
            disorder(chance, &mut lines);
            ("run-out-of-order", joined(&lines))
        }
        50..=69 => ("run-with-faults", faulty(chance, number)),
        70..=79 => {
            let mut bytes = joined(&run(chance, number));
            change(chance, &mut bytes);
            ("run-with-bytes-changed", bytes)
        }
        80..=83 => ("near-16-kib", near_the_size(chance, number)),
        84..=87 => ("many-calls", many_calls(chance)),
        88..=91 => ("noise", noise(chance)),
        _ => ("lines-at-random", soup(chance)),
    }
}

fn joined(lines: &[String]) -> Vec<u8> {
    (lines.join("\n") + "\n").into_bytes()
}

/// The calls that a text of runs may unroll to.
const MOST: u64 = 1_500;

fn run(chance: &mut Chance, number: u64) -> Vec<String> {
    let mut lines = cases::schedule(chance, number as usize);
    if chance.percent(50) {
        lines.truncate(chance.between(1, lines.len() as u32) as usize);
    }
    for _ in 0..chance.below(4) {
        let (_, _, hole) = chance.pick(&answers::ARGUMENTS);
        if !hole.starts_with("make") {
            let number = chance.pick(&["0", "4294967295", "1", "2", "257", "65537"]);
            let at = chance.between(1, lines.len() as u32) as usize;
            lines.insert(at, hole.replace('_', number));
        }
    }
    let mut pieces = piece::fold(chance, &lines[1..]);
    for _ in 0..chance.below(7) {
        piece::wrap(chance, &mut pieces, MOST);
    }
    for _ in 0..chance.below(3) {
        piece::sprinkle(chance, &mut pieces, 0);
    }
    let make = match chance.percent(4) {
        true => chance.pick(&["make 0 1 1", "make 9 9 9", "make 1 33 4", "make 8 32 257"]),
        false => &lines[0],
    };
    pieces.insert(0, Piece::Line(make.to_string()));
    debug_assert!(piece::calls(&pieces) <= MOST.max(lines.len() as u64 + 1));
    piece::render(&pieces)
}

fn is_call(line: &str) -> bool {
    let word = line.split(' ').next().unwrap_or("");
    !matches!(word, "make" | "repeat" | "end")
}

/// Calls change places, go missing or come twice; the blocks stay.
fn disorder(chance: &mut Chance, lines: &mut Vec<String>) {
    for _ in 0..chance.between(1, 30) {
        let calls: Vec<usize> = (0..lines.len()).filter(|&n| is_call(&lines[n])).collect();
        if calls.is_empty() {
            return;
        }
        let (one, other) = (chance.pick(&calls), chance.pick(&calls));
        match chance.below(3) {
            0 => lines.swap(one, other),
            1 => {
                lines.remove(one);
            }
            _ => lines.insert(one, lines[other].clone()),
        }
    }
}

fn unlawful(chance: &mut Chance) -> Vec<u8> {
    if chance.percent(40) {
        let (_, examples) = chance.pick(&TOKENS);
        let (_, start, _) = chance.pick(&WORDS);
        return format!("{start}{}", chance.pick(examples)).into_bytes();
    }
    let (_, examples) = chance.pick(&LINES);
    chance.pick(examples).to_vec()
}

fn faulty(chance: &mut Chance, number: u64) -> Vec<u8> {
    let lines = run(chance, number);
    let mut lines: Vec<Vec<u8>> = lines.into_iter().map(String::into_bytes).collect();
    if chance.percent(60) {
        lines.truncate(chance.between(1, 40).min(lines.len() as u32) as usize);
    }
    for _ in 0..chance.between(1, 3) {
        fault(chance, &mut lines);
    }
    let mut text = lines.join(&b'\n');
    if chance.percent(88) {
        text.push(b'\n');
    }
    text
}

fn fault(chance: &mut Chance, lines: &mut Vec<Vec<u8>>) {
    let length = lines.len() as u32;
    let at = chance.below(length + 1) as usize;
    let blocks = |wanted: &[u8]| -> Vec<usize> {
        let those = lines
            .iter()
            .enumerate()
            .filter(|(_, line)| line.starts_with(wanted));
        those.map(|(n, _)| n).collect()
    };
    match chance.below(12) {
        0..=3 => lines.insert(at, unlawful(chance)),
        4 if at < lines.len() => lines[at] = unlawful(chance),
        5 => lines.insert(at, b"end".to_vec()),
        6 => lines.insert(at, b"repeat 2".to_vec()),
        7 | 8 => {
            let wanted: &[u8] = chance.pick(&[b"end", b"repeat"]);
            let found = blocks(wanted);
            if !found.is_empty() {
                lines.remove(chance.pick(&found));
            }
        }
        9 => {
            let levels = chance.between(1, 6) as usize;
            let end = chance.between(at as u32, length) as usize;
            lines.splice(end..end, vec![b"end".to_vec(); levels]);
            lines.splice(at..at, vec![b"repeat 1".to_vec(); levels]);
        }
        10 if lines.len() > 1 => lines.swap(0, 1),
        _ => lines.truncate(at.max(1)),
    }
}

const BYTES: &[u8] = b"\n\n\n   \r\t\0\x7f\x80\xff+-.,0123456789aekmstE";

fn change(chance: &mut Chance, bytes: &mut Vec<u8>) {
    for _ in 0..chance.between(1, 4) {
        let at = chance.below(bytes.len() as u32 + 1) as usize;
        let byte = chance.pick(BYTES);
        match chance.below(5) {
            0 if at < bytes.len() => bytes[at] = byte,
            1 if at < bytes.len() => {
                bytes.remove(at);
            }
            2 if at + 1 < bytes.len() => bytes.swap(at, at + 1),
            3 if at > 40 => {
                let part = bytes[at - chance.between(1, 40) as usize..at].to_vec();
                bytes.splice(at..at, part);
            }
            _ => bytes.insert(at, byte),
        }
    }
    if chance.percent(10) {
        bytes.truncate(chance.below(bytes.len() as u32 + 1) as usize);
    }
}

fn near_the_size(chance: &mut Chance, number: u64) -> Vec<u8> {
    let mut bytes = joined(&run(chance, number));
    let size = 16_384 - 3 + chance.below(7) as usize;
    if bytes.len() + 10 < size {
        bytes.extend(b"give 1");
        while bytes.len() + 1 < size {
            let id = chance.between(1, 9).to_string();
            let more = if bytes.len() + 2 < size {
                format!(" {id}")
            } else {
                id
            };
            bytes.extend(more.as_bytes());
        }
        bytes.push(b'\n');
    }
    if chance.percent(30) {
        change(chance, &mut bytes);
    }
    bytes
}

fn many_calls(chance: &mut Chance) -> Vec<u8> {
    if chance.percent(30) {
        let count = match chance.percent(4) {
            true => chance.between(99_000, 100_000),
            false => chance.between(100_001, 2_000_000),
        };
        return limits::calls(count.into());
    }
    loop {
        let mut pieces = Vec::new();
        for _ in 0..chance.below(3) {
            let line = chance.pick(&["take 1", "hire 1", "step 1", "give 1", "ask 1 1"]);
            pieces.push(Piece::Line(line.to_string()));
        }
        for _ in 0..chance.between(1, 4) {
            let most = chance.pick(&[2, 3, 10, 100, 1_000]);
            pieces = vec![Piece::Block(chance.between(1, most), pieces)];
            if chance.percent(30) {
                pieces.push(Piece::Line("step 1".to_string()));
            }
        }
        let calls = piece::calls(&pieces);
        if calls <= 5_000 || calls > 100_000 {
            pieces.insert(0, Piece::Line("make 1 1 1".to_string()));
            let mut bytes = joined(&piece::render(&pieces));
            if chance.percent(15) {
                bytes.extend(b"end\n");
            }
            return bytes;
        }
    }
}

fn noise(chance: &mut Chance) -> Vec<u8> {
    let length = chance.between(1, 300);
    let letters = b"make take hire fire post give ask step repeat end 0123456789\n\n\n";
    let start: &[u8] = chance.pick(&[b"", b"", b"make 1 1 1\n", b"make 1 1 1\nrepeat 2\n"]);
    let kind = chance.below(3);
    let mut bytes = start.to_vec();
    bytes.extend((0..length).map(|_| match kind {
        0 => chance.any() as u8,
        1 => chance.pick(letters),
        _ => chance.pick(BYTES),
    }));
    bytes
}

/// Lawful lines, few of them at fault, with repeats and ends as they come.
fn soup(chance: &mut Chance) -> Vec<u8> {
    let mut lines: Vec<Vec<u8>> = vec![b"make 2 2 3".to_vec()];
    let mut depth = 0u32;
    let fewer = chance.percent(60);
    for _ in 0..chance.below(60) {
        let line = match chance.below(100) {
            0..=24 if !(fewer && depth >= 4) => {
                depth += 1;
                let times = chance.pick(&[1, 1, 1, 2, 2, 3]);
                format!("repeat {times}").into_bytes()
            }
            25..=49 if !(fewer && depth == 0) => {
                depth = depth.saturating_sub(1);
                b"end".to_vec()
            }
            98.. => unlawful(chance),
            _ => {
                let (_, _, hole) = chance.pick(&answers::ARGUMENTS[3..]);
                hole.replace('_', chance.pick(&["0", "1", "1", "2"]))
                    .into_bytes()
            }
        };
        lines.push(line);
    }
    if chance.percent(80) {
        lines.extend((0..depth).map(|_| b"end".to_vec()));
    }
    let mut text = lines.join(&b'\n');
    text.push(b'\n');
    text
}
