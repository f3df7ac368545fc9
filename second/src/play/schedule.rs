//! A whole text, line after line: its lowest line at fault, whether it is too long, or the calls and repeats to be played.

use super::line::{self, Line};
use crate::call::Call;

pub const BYTES: usize = 16_384;
pub const CALLS: u64 = 100_000;
const DEPTH: usize = 4;

#[derive(Clone, Debug, PartialEq, Eq)]
pub enum Op {
    Call(Call, Vec<u32>),
    Open(u32),
    Close,
}

#[derive(Clone, Debug, PartialEq, Eq)]
pub enum Schedule {
    Bad(usize),
    TooLong,
    Ops(Vec<Op>),
}

/// A repeat whose end has not been met yet.
struct Opened {
    line: usize,
    times: u32,
    /// Where its op stands.
    at: usize,
    /// The calls of the block around it, up to here.
    outside: u64,
}

pub fn read(text: &[u8]) -> Schedule {
    if text.len() > BYTES {
        return Schedule::TooLong;
    }
    let mut faults = Vec::new();
    let mut opened: Vec<Opened> = Vec::new();
    let mut ops = Vec::new();
    let mut calls: u64 = 0;
    if text.is_empty() {
        faults.push(1);
    }
    for (n, whole) in text.split_inclusive(|&byte| byte == b'\n').enumerate() {
        let number = n + 1;
        // A line that isn't lawful neither opens nor closes a block, and one without its newline isn't lawful.
        let Some(said) = whole.strip_suffix(b"\n").and_then(line::read) else {
            faults.push(number);
            continue;
        };
        let is_make = matches!(said, Line::Call(Call::Make { .. }, _));
        if is_make != (number == 1) {
            faults.push(number);
        }
        match said {
            Line::Call(call, list) => {
                ops.push(Op::Call(call, list));
                calls += 1;
            }
            Line::Repeat(times) => {
                // One too deep opens all the same, so that its end is not taken for another's.
                if opened.len() >= DEPTH {
                    faults.push(number);
                }
                opened.push(Opened {
                    line: number,
                    times,
                    at: ops.len(),
                    outside: calls,
                });
                ops.push(Op::Open(times));
                calls = 0;
            }
            Line::End => match opened.pop() {
                None => faults.push(number),
                Some(repeat) => {
                    // A block without calls is left out, however often it is repeated.
                    match calls {
                        0 => ops.truncate(repeat.at),
                        _ => ops.push(Op::Close),
                    }
                    let inside = calls.saturating_mul(repeat.times.into());
                    calls = repeat.outside.saturating_add(inside);
                }
            },
        }
    }
    faults.extend(opened.iter().map(|repeat| repeat.line));
    match faults.into_iter().min() {
        Some(lowest) => Schedule::Bad(lowest),
        None if calls > CALLS => Schedule::TooLong,
        None => Schedule::Ops(ops),
    }
}
