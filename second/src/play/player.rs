//! The calls of a schedule, made one after the other, and the line that each prints.

use super::schedule::Op;
use crate::call::{Answer, Call};
use crate::calls;
use crate::record::Record;
use std::fmt::Write;

/// What each step lends.
const LENT: [u32; 256] = [0; 256];

struct Round {
    /// The op after the opening one.
    start: usize,
    left: u32,
}

pub fn play(ops: &[Op]) -> String {
    let mut record = Record::zero();
    let mut rounds: Vec<Round> = Vec::new();
    let mut out = String::new();
    let mut number = 0;
    let mut next = 0;
    while let Some(op) = ops.get(next) {
        next += 1;
        match op {
            Op::Call(call, list) => {
                number += 1;
                let list: &[u32] = match call {
                    Call::Advance { .. } => &LENT,
                    _ => list,
                };
                let outcome = calls::run(&record, list, call);
                let _ = write!(out, "{number} ");
                answer(&mut out, outcome.answer, &outcome.list);
                out.push('\n');
                record = outcome.record;
            }
            Op::Open(times) => rounds.push(Round {
                start: next,
                left: times - 1,
            }),
            Op::Close => match rounds.last_mut() {
                Some(round) if round.left > 0 => {
                    round.left -= 1;
                    next = round.start;
                }
                _ => {
                    rounds.pop();
                }
            },
        }
    }
    out
}

fn answer(out: &mut String, answer: Answer, list: &[u32]) {
    let _ = match answer {
        Answer::Accepted => write!(out, "ok"),
        Answer::Yes => write!(out, "yes"),
        Answer::No => write!(out, "no"),
        Answer::At(label) => write!(out, "at {label}"),
        Answer::Guard(guard) => write!(out, "guard {guard}"),
        Answer::NoneFound => write!(out, "none"),
        Answer::Fired => write!(out, "fired"),
        Answer::Posted => write!(out, "posted"),
        Answer::Back(count) => {
            out.push_str("back");
            let ids = list.iter().take(count as usize);
            ids.fold(Ok(()), |done, id| done.and(write!(out, " {id}")))
        }
        Answer::Refused(number, place) => write!(out, "refused {number} {place}"),
        Answer::Count(_) | Answer::Clear | Answer::Fault(..) => {
            unreachable!("an answer to a question that no schedule asks")
        }
    };
}
