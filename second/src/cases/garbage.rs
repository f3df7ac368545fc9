//! Garbage: any number in any field, in few entries or in all.

use super::build;
use crate::call::{Call, WORDS};
use crate::chance::Chance;
use crate::record::{Guard, Record, Slot, Worker, LARGEST};
use crate::stage::{Go, Stage};

pub fn run(stage: &mut Stage, chance: &mut Chance) -> Go {
    let record = record(chance);
    let word = chance.pick(&WORDS);
    let list = (0..chance.below(4)).map(|_| chance.any()).collect();
    stage.lay(record)?;
    stage.lend(list)?;
    stage.call(call(chance, word))?;
    Ok(())
}

/// A call of this word with any numbers.
pub fn call(chance: &mut Chance, word: &str) -> Call {
    let numbers = [0; 3].map(|_| number(chance, 8, 20));
    let mut calls = (0..=3).filter_map(|count| Call::read(word, &numbers[..count]));
    calls.next().unwrap_or(Call::Sound)
}

/// Up to the limit, or so many percent of the time anything.
fn number(chance: &mut Chance, limit: u32, wild: u32) -> u32 {
    if !chance.percent(wild) {
        return chance.below(limit + 1);
    }
    match chance.below(4) {
        0 => limit + 1,
        1 => chance.below(300),
        2 => LARGEST,
        _ => chance.any(),
    }
}

pub fn record(chance: &mut Chance) -> Record {
    let wild = chance.pick(&[2, 10, 100]);
    let filled = chance.pick(&[5, 20, 60]);
    let mut record = Record::fresh(
        chance.between(1, 8),
        chance.between(1, 32),
        chance.between(1, 20),
    );
    record.maxg = chance.below(record.g);
    if chance.percent(15) {
        let [w, g, b, maxg] = [0; 4].map(|_| number(chance, 8, 50));
        record = Record::fresh(w, g, b);
        record.maxg = maxg;
    }
    let (w, g, b) = (record.w.min(8), record.g.min(32), record.b.min(256));
    // Beyond the counts too, or rule 22 alone would speak.
    let (guards, buffers, workers) = match chance.percent(25) {
        true => (32, 256, 8),
        false => (g, b, w),
    };
    for n in 0..guards {
        if chance.percent(filled) {
            *record.guard_mut(n) = Guard {
                taken: chance.percent(50),
                employer: number(chance, w, wild),
                posted: number(chance, b, wild),
                slot: slot(chance, b, wild),
            };
        }
    }
    for id in 1..=buffers {
        if chance.percent(filled) {
            let state = number(chance, 2, wild / 2) as u8;
            record.set_state(id, state);
        }
    }
    for k in 1..=workers {
        if chance.percent(filled) {
            *record.worker_mut(k) = worker(chance, &record, wild);
        }
    }
    record
}

fn slot(chance: &mut Chance, b: u32, wild: u32) -> Slot {
    Slot {
        id: number(chance, b, wild),
        version: chance.any(),
    }
}

fn worker(chance: &mut Chance, record: &Record, wild: u32) -> Worker {
    let (g, b) = (record.g.min(32), record.b.min(256));
    let label = match chance.percent(wild) {
        true => chance.below(40),
        false => build::label(chance),
    };
    let members = chance.below(6);
    Worker {
        label,
        set: (0..members)
            .map(|_| number(chance, b, wild).clamp(1, 256))
            .collect(),
        i: number(chance, g, wild),
        v: number(chance, b, wild),
        h: slot(chance, b, wild),
        attempts: number(chance, 3, wild),
        max: number(chance, g, wild),
    }
}
