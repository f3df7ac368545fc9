//! Records with every field at a limit of its type. The fields that a rule up to a chosen one reads are spared, so that each rule gets its turn.

use super::garbage;
use crate::call::WORDS;
use crate::chance::Chance;
use crate::record::{Guard, Record, Slot, Worker, LARGEST};
use crate::stage::{Go, Stage};

pub fn run(stage: &mut Stage, chance: &mut Chance, number: usize) -> Go {
    let rule = 21 + number as u32 % 5;
    let high = chance.pick(&[30, 60, 100]);
    let record = record(chance, rule, high);
    let word = chance.pick(&WORDS);
    stage.lay(record)?;
    stage.lend(vec![])?;
    stage.call(garbage::call(chance, word))?;
    Ok(())
}

/// The rules before this one are kept. Of the other fields so many percent are at their type's high end, the rest at the low one.
pub fn record(chance: &mut Chance, rule: u32, high: u32) -> Record {
    let mut limit = |spared: bool| match !spared && chance.percent(high) {
        true => LARGEST,
        false => 0,
    };
    let mut record = Record::fresh(limit(false), limit(false), limit(false));
    record.maxg = limit(false);
    if rule > 21 {
        // Beyond the largest counts there is no entry.
        let top = rule > 22 && limit(false) != 0;
        let (w, g, b) = if top { (8, 32, 256) } else { (1, 1, 1) };
        record = Record::fresh(w, g, b);
        record.maxg = g - 1;
    }
    let (w, g, b) = match rule > 22 {
        true => (record.w, record.g, record.b),
        false => (8, 32, 256),
    };
    for n in 0..g {
        *record.guard_mut(n) = Guard {
            taken: limit(false) != 0,
            employer: limit(rule > 23),
            posted: limit(rule > 24),
            slot: Slot {
                id: limit(rule > 24),
                version: limit(false),
            },
        };
    }
    for id in 1..=b {
        record.set_state(id, limit(rule > 23) as u8);
    }
    let members = if rule > 24 { b } else { 256 };
    for k in 1..=w {
        let full = limit(false) != 0;
        *record.worker_mut(k) = Worker {
            label: limit(rule > 23),
            set: (1..=members).filter(|_| full).collect(),
            i: limit(false),
            v: limit(rule > 24),
            h: Slot {
                id: limit(rule > 24),
                version: limit(false),
            },
            attempts: limit(false),
            max: limit(false),
        };
    }
    record
}
