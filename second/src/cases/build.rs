//! Random sound records, and random values around the limits.

use crate::chance::Chance;
use crate::record::{Guard, Record, Slot, Worker, IDLE, LABELS, LARGEST, LEAVING};
use std::collections::BTreeSet;

pub fn version(chance: &mut Chance) -> u32 {
    match chance.below(12) {
        0 => LARGEST,
        1 => LARGEST - 1,
        2 => chance.any(),
        _ => chance.below(4),
    }
}

/// A number above the limit: just above, the largest, or one that only a narrower number would take for a good one.
pub fn above(chance: &mut Chance, limit: u32, good: u32) -> u32 {
    let choices = [limit + 1, limit + 1, LARGEST, 256 + good, 65_536 + good];
    loop {
        let n = chance.pick(&choices);
        if n > limit {
            return n;
        }
    }
}

/// An id that may be stored: 0 to B, with B itself often.
pub fn id(chance: &mut Chance, b: u32) -> u32 {
    if chance.percent(15) {
        b
    } else {
        chance.below(b + 1)
    }
}

pub fn slot(chance: &mut Chance, b: u32) -> Slot {
    Slot {
        id: id(chance, b),
        version: version(chance),
    }
}

pub fn set(chance: &mut Chance, b: u32) -> BTreeSet<u32> {
    let wanted = chance.below(b.min(5) + 1);
    (0..wanted).map(|_| chance.between(1, b)).collect()
}

/// The largest attempts that a label allows.
pub fn most_attempts(label: u32) -> u32 {
    match label {
        15 | 18 | 22 | 25 => 2,
        _ => 3,
    }
}

/// A register i that the label allows: G itself only at 12 and 32.
pub fn place(chance: &mut Chance, label: u32, g: u32) -> u32 {
    match label {
        12 | 32 if chance.percent(30) => g,
        _ if chance.percent(25) => g - 1,
        _ => chance.below(g),
    }
}

pub fn worker(chance: &mut Chance, record: &Record, label: u32) -> Worker {
    Worker {
        label,
        set: set(chance, record.b),
        i: place(chance, label, record.g),
        v: id(chance, record.b),
        h: slot(chance, record.b),
        attempts: chance.below(most_attempts(label) + 1),
        max: chance.below(record.g),
    }
}

pub fn label(chance: &mut Chance) -> u32 {
    if chance.percent(20) {
        IDLE
    } else {
        chance.pick(&LABELS)
    }
}

fn guard(chance: &mut Chance, record: &Record) -> Guard {
    Guard {
        taken: chance.percent(50),
        employer: chance.below(record.w + 1),
        posted: id(chance, record.b),
        slot: slot(chance, record.b),
    }
}

/// A small sound record that need not be reachable. Its text is kept short: much of it is zero.
pub fn small(chance: &mut Chance) -> Record {
    let (w, g, b) = (
        chance.between(1, 3),
        chance.between(1, 3),
        chance.between(1, 5),
    );
    filled(chance, Record::fresh(w, g, b), 50)
}

pub fn large(chance: &mut Chance) -> Record {
    let w = chance.pick(&[1, 5, 8]);
    let g = chance.pick(&[1, 9, 31, 32]);
    let b = chance.pick(&[1, 64, 65, 128, 255, 256]);
    filled(chance, Record::fresh(w, g, b), 15)
}

/// A pool of these sizes with little in it.
pub fn wide(chance: &mut Chance, w: u32, g: u32, b: u32) -> Record {
    filled(chance, Record::fresh(w, g, b), 8)
}

pub fn sound(chance: &mut Chance) -> Record {
    if chance.percent(2) {
        large(chance)
    } else {
        small(chance)
    }
}

fn filled(chance: &mut Chance, mut record: Record, percent: u32) -> Record {
    record.maxg = chance.below(record.g);
    for n in 0..record.g {
        if chance.percent(percent) {
            *record.guard_mut(n) = guard(chance, &record);
        }
    }
    for k in 1..=record.w {
        if chance.percent(percent) {
            let label = label(chance);
            *record.worker_mut(k) = worker(chance, &record, label);
        }
    }
    let last = chance.below(record.b + 1);
    for id in 1..=last {
        record.set_state(id, chance.below(3) as u8);
    }
    record
}

/// Every number at the largest that soundness allows; only one worker's set is full, for the length of the text.
pub fn largest() -> Record {
    let mut record = Record::fresh(8, 32, 256);
    record.maxg = 31;
    let slot = Slot {
        id: 256,
        version: LARGEST,
    };
    for n in 0..32 {
        *record.guard_mut(n) = Guard {
            taken: true,
            employer: 8,
            posted: 256,
            slot,
        };
    }
    for k in 1..=8 {
        *record.worker_mut(k) = Worker {
            label: if k % 2 == 0 { 32 } else { 31 },
            set: BTreeSet::from([256]),
            i: if k % 2 == 0 { 32 } else { 31 },
            v: 256,
            h: slot,
            attempts: 3,
            max: 31,
        };
    }
    record.worker_mut(8).set = (1..=256).collect();
    for id in 1..=256 {
        record.set_state(id, LEAVING);
    }
    record
}
