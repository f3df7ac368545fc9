//! Sizes at both ends of each range, and calls at the ends of workers, guards and ids.

use super::build;
use crate::call::{Answer, Call};
use crate::chance::Chance;
use crate::record::{Record, Slot, IN_SERVICE, LARGEST, LEAVING};
use crate::stage::{Go, Stage};

pub fn run(stage: &mut Stage, chance: &mut Chance) -> Go {
    stage.lend(vec![])?;
    if chance.percent(10) {
        return last_ones(stage, chance);
    }
    let w = size(chance, &[1, 1, 8], &[0, 9, LARGEST]);
    let g = size(chance, &[1, 2, 32], &[0, 33, LARGEST]);
    let b = size(chance, &[1, 3, 256], &[0, 257, LARGEST]);
    let made = stage.call(Call::Make { w, g, b })?;
    let calls = if made == Answer::Accepted {
        chance.between(1, 4)
    } else {
        1
    };
    if made == Answer::Accepted && chance.percent(40) {
        settle(stage, chance)?;
    }
    for _ in 0..calls {
        at_the_ends(stage, chance)?;
    }
    Ok(())
}

fn size(chance: &mut Chance, good: &[u32], bad: &[u32]) -> u32 {
    if chance.percent(85) {
        chance.pick(good)
    } else {
        chance.pick(bad)
    }
}

/// The last guard with the last worker and the last buffer in service, so that calls at the ends are accepted too.
fn settle(stage: &mut Stage, chance: &mut Chance) -> Go {
    let mut record = stage.record.clone();
    let (w, g, b) = (record.w, record.g, record.b);
    record.maxg = g - 1;
    record.set_state(b, IN_SERVICE);
    let guard = record.guard_mut(g - 1);
    guard.taken = true;
    guard.employer = w;
    if chance.percent(30) {
        guard.posted = b;
    }
    if chance.percent(30) {
        let label = chance.pick(&[2, 4, 12, 13, 15, 28, 31]);
        let v = chance.pick(&[0, b]);
        let worker = record.worker_mut(w);
        worker.label = label;
        worker.i = g - 1;
        worker.v = v;
    }
    stage.lay(record)
}

/// The last worker hands the last two buffers back, and the last guard's slot holds the one before them.
fn last_ones(stage: &mut Stage, chance: &mut Chance) -> Go {
    let mut record = Record::fresh(8, 32, 256);
    for id in 254..=256 {
        record.set_state(id, LEAVING);
    }
    record.guard_mut(31).slot = Slot {
        id: 254,
        version: 1,
    };
    let worker = record.worker_mut(8);
    worker.label = 32;
    worker.set.extend([255, 256]);
    stage.lay(record)?;
    stage.lend(vec![7; chance.between(1, 3) as usize])?;
    stage.call(Call::Size { k: 8 })?;
    stage.call(Call::Audit)?;
    stage.call(Call::Advance { k: 8 })?;
    Ok(())
}

fn worker(chance: &mut Chance, w: u32) -> u32 {
    match chance.below(10) {
        0 => 0,
        1 => build::above(chance, w, 1),
        2..=4 => 1,
        _ => w,
    }
}

fn guard(chance: &mut Chance, g: u32) -> u32 {
    match chance.below(8) {
        0 => g,
        1 => LARGEST,
        2 | 3 => 0,
        _ => g.saturating_sub(1),
    }
}

fn id(chance: &mut Chance, b: u32) -> u32 {
    match chance.below(8) {
        0 => 0,
        1 => b.saturating_add(1),
        2 => build::above(chance, b.min(256), 1),
        3 | 4 => 1,
        _ => b,
    }
}

fn at_the_ends(stage: &mut Stage, chance: &mut Chance) -> Go {
    let (w, g, b) = (stage.record.w, stage.record.g, stage.record.b);
    let k = worker(chance, w.min(8));
    let call = match chance.below(16) {
        0 => Call::Hire { k },
        1 | 2 => Call::Fire {
            k,
            g: guard(chance, g),
        },
        3 | 4 => Call::Post {
            k,
            g: guard(chance, g),
            id: id(chance, b),
        },
        5 | 6 => {
            let list = (0..chance.below(3)).map(|_| id(chance, b)).collect();
            stage.lend(list)?;
            Call::Give { k }
        }
        7 | 8 => Call::Take { id: id(chance, b) },
        9 => Call::Ask {
            k,
            id: id(chance, b),
        },
        10 | 11 => Call::Advance { k },
        12 => Call::Size { k },
        13 => Call::Leaving,
        14 => Call::Sound,
        _ => Call::Audit,
    };
    stage.call(call)?;
    Ok(())
}
