//! Lengths of lists: the list that label 32 writes to, and give-up lists with their faults at every place.

use super::build;
use crate::call::Call;
use crate::chance::Chance;
use crate::record::{Record, FREE, IN_SERVICE, LARGEST, LEAVING};
use crate::stage::{Go, Stage};

pub fn run(stage: &mut Stage, chance: &mut Chance) -> Go {
    match chance.below(120) {
        0 => full_set(stage, chance),
        1 => long_give(stage, chance),
        2..=36 => lent(stage, chance),
        _ => give(stage, chance),
    }
}

fn filler(chance: &mut Chance, length: u32) -> Vec<u32> {
    (0..length)
        .map(|_| match chance.below(12) {
            0 => LARGEST,
            1 => 0,
            _ => chance.below(9),
        })
        .collect()
}

/// A length from 0 past n, with n-1, n and n+1 often.
fn length_around(chance: &mut Chance, n: u32) -> u32 {
    match chance.below(6) {
        0 => 0,
        1 => n.saturating_sub(1),
        2 => n,
        3 => n + 1,
        4 => n + chance.between(2, 6),
        _ => chance.below(n + 1),
    }
}

/// Worker k at 32 with this set, its members leaving.
fn at_32(chance: &mut Chance, record: &mut Record, k: u32, set: Vec<u32>) {
    for &id in &set {
        record.set_state(id, LEAVING);
    }
    let i = build::place(chance, 32, record.g);
    let worker = record.worker_mut(k);
    worker.label = 32;
    worker.i = i;
    worker.set = set.into_iter().collect();
}

fn lent(stage: &mut Stage, chance: &mut Chance) -> Go {
    let (w, g, b) = (
        chance.between(1, 2),
        chance.between(1, 2),
        chance.between(1, 9),
    );
    let mut record = Record::fresh(w, g, b);
    let k = chance.between(1, w);
    let mut ids: Vec<u32> = (1..=b).collect();
    chance.shuffle(&mut ids);
    ids.truncate(chance.below(b + 1) as usize);
    let size = ids.len() as u32;
    let odd = ids.first().copied();
    at_32(chance, &mut record, k, ids);
    if let (Some(id), true) = (odd, chance.percent(20)) {
        record.set_state(id, chance.pick(&[FREE, IN_SERVICE]));
    }
    stage.lay(record)?;
    let length = length_around(chance, size);
    stage.lend(filler(chance, length))?;
    stage.call(Call::Advance { k })?;
    Ok(())
}

/// All 256 buffers handed back at once, or one place too few.
fn full_set(stage: &mut Stage, chance: &mut Chance) -> Go {
    let mut record = Record::fresh(8, 32, 256);
    let k = chance.between(1, 8);
    at_32(chance, &mut record, k, (1..=256).collect());
    stage.lay(record)?;
    stage.lend(filler(chance, 255))?;
    stage.call(Call::Advance { k })?;
    let length = chance.pick(&[256, 257, 300]);
    stage.lend(filler(chance, length))?;
    stage.call(Call::Advance { k })?;
    stage.lend(vec![])
}

fn give(stage: &mut Stage, chance: &mut Chance) -> Go {
    let b = chance.pick(&[1, 2, 3, 4, 6, 9, 12, 14, 14]);
    let mut record = Record::fresh(chance.between(1, 2), 1, b);
    let k = chance.between(1, record.w);
    for id in 1..=b {
        record.set_state(id, IN_SERVICE);
    }
    let mut list: Vec<u32> = (1..=b).collect();
    chance.shuffle(&mut list);
    let length = if chance.percent(75) {
        chance.below(b + 1)
    } else {
        chance.between(b, b + 3)
    } as usize;
    list.truncate(length);
    while list.len() < length {
        list.push(chance.between(1, b));
    }
    if !list.is_empty() {
        for _ in 0..chance.pick(&[0, 1, 1, 2, 2, 3, 4]) {
            fault(chance, &mut record, &mut list);
        }
    }
    stage.lay(record)?;
    stage.lend(list)?;
    stage.call(Call::Give { k })?;
    Ok(())
}

/// One fault at the first, a middle or the last place.
fn fault(chance: &mut Chance, record: &mut Record, list: &mut [u32]) {
    let last = list.len() - 1;
    let at = match chance.below(8) {
        0 | 1 => 0,
        2 | 3 => last,
        4 => last.min(2),
        _ => chance.below(last as u32 + 1) as usize,
    };
    let good = list[at].min(record.b);
    match chance.below(6) {
        0 => list[at] = 0,
        1 => list[at] = build::above(chance, record.b, good),
        2 | 3 => list[at] = chance.pick(list),
        _ if record.state(list[at]).is_some() => {
            record.set_state(list[at], chance.pick(&[FREE, LEAVING]));
        }
        _ => {}
    }
}

/// A give-up of all 256 buffers, or a list longer than there are buffers.
fn long_give(stage: &mut Stage, chance: &mut Chance) -> Go {
    let mut record = Record::fresh(8, 32, 256);
    for id in 1..=256 {
        record.set_state(id, IN_SERVICE);
    }
    let mut list: Vec<u32> = (1..=256).collect();
    chance.shuffle(&mut list);
    match chance.below(4) {
        0 => {}
        1 => list.push(chance.between(1, 256)),
        2 => list.extend(vec![chance.pick(&[0, 257, LARGEST]); 344]),
        _ => fault(chance, &mut record, &mut list),
    }
    let k = chance.between(1, 8);
    stage.lay(record)?;
    stage.lend(list)?;
    stage.call(Call::Give { k })?;
    stage.lend(vec![])
}
