//! Versions at the limit: labels 18 and 28 with the slot's version the largest or one below.

use crate::call::Call;
use crate::chance::Chance;
use crate::record::{Record, Slot, LARGEST};
use crate::stage::{Go, Stage};

pub fn run(stage: &mut Stage, chance: &mut Chance) -> Go {
    let (w, g, b) = (
        chance.between(1, 2),
        chance.between(1, 2),
        chance.between(1, 4),
    );
    let mut record = Record::fresh(w, g, b);
    let k = chance.between(1, w);
    let i = chance.below(g);
    let slot = Slot {
        id: chance.below(b + 1),
        version: chance.pick(&[LARGEST, LARGEST - 1]),
    };
    let mut h = slot;
    match chance.below(6) {
        0 => h.version = chance.pick(&[LARGEST, LARGEST - 1, 0]),
        1 => h.id = chance.below(b + 1),
        _ => {}
    }
    record.guard_mut(i).slot = slot;
    let worker = record.worker_mut(k);
    worker.label = chance.pick(&[18, 28]);
    worker.i = i;
    worker.h = h;
    worker.v = chance.below(b + 1);
    if worker.v != 0 && chance.percent(60) {
        worker.set.insert(worker.v);
    }
    stage.lay(record)?;
    stage.lend(vec![])?;
    stage.call(Call::Advance { k })?;
    Ok(())
}
