//! Arranges a sound record so that a wanted call is accepted on it, or meets one refusal or several at once.

use super::build;
use crate::call::Call;
use crate::chance::Chance;
use crate::record::{Record, FREE, IDLE, IN_SERVICE, LEAVING};

/// How often, in percent, each single condition of the call is made to fail.
#[derive(Clone, Copy)]
pub struct Faults(pub u32);

impl Faults {
    pub fn some(chance: &mut Chance) -> Faults {
        Faults(chance.pick(&[0, 12, 35, 60]))
    }
}

/// The call of this word with its list. The record stays sound.
pub fn call(chance: &mut Chance, record: &mut Record, word: &str, f: Faults) -> (Call, Vec<u32>) {
    let list = short_list(chance, record);
    let here = chance.between(1, record.w);
    // The conditions that come first fail less often, or they would hide the later ones.
    let half = Faults(f.0 / 2);
    let call = match word {
        "hire" => Call::Hire {
            k: idle(chance, record, here, f),
        },
        "fire" => {
            let k = idle(chance, record, here, half);
            let g = guard(chance, record, k, f);
            if let Some(posted) = record.guard(g).map(|guard| guard.posted) {
                let wanted = chance.percent(f.0);
                if wanted && posted == 0 {
                    record.guard_mut(g).posted = chance.between(1, record.b);
                } else if !wanted {
                    record.guard_mut(g).posted = 0;
                }
            }
            Call::Fire { k, g }
        }
        "post" => {
            let k = idle(chance, record, here, half);
            let g = guard(chance, record, k, f);
            let mut id = build::id(chance, record.b);
            if chance.percent(f.0) {
                id = build::above(chance, record.b, id);
            }
            Call::Post { k, g, id }
        }
        "give" => {
            let k = idle(chance, record, here, f);
            let list = give_list(chance, record, f);
            return (Call::Give { k }, list);
        }
        "take" => {
            let id = real_id(chance, record, f);
            if record.state(id).is_some() && !chance.percent(f.0) {
                record.set_state(id, FREE);
            }
            Call::Take { id }
        }
        "ask" => Call::Ask {
            k: idle(chance, record, here, half),
            id: real_id(chance, record, f),
        },
        "advance" => return advance(chance, record, here, f),
        "size" => Call::Size {
            k: worker(chance, record, here, f),
        },
        "leaving" => Call::Leaving,
        "sound" => Call::Sound,
        _ => {
            if chance.percent(80) {
                clear(record);
            }
            if chance.percent(60) {
                misplace(chance, record);
            }
            Call::Audit
        }
    };
    (call, list)
}

fn short_list(chance: &mut Chance, record: &Record) -> Vec<u32> {
    let length = chance.below(4);
    (0..length)
        .map(|_| build::id(chance, record.b + 1))
        .collect()
}

/// This worker, or one that the pool hasn't.
fn worker(chance: &mut Chance, record: &Record, here: u32, f: Faults) -> u32 {
    if !chance.percent(f.0) {
        here
    } else if chance.percent(30) {
        0
    } else {
        build::above(chance, record.w, here)
    }
}

fn idle(chance: &mut Chance, record: &mut Record, here: u32, f: Faults) -> u32 {
    let busy = chance.percent(f.0);
    let last = record.g - 1;
    let worker_now = record.worker_mut(here);
    if busy && worker_now.label == IDLE {
        let label = build::label(chance);
        let filled = build::worker(chance, record, label);
        *record.worker_mut(here) = filled;
    } else if !busy {
        worker_now.label = IDLE;
        worker_now.i = worker_now.i.min(last);
    }
    worker(chance, record, here, f)
}

/// A guard of worker k, another's, nobody's, or none at all.
fn guard(chance: &mut Chance, record: &mut Record, k: u32, f: Faults) -> u32 {
    let g = build::place(chance, IDLE, record.g);
    if chance.percent(f.0 / 2) {
        return build::above(chance, record.g - 1, g);
    }
    let employer = match chance.percent(f.0) {
        false => k,
        true if chance.percent(40) => 0,
        true => match chance.between(1, record.w) {
            other if other == k => k % record.w + 1,
            other => other,
        },
    };
    if employer <= record.w {
        record.guard_mut(g).employer = employer;
    }
    g
}

fn real_id(chance: &mut Chance, record: &Record, f: Faults) -> u32 {
    if !chance.percent(f.0) {
        chance.between(1, record.b)
    } else if chance.percent(40) {
        0
    } else {
        let good = chance.between(1, record.b);
        build::above(chance, record.b, good)
    }
}

fn give_list(chance: &mut Chance, record: &mut Record, f: Faults) -> Vec<u32> {
    let mut list: Vec<u32> = build::set(chance, record.b).into_iter().collect();
    for &id in &list {
        if !chance.percent(f.0 / 2) {
            record.set_state(id, IN_SERVICE);
        }
    }
    chance.shuffle(&mut list);
    while chance.percent(f.0) && list.len() < 9 {
        let fault = match chance.below(3) {
            0 if !list.is_empty() => chance.pick(&list),
            1 => chance.between(1, record.b),
            _ => real_id(chance, record, Faults(100)),
        };
        let at = chance.below(list.len() as u32 + 1) as usize;
        list.insert(at, fault);
    }
    list
}

/// So that the audit is clear: every leaving buffer in one place, the others in none.
fn clear(record: &mut Record) {
    for id in 1..=record.b {
        let mut found = 0;
        for guard in &mut record.guards {
            if guard.slot.id == id {
                found += 1;
                if found > 1 {
                    guard.slot.id = 0;
                }
            }
        }
        for worker in &mut record.workers {
            if worker.set.contains(&id) {
                found += 1;
                if found > 1 {
                    worker.set.remove(&id);
                }
            }
        }
        let state = if found > 0 { LEAVING } else { FREE };
        if found > 0 || record.state(id) == Some(LEAVING) {
            record.set_state(id, state);
        }
    }
}

/// One buffer of any state, in from 0 to 3 places.
fn misplace(chance: &mut Chance, record: &mut Record) {
    let id = chance.between(1, record.b);
    record.set_state(id, chance.below(3) as u8);
    for guard in &mut record.guards {
        if guard.slot.id == id {
            guard.slot.id = 0;
        }
    }
    for worker in &mut record.workers {
        worker.set.remove(&id);
    }
    for _ in 0..chance.below(4) {
        if chance.percent(50) {
            let g = chance.below(record.g);
            record.guard_mut(g).slot.id = id;
        } else {
            let k = chance.between(1, record.w);
            record.worker_mut(k).set.insert(id);
        }
    }
}

/// The labels with their branches, the ones with more branches more often.
const STEPS: [u32; 32] = [
    2, 2, 2, 4, 4, 5, 5, 6, 7, 8, 9, 10, 12, 12, 13, 15, 15, 15, 18, 18, 18, 18, 22, 22, 25, 25,
    25, 28, 28, 28, 31, 32,
];

fn advance(chance: &mut Chance, record: &mut Record, here: u32, f: Faults) -> (Call, Vec<u32>) {
    let mut list = short_list(chance, record);
    let refused = chance.percent(f.0);
    let label = if refused {
        chance.pick(&[IDLE, IDLE, 18, 28, 32, 32, 32])
    } else {
        chance.pick(&STEPS)
    };
    at_label(chance, record, here, label);
    if label == 32 {
        let leaving = !refused || chance.percent(50);
        let set = record.worker_mut(here).set.clone();
        for &id in &set {
            if leaving {
                record.set_state(id, LEAVING);
            }
        }
        let short = refused && (leaving || chance.percent(50));
        let length = match (short, set.len() as u32) {
            (true, n) if n > 0 => chance.below(n),
            (_, n) => n + chance.below(3),
        };
        list = (0..length).map(|_| build::id(chance, record.b)).collect();
    }
    if refused && (label == 18 || label == 28) {
        versions_full(record, here);
    }
    let k = if refused && label == IDLE && chance.percent(50) {
        worker(chance, record, here, Faults(100))
    } else {
        here
    };
    (Call::Advance { k }, list)
}

/// Slot and register h alike with the largest version, so that a store is refused.
fn versions_full(record: &mut Record, k: u32) {
    let i = record.worker_mut(k).i;
    let slot = &mut record.guard_mut(i).slot;
    slot.version = u32::MAX;
    if slot.id == 0 {
        slot.id = 1;
    }
    let slot = *slot;
    let worker = record.worker_mut(k);
    worker.h = slot;
    if worker.v == slot.id {
        worker.v = 0;
    }
}

/// Worker k at this label, with what decides its branches made equal or nearly so about as often as not.
pub fn at_label(chance: &mut Chance, record: &mut Record, k: u32, label: u32) {
    let mut worker = build::worker(chance, record, label);
    let b = record.b;
    if worker.i < record.g {
        let maxg = record.maxg;
        let guard = record.guard_mut(worker.i);
        match label {
            2 => guard.taken = chance.percent(60),
            5 if chance.percent(50) => worker.max = maxg,
            15 => match chance.below(4) {
                0 => guard.posted = 0,
                1 | 2 => {
                    guard.posted = chance.between(1, b);
                    worker.set.insert(guard.posted);
                }
                _ => {}
            },
            18 | 28 => {
                if chance.percent(75) {
                    guard.slot.id = build::id(chance, b);
                }
                worker.h = guard.slot;
                match chance.below(10) {
                    0 => worker.h.id = build::id(chance, b),
                    1 | 2 => worker.h.version = worker.h.version.wrapping_add(1),
                    3 => worker.h = build::slot(chance, b),
                    _ => {}
                }
                match chance.below(8) {
                    0 => worker.v = 0,
                    1 => worker.v = worker.h.id,
                    2 | 3 if worker.v != 0 => {
                        worker.set.insert(worker.v);
                    }
                    _ => {}
                }
            }
            25 => {
                if chance.percent(60) {
                    guard.posted = worker.v;
                }
                if chance.percent(30) {
                    worker.h.id = 0;
                }
            }
            _ => {}
        }
    }
    *record.worker_mut(k) = worker;
}
