//! Damage to one field of a sound record, against one rule of soundness.

use super::build;
use crate::chance::Chance;
use crate::record::{Record, LABELS};
use crate::sound::{Part, Rule, NOT_12_OR_32, NO_LABELS};

/// A record with room for the damage; now and then a pool as large as that allows.
pub fn base(chance: &mut Chance, rules: &[Rule]) -> Record {
    if !chance.percent(15) {
        return build::small(chance);
    }
    let beyond = rules.iter().any(|rule| rule.asked().0 == 22);
    let (w, g) = if beyond { (7, 31) } else { (8, 32) };
    let below_256 = beyond || rules.contains(&Rule::Member);
    build::wide(chance, w, g, if below_256 { 255 } else { 256 })
}

/// Where the rule speaks of many labels the number walks through them.
pub fn damage(chance: &mut Chance, record: &mut Record, rule: Rule, number: usize) {
    match rule.asked() {
        (_, Part::Pool) => counts(chance, record, rule),
        (_, Part::Buffer) => state(chance, record, rule),
        (22, Part::Guard) => outer_guard(chance, record, rule),
        (22, Part::Worker) => outer_worker(chance, record, rule),
        (_, Part::Guard) => inner_guard(chance, record, rule),
        (_, Part::Worker) => inner_worker(chance, record, rule, number),
    }
}

fn counts(chance: &mut Chance, record: &mut Record, rule: Rule) {
    let (w, g, b) = (record.w, record.g, record.b);
    match rule {
        // Nothing else may stand in the way of a count of 0, so what it counts is made zero as well.
        Rule::WLow => {
            let empty = Record::fresh(0, g, b);
            record.workers = empty.workers;
            for guard in &mut record.guards {
                guard.employer = 0;
            }
            record.w = 0;
        }
        Rule::WHigh => record.w = build::above(chance, 8, w),
        Rule::GLow => record.g = 0,
        Rule::GHigh => record.g = build::above(chance, 32, g),
        Rule::BLow => {
            record.states = Record::zero().states;
            for guard in &mut record.guards {
                guard.posted = 0;
                guard.slot.id = 0;
            }
            for worker in &mut record.workers {
                worker.v = 0;
                worker.h.id = 0;
                worker.set.clear();
            }
            record.b = 0;
        }
        Rule::BHigh => record.b = build::above(chance, 256, b),
        _ => record.maxg = build::above(chance, g - 1, record.maxg),
    }
}

/// A number that is not zero, above the limit as often as not.
fn some(chance: &mut Chance, limit: u32) -> u32 {
    let good = chance.between(1, limit);
    match chance.percent(50) {
        true => good,
        false => build::above(chance, limit, good),
    }
}

/// An entry of a range, the ends often.
fn one_of(chance: &mut Chance, lowest: u32, highest: u32) -> u32 {
    match chance.below(3) {
        0 => lowest,
        1 => highest,
        _ => chance.between(lowest, highest),
    }
}

fn outer_guard(chance: &mut Chance, record: &mut Record, rule: Rule) {
    let n = one_of(chance, record.g, 31);
    let (w, b) = (record.w, record.b);
    let guard = record.guard_mut(n);
    match rule {
        Rule::BeyondTaken => guard.taken = true,
        Rule::BeyondEmployer => guard.employer = some(chance, w),
        Rule::BeyondPosted => guard.posted = some(chance, b),
        Rule::BeyondSlotId => guard.slot.id = some(chance, b),
        _ => guard.slot.version = build::version(chance).max(1),
    }
}

fn outer_worker(chance: &mut Chance, record: &mut Record, rule: Rule) {
    let k = one_of(chance, record.w + 1, 8);
    let (g, b) = (record.g, record.b);
    let worker = record.worker_mut(k);
    match rule {
        Rule::BeyondLabel if chance.percent(50) => worker.label = chance.pick(&NO_LABELS),
        Rule::BeyondLabel => worker.label = chance.pick(&LABELS),
        Rule::BeyondSet => worker.set = [one_of(chance, 1, 256)].into(),
        Rule::BeyondI => worker.i = some(chance, g),
        Rule::BeyondV => worker.v = some(chance, b),
        Rule::BeyondHId => worker.h.id = some(chance, b),
        Rule::BeyondHVersion => worker.h.version = build::version(chance).max(1),
        Rule::BeyondAttempts => worker.attempts = some(chance, 3),
        _ => worker.max = some(chance, g),
    }
}

fn state(chance: &mut Chance, record: &mut Record, rule: Rule) {
    if rule == Rule::BeyondState {
        let id = one_of(chance, record.b + 1, 256);
        record.set_state(id, chance.pick(&[1, 2, 3, 255]));
    } else {
        let id = one_of(chance, 1, record.b);
        record.set_state(id, chance.pick(&[3, 3, 4, 128, 254, 255]));
    }
}

fn inner_guard(chance: &mut Chance, record: &mut Record, rule: Rule) {
    let n = one_of(chance, 0, record.g - 1);
    let (w, b) = (record.w, record.b);
    let guard = record.guard_mut(n);
    match rule {
        Rule::Employer => guard.employer = build::above(chance, w, guard.employer),
        Rule::Posted => guard.posted = build::above(chance, b, guard.posted),
        _ => guard.slot.id = build::above(chance, b, guard.slot.id),
    }
}

fn inner_worker(chance: &mut Chance, record: &mut Record, rule: Rule, number: usize) {
    let k = one_of(chance, 1, record.w);
    let (g, b) = (record.g, record.b);
    let mut worker = record.worker_mut(k).clone();
    match rule {
        Rule::Label => {
            worker.i = worker.i.min(g - 1);
            let label = worker.label;
            worker.label = match chance.below(5) {
                0 => build::above(chance, 33, label),
                _ => NO_LABELS[number % NO_LABELS.len()],
            };
        }
        Rule::V => worker.v = build::above(chance, b, worker.v),
        Rule::HId => worker.h.id = build::above(chance, b, worker.h.id),
        Rule::Member => {
            worker.set.insert(one_of(chance, b + 1, 256));
        }
        Rule::I => {
            worker.label = NOT_12_OR_32[number % NOT_12_OR_32.len()];
            worker.attempts = worker.attempts.min(2);
            worker.i = match chance.percent(70) {
                true => g,
                false => build::above(chance, g - 1, worker.i.min(g - 1)),
            };
        }
        Rule::IAt12 | Rule::IAt32 => {
            worker.label = if rule == Rule::IAt12 { 12 } else { 32 };
            worker.i = build::above(chance, g, worker.i.min(g - 1));
        }
        Rule::Max => worker.max = build::above(chance, g - 1, worker.max),
        Rule::Attempts => worker.attempts = build::above(chance, 3, worker.attempts),
        _ => {
            worker.label = match rule {
                Rule::AttemptsAt15 => 15,
                Rule::AttemptsAt18 => 18,
                Rule::AttemptsAt22 => 22,
                _ => 25,
            };
            worker.i = worker.i.min(g - 1);
            worker.attempts = 3;
        }
    }
    *record.worker_mut(k) = worker;
}
