//! Random schedules from a fresh pool. One worker posts, the others give up. In most of them the choice of who moves
//! is biased: a victim is held back where waiting makes its exchange fail again and again.

use super::build;
use crate::call::Call;
use crate::chance::Chance;
use crate::record::{Record, Worker, FREE, IDLE, IN_SERVICE, LARGEST};
use crate::stage::{Go, Stage};

struct Plan {
    poster: u32,
    victim: u32,
    /// Moves for which the victim may still be held back.
    patience: u32,
    /// False: nobody is held back.
    biased: bool,
}

const PATIENCE: u32 = 90;

pub fn run(stage: &mut Stage, chance: &mut Chance, number: usize) -> Go {
    stage.lend(vec![])?;
    let large = number % 14 == 13;
    let (w, g, b) = if large {
        (
            chance.between(5, 8),
            chance.between(5, 32),
            chance.between(20, 256),
        )
    } else {
        (
            chance.pick(&[2, 3, 4, 4, 4, 5]),
            chance.pick(&[1, 1, 1, 2, 2, 3, 4]),
            chance.between(3, 7),
        )
    };
    stage.call(Call::Make { w, g, b })?;
    let poster = chance.between(1, w);
    let mut plan = Plan {
        poster,
        victim: poster % w + 1,
        patience: PATIENCE,
        biased: number % 6 != 5,
    };
    if plan.biased {
        open(stage, chance, poster)?;
    }
    for _ in 0..chance.between(150, 300) {
        turn(stage, chance, &mut plan)?;
    }
    Ok(())
}

/// The poster hires a guard and buffers are taken, so that there is something to quarrel about.
fn open(stage: &mut Stage, chance: &mut Chance, poster: u32) -> Go {
    stage.call(Call::Hire { k: poster })?;
    let mut ids: Vec<u32> = (1..=stage.record.b).collect();
    chance.shuffle(&mut ids);
    ids.truncate(chance.between(2, 6) as usize);
    for id in ids {
        stage.call(Call::Take { id })?;
    }
    while stage.record.worker_mut(poster).label != IDLE {
        stage.call(Call::Advance { k: poster })?;
    }
    Ok(())
}

fn turn(stage: &mut Stage, chance: &mut Chance, plan: &mut Plan) -> Go {
    let free = stage.record.in_state(FREE);
    match chance.below(100) {
        0..=11 => stray(stage, chance),
        12..=15 => question(stage, chance),
        16..=28 if !free.is_empty() => {
            stage.call(Call::Take {
                id: chance.pick(&free),
            })?;
            Ok(())
        }
        _ => {
            let k = mover(stage, chance, plan);
            let worker = stage.record.worker_mut(k).clone();
            if worker.label == IDLE {
                begin(stage, chance, plan, k)
            } else {
                advance(stage, chance, k, &worker)
            }
        }
    }
}

/// Whether a worker is better held back: at 15 until a buffer of its set is posted, at 18 until the slot
/// has changed, at 25 until its buffer is posted again.
fn held_back(record: &Record, worker: &Worker) -> bool {
    let Some(guard) = record.guard(worker.i) else {
        return false;
    };
    match worker.label {
        15 => guard.employer != 0 && !worker.set.is_empty() && !worker.set.contains(&guard.posted),
        18 => guard.slot == worker.h,
        25 => guard.posted != worker.v,
        _ => false,
    }
}

/// Whether a rival is better held back: at 15 as the victim is, and at 18 until the victim stands there too.
fn rival_held_back(record: &Record, rival: &Worker, victim: &Worker) -> bool {
    match rival.label {
        15 => held_back(record, rival),
        18 => rival.i == victim.i && matches!(victim.label, 13 | 15 | 22 | 25),
        _ => false,
    }
}

fn mover(stage: &Stage, chance: &mut Chance, plan: &mut Plan) -> u32 {
    let record = &stage.record;
    let any = chance.between(1, record.w);
    let Some(victim) = record.worker(plan.victim) else {
        return any;
    };
    if !plan.biased {
        return any;
    }
    if victim.label == IDLE && any != plan.poster && chance.percent(10) {
        plan.victim = any;
    }
    let held = plan.patience > 0 && held_back(record, victim);
    if !held && chance.percent(45) {
        plan.patience = PATIENCE;
        return plan.victim;
    }
    plan.patience = plan.patience.saturating_sub(1);
    for _ in 0..6 {
        let k = match chance.percent(30) {
            true => plan.poster,
            false => chance.between(1, record.w),
        };
        let Some(worker) = record.worker(k) else {
            continue;
        };
        let stays = match k == plan.victim {
            true => held,
            false => rival_held_back(record, worker, victim) && chance.percent(85),
        };
        if !stays {
            return k;
        }
    }
    any
}

fn begin(stage: &mut Stage, chance: &mut Chance, plan: &Plan, k: u32) -> Go {
    let own: Vec<u32> = (0..stage.record.g)
        .filter(|&g| stage.record.guards[g as usize].employer == k)
        .collect();
    let vacant = (0..stage.record.g).any(|g| !stage.record.guards[g as usize].taken);
    let is_poster = k == plan.poster;
    let hires = match is_poster {
        true if own.is_empty() => 90,
        true => 25,
        false => 6,
    };
    if vacant && chance.percent(hires) || chance.percent(2) {
        stage.call(Call::Hire { k })?;
        return Ok(());
    }
    let posts = if is_poster { 92 } else { 30 };
    if !own.is_empty() && chance.percent(posts) {
        let g = chance.pick(&own);
        let posted = stage.record.guards[g as usize].posted;
        let fires = if posted == 0 { 9 } else { 2 };
        let call = if chance.percent(fires) {
            Call::Fire { k, g }
        } else {
            target(&stage.record, chance, plan, k, g)
        };
        stage.call(call)?;
        return Ok(());
    }
    let mut list = stage.record.in_state(IN_SERVICE);
    chance.shuffle(&mut list);
    let most = if list.len() > 8 { 40 } else { 3 };
    let length = if chance.percent(20) {
        0
    } else {
        chance.between(1, most)
    };
    list.truncate(length as usize);
    stage.lend(list)?;
    stage.call(Call::Give { k })?;
    Ok(())
}

/// A post that makes trouble: on what the victim waits for, on what a rival at the same guard waits for,
/// on any leaving buffer, or on one in service.
fn target(record: &Record, chance: &mut Chance, plan: &Plan, k: u32, g: u32) -> Call {
    let mut g = g;
    let mut ids: Vec<u32> = Vec::new();
    if let (Some(victim), true) = (record.worker(plan.victim), chance.percent(75)) {
        let i = victim.i;
        match victim.label {
            13 | 15 => ids.extend(&victim.set),
            18 => {
                let near = |rival: &&Worker| matches!(rival.label, 12..=15) && rival.i == i;
                for rival in record.workers.iter().filter(near) {
                    ids.extend(&rival.set);
                }
            }
            22 | 25 => ids.push(victim.v),
            _ => {}
        }
        if !ids.is_empty() && record.guard(i).is_some_and(|guard| guard.employer == k) {
            g = i;
        }
    }
    if ids.is_empty() {
        match chance.below(10) {
            0..=4 => {
                for worker in &record.workers {
                    ids.extend(&worker.set);
                }
            }
            5..=8 => ids = record.in_state(IN_SERVICE),
            _ => {}
        }
    }
    let id = if ids.is_empty() { 0 } else { chance.pick(&ids) };
    Call::Post { k, g, id }
}

fn advance(stage: &mut Stage, chance: &mut Chance, k: u32, worker: &Worker) -> Go {
    let size = worker.set.len() as u32;
    let lends = if worker.label == 32 { 70 } else { 4 };
    if chance.percent(lends) {
        let length = match chance.below(5) {
            0 => size.saturating_sub(1),
            1 => size + 1,
            2 => size + 2,
            _ => size,
        };
        let list = (0..length).map(|_| chance.below(9)).collect();
        stage.lend(list)?;
    }
    stage.call(Call::Advance { k })?;
    Ok(())
}

fn question(stage: &mut Stage, chance: &mut Chance) -> Go {
    let k = chance.between(1, stage.record.w);
    let id = chance.between(1, stage.record.b);
    let call = match chance.below(6) {
        0 => Call::Size { k },
        1 => Call::Leaving,
        2 => Call::Ask { k, id },
        3 => Call::Sound,
        _ => Call::Audit,
    };
    stage.call(call)?;
    Ok(())
}

/// A call with numbers taken from anywhere, the most of them refused.
fn stray(stage: &mut Stage, chance: &mut Chance) -> Go {
    let (w, g, b) = (stage.record.w, stage.record.g, stage.record.b);
    let k = match chance.below(8) {
        0 => 0,
        1 => build::above(chance, w, 1),
        _ => chance.between(1, w),
    };
    let guard = match chance.below(6) {
        0 => build::above(chance, g - 1, 0),
        _ => chance.below(g),
    };
    let id = match chance.below(6) {
        0 => 0,
        1 => build::above(chance, b, 1),
        _ => chance.between(1, b),
    };
    let call = match chance.below(9) {
        0 => Call::Hire { k },
        1 => Call::Fire { k, g: guard },
        2 => Call::Post { k, g: guard, id },
        3 | 4 => {
            let entries = [0, b + 1, LARGEST, id, id, id];
            let list = (0..chance.below(5))
                .map(|_| match chance.below(4) {
                    0 => chance.pick(&entries),
                    _ => chance.between(1, b),
                })
                .collect();
            stage.lend(list)?;
            Call::Give { k }
        }
        5 => Call::Take { id },
        6 => Call::Ask { k, id },
        7 => Call::Size { k },
        _ => Call::Advance { k },
    };
    stage.call(call)?;
    Ok(())
}
