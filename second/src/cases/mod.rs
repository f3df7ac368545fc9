//! The kinds of cases, and the order in which they come.

mod aims;
mod arrange;
mod build;
mod damage;
mod damaged;
mod ends;
mod garbage;
mod lengths;
mod limits;
mod long_lists;
mod schedules;
mod several;
mod unreached;
mod versions;

#[cfg(test)]
pub use {
    garbage::call as any_call, garbage::record as any_record, limits::record as at_the_limits,
};

use crate::chance::Chance;
use crate::stage::{Go, Stage, Stop, Way};

#[derive(Clone, Copy, Debug, PartialEq, Eq)]
pub enum Kind {
    Schedules,
    Unreached,
    Damaged,
    Several,
    Limits,
    Garbage,
    Lengths,
    Ends,
    Versions,
    LongLists,
}

pub const KINDS: [Kind; 10] = [
    Kind::Schedules,
    Kind::Unreached,
    Kind::Damaged,
    Kind::Several,
    Kind::Limits,
    Kind::Garbage,
    Kind::Lengths,
    Kind::Ends,
    Kind::Versions,
    Kind::LongLists,
];

/// The kinds whose records keep to nothing but the types of their fields.
pub const ANY_RECORD: [Kind; 2] = [Kind::Limits, Kind::Garbage];

impl Kind {
    pub fn name(self) -> &'static str {
        match self {
            Kind::Schedules => "schedules",
            Kind::Unreached => "sound records out of reach",
            Kind::Damaged => "records with one field damaged",
            Kind::Several => "records with two faults",
            Kind::Limits => "fields at the limits of their types",
            Kind::Garbage => "garbage",
            Kind::Lengths => "lengths of lists",
            Kind::Ends => "ends of the sizes",
            Kind::Versions => "versions at the limit",
            Kind::LongLists => "long give-up lists",
        }
    }
}

const ROUND: [Kind; 27] = [
    Kind::Unreached,
    Kind::Damaged,
    Kind::Ends,
    Kind::Unreached,
    Kind::Several,
    Kind::Lengths,
    Kind::Damaged,
    Kind::Unreached,
    Kind::Versions,
    Kind::Unreached,
    Kind::Damaged,
    Kind::Several,
    Kind::Unreached,
    Kind::Damaged,
    Kind::Lengths,
    Kind::Unreached,
    Kind::Damaged,
    Kind::Garbage,
    Kind::Unreached,
    Kind::Ends,
    Kind::Unreached,
    Kind::Lengths,
    Kind::Damaged,
    Kind::Several,
    Kind::Lengths,
    Kind::Unreached,
    Kind::LongLists,
];

/// All kinds mixed, or long give-up lists alone.
#[derive(Clone, Copy, Debug, PartialEq, Eq)]
pub enum Mix {
    Every,
    LongLists,
}

/// Rounds of short cases from one schedule to the next. A record at the limits has a long text and is as rare.
const ROUNDS: u64 = 9;

/// The long lists have streams of their own, so the other cases are the same with and without them.
const LONG_LISTS_FROM: u64 = 1 << 63;

pub fn play(seed: u64, stage: &mut Stage) -> Go {
    if stage.is_over() {
        return Ok(());
    }
    match endless(seed, stage) {
        Err(Stop::Done) => Ok(()),
        other => other,
    }
}

/// The lines of one schedule from a fresh pool, with refused calls among them.
pub fn schedule(chance: &mut Chance, number: usize) -> Vec<String> {
    let mut lines = Vec::new();
    let mut stage = Stage::new(u64::MAX, Mix::Every, Way::Schedule(&mut lines));
    // Nothing is written to and nothing compared, so nothing can stop it.
    let _ = schedules::run(&mut stage, chance, number);
    lines
}

fn endless(seed: u64, stage: &mut Stage) -> Go {
    let mut cases = Cases {
        seed,
        number: 0,
        of_kind: [0; KINDS.len()],
    };
    while stage.mix == Mix::LongLists {
        cases.next(stage, Kind::LongLists)?;
    }
    for round in 0.. {
        for kind in ROUND {
            cases.next(stage, kind)?;
        }
        if round % ROUNDS == 0 {
            cases.next(stage, Kind::Limits)?;
            cases.next(stage, Kind::Schedules)?;
        }
    }
    Ok(())
}

/// How many cases there were without the long lists, and how many of each kind.
struct Cases {
    seed: u64,
    number: u64,
    of_kind: [usize; KINDS.len()],
}

impl Cases {
    fn next(&mut self, stage: &mut Stage, kind: Kind) -> Go {
        let number = self.of_kind[kind as usize];
        let stream = match kind {
            Kind::LongLists => LONG_LISTS_FROM + number as u64,
            _ => self.number,
        };
        let chance = &mut Chance::of_case(self.seed, stream);
        self.number += u64::from(kind != Kind::LongLists);
        self.of_kind[kind as usize] += 1;
        stage.open(kind);
        match kind {
            Kind::Schedules => schedules::run(stage, chance, number),
            Kind::Unreached => unreached::run(stage, chance),
            Kind::Damaged => damaged::run(stage, chance, number),
            Kind::Several => several::run(stage, chance, number),
            Kind::Limits => limits::run(stage, chance, number),
            Kind::Garbage => garbage::run(stage, chance),
            Kind::Lengths => lengths::run(stage, chance),
            Kind::Ends => ends::run(stage, chance),
            Kind::Versions => versions::run(stage, chance),
            Kind::LongLists => long_lists::run(stage, chance, number),
        }
    }
}
