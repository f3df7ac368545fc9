//! Every refusal that applies to a call, in the order of the paper's table. The first is the answer;
//! the others show which priorities a case puts to the test, so they are worked out on damaged records too.

use crate::call::Call;
use crate::record::{Record, FREE, IDLE, IN_SERVICE, LARGEST, LEAVING};
use crate::sound;
use std::collections::BTreeSet;

#[derive(Clone, Debug, PartialEq, Eq)]
pub struct Refusal {
    pub number: u32,
    pub place: u32,
    pub why: &'static str,
}

struct Found(Vec<Refusal>);

impl Found {
    fn when(&mut self, applies: bool, number: u32, why: &'static str) {
        if applies {
            self.at(number, 0, why);
        }
    }

    fn at(&mut self, number: u32, place: u32, why: &'static str) {
        self.0.push(Refusal { number, place, why });
    }
}

pub fn all(record: &Record, list: &[u32], call: &Call) -> Vec<Refusal> {
    let mut found = Found(Vec::new());
    if let Call::Make { w, g, b } = *call {
        sizes(&mut found, w, g, b);
        return found.0;
    }
    if let Some(fault) = sound::first(record) {
        let (number, _, place) = fault.order();
        found.at(number, place, "");
    }
    match *call {
        Call::Make { .. } | Call::Leaving | Call::Audit | Call::Sound => {}
        Call::Hire { k } => idle_worker(&mut found, record, k),
        Call::Fire { k, g } => {
            idle_worker(&mut found, record, k);
            own_guard(&mut found, record, k, g);
            let posted = record.guard(g).is_some_and(|guard| guard.posted != 0);
            found.when(posted, 8, "");
        }
        Call::Post { k, g, id } => {
            idle_worker(&mut found, record, k);
            own_guard(&mut found, record, k, g);
            found.when(id > record.b, 9, "above B");
        }
        Call::Give { k } => {
            idle_worker(&mut found, record, k);
            entries(&mut found, record, list);
        }
        Call::Take { id } => {
            real_id(&mut found, record, id);
            match record.state(id) {
                Some(IN_SERVICE) => found.at(11, 0, "in service"),
                Some(LEAVING) => found.at(11, 0, "leaving"),
                _ => {}
            }
        }
        Call::Ask { k, id } => {
            idle_worker(&mut found, record, k);
            real_id(&mut found, record, id);
        }
        Call::Advance { k } => step(&mut found, record, list, k),
        Call::Size { k } => found.when(record.worker(k).is_none(), 3, ""),
    }
    found.0
}

fn sizes(found: &mut Found, w: u32, g: u32, b: u32) {
    found.when(w < 1, 1, "W low");
    found.when(w > 8, 1, "W high");
    found.when(g < 1, 1, "G low");
    found.when(g > 32, 1, "G high");
    found.when(b < 1, 1, "B low");
    found.when(b > 256, 1, "B high");
}

fn idle_worker(found: &mut Found, record: &Record, k: u32) {
    match record.worker(k) {
        None => found.at(3, 0, ""),
        Some(worker) => found.when(worker.label != IDLE, 4, ""),
    }
}

fn own_guard(found: &mut Found, record: &Record, k: u32, g: u32) {
    match record.guard(g) {
        None => found.at(6, 0, ""),
        Some(guard) if guard.employer == 0 => found.at(7, 0, "employer 0"),
        Some(guard) => found.when(guard.employer != k, 7, "employer another"),
    }
}

fn real_id(found: &mut Found, record: &Record, id: u32) {
    found.when(id > record.b, 9, "above B");
    found.when(id == 0, 9, "zero");
}

/// One refusal for each entry at fault, the first entry first.
fn entries(found: &mut Found, record: &Record, list: &[u32]) {
    let mut earlier = BTreeSet::new();
    for (place, &id) in list.iter().enumerate() {
        let place = place as u32;
        if id > record.b {
            found.at(9, place, "above B");
        } else if id == 0 {
            found.at(9, place, "zero");
        } else if earlier.contains(&id) {
            found.at(10, place, "");
        } else if record.state(id) == Some(FREE) {
            found.at(11, place, "free");
        } else if record.state(id) == Some(LEAVING) {
            found.at(11, place, "leaving");
        }
        earlier.insert(id);
    }
}

fn step(found: &mut Found, record: &Record, list: &[u32], k: u32) {
    let Some(worker) = record.worker(k) else {
        found.at(3, 0, "");
        return;
    };
    let same_and_full = record
        .guard(worker.i)
        .is_some_and(|guard| guard.slot == worker.h && guard.slot.version == LARGEST);
    match worker.label {
        IDLE => found.at(5, 0, ""),
        18 => found.when(same_and_full, 12, "at 18"),
        28 => {
            let wanted = worker.h.id != 0 && worker.h.id != worker.v;
            found.when(wanted && same_and_full, 12, "at 28");
        }
        32 => {
            let not_leaving = |&id: &u32| record.state(id) != Some(LEAVING);
            found.when(worker.set.iter().any(not_leaving), 14, "");
            found.when(list.len() < worker.set.len(), 13, "");
        }
        _ => {}
    }
}
