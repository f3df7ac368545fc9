//! A call on a record and a lent list: what comes of it.

use crate::call::{Answer, Call};
use crate::record::{Record, IN_SERVICE, LEAVING};
use crate::refusals::{self, Refusal};
use crate::steps;

/// What came of a call. The branch names the way taken, for the coverage table alone.
#[derive(Clone, Debug)]
pub struct Outcome {
    pub record: Record,
    pub list: Vec<u32>,
    pub answer: Answer,
    pub branch: &'static str,
    pub refusals: Vec<Refusal>,
}

pub fn run(record: &Record, list: &[u32], call: &Call) -> Outcome {
    let refusals = refusals::all(record, list, call);
    let mut outcome = Outcome {
        record: record.clone(),
        list: list.to_vec(),
        answer: Answer::Accepted,
        branch: "accepted",
        refusals,
    };
    if let Some(first) = outcome.refusals.first() {
        outcome.answer = Answer::Refused(first.number, first.place);
        outcome.branch = "refused";
        // The one refusal that leaves another record: no pool was made, and the record is all zero.
        if first.number == 1 {
            outcome.record = Record::zero();
        }
        return outcome;
    }
    let (answer, branch) = accepted(&mut outcome.record, &mut outcome.list, call);
    outcome.answer = answer;
    outcome.branch = branch;
    outcome
}

fn accepted(record: &mut Record, list: &mut [u32], call: &Call) -> (Answer, &'static str) {
    match *call {
        Call::Make { w, g, b } => {
            *record = Record::fresh(w, g, b);
            (Answer::Accepted, "accepted")
        }
        Call::Hire { k } => {
            let worker = record.worker_mut(k);
            worker.i = 0;
            worker.label = 2;
            (Answer::Accepted, "accepted")
        }
        Call::Fire { k, g } => {
            record.guard_mut(g).employer = 0;
            let worker = record.worker_mut(k);
            worker.i = g;
            worker.label = 7;
            (Answer::Accepted, "accepted")
        }
        Call::Post { k, g, id } => {
            let worker = record.worker_mut(k);
            worker.i = g;
            worker.v = id;
            worker.label = 9;
            match id {
                0 => (Answer::Accepted, "accepted, standing down"),
                _ => (Answer::Accepted, "accepted, on a buffer"),
            }
        }
        Call::Give { k } => {
            for &id in list.iter() {
                record.set_state(id, LEAVING);
            }
            let worker = record.worker_mut(k);
            worker.set = list.iter().copied().collect();
            worker.i = 0;
            worker.label = 12;
            match list.len() {
                0 => (Answer::Accepted, "accepted, empty list"),
                _ => (Answer::Accepted, "accepted, list of some"),
            }
        }
        Call::Take { id } => {
            record.set_state(id, IN_SERVICE);
            (Answer::Accepted, "accepted")
        }
        Call::Ask { id, .. } => match record.state(id) {
            Some(IN_SERVICE) => (Answer::Yes, "yes"),
            Some(LEAVING) => (Answer::No, "no, leaving"),
            _ => (Answer::No, "no, free"),
        },
        Call::Advance { k } => steps::advance(record, list, k),
        Call::Size { k } => {
            let size = record.worker(k).map_or(0, |worker| worker.set.len());
            counted(size as u32)
        }
        Call::Leaving => counted(record.in_state(LEAVING).len() as u32),
        Call::Audit => audit(record),
        Call::Sound => (Answer::Clear, "clear"),
    }
}

fn counted(count: u32) -> (Answer, &'static str) {
    match count {
        0 => (Answer::Count(0), "none"),
        _ => (Answer::Count(count), "some"),
    }
}

fn audit(record: &Record) -> (Answer, &'static str) {
    for id in 1..=record.b {
        let slots = record.guards.iter().filter(|g| g.slot.id == id).count();
        let sets = record.workers.iter().filter(|w| w.set.contains(&id));
        let places = (slots + sets.count()) as u32;
        let state = record.state(id).unwrap_or_default();
        let due = u32::from(state == LEAVING);
        if places == due {
            continue;
        }
        let branch = match (state, places) {
            (LEAVING, 0) => "leaving, in no place",
            (LEAVING, _) => "leaving, in 2 places or more",
            (IN_SERVICE, 1) => "in service, in 1 place",
            (IN_SERVICE, _) => "in service, in 2 places or more",
            (_, 1) => "free, in 1 place",
            _ => "free, in 2 places or more",
        };
        return (Answer::Fault(id, places), branch);
    }
    (Answer::Clear, "clear")
}
