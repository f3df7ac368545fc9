//! The pool record, with the fixed lengths of the text form, so that a record with rubbish beyond its counts can be said.

use std::collections::BTreeSet;

pub const WORKERS: usize = 8;
pub const GUARDS: usize = 32;
pub const BUFFERS: usize = 256;

pub const FREE: u8 = 0;
pub const IN_SERVICE: u8 = 1;
pub const LEAVING: u8 = 2;

pub const IDLE: u32 = 0;
pub const LARGEST: u32 = u32::MAX;

/// Every label but idle.
pub const LABELS: [u32; 17] = [2, 4, 5, 6, 7, 8, 9, 10, 12, 13, 15, 18, 22, 25, 28, 31, 32];

#[derive(Clone, Copy, Debug, Default, PartialEq, Eq)]
pub struct Slot {
    pub id: u32,
    pub version: u32,
}

#[derive(Clone, Debug, Default, PartialEq, Eq)]
pub struct Guard {
    pub taken: bool,
    pub employer: u32,
    pub posted: u32,
    pub slot: Slot,
}

#[derive(Clone, Debug, Default, PartialEq, Eq)]
pub struct Worker {
    pub label: u32,
    pub set: BTreeSet<u32>,
    pub i: u32,
    pub v: u32,
    pub h: Slot,
    pub attempts: u32,
    pub max: u32,
}

#[derive(Clone, Debug, PartialEq, Eq)]
pub struct Record {
    pub w: u32,
    pub g: u32,
    pub b: u32,
    pub maxg: u32,
    pub guards: Vec<Guard>,
    pub workers: Vec<Worker>,
    pub states: Vec<u8>,
}

impl Record {
    pub fn zero() -> Record {
        Record::fresh(0, 0, 0)
    }

    pub fn fresh(w: u32, g: u32, b: u32) -> Record {
        Record {
            w,
            g,
            b,
            maxg: 0,
            guards: vec![Guard::default(); GUARDS],
            workers: vec![Worker::default(); WORKERS],
            states: vec![FREE; BUFFERS],
        }
    }

    /// Worker k, if there is such a worker. Safe on a damaged record too.
    pub fn worker(&self, k: u32) -> Option<&Worker> {
        if k == 0 || k > self.w {
            return None;
        }
        self.workers.get(k as usize - 1)
    }

    pub fn guard(&self, g: u32) -> Option<&Guard> {
        if g >= self.g {
            return None;
        }
        self.guards.get(g as usize)
    }

    pub fn state(&self, id: u32) -> Option<u8> {
        if id == 0 || id > self.b {
            return None;
        }
        self.states.get(id as usize - 1).copied()
    }

    pub fn worker_mut(&mut self, k: u32) -> &mut Worker {
        &mut self.workers[k as usize - 1]
    }

    pub fn guard_mut(&mut self, g: u32) -> &mut Guard {
        &mut self.guards[g as usize]
    }

    pub fn set_state(&mut self, id: u32, state: u8) {
        self.states[id as usize - 1] = state;
    }

    /// The ids of the buffers in this state, ascending.
    pub fn in_state(&self, state: u8) -> Vec<u32> {
        (1..=self.b)
            .filter(|&id| self.state(id) == Some(state))
            .collect()
    }
}
