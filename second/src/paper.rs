//! The paper's cases 1 to 14, both sides of each edge, run on the model.

use crate::call::{Answer, Call};
use crate::calls;
use crate::record::{Record, Slot, Worker, FREE, IN_SERVICE, LARGEST, LEAVING};

struct Pool {
    record: Record,
    list: Vec<u32>,
}

fn pool(w: u32, g: u32, b: u32) -> Pool {
    let mut pool = Pool {
        record: Record::zero(),
        list: vec![],
    };
    assert_eq!(pool.call(Call::Make { w, g, b }), Answer::Accepted);
    pool
}

fn slot(id: u32, version: u32) -> Slot {
    Slot { id, version }
}

impl Pool {
    fn call(&mut self, call: Call) -> Answer {
        let outcome = calls::run(&self.record, &self.list, &call);
        self.record = outcome.record;
        self.list = outcome.list;
        outcome.answer
    }

    fn accept(&mut self, call: Call) {
        assert_eq!(self.call(call), Answer::Accepted);
    }

    fn advance(&mut self, k: u32) -> Answer {
        self.call(Call::Advance { k })
    }

    /// Advances through these labels and then to this end.
    fn through(&mut self, k: u32, labels: &[u32], end: Answer) {
        for &label in labels {
            assert_eq!(self.advance(k), Answer::At(label));
        }
        assert_eq!(self.advance(k), end);
        assert_eq!(self.record.worker_mut(k), &Worker::default());
    }

    fn post(&mut self, k: u32, g: u32, id: u32) {
        self.accept(Call::Post { k, g, id });
        self.through(k, &[10], Answer::Posted);
        assert_eq!(self.record.guards[g as usize].posted, id);
    }

    /// Takes nothing: the buffers are in service already.
    fn give(&mut self, k: u32, list: &[u32]) {
        self.list = list.to_vec();
        self.accept(Call::Give { k });
        self.list = vec![99; 4];
    }

    fn slot(&self) -> Slot {
        self.record.guards[0].slot
    }
}

fn case_1() -> Pool {
    let mut pool = pool(2, 2, 3);
    pool.accept(Call::Hire { k: 1 });
    pool.through(1, &[4, 6], Answer::Guard(0));
    assert_eq!(pool.record.guards[0].employer, 1);
    pool
}

fn case_5() -> Pool {
    let mut pool = case_1();
    pool.accept(Call::Take { id: 1 });
    pool.post(1, 0, 1);
    pool.give(2, &[1]);
    pool.through(2, &[13, 15, 18, 31, 12, 32], Answer::Back(0));
    assert_eq!(pool.list, [99; 4]);
    assert_eq!(pool.slot(), slot(1, 1));
    pool
}

fn at(label: u32, h: Slot, slot: Slot) -> Pool {
    let mut pool = pool(2, 2, 3);
    let worker = pool.record.worker_mut(1);
    worker.label = label;
    worker.h = h;
    pool.record.guards[0].slot = slot;
    pool
}

#[test]
fn case_01_a_hire() {
    case_1();
}

#[test]
fn case_02_a_second_hire() {
    let mut pool = case_1();
    pool.accept(Call::Hire { k: 2 });
    pool.through(2, &[2, 4, 5, 4, 6], Answer::Guard(1));
    assert_eq!(pool.record.maxg, 1);
}

#[test]
fn case_03_none_found() {
    let mut pool = pool(2, 1, 3);
    pool.record.guards[0].taken = true;
    pool.accept(Call::Hire { k: 1 });
    pool.through(1, &[], Answer::NoneFound);
}

#[test]
fn case_04_handed_back_at_once() {
    let mut pool = pool(2, 2, 3);
    pool.accept(Call::Take { id: 1 });
    pool.give(1, &[1]);
    pool.through(1, &[13, 15, 28, 31, 12, 32], Answer::Back(1));
    assert_eq!(pool.list, [1, 99, 99, 99]);
    assert_eq!(pool.record.states[0], FREE);
}

#[test]
fn case_05_held() {
    case_5();
}

#[test]
fn case_06_collected() {
    let mut pool = case_5();
    pool.post(1, 0, 0);
    pool.give(2, &[]);
    pool.through(2, &[13, 15, 28, 31, 12, 32], Answer::Back(1));
    assert_eq!(pool.list, [1, 99, 99, 99]);
    assert_eq!(pool.slot(), slot(0, 2));
}

#[test]
fn case_07_exchanged() {
    let mut pool = case_5();
    pool.accept(Call::Take { id: 2 });
    pool.post(1, 0, 2);
    pool.give(2, &[2]);
    pool.through(2, &[13, 15, 18, 31, 12, 32], Answer::Back(1));
    assert_eq!(pool.list, [1, 99, 99, 99]);
    assert_eq!(pool.slot(), slot(2, 2));
}

#[test]
fn case_08_a_failed_exchange() {
    let mut pool = at(18, slot(0, 0), slot(0, 1));
    assert_eq!(pool.advance(1), Answer::At(22));
    assert_eq!(pool.advance(1), Answer::At(25));
    let worker = pool.record.worker_mut(1);
    assert_eq!((worker.h, worker.attempts), (slot(0, 1), 1));
}

#[test]
fn case_09_the_last_try() {
    let mut pool = at(25, slot(3, 5), slot(3, 5));
    pool.record.worker_mut(1).attempts = 2;
    assert_eq!(pool.advance(1), Answer::At(31));
    let mut pool = at(25, slot(0, 5), slot(0, 5));
    pool.record.worker_mut(1).attempts = 2;
    pool.record.worker_mut(1).v = 2;
    pool.record.guards[0].posted = 2;
    assert_eq!(pool.advance(1), Answer::At(18));
}

#[test]
fn case_10_three_attempts() {
    let mut pool = at(22, slot(1, 7), slot(2, 8));
    pool.record.worker_mut(1).attempts = 2;
    assert_eq!(pool.advance(1), Answer::At(31));
    let worker = pool.record.worker_mut(1);
    assert_eq!((worker.h, worker.attempts), (slot(1, 7), 3));
}

#[test]
fn case_11_the_largest_version() {
    let full = slot(0, LARGEST);
    let mut pool = at(18, full, full);
    let before = pool.record.clone();
    assert_eq!(pool.advance(1), Answer::Refused(12, 0));
    assert_eq!(pool.record, before);
    let mut pool = at(18, full, slot(0, LARGEST - 1));
    assert_eq!(pool.advance(1), Answer::At(22));
}

#[test]
fn case_12_give_up_lists() {
    let mut pool = pool(2, 2, 3);
    pool.accept(Call::Take { id: 1 });
    let refused: [(&[u32], u32, u32); 4] = [
        (&[1, 1], 10, 1),
        (&[0], 9, 0),
        (&[1, 4], 9, 1),
        (&[2, 1], 11, 0),
    ];
    for (list, number, place) in refused {
        pool.list = list.to_vec();
        let answer = pool.call(Call::Give { k: 1 });
        assert_eq!(answer, Answer::Refused(number, place));
        assert_eq!(pool.list, list);
    }
    assert_eq!(pool.record.states[..3], [IN_SERVICE, FREE, FREE]);
}

#[test]
fn case_13_fire_of_a_posted_guard() {
    let mut pool = case_1();
    pool.post(1, 0, 3);
    assert_eq!(pool.call(Call::Fire { k: 1, g: 0 }), Answer::Refused(8, 0));
    pool.post(1, 0, 0);
    pool.accept(Call::Fire { k: 1, g: 0 });
    assert_eq!(pool.record.guards[0].employer, 0);
    pool.through(1, &[8], Answer::Fired);
    assert!(!pool.record.guards[0].taken);
}

#[test]
fn case_14_a_short_list() {
    let mut pool = at(32, slot(0, 0), slot(0, 0));
    pool.record.worker_mut(1).set = [1, 3].into();
    pool.record.states[0] = LEAVING;
    pool.record.states[2] = LEAVING;
    pool.list = vec![8];
    assert_eq!(pool.advance(1), Answer::Refused(13, 0));
    assert_eq!(pool.list, [8]);
    pool.list = vec![8, 8];
    pool.through(1, &[], Answer::Back(2));
    assert_eq!(pool.list, [1, 3]);
    assert_eq!(pool.record.states[..3], [FREE, FREE, FREE]);
}

#[test]
fn a_refused_make_leaves_all_zero() {
    let mut pool = case_1();
    let answer = pool.call(Call::Make { w: 9, g: 1, b: 1 });
    assert_eq!(answer, Answer::Refused(1, 0));
    assert_eq!(pool.record, Record::zero());
}
