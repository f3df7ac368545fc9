//! One advance of a worker that isn't refused, label by label.

use crate::call::Answer;
use crate::record::{Record, Slot, Worker, FREE};

/// Where an advance leads: to a label, or to an end with its answer.
enum Way {
    To(u32),
    End(Answer),
}

use Way::{End, To};

pub fn advance(record: &mut Record, list: &mut [u32], k: u32) -> (Answer, &'static str) {
    let mut me = record.worker_mut(k).clone();
    let (way, branch) = step(record, list, k, &mut me);
    let answer = match way {
        To(label) => {
            me.label = label;
            Answer::At(label)
        }
        End(answer) => {
            me = Worker::default();
            answer
        }
    };
    *record.worker_mut(k) = me;
    (answer, branch)
}

fn step(record: &mut Record, list: &mut [u32], k: u32, me: &mut Worker) -> (Way, &'static str) {
    match me.label {
        2 => {
            if !record.guard_mut(me.i).taken {
                record.guard_mut(me.i).taken = true;
                return (To(4), "guard not taken");
            }
            me.i += 1;
            if me.i == record.g {
                (End(Answer::NoneFound), "taken, none found")
            } else {
                (To(2), "taken, stays")
            }
        }
        4 => {
            me.max = record.maxg;
            if me.max < me.i {
                (To(5), "to 5")
            } else {
                (To(6), "to 6")
            }
        }
        5 => {
            if record.maxg == me.max {
                record.maxg = me.i;
                (To(4), "MAXG = max")
            } else {
                (To(4), "MAXG another")
            }
        }
        6 => {
            record.guard_mut(me.i).employer = k;
            (End(Answer::Guard(me.i)), "ends")
        }
        7 => {
            record.guard_mut(me.i).taken = false;
            (To(8), "to 8")
        }
        8 => (End(Answer::Fired), "ends"),
        9 => {
            record.guard_mut(me.i).posted = me.v;
            (To(10), "to 10")
        }
        10 => (End(Answer::Posted), "ends"),
        12 => {
            if me.i <= record.maxg {
                (To(13), "to 13")
            } else {
                (To(32), "to 32")
            }
        }
        13 => {
            me.attempts = 0;
            me.h = record.guard_mut(me.i).slot;
            (To(15), "to 15")
        }
        15 => {
            me.v = record.guard_mut(me.i).posted;
            if me.v == 0 {
                (To(28), "nothing posted")
            } else if me.set.contains(&me.v) {
                (To(18), "posted, in the set")
            } else {
                (To(28), "posted, not in the set")
            }
        }
        18 => exchange(record, me),
        22 => {
            me.attempts += 1;
            if me.attempts == 3 {
                (To(31), "to 31")
            } else {
                me.h = record.guard_mut(me.i).slot;
                (To(25), "to 25")
            }
        }
        25 => {
            if me.attempts == 2 && me.h.id != 0 {
                (To(31), "to 31 for attempts and h")
            } else if me.v != record.guard_mut(me.i).posted {
                (To(31), "to 31 for the posted id")
            } else {
                (To(18), "to 18")
            }
        }
        28 => collect(record, me),
        31 => {
            me.i += 1;
            (To(12), "to 12")
        }
        32 => {
            for (place, &id) in me.set.iter().enumerate() {
                record.set_state(id, FREE);
                list[place] = id;
            }
            let count = me.set.len() as u32;
            let branch = match count {
                0 => "hands back none",
                _ => "hands back some",
            };
            (End(Answer::Back(count)), branch)
        }
        label => unreachable!("label {label} in a sound record"),
    }
}

fn exchange(record: &mut Record, me: &mut Worker) -> (Way, &'static str) {
    let slot = record.guard_mut(me.i).slot;
    if slot.id != me.h.id {
        return (To(22), "slot differs in id");
    }
    if slot.version != me.h.version {
        return (To(22), "slot differs in version alone");
    }
    record.guard_mut(me.i).slot = Slot {
        id: me.v,
        version: slot.version + 1,
    };
    // First out, then in: with h's id = v the set keeps it.
    me.set.remove(&me.v);
    if me.h.id == 0 {
        return (To(31), "exchanged, slot empty");
    }
    me.set.insert(me.h.id);
    (To(31), "exchanged, slot full")
}

fn collect(record: &mut Record, me: &mut Worker) -> (Way, &'static str) {
    let slot = record.guard_mut(me.i).slot;
    if me.h.id == 0 {
        return (To(31), "h empty");
    }
    if me.h.id == me.v {
        return (To(31), "h's id is v");
    }
    if slot != me.h {
        let same_id = slot.id == me.h.id;
        let branch = if same_id {
            "slot differs in version alone"
        } else {
            "slot differs in id"
        };
        return (To(31), branch);
    }
    record.guard_mut(me.i).slot = Slot {
        id: 0,
        version: slot.version + 1,
    };
    me.set.insert(me.h.id);
    (To(31), "collected")
}
