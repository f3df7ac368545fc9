//! Long give-up lists from large pools: accepted ones and what is then done with the set, and ones with a fault anywhere.

use super::aims::{self, Aim, Order, Then};
use super::build;
use crate::call::{Answer, Call};
use crate::chance::Chance;
use crate::lists::{Span, LONG, QUARTERS};
use crate::record::{Record, FREE, IDLE, IN_SERVICE, LEAVING};
use crate::stage::{Go, Stage};

const SIZES: [u32; 14] = [
    256, 256, 256, 256, 255, 255, 200, 193, 192, 129, 128, 100, 65, 64,
];

/// The most entries that a line of the text form can have.
const LONGEST: u32 = 600;

pub fn run(stage: &mut Stage, chance: &mut Chance, number: usize) -> Go {
    let aims = aims::all();
    let aim = match aims.get(number) {
        Some(aim) => *aim,
        None => aims::some(chance, &aims),
    };
    let left_over = number % 3 == 0 || chance.percent(20);
    let (list, record) = built(chance, &aim, left_over);
    let k = record.w;
    stage.lay(record)?;
    stage.lend(list.clone())?;
    let answer = stage.call(Call::Give { k })?;
    stage.lend(vec![])?;
    if answer == Answer::Accepted {
        used(stage, chance, aim.then, k, &list)?;
    }
    Ok(())
}

fn within(chance: &mut Chance, span: Span, low: u32, high: u32) -> u32 {
    chance.between(span.0.max(low), span.1.min(high))
}

/// A list for this aim and a record for it. The one that gives up is the last worker.
fn built(chance: &mut Chance, aim: &Aim, left_over: bool) -> (Vec<u32>, Record) {
    let b = size(chance, aim);
    let id = within(chance, aim.ids, 1, b);
    let mut record = Record::fresh(chance.between(2, 3), 1, b);
    let Some(number) = aim.refusal else {
        let length = within(chance, aim.lengths, LONG as u32, b);
        let list = ids(chance, b, length, id, aim.order);
        settle(chance, &mut record, aim, &list, left_over);
        return (list, record);
    };

    let highest = match (aim.later, number) {
        (Some(_), _) => b - 2,
        (None, 11) => b - 1,
        (None, _) => b,
    };
    let lowest = if number == 10 { aim.distances.0 } else { 0 };
    let place = within(chance, aim.places, lowest, highest);
    let earlier = match number {
        10 if aim.equal_to_first => 0,
        10 => place - within(chance, aim.distances, 1, place),
        _ => place,
    };
    let length = length(chance, aim, b, place);
    let mut list = ids(chance, b, length, id, aim.order);
    settle(chance, &mut record, aim, &list, left_over);
    if earlier < b {
        let now = list.iter().position(|&other| other == id);
        list.swap(now.unwrap_or(0), earlier as usize);
    }
    while list.len() < length as usize {
        let again = chance.between(1, b);
        list.push(chance.pick(&[0, 1, b, b + 1, again]));
    }
    let mut faulty = Faulty { record, list };
    faulty.fault(chance, number, (earlier, place), aim.state);
    if let Some(later) = aim.later {
        let place = chance.between(place + 1, length.min(b) - 1);
        let any = chance.below(place);
        let earlier = chance.pick(&[0, any, place - 1]);
        faulty.fault(chance, later, (earlier, place), aim.state);
    }
    (faulty.list, faulty.record)
}

fn size(chance: &mut Chance, aim: &Aim) -> u32 {
    let least = match aim.refusal {
        None => aim.lengths.0,
        Some(10) => aim.places.0.max(aim.distances.0),
        Some(11) => aim.places.0 + 1,
        Some(_) => aim.places.0,
    };
    let least = least.max(aim.ids.0);
    let sizes = SIZES.iter().copied().filter(|&b| b >= least);
    chance.pick(&sizes.collect::<Vec<u32>>())
}

/// How long a list is that has its first fault there: it may end with it, name every buffer, or be longer than there are buffers.
fn length(chance: &mut Chance, aim: &Aim, b: u32, place: u32) -> u32 {
    let least = place + 1 + u32::from(aim.later.is_some());
    let least = least.max(LONG as u32);
    match chance.below(8) {
        _ if aim.lengths.0 > b => aim.lengths.0,
        0..=2 => least,
        3 => least.max(b),
        4 => chance.between(b + 1, LONGEST),
        _ => chance.between(least, least.max(b)),
    }
}

/// Different ids in this order, one of them given: so many, or as many as there are.
fn ids(chance: &mut Chance, b: u32, length: u32, one: u32, order: Order) -> Vec<u32> {
    let mut ids: Vec<u32> = (1..=b).filter(|&id| id != one).collect();
    chance.shuffle(&mut ids);
    ids.insert(0, one);
    ids.truncate(length as usize);
    match order {
        Order::Ascending => ids.sort_unstable(),
        Order::Descending => ids.sort_unstable_by(|a, b| b.cmp(a)),
        Order::Shuffled => chance.shuffle(&mut ids),
        Order::Turned => {
            ids.sort_unstable();
            let turn = chance.below(ids.len() as u32);
            ids.rotate_left(turn as usize);
        }
        Order::ByQuarters => {
            let mut quarters = QUARTERS;
            chance.shuffle(&mut quarters);
            ids.sort_by_key(|id| quarters.iter().position(|q| (q.0..=q.1).contains(id)));
        }
        Order::Across => ids.sort_unstable_by_key(|id| ((id - 1) % 64, *id)),
    }
    ids
}

/// The list's buffers are in service. What the others are and what the sets hold is no matter, but where the audit or another give-up follows.
fn settle(chance: &mut Chance, record: &mut Record, aim: &Aim, list: &[u32], left_over: bool) {
    let (b, k) = (record.b, record.w);
    let plain = matches!(aim.then, Then::Counts | Then::SecondGiveUp);
    let states: &[u8] = match chance.below(4) {
        0 if !plain => &[FREE, IN_SERVICE, LEAVING],
        1 if !plain => &[FREE],
        _ => &[IN_SERVICE],
    };
    for id in 1..=b {
        record.set_state(id, chance.pick(states));
    }
    for &id in list {
        record.set_state(id, IN_SERVICE);
    }
    if left_over {
        let size = chance.pick(&[1, 2, 5, b / 2]);
        record.worker_mut(k).set = (0..size).map(|_| chance.between(1, b)).collect();
    }
    if !plain && chance.percent(10) {
        record.worker_mut(1).set = build::set(chance, b);
    }
    if let Then::Posted { of_the_list } = aim.then {
        let of_these = (1..=b).filter(|id| list.contains(id) == of_the_list);
        let of_these: Vec<u32> = of_these.collect();
        if !of_these.is_empty() {
            let guard = record.guard_mut(0);
            guard.taken = true;
            guard.employer = 1;
            guard.posted = chance.pick(&of_these);
        }
    }
}

struct Faulty {
    record: Record,
    list: Vec<u32>,
}

impl Faulty {
    /// The fault that this refusal is for. If it is an equal entry the first of the two places is the earlier one.
    fn fault(&mut self, chance: &mut Chance, number: u32, (earlier, place): Span, state: u8) {
        let (b, at) = (self.record.b, place as usize);
        match number {
            9 => {
                let good = self.list[at].min(b);
                let above = build::above(chance, b, good);
                self.list[at] = chance.pick(&[0, above, above]);
            }
            10 => {
                // From the earlier place on, as an id that is none is no equal one. There may be no other.
                let before = self.list[..at].iter().copied().cycle();
                let mut before = before.skip(earlier as usize).take(at);
                if let Some(id) = before.find(|id| (1..=b).contains(id)) {
                    self.list[at] = id;
                }
            }
            _ => self.record.set_state(self.list[at], state),
        }
    }
}

/// Uses the set that worker k then has.
fn used(stage: &mut Stage, chance: &mut Chance, then: Then, k: u32, list: &[u32]) -> Go {
    match then {
        Then::Nothing => {}
        Then::Counts => {
            stage.call(Call::Size { k })?;
            stage.call(Call::Leaving)?;
            stage.call(Call::Audit)?;
        }
        Then::Posted { .. } => {
            for _ in 0..3 {
                stage.call(Call::Advance { k })?;
            }
        }
        Then::HandBack => {
            while let label @ 1.. = stage.record.worker(k).map_or(IDLE, |w| w.label) {
                if label == 32 {
                    stage.lend(vec![7; list.len()])?;
                }
                stage.call(Call::Advance { k })?;
            }
            stage.lend(vec![])?;
        }
        Then::SecondGiveUp => {
            let mut rest = stage.record.in_state(IN_SERVICE);
            chance.shuffle(&mut rest);
            if chance.percent(40) {
                let mut faulty = rest.clone();
                let at = chance.below(rest.len() as u32 + 1) as usize;
                faulty.insert(at, chance.pick(list));
                stage.lend(faulty)?;
                stage.call(Call::Give { k: 1 })?;
            }
            stage.lend(rest)?;
            stage.call(Call::Give { k: 1 })?;
            stage.lend(vec![])?;
            stage.call(Call::Audit)?;
        }
    }
    Ok(())
}
