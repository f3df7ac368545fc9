//! Give-up lists in the coverage table: at which entry the refusal comes, and for long lists whatever a test for equal ids that is not plain
//! could lose. The ids are told apart by quarters of 256 and by the ends of the quarters.

use crate::call::{Answer, Call};
use crate::calls::Outcome;
use crate::record::{Record, Worker};

/// From the first to the second, both included.
pub type Span = (u32, u32);

/// A list or a set of at least so many is long.
pub const LONG: usize = 16;

/// The places of the first fault. From the fifth span on they are what long lists are for.
const PLACES: [Span; 13] = [
    (0, 0),
    (1, 1),
    (2, 2),
    (3, 7),
    (8, 62),
    (63, 65),
    (66, 126),
    (127, 129),
    (130, 190),
    (191, 193),
    (194, 254),
    (255, 255),
    (256, 256),
];
pub const FAR: u32 = 8;

pub const LENGTHS: [Span; 4] = [(16, 63), (64, 199), (200, 255), (256, 256)];

pub const QUARTERS: [Span; 4] = [(1, 64), (65, 128), (129, 192), (193, 256)];

pub const ENDS: [u32; 8] = [1, 64, 65, 128, 129, 192, 193, 256];

pub const DISTANCES: [Span; 6] = [(1, 1), (2, 62), (63, 65), (66, 254), (255, 255), (256, 256)];

/// The first and the last entry that a later one can be the first fault for being equal to.
const EARLIER: [usize; 2] = [0, 255];

pub const FAULTS: [u32; 3] = [9, 10, 11];

pub const STATES: [&str; 2] = ["free", "leaving"];

const ORDERS: [&str; 2] = ["ascending", "descending"];

const OTHERS: [&str; 4] = [
    "long list: accepted, the set was not empty",
    "long list: refused, the set was not empty",
    "long list: longer than B",
    "long list: of 600 entries",
];

const USED: [&str; 7] = [
    "long set: size",
    "long set: leaving count",
    "long set: audit clear",
    "long set: posted, in the set",
    "long set: posted, not in the set",
    "long set: handed back",
    "long set: give-up by another worker",
];

/// The places that a refusal can have. Entry 0 has no equal before it, and 256 different ids before entry 256 leave none to be in another state.
pub fn places(number: u32) -> Vec<Span> {
    let impossible = match number {
        10 => (0, 0),
        11 => (256, 256),
        _ => (257, 257),
    };
    let places = PLACES.iter().copied();
    places.filter(|&place| place != impossible).collect()
}

fn name((low, high): Span) -> String {
    match low == high {
        true => low.to_string(),
        false => format!("{low} to {high}"),
    }
}

fn named(spans: &[Span], n: u32) -> Option<String> {
    let span = spans.iter().find(|(low, high)| (*low..=*high).contains(&n));
    span.map(|&span| name(span))
}

/// The cells of the places from this one on.
pub fn place_cells(from: u32) -> Vec<String> {
    let mut cells = Vec::new();
    for number in FAULTS {
        let places = places(number).into_iter().filter(|place| place.0 >= from);
        cells.extend(places.map(|place| format!("give: {number} at place {}", name(place))));
    }
    cells
}

pub fn long_cells() -> Vec<String> {
    let mut cells = Vec::new();
    for span in LENGTHS {
        cells.push(format!("long list: accepted, {} entries", name(span)));
    }
    for id in ENDS {
        cells.push(format!("long list: accepted, with id {id}"));
    }
    for order in ORDERS {
        cells.push(format!("long list: accepted, {order}"));
    }
    for first in FAULTS {
        cells.extend(FAULTS.map(|second| format!("long list: {first} before {second}")));
    }
    for span in QUARTERS {
        cells.push(format!("long list: 10, of ids {}", name(span)));
    }
    for id in ENDS {
        cells.push(format!("long list: 10, id {id}"));
    }
    cells.extend(EARLIER.map(|entry| format!("long list: 10, equal to entry {entry}")));
    for span in DISTANCES {
        cells.push(format!("long list: 10, distance {}", name(span)));
    }
    for state in STATES {
        cells.extend(QUARTERS.map(|span| format!("long list: 11, {state}, of ids {}", name(span))));
    }
    cells.extend(OTHERS.iter().chain(&USED).map(|name| name.to_string()));
    cells
}

/// The cells that a call meets.
pub fn of(before: &Record, list: &[u32], call: &Call, outcome: &Outcome) -> Vec<String> {
    let Call::Give { k } = *call else {
        return used(before, call, outcome).into_iter().collect();
    };
    let mut met = Vec::new();
    let long = list.len() >= LONG;
    match outcome.answer {
        Answer::Refused(number, place) if FAULTS.contains(&number) => {
            let place_name = named(&PLACES, place).unwrap_or_default();
            met.push(format!("give: {number} at place {place_name}"));
            if long {
                met.extend(refused(list, outcome, number, place));
                met.extend(around(before, list, k, OTHERS[1]));
            }
        }
        Answer::Accepted => {
            if long {
                met.extend(accepted(list));
                met.extend(around(before, list, k, OTHERS[0]));
            }
            let mut others = (1..=before.w).filter(|&other| other != k);
            if !list.is_empty() && others.any(|other| has_long_set(before.worker(other))) {
                met.push(USED[6].to_string());
            }
        }
        _ => {}
    }
    met
}

fn has_long_set(worker: Option<&Worker>) -> bool {
    worker.is_some_and(|worker| worker.set.len() >= LONG)
}

fn accepted(list: &[u32]) -> Vec<String> {
    let length = named(&LENGTHS, list.len() as u32).unwrap_or_default();
    let mut met = vec![format!("long list: accepted, {length} entries")];
    let ends = ENDS.iter().filter(|id| list.contains(id));
    met.extend(ends.map(|id| format!("long list: accepted, with id {id}")));
    let up = list.windows(2).all(|pair| pair[0] < pair[1]);
    let down = list.windows(2).all(|pair| pair[0] > pair[1]);
    for (is, order) in [up, down].into_iter().zip(ORDERS) {
        met.extend(is.then(|| format!("long list: accepted, {order}")));
    }
    met
}

fn refused(list: &[u32], outcome: &Outcome, number: u32, place: u32) -> Vec<String> {
    let mut met = Vec::new();
    if let Some(second) = outcome.refusals.get(1) {
        met.push(format!("long list: {number} before {}", second.number));
    }
    let id = list[place as usize];
    let quarter = named(&QUARTERS, id).unwrap_or_default();
    if number == 11 {
        let state = outcome.refusals[0].why;
        met.push(format!("long list: 11, {state}, of ids {quarter}"));
    }
    let earlier = list.iter().position(|&other| other == id);
    if let (10, Some(earlier)) = (number, earlier) {
        met.push(format!("long list: 10, of ids {quarter}"));
        if ENDS.contains(&id) {
            met.push(format!("long list: 10, id {id}"));
        }
        if EARLIER.contains(&earlier) {
            met.push(format!("long list: 10, equal to entry {earlier}"));
        }
        let distance = named(&DISTANCES, place - earlier as u32).unwrap_or_default();
        met.push(format!("long list: 10, distance {distance}"));
    }
    met
}

fn around(before: &Record, list: &[u32], k: u32, set_was_there: &str) -> Vec<String> {
    let has_set = before.worker(k).is_some_and(|w| !w.set.is_empty());
    let met = [
        (has_set, set_was_there),
        (list.len() > before.b as usize, OTHERS[2]),
        (list.len() == 600, OTHERS[3]),
    ];
    let met = met.iter().filter(|(is_met, _)| *is_met);
    met.map(|(_, name)| name.to_string()).collect()
}

/// A long set in use by the calls that follow.
fn used(before: &Record, call: &Call, outcome: &Outcome) -> Option<String> {
    let any = before
        .workers
        .iter()
        .any(|worker| has_long_set(Some(worker)));
    if !any {
        return None;
    }
    let name = match (call, outcome.answer) {
        (Call::Size { k }, Answer::Count(_)) if has_long_set(before.worker(*k)) => USED[0],
        (Call::Leaving, Answer::Count(_)) => USED[1],
        (Call::Audit, Answer::Clear) => USED[2],
        (Call::Advance { k }, _) if has_long_set(before.worker(*k)) => match outcome.branch {
            "posted, in the set" => USED[3],
            "posted, not in the set" => USED[4],
            "hands back some" => USED[5],
            _ => return None,
        },
        _ => return None,
    };
    Some(name.to_string())
}
