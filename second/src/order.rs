//! The order of the rules of soundness, as cells of the coverage table: which fault is named where a record has several.

use crate::record::Record;
use crate::sound::{self, Asked, Fault, Part};
use std::collections::BTreeSet;

/// In the order of the asking.
pub const ASKED: [Asked; 10] = [
    (21, Part::Pool),
    (22, Part::Guard),
    (22, Part::Buffer),
    (22, Part::Worker),
    (23, Part::Guard),
    (23, Part::Buffer),
    (23, Part::Worker),
    (24, Part::Guard),
    (24, Part::Worker),
    (25, Part::Worker),
];

fn word(part: Part) -> &'static str {
    match part {
        Part::Pool => "pool",
        Part::Guard => "guard",
        Part::Buffer => "buffer",
        Part::Worker => "worker",
    }
}

fn named_at((rule, part): Asked) -> String {
    format!("unsound: {rule} at a {}", word(part))
}

fn pair((rule, part): Asked, (other, other_part): Asked) -> String {
    let (part, other_part) = (word(part), word(other_part));
    format!("unsound: {rule} {part} before {other} {other_part}")
}

/// Two faults of which the second has the lower number, so that whoever looks for the lowest number first is found out.
fn crossed(one: Asked, other: Asked) -> String {
    pair(one, other) + " of lower number"
}

pub fn can_cross(one: Asked, other: Asked) -> bool {
    one.1 != Part::Pool && (one.0 == other.0 || one.1 == other.1)
}

fn two_of((rule, part): Asked) -> String {
    format!("unsound: {rule} at the lower of two {}s", word(part))
}

/// The lowest and the highest number at which a rule can be broken. There is at least one of each within the counts.
fn ends((rule, part): Asked) -> [u32; 2] {
    let [lowest, highest] = match part {
        Part::Pool => [0, 0],
        Part::Guard => [0, 31],
        Part::Buffer => [1, 256],
        Part::Worker => [1, 8],
    };
    [lowest + u32::from(rule == 22), highest]
}

fn at_end((rule, part): Asked, end: u32) -> String {
    format!("unsound: {rule} at {} {end}", word(part))
}

/// An entry beyond the counts that would break a later rule as well, if that were asked of it.
fn beyond(part: Part, later: u32) -> String {
    format!("unsound: 22 at a {}, {later} not asked", word(part))
}

const BEYOND: [(Part, u32); 6] = [
    (Part::Guard, 23),
    (Part::Guard, 24),
    (Part::Buffer, 23),
    (Part::Worker, 23),
    (Part::Worker, 24),
    (Part::Worker, 25),
];

pub fn cells() -> Vec<String> {
    let mut cells: Vec<String> = ASKED.map(named_at).to_vec();
    for (n, &one) in ASKED.iter().enumerate() {
        let later = &ASKED[n + 1..];
        cells.extend(later.iter().map(|&other| pair(one, other)));
        let crossing = later.iter().filter(|&&other| can_cross(one, other));
        cells.extend(crossing.map(|&other| crossed(one, other)));
    }
    for asked in &ASKED[1..] {
        cells.push(two_of(*asked));
        cells.extend(ends(*asked).map(|end| at_end(*asked, end)));
    }
    cells.extend(BEYOND.map(|(part, later)| beyond(part, later)));
    cells
}

/// The cells that the faults of a record fill.
pub fn of(record: &Record, faults: &[Fault]) -> Vec<String> {
    let mut faults: Vec<(u32, Part, u32)> = faults.iter().map(Fault::order).collect();
    faults.sort_unstable();
    faults.dedup();
    let Some(&(rule, part, place)) = faults.first() else {
        return Vec::new();
    };
    let named = (rule, part);
    let mut cells = vec![named_at(named)];
    if part != Part::Pool && ends(named).contains(&place) {
        cells.push(at_end(named, place));
    }
    if rule == 22 {
        let broken = sound::within(record, part, place);
        let later: BTreeSet<u32> = broken.iter().map(|rule| rule.asked().0).collect();
        cells.extend(later.iter().map(|&later| beyond(part, later)));
    }
    let others = faults.iter().filter(|fault| (fault.0, fault.1) != named);
    let mut kinds: Vec<Asked> = others.clone().map(|fault| (fault.0, fault.1)).collect();
    kinds.dedup();
    match kinds[..] {
        [] if faults.len() > 1 => cells.push(two_of(named)),
        // One other alone: nothing but the order of these two decides.
        [other] => {
            cells.push(pair(named, other));
            let lower = others.clone().any(|fault| fault.2 < place);
            if lower && can_cross(named, other) {
                cells.push(crossed(named, other));
            }
        }
        _ => {}
    }
    cells
}
