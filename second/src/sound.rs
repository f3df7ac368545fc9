//! Soundness: which of its rules a record breaks, and where. Every fault is collected; the least in the paper's order is the one that is named.

use crate::record::{Guard, Record, Slot, Worker, BUFFERS, GUARDS, IDLE, LABELS, LEAVING, WORKERS};

/// What a rule is asked of, in the order of the asking.
#[derive(Clone, Copy, Debug, PartialEq, Eq, PartialOrd, Ord)]
pub enum Part {
    Pool,
    Guard,
    Buffer,
    Worker,
}

#[derive(Clone, Copy, Debug, PartialEq, Eq)]
pub enum Rule {
    WLow,
    WHigh,
    GLow,
    GHigh,
    BLow,
    BHigh,
    Maxg,
    BeyondTaken,
    BeyondEmployer,
    BeyondPosted,
    BeyondSlotId,
    BeyondSlotVersion,
    BeyondLabel,
    BeyondSet,
    BeyondI,
    BeyondV,
    BeyondHId,
    BeyondHVersion,
    BeyondAttempts,
    BeyondMax,
    BeyondState,
    Label,
    Employer,
    State,
    Posted,
    SlotId,
    V,
    HId,
    Member,
    I,
    IAt12,
    IAt32,
    Max,
    Attempts,
    AttemptsAt15,
    AttemptsAt18,
    AttemptsAt22,
    AttemptsAt25,
}

pub const RULES: [(Rule, &str); 38] = [
    (Rule::WLow, "W is 0"),
    (Rule::WHigh, "W above 8"),
    (Rule::GLow, "G is 0"),
    (Rule::GHigh, "G above 32"),
    (Rule::BLow, "B is 0"),
    (Rule::BHigh, "B above 256"),
    (Rule::Maxg, "MAXG is G or more"),
    (Rule::BeyondTaken, "guard beyond G: taken"),
    (Rule::BeyondEmployer, "guard beyond G: employer"),
    (Rule::BeyondPosted, "guard beyond G: posted id"),
    (Rule::BeyondSlotId, "guard beyond G: slot's id"),
    (Rule::BeyondSlotVersion, "guard beyond G: slot's version"),
    (Rule::BeyondLabel, "worker beyond W: label"),
    (Rule::BeyondSet, "worker beyond W: set"),
    (Rule::BeyondI, "worker beyond W: i"),
    (Rule::BeyondV, "worker beyond W: v"),
    (Rule::BeyondHId, "worker beyond W: h's id"),
    (Rule::BeyondHVersion, "worker beyond W: h's version"),
    (Rule::BeyondAttempts, "worker beyond W: attempts"),
    (Rule::BeyondMax, "worker beyond W: max"),
    (Rule::BeyondState, "buffer beyond B: state"),
    (Rule::Label, "no such label"),
    (Rule::Employer, "employer above W"),
    (Rule::State, "no such state"),
    (Rule::Posted, "posted id above B"),
    (Rule::SlotId, "slot's id above B"),
    (Rule::V, "v above B"),
    (Rule::HId, "h's id above B"),
    (Rule::Member, "set member above B"),
    (Rule::I, "i is G or more, not at 12 or 32"),
    (Rule::IAt12, "i above G at 12"),
    (Rule::IAt32, "i above G at 32"),
    (Rule::Max, "max is G or more"),
    (Rule::Attempts, "attempts above 3"),
    (Rule::AttemptsAt15, "attempts 3 at 15"),
    (Rule::AttemptsAt18, "attempts 3 at 18"),
    (Rule::AttemptsAt22, "attempts 3 at 22"),
    (Rule::AttemptsAt25, "attempts 3 at 25"),
];

/// The refusal that a rule gives, and what it is asked of.
pub type Asked = (u32, Part);

impl Rule {
    pub fn asked(self) -> Asked {
        match self {
            Rule::WLow
            | Rule::WHigh
            | Rule::GLow
            | Rule::GHigh
            | Rule::BLow
            | Rule::BHigh
            | Rule::Maxg => (21, Part::Pool),
            Rule::BeyondTaken
            | Rule::BeyondEmployer
            | Rule::BeyondPosted
            | Rule::BeyondSlotId
            | Rule::BeyondSlotVersion => (22, Part::Guard),
            Rule::BeyondState => (22, Part::Buffer),
            Rule::BeyondLabel
            | Rule::BeyondSet
            | Rule::BeyondI
            | Rule::BeyondV
            | Rule::BeyondHId
            | Rule::BeyondHVersion
            | Rule::BeyondAttempts
            | Rule::BeyondMax => (22, Part::Worker),
            Rule::Employer => (23, Part::Guard),
            Rule::State => (23, Part::Buffer),
            Rule::Label => (23, Part::Worker),
            Rule::Posted | Rule::SlotId => (24, Part::Guard),
            Rule::V | Rule::HId | Rule::Member => (24, Part::Worker),
            Rule::I
            | Rule::IAt12
            | Rule::IAt32
            | Rule::Max
            | Rule::Attempts
            | Rule::AttemptsAt15
            | Rule::AttemptsAt18
            | Rule::AttemptsAt22
            | Rule::AttemptsAt25 => (25, Part::Worker),
        }
    }
}

/// One rule broken at one place: a guard's number, a buffer's id, a worker's number, or 0 for the pool.
#[derive(Clone, Copy, Debug, PartialEq, Eq)]
pub struct Fault {
    pub rule: Rule,
    pub place: u32,
}

impl Fault {
    /// Of two faults the one with the lesser of these is named.
    pub fn order(&self) -> (u32, Part, u32) {
        let (refusal, part) = self.rule.asked();
        (refusal, part, self.place)
    }
}

/// The labels at which i is less than G, idle among them.
pub const NOT_12_OR_32: [u32; 16] = [0, 2, 4, 5, 6, 7, 8, 9, 10, 13, 15, 18, 22, 25, 28, 31];

/// The numbers between and just past the labels.
pub const NO_LABELS: [u32; 16] = [1, 3, 11, 14, 16, 17, 19, 20, 21, 23, 24, 26, 27, 29, 30, 33];

pub fn is_label(label: u32) -> bool {
    label == IDLE || LABELS.contains(&label)
}

/// The fault that is named, if the record isn't sound.
pub fn first(record: &Record) -> Option<Fault> {
    faults(record).into_iter().min_by_key(Fault::order)
}

/// Every fault of the record. With W, G or B out of range no entry is within or beyond the counts, and the other rules say nothing.
pub fn faults(record: &Record) -> Vec<Fault> {
    let mut faults = Vec::new();
    note(&mut faults, 0, counts(record));
    if !faults.is_empty() {
        return faults;
    }
    let maxg = (record.maxg >= record.g, Rule::Maxg);
    note(&mut faults, 0, those(&[maxg]));
    let entries = [
        (Part::Guard, 0, record.g, GUARDS),
        (Part::Buffer, 1, record.b, BUFFERS),
        (Part::Worker, 1, record.w, WORKERS),
    ];
    for (part, lowest, count, all) in entries {
        for n in 0..all as u32 {
            let place = lowest + n;
            let rules = if n < count {
                within(record, part, place)
            } else {
                beyond(record, part, place)
            };
            note(&mut faults, place, rules);
        }
    }
    faults
}

fn note(faults: &mut Vec<Fault>, place: u32, rules: Vec<Rule>) {
    faults.extend(rules.into_iter().map(|rule| Fault { rule, place }));
}

fn those(broken: &[(bool, Rule)]) -> Vec<Rule> {
    let broken = broken.iter().filter(|(is_broken, _)| *is_broken);
    broken.map(|(_, rule)| *rule).collect()
}

fn counts(record: &Record) -> Vec<Rule> {
    those(&[
        (record.w < 1, Rule::WLow),
        (record.w > 8, Rule::WHigh),
        (record.g < 1, Rule::GLow),
        (record.g > 32, Rule::GHigh),
        (record.b < 1, Rule::BLow),
        (record.b > 256, Rule::BHigh),
    ])
}

/// The rules for entries within the counts that this entry breaks, wherever it stands.
pub fn within(record: &Record, part: Part, place: u32) -> Vec<Rule> {
    match part {
        Part::Pool => Vec::new(),
        Part::Guard => inner_guard(record, &record.guards[place as usize]),
        Part::Buffer => those(&[(record.states[place as usize - 1] > LEAVING, Rule::State)]),
        Part::Worker => inner_worker(record, &record.workers[place as usize - 1]),
    }
}

/// The rules for entries beyond the counts that this entry breaks.
fn beyond(record: &Record, part: Part, place: u32) -> Vec<Rule> {
    match part {
        Part::Pool => Vec::new(),
        Part::Guard => outer_guard(&record.guards[place as usize]),
        Part::Buffer => those(&[(record.states[place as usize - 1] != 0, Rule::BeyondState)]),
        Part::Worker => outer_worker(&record.workers[place as usize - 1]),
    }
}

fn inner_guard(record: &Record, guard: &Guard) -> Vec<Rule> {
    those(&[
        (guard.employer > record.w, Rule::Employer),
        (guard.posted > record.b, Rule::Posted),
        (guard.slot.id > record.b, Rule::SlotId),
    ])
}

fn outer_guard(guard: &Guard) -> Vec<Rule> {
    those(&[
        (guard.taken, Rule::BeyondTaken),
        (guard.employer != 0, Rule::BeyondEmployer),
        (guard.posted != 0, Rule::BeyondPosted),
        (guard.slot.id != 0, Rule::BeyondSlotId),
        (guard.slot.version != 0, Rule::BeyondSlotVersion),
    ])
}

fn inner_worker(record: &Record, worker: &Worker) -> Vec<Rule> {
    let (i, label) = (worker.i, worker.label);
    let bad_member = worker.set.iter().any(|&id| id < 1 || id > record.b);
    let bad_i = match label {
        12 => (i > record.g, Rule::IAt12),
        32 => (i > record.g, Rule::IAt32),
        _ => (i >= record.g, Rule::I),
    };
    let three = worker.attempts == 3;
    those(&[
        (!is_label(label), Rule::Label),
        (worker.v > record.b, Rule::V),
        (worker.h.id > record.b, Rule::HId),
        (bad_member, Rule::Member),
        bad_i,
        (worker.max >= record.g, Rule::Max),
        (worker.attempts > 3, Rule::Attempts),
        (three && label == 15, Rule::AttemptsAt15),
        (three && label == 18, Rule::AttemptsAt18),
        (three && label == 22, Rule::AttemptsAt22),
        (three && label == 25, Rule::AttemptsAt25),
    ])
}

fn outer_worker(worker: &Worker) -> Vec<Rule> {
    let Slot { id, version } = worker.h;
    those(&[
        (worker.label != IDLE, Rule::BeyondLabel),
        (!worker.set.is_empty(), Rule::BeyondSet),
        (worker.i != 0, Rule::BeyondI),
        (worker.v != 0, Rule::BeyondV),
        (id != 0, Rule::BeyondHId),
        (version != 0, Rule::BeyondHVersion),
        (worker.attempts != 0, Rule::BeyondAttempts),
        (worker.max != 0, Rule::BeyondMax),
    ])
}
