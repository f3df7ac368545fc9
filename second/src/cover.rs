//! The coverage table: what the cases made the model do, counted cell by cell.

use crate::call::{Answer, Call};
use crate::calls::Outcome;
use crate::cases::{Kind, Mix, ANY_RECORD};
use crate::cells::{self, LAST, MADE};
use crate::edges;
use crate::lists;
use crate::order;
use crate::record::{Record, IDLE};
use crate::sound::{self, Fault, Rule, NOT_12_OR_32, NO_LABELS, RULES};
use std::collections::BTreeMap;
use std::fmt::Write;

pub struct Cover {
    order: Vec<String>,
    counts: BTreeMap<String, u64>,
}

impl Cover {
    pub fn new(mix: Mix) -> Cover {
        let order = cells::of(mix);
        let counts = order.iter().map(|name| (name.clone(), 0)).collect();
        Cover { order, counts }
    }

    fn hit(&mut self, name: String) {
        *self.counts.entry(name).or_insert(0) += 1;
    }

    pub fn count(
        &mut self,
        kind: Kind,
        before: &Record,
        list: &[u32],
        call: &Call,
        outcome: &Outcome,
    ) {
        self.hit(format!("kind: {}", kind.name()));
        if let Answer::Refused(..) = outcome.answer {
            self.refused(kind, call, outcome);
        } else {
            self.accepted(kind, before, list, call, outcome);
        }
        if let (Call::Give { .. }, true) = (call, list.len() > before.b as usize) {
            self.hit("give: list longer than B".to_string());
        }
        for name in lists::of(before, list, call, outcome) {
            self.hit(name);
        }
        if matches!(call, Call::Make { .. }) {
            return;
        }
        self.last_ones(before, call, outcome);
        let faults = sound::faults(before);
        if faults.is_empty() && kind == Kind::Unreached {
            for name in edges::of(before) {
                self.hit(format!("edge: {name}"));
            }
        }
        for name in order::of(before, &faults) {
            self.hit(name);
        }
        if let Some(alone) = only_rule(&faults) {
            if let Some((_, name)) = RULES.iter().find(|(rule, _)| *rule == alone) {
                self.hit(format!("unsound: {name}"));
            }
            self.damaged_label(before, alone);
        }
    }

    /// The last buffer and the last guard of the largest pool, where a scan that ends too early shows.
    fn last_ones(&mut self, before: &Record, call: &Call, outcome: &Outcome) {
        let has_last = |k: u32| before.worker(k).is_some_and(|w| w.set.contains(&256));
        let name = match (call, outcome.answer) {
            (Call::Size { k }, Answer::Count(_)) if has_last(*k) => LAST[0],
            (Call::Advance { k }, Answer::Back(_)) if has_last(*k) => LAST[1],
            (Call::Audit, Answer::Clear) if before.guards[31].slot.id != 0 => LAST[2],
            _ => return,
        };
        self.hit(name.to_string());
    }

    /// Which label it was that is none, or at which i was G.
    fn damaged_label(&mut self, before: &Record, rule: Rule) {
        for worker in &before.workers {
            let label = worker.label;
            if rule == Rule::Label && NO_LABELS.contains(&label) {
                self.hit(format!("unsound: label {label}"));
            }
            if rule == Rule::I && worker.i == before.g && NOT_12_OR_32.contains(&label) {
                self.hit(format!("unsound: i is G at label {label}"));
            }
        }
    }

    fn refused(&mut self, kind: Kind, call: &Call, outcome: &Outcome) {
        let word = call.word();
        let first = &outcome.refusals[0];
        let unsound = (21..=25).contains(&first.number);
        if unsound && ANY_RECORD.contains(&kind) {
            self.hit(format!("{}: refused {}", kind.name(), first.number));
        }
        let why = match (first.number, outcome.refusals.len()) {
            (1, 2..) => "several at once",
            _ => first.why,
        };
        let comma = if why.is_empty() { "" } else { ", " };
        self.hit(format!("{word}: refused {}{comma}{why}", first.number));
        let mut others: Vec<u32> = outcome.refusals.iter().map(|r| r.number).collect();
        others.sort_unstable();
        others.dedup();
        others.retain(|&other| other != first.number);
        for other in others {
            self.hit(match unsound {
                true => format!("{word}: unsound before {other}"),
                false => format!("{word}: {} before {other}", first.number),
            });
        }
    }

    fn accepted(
        &mut self,
        kind: Kind,
        before: &Record,
        list: &[u32],
        call: &Call,
        outcome: &Outcome,
    ) {
        match *call {
            Call::Make { w, g, b } => {
                self.hit("make: accepted".to_string());
                for end in [format!("W {w}"), format!("G {g}"), format!("B {b}")] {
                    if MADE.contains(&end.as_str()) {
                        self.hit(format!("make: accepted, {end}"));
                    }
                }
            }
            Call::Advance { k } => self.advanced(kind, before, list, k, outcome.branch),
            _ => self.hit(format!("{}: {}", call.word(), outcome.branch)),
        }
    }

    fn advanced(&mut self, kind: Kind, before: &Record, list: &[u32], k: u32, branch: &str) {
        let Some(worker) = before.worker(k) else {
            return;
        };
        let label = worker.label;
        debug_assert_ne!(label, IDLE);
        self.hit(format!("label {label}: {branch}"));
        if let 18 | 22 | 25 = label {
            let cell = format!("label {label}: attempts {}", worker.attempts);
            if kind == Kind::Schedules {
                self.hit(format!("schedules, {cell}"));
            }
            self.hit(cell);
        }
        if label == 18 && branch.starts_with("exchanged") {
            if worker.v == 0 {
                self.hit("label 18: v is 0, exchanged".to_string());
            }
            if worker.v != 0 && worker.v == worker.h.id {
                self.hit("label 18: h's id is v, exchanged".to_string());
            }
        }
        if label == 32 && !worker.set.is_empty() {
            let length = if list.len() == worker.set.len() {
                "as long as"
            } else {
                "longer than"
            };
            self.hit(format!("label 32: list {length} the set"));
        }
    }

    /// The cells that no call has met.
    pub fn empty(&self) -> Vec<&str> {
        let empty = self.order.iter().filter(|name| self.counts[*name] == 0);
        empty.map(String::as_str).collect()
    }

    /// The cells met that no table lists.
    #[cfg(test)]
    pub fn unlisted(&self) -> Vec<&str> {
        let all = cells::all();
        let names = self.counts.keys().filter(|name| !all.contains(name));
        names.map(String::as_str).collect()
    }

    pub fn table(&self) -> String {
        let mut out = String::new();
        for name in &self.order {
            let _ = writeln!(out, "{name:<50} {:>9}", self.counts[name]);
        }
        out
    }
}

/// The rule that is broken, if it is one alone. So a rule counts as tested.
fn only_rule(faults: &[Fault]) -> Option<Rule> {
    let rule = faults.first()?.rule;
    let alone = faults.iter().all(|fault| fault.rule == rule);
    alone.then_some(rule)
}

#[cfg(test)]
mod tests {
    use crate::cases::{self, Mix};
    use crate::stage::{Stage, Way};

    fn fills_the_table(seed: u64, calls: u64, mix: Mix) {
        let mut stage = Stage::new(calls, mix, Way::Table);
        assert!(cases::play(seed, &mut stage).is_ok());
        assert_eq!(stage.cover.unlisted(), [""; 0]);
        assert_eq!(stage.cover.empty(), [""; 0]);
    }

    #[test]
    fn the_table_lists_every_cell_met_and_none_is_empty() {
        for seed in 1..=3 {
            fills_the_table(seed, 20_000, Mix::Every);
        }
    }

    #[test]
    fn the_first_long_lists_fill_their_cells() {
        for seed in 1..=50 {
            fills_the_table(seed, 130, Mix::LongLists);
        }
    }
}
