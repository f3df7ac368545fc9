//! Sound records with two faults: against two rules, at two kinds of entry under one rule, or at two entries of one kind. One call on each.

use super::arrange;
use super::damage::{base, damage};
use crate::call::{Call, WORDS};
use crate::chance::Chance;
use crate::order::{can_cross, ASKED};
use crate::record::Record;
use crate::sound::{self, Asked, Fault, Rule, RULES};
use crate::stage::{Go, Stage};
use std::collections::BTreeSet;

/// The two faults, the one to be named first. Crossed: the other has the lower number.
#[derive(Clone, Copy)]
struct Wanted {
    named: Asked,
    other: Asked,
    crossed: bool,
}

/// The number walks through every pair with every call.
pub fn run(stage: &mut Stage, chance: &mut Chance, number: usize) -> Go {
    let pairs = pairs();
    let (named, other) = pairs[number % pairs.len()];
    let wanted = Wanted {
        named,
        other,
        crossed: named != other && can_cross(named, other) && chance.percent(50),
    };
    let word = WORDS[(number % pairs.len() + number / pairs.len()) % WORDS.len()];
    let (record, call, list) = loop {
        if let Some(case) = attempt(chance, wanted, word) {
            break case;
        }
    };
    stage.lay(record)?;
    stage.lend(list)?;
    stage.call(call)?;
    Ok(())
}

/// Every rule with every later one and with itself; only the pool can't break a rule at two places.
fn pairs() -> Vec<(Asked, Asked)> {
    let mut pairs = Vec::new();
    for (n, &named) in ASKED.iter().enumerate() {
        let others = ASKED[n..].iter().map(|&other| (named, other));
        pairs.extend(others.filter(|(_, other)| *other != ASKED[0]));
    }
    pairs
}

/// A record with these two faults and no other. One damage may undo the other, so it doesn't always come out.
fn attempt(chance: &mut Chance, wanted: Wanted, word: &str) -> Option<(Record, Call, Vec<u32>)> {
    let (first, second) = (rule(chance, wanted.named), rule(chance, wanted.other));
    let mut record = base(chance, &[first, second]);
    let faults = arrange::Faults(chance.pick(&[0, 35, 70]));
    let (call, list) = arrange::call(chance, &mut record, word, faults);
    let number = chance.any() as usize;
    damage(chance, &mut record, second, number);
    // The pool's damage comes last, since the other needs the counts; with W, G or B out of range it hides the other.
    damage(chance, &mut record, first, number);
    let hides = wanted.named == ASKED[0] && first != Rule::Maxg;
    let comes_out = hides || has_both(&record, wanted);
    comes_out.then_some((record, call, list))
}

/// One of the rules asked so; of the pool's rules, MAXG's as often as all others.
fn rule(chance: &mut Chance, asked: Asked) -> Rule {
    if asked == ASKED[0] && chance.percent(50) {
        return Rule::Maxg;
    }
    let rules = RULES.iter().map(|(rule, _)| *rule);
    let rules: Vec<Rule> = rules.filter(|rule| rule.asked() == asked).collect();
    chance.pick(&rules)
}

fn has_both(record: &Record, wanted: Wanted) -> bool {
    let faults: BTreeSet<_> = sound::faults(record).iter().map(Fault::order).collect();
    let asked: BTreeSet<Asked> = faults.iter().map(|fault| (fault.0, fault.1)).collect();
    let places: Vec<u32> = faults.iter().map(|fault| fault.2).collect();
    asked == BTreeSet::from([wanted.named, wanted.other])
        && places.len() == 2
        && (!wanted.crossed || places[1] < places[0])
}
