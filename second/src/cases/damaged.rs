//! Sound records with one field damaged against one rule of soundness, one call on each.

use super::arrange;
use super::damage::{base, damage};
use crate::call::WORDS;
use crate::chance::Chance;
use crate::sound::{Rule, RULES};
use crate::stage::{Go, Stage};

/// Rules that speak of many values come again in each walk.
const AGAIN: [Rule; 5] = [Rule::I, Rule::Label, Rule::I, Rule::Label, Rule::I];

/// The number walks through every rule with every call.
pub fn run(stage: &mut Stage, chance: &mut Chance, number: usize) -> Go {
    let walk = RULES.len() + AGAIN.len();
    let rule = match RULES.get(number % walk) {
        Some(&(rule, _)) => rule,
        None => AGAIN[number % walk - RULES.len()],
    };
    let word = WORDS[(number % walk + number / walk) % WORDS.len()];
    let mut record = base(chance, &[rule]);
    let faults = arrange::Faults(chance.pick(&[0, 35, 70]));
    let (call, list) = arrange::call(chance, &mut record, word, faults);
    damage(chance, &mut record, rule, number);
    stage.lay(record)?;
    stage.lend(list)?;
    stage.call(call)?;
    Ok(())
}

#[cfg(test)]
mod tests {
    use super::*;
    use crate::cases::build;
    use crate::record::Record;
    use crate::sound;

    fn broken(record: &Record) -> Vec<Rule> {
        sound::faults(record)
            .iter()
            .map(|fault| fault.rule)
            .collect()
    }

    #[test]
    fn one_rule_alone_is_broken() {
        for number in 0..20_000 {
            let mut chance = Chance::of_case(9, number);
            let rule = RULES[number as usize % RULES.len()].0;
            let word = WORDS[number as usize % WORDS.len()];
            let mut record = base(&mut chance, &[rule]);
            let faults = arrange::Faults::some(&mut chance);
            arrange::call(&mut chance, &mut record, word, faults);
            assert_eq!(broken(&record), [], "{word} {record:?}");
            damage(&mut chance, &mut record, rule, number as usize);
            assert_eq!(broken(&record), [rule], "{record:?}");
        }
    }

    #[test]
    fn built_records_are_sound() {
        for number in 0..20_000 {
            let mut chance = Chance::of_case(8, number);
            let record = build::sound(&mut chance);
            assert_eq!(broken(&record), [], "{record:?}");
        }
        assert_eq!(broken(&build::largest()), []);
    }
}
