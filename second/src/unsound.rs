//! Which rule of soundness is named, and at which place: records damaged by hand, on a pool of W=2, G=3, B=4.

use crate::call::{Answer, Call, WORDS};
use crate::calls;
use crate::cases::{any_call, any_record, at_the_limits};
use crate::chance::Chance;
use crate::record::{Record, LARGEST, LEAVING};
use crate::sound;

type Damage = fn(&mut Record);

fn pool() -> Record {
    let mut record = Record::fresh(2, 3, 4);
    record.guards[1].employer = 2;
    record.guards[1].posted = 4;
    record.workers[0].label = 12;
    record.workers[0].i = 3;
    record.workers[0].set = [1, 4].into();
    record.states[0] = LEAVING;
    record.states[3] = LEAVING;
    record
}

fn damaged(damages: &[Damage]) -> Record {
    let mut record = pool();
    for damage in damages {
        damage(&mut record);
    }
    record
}

/// What the soundness test answers; it changes nothing.
fn answer(record: &Record) -> Answer {
    let outcome = calls::run(record, &[7], &Call::Sound);
    assert_eq!(outcome.record, *record);
    assert_eq!(outcome.list, [7]);
    outcome.answer
}

fn all_named(cases: &[(&[Damage], u32, u32)]) {
    for (n, (damages, rule, place)) in cases.iter().enumerate() {
        let refused = Answer::Refused(*rule, *place);
        assert_eq!(answer(&damaged(damages)), refused, "case {n}");
    }
}

const MAXG: Damage = |r| r.maxg = 3;
const BEYOND_GUARD: Damage = |r| r.guards[3].taken = true;
const BEYOND_BUFFER: Damage = |r| r.states[4] = 1;
const BEYOND_WORKER: Damage = |r| r.workers[2].i = 1;
const EMPLOYER: Damage = |r| r.guards[2].employer = 3;
const STATE: Damage = |r| r.states[1] = 3;
const LABEL: Damage = |r| r.workers[0].label = 3;
const POSTED: Damage = |r| r.guards[1].posted = 5;
const V: Damage = |r| r.workers[1].v = 5;
const MAX: Damage = |r| r.workers[1].max = 3;

#[test]
fn a_sound_record_is_clear() {
    assert_eq!(answer(&pool()), Answer::Clear);
}

#[test]
fn each_rule_at_each_kind_of_place() {
    all_named(&[
        (&[|r| r.w = 0], 21, 0),
        (&[|r| r.w = 9], 21, 0),
        (&[|r| r.g = 0], 21, 0),
        (&[|r| r.g = 33], 21, 0),
        (&[|r| r.b = 0], 21, 0),
        (&[|r| r.b = 257], 21, 0),
        (&[MAXG], 21, 0),
        (&[BEYOND_GUARD], 22, 3),
        (&[|r| r.guards[31].slot.version = 1], 22, 31),
        (&[BEYOND_BUFFER], 22, 5),
        (&[|r| r.states[255] = 2], 22, 256),
        (&[BEYOND_WORKER], 22, 3),
        (&[|r| r.workers[7].set = [1].into()], 22, 8),
        (&[EMPLOYER], 23, 2),
        (&[STATE], 23, 2),
        (&[LABEL], 23, 1),
        (&[POSTED], 24, 1),
        (&[|r| r.guards[0].slot.id = 5], 24, 0),
        (&[V], 24, 2),
        (&[|r| r.workers[1].h.id = 5], 24, 2),
        (&[|r| r.workers[0].set = [5].into()], 24, 1),
        (&[|r| r.workers[0].i = 4], 25, 1),
        (&[MAX], 25, 2),
        (&[|r| r.workers[1].attempts = 4], 25, 2),
    ]);
}

#[test]
fn the_first_of_two_rules() {
    let one_for_each = [MAXG, BEYOND_WORKER, LABEL, V, MAX];
    for (n, lower) in one_for_each.iter().enumerate() {
        let alone = answer(&damaged(&[*lower]));
        for higher in &one_for_each[n + 1..] {
            assert_eq!(answer(&damaged(&[*lower, *higher])), alone);
            assert_eq!(answer(&damaged(&[*higher, *lower])), alone);
        }
    }
    all_named(&[
        // One entry breaks both, or a lower one breaks the later rule.
        (&[|r| r.guards[0].posted = 5, EMPLOYER], 23, 2),
        (&[|r| r.workers[0].v = 5, |r| r.workers[1].label = 1], 23, 2),
        (&[|r| r.workers[0].i = 9, V], 24, 2),
        (&[LABEL, |r| r.workers[0].attempts = 9], 23, 1),
        // A later rule at an earlier kind of entry.
        (&[BEYOND_WORKER, EMPLOYER], 22, 3),
        (&[STATE, POSTED], 23, 2),
    ]);
}

#[test]
fn the_first_kind_within_a_rule() {
    all_named(&[
        (&[BEYOND_GUARD, BEYOND_BUFFER, BEYOND_WORKER], 22, 3),
        (&[BEYOND_BUFFER, BEYOND_WORKER], 22, 5),
        (&[|r| r.guards[31].taken = true, BEYOND_WORKER], 22, 31),
        (&[EMPLOYER, STATE, LABEL], 23, 2),
        (&[EMPLOYER, |r| r.states[0] = 9], 23, 2),
        (&[EMPLOYER, LABEL], 23, 2),
        (&[STATE, LABEL], 23, 2),
        (&[|r| r.guards[2].posted = 9, |r| r.workers[0].v = 9], 24, 2),
    ]);
}

#[test]
fn the_lowest_of_two_entries() {
    all_named(&[
        (&[|r| r.guards[30].posted = 1, BEYOND_GUARD], 22, 3),
        (&[|r| r.states[255] = 1, BEYOND_BUFFER], 22, 5),
        (&[|r| r.workers[7].max = 1, BEYOND_WORKER], 22, 3),
        (&[EMPLOYER, |r| r.guards[0].employer = LARGEST], 23, 0),
        (&[STATE, |r| r.states[3] = 255], 23, 2),
        (&[LABEL, |r| r.workers[1].label = 33], 23, 1),
        (&[POSTED, |r| r.guards[0].slot.id = 5], 24, 0),
        (&[V, |r| r.workers[0].h.id = 5], 24, 1),
        (&[MAX, |r| r.workers[0].max = 3], 25, 1),
    ]);
}

#[test]
fn beyond_the_counts_only_rule_22_is_asked() {
    all_named(&[
        (&[|r| r.guards[3].employer = 9], 22, 3),
        (&[|r| r.guards[3].slot.id = 9], 22, 3),
        (&[|r| r.states[4] = 255], 22, 5),
        (&[|r| r.workers[2].label = 3], 22, 3),
        (&[|r| r.workers[2].set = [200].into()], 22, 3),
        (&[|r| r.workers[2].attempts = 9], 22, 3),
    ]);
}

#[test]
fn counts_out_of_range_hide_the_rest() {
    let all = [BEYOND_GUARD, EMPLOYER, STATE, LABEL, V, MAX];
    for count in [
        (0, 3, 4),
        (9, 3, 4),
        (2, 0, 4),
        (2, 33, 4),
        (2, 3, 0),
        (2, 3, 257),
    ] {
        let mut record = damaged(&all);
        (record.w, record.g, record.b) = count;
        assert_eq!(answer(&record), Answer::Refused(21, 0));
    }
}

#[test]
fn every_call_passes_it_on() {
    let record = damaged(&[STATE, V]);
    let mut chance = Chance::of_case(1, 1);
    for word in WORDS {
        let outcome = calls::run(&record, &[9, 9], &any_call(&mut chance, word));
        assert_eq!(outcome.answer, Answer::Refused(23, 2), "{word}");
        assert_eq!((outcome.record, outcome.list), (record.clone(), vec![9, 9]));
    }
    let made = calls::run(&record, &[], &Call::Make { w: 1, g: 1, b: 1 });
    assert_eq!(made.answer, Answer::Accepted);
    let refused = calls::run(&record, &[], &Call::Make { w: 0, g: 1, b: 1 });
    assert_eq!(refused.answer, Answer::Refused(1, 0));
}

#[test]
fn everything_at_its_largest() {
    let mut chance = Chance::of_case(1, 2);
    let mut largest = |rule| at_the_limits(&mut chance, rule, 100);
    for (rule, place) in [(21, 0), (22, 1), (23, 0), (24, 0), (25, 1)] {
        assert_eq!(answer(&largest(rule)), Answer::Refused(rule, place));
    }
}

#[test]
fn garbage_gets_one_rule_and_one_place() {
    for number in 0..20_000 {
        let mut chance = Chance::of_case(5, number);
        let record = any_record(&mut chance);
        let faults = sound::faults(&record);
        match answer(&record) {
            Answer::Refused(21, place) => assert_eq!(place, 0),
            Answer::Refused(rule @ 22..=25, place) => {
                let same_rule = faults.iter().filter(|fault| fault.rule.asked().0 == rule);
                let part = same_rule.clone().map(|fault| fault.rule.asked().1).min();
                let same_part = same_rule.filter(|fault| Some(fault.rule.asked().1) == part);
                assert_eq!(Some(place), same_part.map(|fault| fault.place).min());
                assert!(faults.iter().all(|fault| fault.rule.asked().0 >= rule));
            }
            other => assert_eq!((other, faults), (Answer::Clear, vec![])),
        }
    }
}
