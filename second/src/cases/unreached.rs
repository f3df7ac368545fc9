//! Sound records that nothing need reach, one call on each.

use super::{arrange, build};
use crate::call::Call;
use crate::chance::Chance;
use crate::stage::{Go, Stage};

/// The calls other than an advance, those with more refusals more often.
const OTHERS: [&str; 13] = [
    "hire", "fire", "fire", "post", "post", "give", "take", "ask", "size", "leaving", "audit",
    "audit", "sound",
];

pub fn run(stage: &mut Stage, chance: &mut Chance) -> Go {
    if chance.below(200) == 0 {
        return largest(stage, chance);
    }
    let mut record = build::sound(chance);
    let word = if chance.percent(55) {
        "advance"
    } else {
        chance.pick(&OTHERS)
    };
    let faults = arrange::Faults::some(chance);
    let (call, list) = arrange::call(chance, &mut record, word, faults);
    stage.lay(record)?;
    stage.lend(list)?;
    stage.call(call)?;
    Ok(())
}

fn largest(stage: &mut Stage, chance: &mut Chance) -> Go {
    stage.lay(build::largest())?;
    let short = chance.percent(30);
    let list = if short { vec![1] } else { vec![7; 256] };
    let k = chance.between(1, 8);
    let call = match chance.below(9) {
        0 => Call::Audit,
        1 => Call::Leaving,
        2 => Call::Size { k },
        3 => Call::Take { id: 256 },
        4 => Call::Advance { k },
        5 => Call::Sound,
        _ => Call::Advance { k: 8 },
    };
    stage.lend(list)?;
    stage.call(call)?;
    stage.lend(vec![])
}
