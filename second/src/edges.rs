//! The good neighbours of the rules of soundness: values at their largest allowed that a sound record may hold.

use crate::record::{Record, LARGEST};

pub const NAMES: [&str; 22] = [
    "W is 8",
    "G is 32",
    "B is 256",
    "MAXG is G-1",
    "i is G at 12",
    "i is G at 32",
    "i is G-1 elsewhere",
    "max is G-1",
    "attempts 3 elsewhere",
    "attempts 2 at 15",
    "attempts 2 at 18",
    "attempts 2 at 22",
    "attempts 2 at 25",
    "employer is W",
    "posted id is B",
    "slot's id is B",
    "v is B",
    "h's id is B",
    "set member is B",
    "slot's version is the largest",
    "h's version is the largest",
    "everything at its largest",
];

/// The names of the edges on which a sound record stands.
pub fn of(record: &Record) -> Vec<&'static str> {
    let guards = &record.guards[..record.g as usize];
    let workers = &record.workers[..record.w as usize];
    let mut found = [false; NAMES.len()];
    found[0] = record.w == 8;
    found[1] = record.g == 32;
    found[2] = record.b == 256;
    found[3] = record.maxg == record.g - 1;
    for worker in workers {
        let at_g = worker.i == record.g;
        found[4] |= at_g && worker.label == 12;
        found[5] |= at_g && worker.label == 32;
        let usual = !matches!(worker.label, 12 | 32);
        found[6] |= worker.i == record.g - 1 && usual;
        found[7] |= worker.max == record.g - 1;
        found[8] |= worker.attempts == 3;
        let two = worker.attempts == 2;
        found[9] |= two && worker.label == 15;
        found[10] |= two && worker.label == 18;
        found[11] |= two && worker.label == 22;
        found[12] |= two && worker.label == 25;
        found[16] |= worker.v == record.b;
        found[17] |= worker.h.id == record.b;
        found[18] |= worker.set.contains(&record.b);
        found[20] |= worker.h.version == LARGEST;
    }
    for guard in guards {
        found[13] |= guard.employer == record.w;
        found[14] |= guard.posted == record.b;
        found[15] |= guard.slot.id == record.b;
        found[19] |= guard.slot.version == LARGEST;
    }
    let ends = [0, 1, 2, 3, 7, 8, 13, 14, 15, 16, 17, 18, 19, 20];
    found[21] = ends.iter().all(|&n| found[n]);
    (0..NAMES.len())
        .filter(|&n| found[n])
        .map(|n| NAMES[n])
        .collect()
}
