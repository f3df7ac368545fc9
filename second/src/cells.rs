//! The cells of the coverage table.

use crate::call::WORDS;
use crate::cases::{Kind, Mix, ANY_RECORD, KINDS};
use crate::edges;
use crate::lists;
use crate::order;
use crate::sound::{NOT_12_OR_32, NO_LABELS, RULES};

const ACCEPTED: [&str; 19] = [
    "make: accepted",
    "hire: accepted",
    "fire: accepted",
    "post: accepted, on a buffer",
    "post: accepted, standing down",
    "give: accepted, empty list",
    "give: accepted, list of some",
    "take: accepted",
    "ask: yes",
    "ask: no, free",
    "ask: no, leaving",
    "size: none",
    "size: some",
    "leaving: none",
    "leaving: some",
    "sound: clear",
    "give: list longer than B",
    "label 32: list as long as the set",
    "label 32: list longer than the set",
];

pub const MADE: [&str; 6] = ["W 1", "W 8", "G 1", "G 32", "B 1", "B 256"];

const LABEL_BRANCHES: [(u32, &[&str]); 17] = [
    (2, &["guard not taken", "taken, stays", "taken, none found"]),
    (4, &["to 5", "to 6"]),
    (5, &["MAXG = max", "MAXG another"]),
    (6, &["ends"]),
    (7, &["to 8"]),
    (8, &["ends"]),
    (9, &["to 10"]),
    (10, &["ends"]),
    (12, &["to 13", "to 32"]),
    (13, &["to 15"]),
    (
        15,
        &[
            "nothing posted",
            "posted, in the set",
            "posted, not in the set",
        ],
    ),
    (
        18,
        &[
            "exchanged, slot empty",
            "exchanged, slot full",
            "slot differs in id",
            "slot differs in version alone",
            "v is 0, exchanged",
            "h's id is v, exchanged",
        ],
    ),
    (22, &["to 25", "to 31"]),
    (
        25,
        &[
            "to 31 for attempts and h",
            "to 31 for the posted id",
            "to 18",
        ],
    ),
    (
        28,
        &[
            "h empty",
            "h's id is v",
            "slot differs in id",
            "slot differs in version alone",
            "collected",
        ],
    ),
    (31, &["to 12"]),
    (32, &["hands back none", "hands back some"]),
];

const AUDIT: [&str; 7] = [
    "clear",
    "free, in 1 place",
    "free, in 2 places or more",
    "in service, in 1 place",
    "in service, in 2 places or more",
    "leaving, in no place",
    "leaving, in 2 places or more",
];

const REFUSED: [(&str, &[&str]); 9] = [
    (
        "make",
        &[
            "1, W low",
            "1, W high",
            "1, G low",
            "1, G high",
            "1, B low",
            "1, B high",
            "1, several at once",
        ],
    ),
    ("hire", &["3", "4"]),
    (
        "fire",
        &["3", "4", "6", "7, employer 0", "7, employer another", "8"],
    ),
    (
        "post",
        &[
            "3",
            "4",
            "6",
            "7, employer 0",
            "7, employer another",
            "9, above B",
        ],
    ),
    (
        "give",
        &[
            "3",
            "4",
            "9, zero",
            "9, above B",
            "10",
            "11, free",
            "11, leaving",
        ],
    ),
    (
        "take",
        &["9, zero", "9, above B", "11, in service", "11, leaving"],
    ),
    ("ask", &["3", "4", "9, zero", "9, above B"]),
    ("advance", &["3", "5", "12, at 18", "12, at 28", "14", "13"]),
    ("size", &["3"]),
];

/// The other refusals that apply to an unsound record.
const UNSOUND_BEFORE: [(&str, &[u32]); 8] = [
    ("hire", &[3, 4]),
    ("fire", &[3, 4, 6, 7, 8]),
    ("post", &[3, 4, 6, 7, 9]),
    ("give", &[3, 4, 9, 10, 11]),
    ("take", &[9, 11]),
    ("ask", &[3, 4, 9]),
    ("advance", &[3, 5, 12, 13, 14]),
    ("size", &[3]),
];

/// Two refusals at once on a sound record, the one that is answered first.
const BEFORE: [(&str, &[(u32, u32)]); 5] = [
    (
        "fire",
        &[(3, 6), (3, 7), (3, 8), (4, 6), (4, 7), (4, 8), (7, 8)],
    ),
    (
        "post",
        &[
            (3, 6),
            (3, 7),
            (3, 9),
            (4, 6),
            (4, 7),
            (4, 9),
            (6, 9),
            (7, 9),
        ],
    ),
    (
        "give",
        &[
            (3, 9),
            (3, 10),
            (3, 11),
            (4, 9),
            (4, 10),
            (4, 11),
            (9, 10),
            (9, 11),
            (10, 9),
            (10, 11),
            (11, 9),
            (11, 10),
        ],
    ),
    ("ask", &[(3, 9), (4, 9)]),
    ("advance", &[(14, 13)]),
];

pub const LAST: [&str; 3] = [
    "last: size of a set with buffer 256",
    "last: buffer 256 handed back",
    "last: audit with a buffer in slot 31",
];

/// The names of all cells, in the order of the table.
pub fn all() -> Vec<String> {
    let mut all: Vec<String> = Vec::new();
    all.extend(KINDS.iter().map(|kind| format!("kind: {}", kind.name())));
    all.extend(ACCEPTED.iter().map(|name| name.to_string()));
    all.extend(MADE.iter().map(|end| format!("make: accepted, {end}")));
    for (label, branches) in LABEL_BRANCHES {
        all.extend(branches.iter().map(|b| format!("label {label}: {b}")));
    }
    for label in [18, 22, 25] {
        all.extend((0..3).map(|n| format!("label {label}: attempts {n}")));
    }
    for (label, attempts) in [(18, 0..3), (22, 0..3), (25, 1..3)] {
        all.extend(attempts.map(|n| format!("schedules, label {label}: attempts {n}")));
    }
    all.extend(AUDIT.iter().map(|name| format!("audit: {name}")));
    for word in WORDS {
        all.extend((21..=25).map(|rule| format!("{word}: refused {rule}")));
    }
    for (word, refusals) in REFUSED {
        all.extend(refusals.iter().map(|r| format!("{word}: refused {r}")));
    }
    all.extend(lists::place_cells(0));
    for (word, others) in UNSOUND_BEFORE {
        all.extend(others.iter().map(|n| format!("{word}: unsound before {n}")));
    }
    for (word, pairs) in BEFORE {
        all.extend(pairs.iter().map(|(a, b)| format!("{word}: {a} before {b}")));
    }
    for kind in ANY_RECORD {
        all.extend((21..=25).map(|rule| format!("{}: refused {rule}", kind.name())));
    }
    all.extend(order::cells());
    all.extend(RULES.iter().map(|(_, name)| format!("unsound: {name}")));
    all.extend(NO_LABELS.iter().map(|n| format!("unsound: label {n}")));
    let labels = NOT_12_OR_32.iter();
    all.extend(labels.map(|n| format!("unsound: i is G at label {n}")));
    all.extend(edges::NAMES.iter().map(|name| format!("edge: {name}")));
    all.extend(LAST.iter().map(|name| name.to_string()));
    all.extend(lists::long_cells());
    all
}

/// The names of the cells that long give-up lists are for.
fn long_lists() -> Vec<String> {
    let mut names = vec![format!("kind: {}", Kind::LongLists.name())];
    names.extend(lists::place_cells(lists::FAR));
    names.extend(lists::long_cells());
    names
}

/// The names of the cells that these cases are to fill.
pub fn of(mix: Mix) -> Vec<String> {
    match mix {
        Mix::Every => all(),
        Mix::LongLists => long_lists(),
    }
}
