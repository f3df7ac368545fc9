//! Texts for each answer that a call can print, and for the ends of the numbers.

use super::cells::{kept, lines, Cell};

/// Worker 1 has guard 0.
const HIRED: &str = "make 4 1 5; hire 1; repeat 3; step 1; end";

/// Worker 2 waits at 18 for buffer 1 with what the slot held at first, and worker 3 has changed the slot since.
const CONTENDED: &str = "make 4 1 5; hire 1; repeat 3; step 1; end; take 1; take 2; take 3; give 2 1; repeat 2; step 2; end; \
    give 3 2; repeat 2; step 3; end; post 1 0 2; repeat 2; step 1; end; step 3; post 1 0 1; repeat 2; step 1; end; step 2; step 3";

/// After that the slot is emptied and filled again before worker 2's second and third attempt.
const TWICE_MORE: &str = "step 2; step 2; step 2; give 4; repeat 4; step 4; end; step 2; step 2; step 2; repeat 3; step 3; end; \
    give 3 3; repeat 2; step 3; end; post 1 0 3; repeat 2; step 1; end; step 3; post 1 0 1; repeat 2; step 1; end; step 3; step 2; step 2";

/// What follows on a worker's own guard or on the pool that these lines made.
const AFTER_HIRED: [(&str, &str); 12] = [
    ("ok-fire", "fire 1 0"),
    ("ok-post", "post 1 0 1"),
    ("at-8", "fire 1 0; step 1"),
    ("at-10", "post 1 0 1; step 1"),
    ("fired", "fire 1 0; step 1; step 1"),
    ("posted", "post 1 0 1; step 1; step 1"),
    ("refused-4-fire", "hire 1; fire 1 0"),
    ("refused-6-fire", "fire 1 1"),
    ("refused-8-fire", "post 1 0 1; step 1; step 1; fire 1 0"),
    ("refused-4-post", "hire 1; post 1 0 1"),
    ("refused-6-post", "post 1 1 1"),
    ("refused-9-post", "post 1 0 6"),
];

const ALONE: [(&str, &str); 51] = [
    ("ok-make", "make 8 32 256"),
    ("ok-take", "make 1 1 1; take 1"),
    ("ok-hire", "make 1 1 1; hire 1"),
    ("ok-give", "make 1 1 1; take 1; give 1 1"),
    ("at-2", "make 2 2 1; hire 1; repeat 3; step 1; end; hire 2; step 2"),
    ("at-4", "make 1 1 1; hire 1; step 1"),
    ("at-5", "make 2 2 1; hire 1; repeat 3; step 1; end; hire 2; repeat 3; step 2; end"),
    ("at-6", "make 1 1 1; hire 1; step 1; step 1"),
    ("at-13", "make 1 1 1; give 1; step 1"),
    ("at-15", "make 1 1 1; give 1; repeat 2; step 1; end"),
    ("at-28", "make 1 1 1; give 1; repeat 3; step 1; end"),
    ("at-31", "make 1 1 1; give 1; repeat 4; step 1; end"),
    ("at-12", "make 1 1 1; give 1; repeat 5; step 1; end"),
    ("at-32", "make 1 1 1; give 1; repeat 6; step 1; end"),
    ("at-18", "make 2 1 1; hire 1; repeat 3; step 1; end; take 1; post 1 0 1; step 1; step 1; give 2 1; repeat 3; step 2; end"),
    ("guard-0", "make 1 1 1; hire 1; repeat 3; step 1; end"),
    ("guard-above-0", "make 2 2 1; hire 1; repeat 3; step 1; end; hire 2; repeat 6; step 2; end"),
    ("none", "make 2 1 1; hire 1; repeat 3; step 1; end; hire 2; step 2"),
    ("back-none", "make 1 1 1; give 1; repeat 7; step 1; end"),
    ("back-1-id", "make 1 1 1; take 1; give 1 1; repeat 7; step 1; end"),
    ("back-some-ids", "make 1 1 4; take 1; take 4; take 3; give 1 4 1 3; repeat 7; step 1; end; take 4"),
    ("yes", "make 1 1 1; take 1; ask 1 1"),
    ("no", "make 1 1 1; ask 1 1"),
    ("refused-1-make", "make 0 0 0"),
    ("refused-9-take", "make 1 1 1; take 2; take 0"),
    ("refused-11-take", "make 1 1 1; take 1; take 1"),
    ("refused-3-hire", "make 1 1 1; hire 2; hire 0"),
    ("refused-4-hire", "make 1 1 1; hire 1; hire 1"),
    ("refused-3-fire", "make 1 1 1; fire 2 0"),
    ("refused-7-fire", "make 2 1 1; fire 1 0; hire 1; repeat 3; step 1; end; fire 2 0"),
    ("refused-3-post", "make 1 1 1; post 2 0 1"),
    ("refused-7-post", "make 2 1 1; post 1 0 1; hire 1; repeat 3; step 1; end; post 2 0 1"),
    ("refused-3-give", "make 1 1 1; give 2"),
    ("refused-4-give", "make 1 1 1; give 1; give 1"),
    ("refused-9-give", "make 1 1 1; give 1 2; give 1 0"),
    ("refused-10-give", "make 1 1 1; take 1; give 1 1 1"),
    ("refused-11-give", "make 1 1 1; give 1 1"),
    ("refused-3-ask", "make 1 1 1; ask 2 1"),
    ("refused-4-ask", "make 1 1 1; hire 1; ask 1 1"),
    ("refused-9-ask", "make 1 1 1; ask 1 2; ask 1 0"),
    ("refused-3-step", "make 1 1 1; step 2; step 0"),
    ("refused-5-step", "make 1 1 1; step 1"),
    ("refused-9-place-above-0", "make 1 1 3; take 1; take 2; give 1 2 1 4"),
    ("refused-10-place-above-0", "make 1 1 3; take 1; take 2; give 1 2 1 2 1"),
    ("refused-11-place-above-0", "make 1 1 3; take 1; take 2; give 1 2 1 3"),
    ("make-w-low", "make 0 1 1"),
    ("make-w-high", "make 9 1 1"),
    ("make-g-low", "make 1 0 1"),
    ("make-g-high", "make 1 33 1"),
    ("make-b-low", "make 1 1 0"),
    ("make-b-high", "make 1 1 257"),
];

const AFTER_REFUSED: [&str; 7] = [
    "take 1",
    "hire 1",
    "fire 1 0",
    "post 1 0 1",
    "give 1 1",
    "ask 1 1",
    "step 1",
];

/// Each argument of each word, and the line with a hole in its place.
pub const ARGUMENTS: [(&str, u32, &str); 15] = [
    ("make", 1, "make _ 1 1"),
    ("make", 2, "make 1 _ 1"),
    ("make", 3, "make 1 1 _"),
    ("take", 1, "take _"),
    ("hire", 1, "hire _"),
    ("fire", 1, "fire _ 0"),
    ("fire", 2, "fire 1 _"),
    ("post", 1, "post _ 0 1"),
    ("post", 2, "post 1 _ 1"),
    ("post", 3, "post 1 0 _"),
    ("give", 1, "give _"),
    ("give", 2, "give 1 _"),
    ("ask", 1, "ask _ 1"),
    ("ask", 2, "ask 1 _"),
    ("step", 1, "step _"),
];

pub fn cells() -> Vec<Cell> {
    let mut cells: Vec<Cell> = Vec::new();
    for (name, short) in ALONE {
        cells.push(kept(name, lines(short)));
    }
    for (name, rest) in AFTER_HIRED {
        cells.push(kept(name, lines(&format!("{HIRED}; {rest}"))));
    }
    for call in AFTER_REFUSED {
        let word = call.split(' ').next().unwrap_or(call);
        let text = lines(&format!("make 9 9 9; {call}; {call}"));
        cells.push(kept(format!("refused-21-{word}"), text));
    }
    let contended = [
        ("at-22", "step 2"),
        ("at-25", "step 2; step 2"),
        ("tries-again", "step 2; step 2; step 2"),
        (
            "tries-no-more-at-25",
            "step 2; step 2; post 1 0 0; step 1; step 1; step 2",
        ),
        ("tries-no-more-at-22", TWICE_MORE),
    ];
    for (name, rest) in contended {
        cells.push(kept(name, lines(&format!("{CONTENDED}; {rest}"))));
    }
    for (word, place, hole) in ARGUMENTS {
        for (kind, number) in [("largest", "4294967295"), ("zero", "0")] {
            let line = hole.replace('_', number);
            let text = match word {
                "make" => format!("{line}; take 1"),
                _ => format!("{HIRED}; {line}; step 1"),
            };
            let mut cell = kept(format!("{kind}-{word}-{place}"), lines(&text));
            cell.stored = kind == "largest";
            cells.push(cell);
        }
    }
    cells.extend(many());
    cells
}

/// The texts in which the number of things matters.
fn many() -> Vec<Cell> {
    let takes: String = (1..=256).map(|id| format!("take {id}; ")).collect();
    let ids: String = (1..=256).rev().map(|id| format!(" {id}")).collect();
    let all = format!("make 1 1 256; {takes}give 1{ids}");
    let thousands = " 1 2 3".repeat(1_200);
    vec![
        kept(
            "back-256-ids",
            lines(&format!("{all}; repeat 7; step 1; end")),
        ),
        kept("refused-at-place-256", lines(&format!("{all} 256"))),
        kept(
            "give-thousands-of-ids",
            lines(&format!(
                "make 1 1 3; take 1; take 2; take 3; give 1{thousands}; give 1"
            )),
        ),
        kept(
            "guard-31",
            lines("make 1 32 1; repeat 32; hire 1; repeat 36; step 1; end; end"),
        ),
    ]
}
