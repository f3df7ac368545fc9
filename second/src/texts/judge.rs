//! Which cells a text fills: told from its bytes and its transcript, whoever made it and whatever for.

use super::reason;
use super::view::{Look, View};
use std::collections::BTreeSet;

pub type Cells = BTreeSet<String>;

pub fn cells(text: &[u8], transcript: &str) -> Cells {
    let view = View::of(text);
    let mut cells = Cells::new();
    shapes(&view, &mut cells);
    let told = transcript.strip_suffix('\n').unwrap_or(transcript);
    if told == "too long" {
        too_long(&view, &mut cells);
    } else if let Some(line) = told.strip_prefix("bad line ") {
        let line: usize = line.parse().unwrap_or_else(|_| panic!("no line: {told}"));
        fault(&view, line - 1, &mut cells);
    } else {
        let size = view.text.len();
        cells.insert(format!("bytes-{size}-lawful"));
        cells.insert(format!("calls-{}", view.calls()));
        blocks(&view, &mut cells);
        super::pairs::answers(&view, told, &mut cells);
    }
    cells
}

fn put(cells: &mut Cells, seen: &[(bool, &str)]) {
    let seen = seen.iter().filter(|(is_so, _)| *is_so);
    cells.extend(seen.map(|(_, name)| name.to_string()));
}

fn shapes(view: &View, cells: &mut Cells) {
    let text = view.text;
    let size = text.len();
    let high = text.iter().filter(|byte| **byte > 127).count();
    let noise = high * 4 > size && size > 8;
    let newlines = text.iter().filter(|byte| **byte == b'\n').count();
    let all = |end: &[u8]| newlines > 1 && view.lines.iter().all(|line| line.ends_with(end));
    let half = text.iter().skip(1).step_by(2).all(|byte| *byte == 0);
    put(
        cells,
        &[
            (size == 0, "text-empty"),
            (text == b"\n", "text-one-newline"),
            (size == 1 && newlines == 0, "text-one-other-byte"),
            (size > 1 && newlines == size, "text-only-newlines"),
            (size > 1 && newlines == 0, "text-no-newline-at-all"),
            (all(b"\r"), "text-carriage-returns"),
            (
                text.starts_with(b"\xef\xbb\xbfmake "),
                "text-byte-order-mark",
            ),
            (size > 8 && half, "text-wide-characters"),
            (
                text.ends_with(b"\n\n") && newlines < size,
                "text-empty-line-at-the-end",
            ),
            (noise && newlines > 0, "text-noise"),
            (noise && newlines == 0, "text-noise-without-newline"),
            (
                size == 16_384 && newlines == size,
                "bytes-16384-of-newlines",
            ),
            (
                size == 16_384 && newlines == 0,
                "bytes-16384-without-newline",
            ),
            (size > 65_536, "bytes-more-than-64-kib"),
        ],
    );
}

fn too_long(view: &View, cells: &mut Cells) {
    let size = view.text.len();
    if size > 16_384 {
        let kind = if view.seems_lawful() {
            "lawful"
        } else {
            "faulty"
        };
        cells.insert(format!("bytes-{size}-{kind}"));
        return;
    }
    let calls = view.calls();
    let parts = view.parts();
    let largest = parts.iter().copied().max().unwrap_or(0);
    let refused = matches!(view.lines.first(), Some(&b"make 0 0 0"));
    let steps = calls - 1;
    cells.insert(format!("calls-{calls}"));
    put(
        cells,
        &[
            (calls > 1_000_000_000_000, "calls-1000-to-the-4"),
            (
                calls > 1 << 32 && calls % (1 << 32) <= 100_000,
                "calls-round-32-bits",
            ),
            (
                parts.len() > 2 && largest <= 50_000,
                "calls-of-two-blocks-too-many",
            ),
            (
                largest == 100_000 && steps > 100_000,
                "calls-of-a-block-and-a-line-too-many",
            ),
            (steps == 100_000, "calls-too-many-by-make-alone"),
            (
                steps == 100_000 && refused,
                "calls-too-many-after-a-refused-make",
            ),
        ],
    );
}

fn fault(view: &View, at: usize, cells: &mut Cells) {
    let size = view.text.len();
    cells.insert(format!("bytes-{size}-faulty"));
    let Some(line) = view.lines.get(at) else {
        assert_eq!(
            (size, at),
            (0, 0),
            "only an empty text has a fault beyond its lines"
        );
        return;
    };
    let last = view.lines.len() - 1;
    let cut = at == last && !view.whole;
    let depth = view.depth_before(at);
    let mut kinds = reason::kinds(line);
    let alone = kinds.is_empty();
    let is_end = *line == b"end";
    let is_repeat = alone && line.starts_with(b"repeat");
    let is_make = alone && line.starts_with(b"make");
    if is_make && at > 0 {
        kinds.push("make-later".to_string());
    }
    for kind in &kinds {
        cells.insert(format!("fault-{kind}"));
        cells.insert(format!("fault-{kind}-depth-{depth}"));
    }
    let later = &view.looks[at + 1..];
    let bad_later = later.iter().any(|look| matches!(look, Look::Bad));
    let make_later = later.contains(&Look::Make);
    let ends_later = later.iter().filter(|look| **look == Look::End).count();
    let opens_later = later
        .iter()
        .filter(|look| matches!(look, Look::Repeat(_)))
        .count();
    let opened = view.opened_before(at);
    let open = is_repeat && depth < 4;
    let deep = is_repeat && depth >= 4;
    let unlawful = !alone;
    let balanced = opened + opens_later == ends_later;
    // Whether counting this line among the others would have told another line.
    let opens_nothing = unlawful && line.starts_with(b"repeat") && opened > 0 && balanced;
    let bad_ends = view.lines_from(at + 1, |line| line.starts_with(b"end") && line != b"end");
    let closes_nothing =
        open && opened == 0 && opens_later + 1 == ends_later + bad_ends && bad_ends > 0;
    let too_deep_later = view.too_deep_from(at + 1);
    let missing = (opened + opens_later + 1).saturating_sub(ends_later);
    put(
        cells,
        &[
            (at == 0 && alone && !is_make, "fault-no-make"),
            (at == 0 && is_repeat, "fault-no-make-but-repeat"),
            (
                at == 0 && alone && !is_make && make_later,
                "fault-make-not-first",
            ),
            (is_make && at > 0 && depth > 0, "fault-make-later-in-block"),
            (at == 0, "fault-at-first-line"),
            (at > 0 && at < last, "fault-at-middle-line"),
            (at > 0 && at == last, "fault-at-last-line"),
            (is_end && !cut, "fault-end-too-many"),
            (
                is_end && !cut && view.closed_before(at),
                "fault-end-too-many-after-block",
            ),
            (open, "fault-repeat-open"),
            (open && opens_later > ends_later, "fault-two-repeats-open"),
            (open && at == last, "fault-repeat-open-at-last-line"),
            (
                open && opens_later > 0 && ends_later > 0,
                "fault-repeat-open-outer-of-two",
            ),
            (
                open && view.closed_before(at),
                "fault-repeat-open-after-block",
            ),
            (deep, "fault-too-deep"),
            (
                deep && later.first() == Some(&Look::End),
                "fault-too-deep-empty",
            ),
            (deep && view.deepest() > 100, "fault-much-too-deep"),
            (
                open && too_deep_later > 0 && missing == too_deep_later,
                "fault-too-deep-still-opens",
            ),
            (opens_nothing, "fault-unlawful-repeat-opens-nothing"),
            (closes_nothing, "fault-unlawful-end-closes-nothing"),
            (unlawful && bad_later, "fault-two-lines-lower-wins"),
            (open && bad_later, "fault-open-repeat-before-bad-line"),
            (
                unlawful && opens_later > ends_later,
                "fault-bad-line-before-open-repeat",
            ),
            (
                unlawful && ends_later > opens_later + opened,
                "fault-bad-line-before-end-too-many",
            ),
            (is_end && bad_later, "fault-end-too-many-before-bad-line"),
            (view.calls_before(at) > 100, "fault-after-a-busy-block"),
            (view.calls() > 100_000, "fault-and-too-many-calls"),
            (cut && alone, "fault-no-newline-at-last-line"),
            (cut && *line == b" ", "fault-no-newline-after-a-blank"),
            (
                open && !view.whole && view.lines[last] == b"end",
                "fault-no-newline-at-end",
            ),
            (cut && is_repeat, "fault-no-newline-at-repeat"),
            (cut && *line == b"\0", "fault-nul-after-the-last-newline"),
        ],
    );
    if at > 0 {
        cells.insert(format!("fault-at-depth-{depth}"));
    }
}

fn blocks(view: &View, cells: &mut Cells) {
    let looks = &view.looks;
    let two = |one: fn(&Look) -> bool, other: fn(&Look) -> bool| {
        looks
            .windows(2)
            .any(|pair| one(&pair[0]) && other(&pair[1]))
    };
    let repeat: fn(&Look) -> bool = |look| matches!(look, Look::Repeat(_));
    let end: fn(&Look) -> bool = |look| *look == Look::End;
    let call: fn(&Look) -> bool = |look| *look == Look::Call;
    let one_line = looks
        .windows(3)
        .any(|three| repeat(&three[0]) && call(&three[1]) && end(&three[2]));
    let nested = looks
        .windows(4)
        .any(|four| repeat(&four[0]) && repeat(&four[1]) && end(&four[2]) && end(&four[3]));
    let at_limit = [Look::Repeat(1_000); 4];
    let nothing = looks
        .windows(5)
        .any(|five| five[..4] == at_limit && end(&five[4]));
    let empty_last = looks.len() > 2 && repeat(&looks[looks.len() - 2]);
    let inner =
        (1..looks.len()).any(|n| call(&looks[n]) && end(&looks[n - 1]) && view.depth_before(n) > 0);
    cells.insert(format!("depth-{}", view.deepest_call()));
    put(
        cells,
        &[
            (
                view.text == b"make 1 1 1\nhire 1\nrepeat 3\nstep 1\nend\n",
                "paper-example",
            ),
            (looks.len() == 1, "make-alone"),
            (two(repeat, end), "empty-block"),
            (nested, "empty-block-nested"),
            (empty_last, "empty-block-last"),
            (nothing, "nothing-1000-to-the-4"),
            (view.busy_with_empty(), "empty-block-in-busy-block"),
            (two(end, repeat), "adjacent-blocks"),
            (one_line, "repeat-of-one-line"),
            (looks.contains(&Look::Repeat(1)), "repeat-1"),
            (looks.contains(&Look::Repeat(1_000)), "repeat-1000"),
            (inner, "line-after-inner-block"),
            (
                view.text.len() == 16_384 && two(repeat, end),
                "bytes-16384-of-blocks",
            ),
        ],
    );
}
