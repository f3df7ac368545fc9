//! Texts for the blocks, lawful and not, and for the shapes that a text as a whole can have.

use super::cells::{around, kept, lines, Cell};

const LAWFUL: [(&str, &str); 17] = [
    ("paper-example", "make 1 1 1; hire 1; repeat 3; step 1; end"),
    ("make-alone", "make 1 1 1"),
    ("depth-0", "make 1 1 1; take 1; hire 1; step 1"),
    ("depth-1", "make 2 2 3; repeat 2; take 1; hire 1; end"),
    ("depth-2", "make 2 2 3; hire 1; repeat 2; repeat 3; step 1; end; take 1; end"),
    ("depth-3", "make 2 2 3; repeat 2; hire 1; repeat 2; repeat 2; step 1; end; take 1; end; ask 2 1; end"),
    (
        "depth-4",
        "make 2 2 3; repeat 2; hire 1; repeat 2; repeat 2; repeat 2; step 1; end; take 1; end; ask 2 1; end; hire 2; end; step 2",
    ),
    ("empty-block", "make 1 1 1; repeat 7; end; take 1"),
    ("empty-block-nested", "make 1 1 1; repeat 7; repeat 1000; end; end; take 1"),
    ("empty-block-last", "make 1 1 1; take 1; repeat 7; end"),
    ("nothing-1000-to-the-4", "make 1 1 1; repeat 1000; repeat 1000; repeat 1000; repeat 1000; end; end; end; end; take 1"),
    (
        "empty-block-in-busy-block",
        "make 1 1 1; hire 1; repeat 3; repeat 1000; repeat 1000; repeat 1000; end; end; end; step 1; repeat 2; end; end",
    ),
    ("adjacent-blocks", "make 2 2 3; repeat 2; take 1; end; repeat 3; hire 1; end; repeat 3; step 1; end"),
    ("repeat-of-one-line", "make 2 2 3; repeat 4; take 1; end"),
    ("repeat-1", "make 2 2 3; repeat 1; take 1; repeat 1; take 2; end; end"),
    ("repeat-1000", "make 1 1 1; repeat 1000; ask 1 1; end; take 1"),
    ("line-after-inner-block", "make 2 2 3; repeat 2; repeat 2; take 1; end; hire 1; end; step 1"),
];

const FAULTY: [(&str, &str); 28] = [
    ("fault-two-repeats-open", "make 1 1 1; repeat 2; take 1; repeat 2; take 1"),
    ("fault-few-for-make", "make 1 1; take 1"),
    ("fault-many-for-make", "make 1 1 1 1; take 1"),
    ("fault-no-make", "take 1; hire 1"),
    ("fault-no-make-but-repeat", "repeat 2; make 1 1 1; end"),
    ("fault-make-not-first", "take 1; make 1 1 1; hire 1"),
    ("fault-make-later-in-block", "make 1 1 1; repeat 2; make 1 1 1; end"),
    ("fault-at-first-line", "make 1 01 1; take 1; take 2"),
    ("fault-at-middle-line", "make 1 1 1; take 1; take 01; take 2; hire 1"),
    ("fault-at-last-line", "make 1 1 1; take 1; take 2; hire 1; take 01"),
    ("fault-end-too-many", "make 1 1 1; take 1; end; take 2"),
    ("fault-end-too-many-after-block", "make 1 1 1; repeat 2; take 1; end; end; take 2"),
    ("fault-repeat-open", "make 1 1 1; take 1; repeat 2; take 2; hire 1"),
    ("fault-repeat-open-at-last-line", "make 1 1 1; take 1; repeat 2"),
    ("fault-repeat-open-outer-of-two", "make 1 1 1; repeat 2; repeat 2; take 1; end; hire 1"),
    ("fault-repeat-open-after-block", "make 1 1 1; repeat 2; take 1; end; repeat 2; take 1"),
    ("fault-too-deep", "make 1 1 1; repeat 2; repeat 2; repeat 2; repeat 2; repeat 2; take 1; end; end; end; end; end"),
    (
        "fault-too-deep-empty",
        "make 1 1 1; repeat 2; repeat 2; repeat 2; repeat 2; repeat 2; end; repeat 2; end; end; end; end; end; take 1",
    ),
    (
        "fault-too-deep-still-opens",
        "make 1 1 1; repeat 2; repeat 2; repeat 2; repeat 2; repeat 2; take 1; end; end; end; end; take 1",
    ),
    ("fault-unlawful-repeat-opens-nothing", "make 1 1 1; repeat 2; repeat 0; take 1; end; take 1"),
    ("fault-unlawful-end-closes-nothing", "make 1 1 1; repeat 2; take 1; end 1; take 1"),
    ("fault-two-lines-lower-wins", "make 1 1 1; take 1; take x; stop; take 1"),
    ("fault-open-repeat-before-bad-line", "make 1 1 1; repeat 2; take x; take 1"),
    ("fault-bad-line-before-open-repeat", "make 1 1 1; take x; repeat 2; take 1"),
    ("fault-bad-line-before-end-too-many", "make 1 1 1; take x; take 1; end"),
    ("fault-end-too-many-before-bad-line", "make 1 1 1; end; take x"),
    ("fault-after-a-busy-block", "make 1 1 1; repeat 500; take 1; end; take x"),
    (
        "fault-and-too-many-calls",
        "make 1 1 1; repeat 1000; repeat 1000; take 1; end; end; take 1; end",
    ),
];

/// Texts of which the bytes matter.
const SHAPES: [(&str, &[u8]); 14] = [
    ("text-empty", b""),
    ("text-one-newline", b"\n"),
    ("text-one-other-byte", b"m"),
    ("text-only-newlines", b"\n\n\n\n\n"),
    ("text-no-newline-at-all", b"make 1 1 1"),
    (
        "text-carriage-returns",
        b"make 1 1 1\r\ntake 1\r\nhire 1\r\n",
    ),
    ("text-byte-order-mark", b"\xef\xbb\xbfmake 1 1 1\ntake 1\n"),
    (
        "text-wide-characters",
        b"m\0a\0k\0e\0 \x001\0 \x001\0 \x001\0\n\0",
    ),
    ("text-empty-line-at-the-end", b"make 1 1 1\ntake 1\n\n"),
    (
        "fault-no-newline-at-last-line",
        b"make 1 1 1\ntake 1\nhire 1",
    ),
    ("fault-no-newline-after-a-blank", b"make 1 1 1\ntake 1\n "),
    (
        "fault-no-newline-at-end",
        b"make 1 1 1\nrepeat 2\ntake 1\nend",
    ),
    (
        "fault-no-newline-at-repeat",
        b"make 1 1 1\ntake 1\nrepeat 2",
    ),
    (
        "fault-nul-after-the-last-newline",
        b"make 1 1 1\ntake 1\n\0",
    ),
];

/// Noise as it was once drawn, with newlines and without.
const NOISE: [(&str, &[u8]); 2] = [
    (
        "text-noise",
        b"\x8f\x03\xe4\n\xd5\x00\xbe\x91\x1c\n\xf7\x29\xaa\x05\xc8\n\n\xee\xff",
    ),
    (
        "text-noise-without-newline",
        b"\xc2\x99\xf0\x0d\xa1\x00\xb7\xee\x13\xde\xad\x81\xff\xfe\x20\xd9",
    ),
];

pub fn cells() -> Vec<Cell> {
    let mut cells: Vec<Cell> = Vec::new();
    for (name, short) in LAWFUL.iter().chain(&FAULTY) {
        cells.push(kept(*name, lines(short)));
    }
    for (name, bytes) in SHAPES.iter().chain(&NOISE) {
        cells.push(kept(*name, bytes.to_vec()));
    }
    cells.push(kept("fault-much-too-deep", much_too_deep()));
    for depth in 0..=4 {
        let opened = "; repeat 2".repeat(depth);
        let closed = "end; ".repeat(depth);
        let text = around(
            &format!("make 2 2 3{opened}; take 1"),
            b"take 01",
            &format!("take 2; {closed}take 3"),
        );
        cells.push(kept(format!("fault-at-depth-{depth}"), text));
    }
    cells
}

fn much_too_deep() -> Vec<u8> {
    let (opened, closed) = ("repeat 1; ".repeat(700), "; end".repeat(700));
    lines(&format!("make 1 1 1; {opened}take 1{closed}"))
}
