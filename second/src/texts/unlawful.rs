//! Lines that are at fault by themselves, kind by kind.

/// What stands where a number should. The first of each kind is the one that is stored.
pub const TOKENS: [(&str, &[&str]); 16] = [
    ("padded-number", &["01", "007", "0000000001"]),
    ("double-zero", &["00", "000"]),
    ("number-2-to-the-32", &["4294967296"]),
    (
        "number-just-above-2-to-the-32",
        &["4294967297", "4294967298", "4294967299"],
    ),
    (
        "number-just-above-2-to-the-64",
        &["18446744073709551617", "18446744073709551618"],
    ),
    (
        "number-of-many-digits",
        &[
            "1000000000000000000000000000000000000001",
            "340282366920938463463374607431768211457",
            "99999999999999999999999999999999999999999999999999999999999999999999999999999999",
        ],
    ),
    ("number-of-eleven-digits", &["10000000000", "99999999999"]),
    ("letter-in-number", &["1x", "x", "0x1", "1e1", "l"]),
    ("plus-sign", &["+1", "+", "1+"]),
    ("minus-sign", &["-1", "-0", "1-2"]),
    ("point-in-number", &["1.0", "1.", ".1"]),
    ("comma-in-number", &["1,2", "1,"]),
    ("underscore-in-number", &["1_0", "_1"]),
    ("colon-in-number", &["1:", ":"]),
    ("slash-in-number", &["1/", "/"]),
    ("other-mark-in-number", &["#1", "1;"]),
];

/// Whole lines. The first of each kind is the one that is stored.
pub const LINES: [(&str, &[&[u8]]); 46] = [
    (
        "make-later",
        &[b"make 1 1 1", b"make 2 2 3", b"make 9 9 9", b"make 0 0 0"],
    ),
    (
        "unknown-word",
        &[
            b"stop 1",
            b"audit",
            b"advance 1",
            b"leaving",
            b"x",
            b"#",
            b"7",
            b"repeet 2",
        ],
    ),
    (
        "word-cut-short",
        &[
            b"ste 1", b"s 1", b"repea 2", b"en", b"giv 1", b"tak 1", b"as 1 1",
        ],
    ),
    (
        "word-with-more",
        &[
            b"steps 1",
            b"ends",
            b"repeats 2",
            b"hire: 1",
            b"taken 1",
            b"asks 1 1",
        ],
    ),
    (
        "number-joined-to-word",
        &[b"step1", b"repeat2", b"take1", b"end1"],
    ),
    (
        "upper-case",
        &[b"Step 1", b"STEP 1", b"enD", b"Repeat 2", b"END", b"gIVE 1"],
    ),
    ("empty-line", &[b""]),
    ("blank-line", &[b" ", b"  "]),
    (
        "two-spaces",
        &[
            b"give 1  1",
            b"step  1",
            b"repeat  2",
            b"post 1 0  1",
            b"ask  1 1",
        ],
    ),
    (
        "trailing-space",
        &[
            b"give 1 ",
            b"step 1 ",
            b"end ",
            b"repeat 2 ",
            b"give 1 1 2 ",
        ],
    ),
    (
        "nothing-for-a-number",
        &[
            b"step ",
            b"take ",
            b"hire ",
            b"repeat ",
            b"ask 1 ",
            b"post 1 0 ",
        ],
    ),
    (
        "leading-space",
        &[b" step 1", b" end", b" repeat 2", b" give 1"],
    ),
    (
        "tab",
        &[b"step\t1", b"step 1\t", b"\tstep 1", b"end\t", b"step \t1"],
    ),
    (
        "carriage-return",
        &[
            b"step 1\r",
            b"end\r",
            b"repeat 2\r",
            b"\r",
            b"step\r1",
            b"give 1\r",
        ],
    ),
    (
        "nul",
        &[
            b"step 1\0",
            b"\0",
            b"end\0",
            b"step\x001",
            b"\0step 1",
            b"give 1\0 1",
        ],
    ),
    (
        "other-control-byte",
        &[
            b"step 1\x0b",
            b"step\x0c1",
            b"\x1bstep 1",
            b"end\x7f",
            b"step 1\x01",
        ],
    ),
    (
        "high-byte",
        &[
            b"step \xff",
            b"step 1\x80",
            b"\xfestep 1",
            b"step\xa01",
            b"end\xc3",
            b"step \xb1",
        ],
    ),
    (
        "letter-beyond-ascii",
        &[
            "step é".as_bytes(),
            "step ١".as_bytes(),
            "step\u{a0}1".as_bytes(),
            "stép 1".as_bytes(),
        ],
    ),
    ("few-for-take", &[b"take"]),
    ("few-for-hire", &[b"hire"]),
    ("few-for-fire", &[b"fire 1", b"fire"]),
    ("few-for-post", &[b"post 1 0", b"post 1", b"post"]),
    ("few-for-give", &[b"give"]),
    ("few-for-ask", &[b"ask 1", b"ask"]),
    ("few-for-step", &[b"step"]),
    ("few-for-repeat", &[b"repeat"]),
    ("many-for-take", &[b"take 1 1", b"take 1 2 3"]),
    ("many-for-hire", &[b"hire 1 1"]),
    ("many-for-fire", &[b"fire 1 0 0"]),
    ("many-for-post", &[b"post 1 0 0 0"]),
    ("many-for-ask", &[b"ask 1 1 1"]),
    ("many-for-step", &[b"step 1 1", b"step 1 2 3"]),
    ("many-for-repeat", &[b"repeat 2 2"]),
    ("many-for-end", &[b"end 1", b"end 0 0"]),
    ("word-after-end", &[b"end end", b"end x"]),
    (
        "word-for-a-number",
        &[b"step step", b"give 1 end", b"repeat end", b"post 1 0 take"],
    ),
    ("repeat-0", &[b"repeat 0"]),
    ("repeat-1001", &[b"repeat 1001"]),
    (
        "repeat-of-more-bits",
        &[
            b"repeat 65537",
            b"repeat 4294967295",
            b"repeat 257000",
            b"repeat 65536",
        ],
    ),
    (
        "repeat-padded",
        &[b"repeat 01", b"repeat 0001000", b"repeat 00"],
    ),
    (
        "repeat-too-large-for-a-number",
        &[b"repeat 4294967296", b"repeat 4294967298"],
    ),
    (
        "repeat-no-number",
        &[b"repeat x", b"repeat -1", b"repeat +2", b"repeat 2x"],
    ),
    (
        "two-calls-in-a-line",
        &[b"step 1 step 1", b"take 1;take 2", b"repeat 2 step 1 end"],
    ),
    (
        "bad-id-late-in-a-list",
        &[
            b"give 1 1 2 3 1 2 3 1 2 3 01",
            b"give 1 1 2 3 4294967296",
            b"give 1 1 2 3 x 4",
        ],
    ),
    (
        "bad-first-of-two-numbers",
        &[b"ask 01 1", b"fire x 0", b"post 00 0 1"],
    ),
    (
        "bad-second-of-three-numbers",
        &[b"post 1 00 1", b"post 1 4294967296 1"],
    ),
];

/// The words with one example of their numbers; the last number is the one that a token replaces.
pub const WORDS: [(&str, &str, &str); 9] = [
    ("make", "make 2 2 ", "3"),
    ("take", "take ", "1"),
    ("hire", "hire ", "1"),
    ("fire", "fire 1 ", "0"),
    ("post", "post 1 0 ", "1"),
    ("give", "give 1 ", "1"),
    ("ask", "ask 1 ", "1"),
    ("step", "step ", "1"),
    ("repeat", "repeat ", "2"),
];
