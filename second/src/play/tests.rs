//! The paper's example, and every reading of what the paper leaves open.

use super::transcript;

/// The transcript of these lines, each with its newline.
fn lines(text: &[&str]) -> String {
    transcript((text.join("\n") + "\n").as_bytes())
}

/// The line at fault.
fn bad(text: &[&str]) -> usize {
    let out = lines(text);
    let number = out
        .strip_prefix("bad line ")
        .and_then(|n| n.strip_suffix('\n'));
    number
        .unwrap_or_else(|| panic!("{text:?} gives {out}"))
        .parse()
        .unwrap()
}

fn starts(text: &[&str], start: &str) {
    let out = lines(text);
    assert!(out.starts_with(start), "{text:?} gives {out}");
}

#[test]
fn the_papers_example() {
    assert_eq!(
        transcript(b"make 1 1 1\nhire 1\nrepeat 3\nstep 1\nend\n"),
        "1 ok\n2 ok\n3 at 4\n4 at 6\n5 guard 0\n"
    );
}

#[test]
fn every_answer() {
    let text = [
        "make 2 1 3",
        "hire 1",
        "repeat 3",
        "step 1",
        "end",
        "hire 2",
        "step 2",
        "take 1",
        "ask 2 1",
        "ask 2 2",
        "post 1 0 1",
        "repeat 2",
        "step 1",
        "end",
        "give 2 1",
        "repeat 7",
        "step 2",
        "end",
        "post 1 0 0",
        "step 1",
        "step 1",
        "give 2",
        "repeat 7",
        "step 2",
        "end",
        "take 2",
        "take 3",
        "give 1 3 2",
        "repeat 7",
        "step 1",
        "end",
        "fire 1 0",
        "step 1",
        "step 1",
        "give 2 1 0 4",
    ];
    assert_eq!(
        lines(&text),
        "1 ok\n2 ok\n3 at 4\n4 at 6\n5 guard 0\n6 ok\n7 none\n8 ok\n9 yes\n10 no\n11 ok\n12 at 10\n13 posted\n14 ok\n15 at 13\n\
         16 at 15\n17 at 18\n18 at 31\n19 at 12\n20 at 32\n21 back\n22 ok\n23 at 10\n24 posted\n25 ok\n26 at 13\n27 at 15\n28 at 28\n\
         29 at 31\n30 at 12\n31 at 32\n32 back 1\n33 ok\n34 ok\n35 ok\n36 at 13\n37 at 15\n38 at 28\n39 at 31\n40 at 12\n41 at 32\n\
         42 back 2 3\n43 ok\n44 at 8\n45 fired\n46 refused 11 0\n"
    );
}

#[test]
fn a_refusal_has_a_number_of_its_own() {
    let text = [
        "make 1 1 2",
        "take 3",
        "take 1",
        "take 1",
        "give 1 1 1",
        "give 1 1 2",
        "give 1 1 3",
    ];
    assert_eq!(
        lines(&text),
        "1 ok\n2 refused 9 0\n3 ok\n4 refused 11 0\n5 refused 10 1\n6 refused 11 1\n7 refused 9 1\n"
    );
}

#[test]
fn after_a_refused_make_the_record_is_all_zero() {
    let rest = [
        "take 0",
        "hire 1",
        "fire 1 0",
        "post 1 0 0",
        "give 1",
        "ask 1 1",
        "step 1",
    ];
    for make in [
        "make 0 0 0",
        "make 9 1 1",
        "make 1 33 1",
        "make 1 1 257",
        "make 4294967295 1 1",
    ] {
        let text = [&[make][..], &rest].concat();
        let refused: String = (2..=8).map(|n| format!("{n} refused 21 0\n")).collect();
        assert_eq!(lines(&text), format!("1 refused 1 0\n{refused}"));
    }
}

#[test]
fn line_1_is_a_make_and_no_other_is() {
    for first in [
        "",
        "take 1",
        "repeat 2",
        "end",
        "make 1 1",
        "make 1 1 1 1",
        "Make 1 1 1",
        " make 1 1 1",
        "make 1 1 1 ",
    ] {
        assert_eq!(bad(&[first, "make 1 1 1", "no"]), 1);
    }
    assert_eq!(bad(&["make 1 1 1", "make 1 1 1"]), 2);
    assert_eq!(bad(&["make 1 1 1", "repeat 2", "make 1 1 1", "end"]), 3);
    assert_eq!(lines(&["make 1 1 1"]), "1 ok\n");
}

#[test]
fn unlawful_lines() {
    let unlawful = [
        "",
        " ",
        "stop 1",
        "steps 1",
        "ste 1",
        "step1",
        "1",
        "Step 1",
        "STEP 1",
        "step",
        "step 1 1",
        "step 1 ",
        " step 1",
        "step  1",
        "step\t1",
        "step 1\r",
        "step 1\0",
        "step é",
        "step +1",
        "step -1",
        "step 01",
        "step 00",
        "step 1x",
        "step x",
        "step 1.0",
        "step 4294967296",
        "step 4294967297",
        "step 18446744073709551617",
        "step 99999999999999999999999999",
        "take",
        "take 1 1",
        "hire",
        "hire 1 1",
        "fire 1",
        "fire 1 0 0",
        "post 1 0",
        "post 1 0 0 0",
        "give",
        "give 1  1",
        "give 1 1 ",
        "give 1 01",
        "give 1 4294967296",
        "ask 1",
        "ask 1 1 1",
        "advance 1",
        "audit",
        "repeat",
        "repeat 0",
        "repeat 1001",
        "repeat 01",
        "repeat 4294967295",
        "repeat 2 2",
        "repeat  2",
        "end 1",
        "end ",
        " end",
        "End",
    ];
    for line in unlawful {
        assert_eq!(bad(&["make 1 1 1", line]), 2, "{line:?}");
        assert_eq!(
            bad(&["make 1 1 1", "take 1", "repeat 2", "step 1", line, "end"]),
            5,
            "{line:?}"
        );
    }
    let high = b"make 1 1 1\ntake 1\xff\n";
    assert_eq!(transcript(high), "bad line 2\n");
}

#[test]
fn lawful_numbers() {
    starts(&["make 1 1 1", "step 0"], "1 ok\n2 refused 3 0\n");
    starts(&["make 1 1 1", "ask 1 4294967295"], "1 ok\n2 refused 9 0\n");
    starts(&["make 1 1 1", "give 1"], "1 ok\n2 ok\n");
    starts(&["make 0 0 0"], "1 refused 1 0\n");
    starts(&["make 1 1 1", "repeat 1", "take 1", "end"], "1 ok\n2 ok\n");
    assert_eq!(
        lines(&["make 1 1 1", "repeat 1000", "step 1", "end"])
            .lines()
            .count(),
        1_001
    );
}

#[test]
fn a_text_ends_with_a_newline() {
    assert_eq!(transcript(b""), "bad line 1\n");
    assert_eq!(transcript(b"\n"), "bad line 1\n");
    assert_eq!(transcript(b"make 1 1 1"), "bad line 1\n");
    assert_eq!(transcript(b"make 1 1 1\ntake 1"), "bad line 2\n");
    assert_eq!(transcript(b"make 1 1 1\n\n"), "bad line 2\n");
    // The end without a newline closes nothing.
    assert_eq!(
        transcript(b"make 1 1 1\nrepeat 2\nstep 1\nend"),
        "bad line 2\n"
    );
    assert_eq!(transcript(b"\xef\xbb\xbfmake 1 1 1\n"), "bad line 1\n");
    assert_eq!(transcript(&[b'a'; 16_384]), "bad line 1\n");
    assert_eq!(transcript(&[b'\n'; 16_384]), "bad line 1\n");
}

#[test]
fn blocks() {
    assert_eq!(bad(&["make 1 1 1", "end"]), 2);
    assert_eq!(bad(&["make 1 1 1", "repeat 2", "end", "end", "no"]), 4);
    assert_eq!(bad(&["make 1 1 1", "repeat 2", "repeat 3", "end"]), 2);
    assert_eq!(bad(&["make 1 1 1", "repeat 2", "end", "repeat 3"]), 4);
    // The lower fault is told: the repeat left open, or the line in it.
    assert_eq!(bad(&["make 1 1 1", "repeat 2", "no"]), 2);
    assert_eq!(bad(&["make 1 1 1", "no", "repeat 2"]), 2);
    assert_eq!(
        bad(&["make 1 1 1", "take 1", "no", "repeat 2", "end", "end"]),
        3
    );
}

#[test]
fn unlawful_lines_neither_open_nor_close() {
    // The end belongs to the lawful repeat, and only the other is at fault.
    assert_eq!(bad(&["make 1 1 1", "repeat 2", "repeat 0", "end"]), 3);
    assert_eq!(bad(&["make 1 1 1", "repeat 2", "take 1", "end 1"]), 2);
    assert_eq!(bad(&["make 1 1 1", "repeat 2", "end 1", "end"]), 3);
}

fn nested(depth: usize, times: &str, inner: &[&str]) -> Vec<String> {
    let mut text = vec!["make 1 1 1".to_string()];
    text.extend((0..depth).map(|_| format!("repeat {times}")));
    text.extend(inner.iter().map(|line| line.to_string()));
    text.extend((0..depth).map(|_| "end".to_string()));
    text
}

fn of(text: &[String]) -> String {
    transcript((text.join("\n") + "\n").as_bytes())
}

#[test]
fn at_most_four_deep() {
    assert_eq!(of(&nested(4, "2", &["take 1"])).lines().count(), 17);
    assert_eq!(of(&nested(5, "2", &["take 1"])), "bad line 6\n");
    assert_eq!(of(&nested(700, "1", &[])), "bad line 6\n");
    // The fifth opens too: with one end missing it is the outermost that is left open.
    let mut text = nested(5, "1", &[]);
    text.pop();
    assert_eq!(of(&text), "bad line 2\n");
    text.truncate(7);
    text.push("no".to_string());
    assert_eq!(of(&text), "bad line 2\n");
}

#[test]
fn too_many_calls() {
    let calls = |depth, times, inner: &[&str]| of(&nested(depth, times, inner));
    let told = |out: String| match out.as_str() {
        "too long\n" => None,
        out => Some(out.lines().count()),
    };
    assert_eq!(told(calls(4, "1000", &[])), Some(1));
    assert_eq!(told(calls(4, "1000", &["step 1"])), None);
    assert_eq!(told(calls(2, "316", &["step 1"])), Some(99_857));
    let most = [
        "make 1 1 1",
        "repeat 99",
        "repeat 1000",
        "step 1",
        "end",
        "end",
        "repeat 999",
        "step 1",
        "end",
    ];
    assert_eq!(told(lines(&most)), Some(100_000));
    assert_eq!(told(lines(&[&most[..], &["step 1"]].concat())), None);
    // 2^32 steps: a count of 32 bits would have come round to 0.
    let round = [
        "make 1 1 1",
        "repeat 512",
        "repeat 512",
        "repeat 512",
        "repeat 32",
        "step 1",
        "end",
        "end",
        "end",
        "end",
    ];
    assert_eq!(told(lines(&round)), None);
    assert_eq!(bad(&[&round[..], &["no"]].concat()), 11);
}

#[test]
fn too_many_bytes() {
    let long = |bytes: usize| format!("make 1 1 1\ngive 1{}\n", " 0".repeat((bytes - 18) / 2));
    assert_eq!(long(16_384).len(), 16_384);
    assert_eq!(transcript(long(16_384).as_bytes()), "1 ok\n2 refused 9 0\n");
    assert_eq!(transcript(long(16_386).as_bytes()), "too long\n");
    let faulty = |bytes: usize| "\n".repeat(bytes);
    assert_eq!(transcript(faulty(16_384).as_bytes()), "bad line 1\n");
    assert_eq!(transcript(faulty(16_385).as_bytes()), "too long\n");
}

#[test]
fn the_answers_are_those_of_the_unrolled_text() {
    let inner = [
        "take 1", "give 1 1", "repeat 3", "step 1", "repeat 1", "ask 1 1", "end", "repeat 9",
        "end", "end", "step 1",
    ];
    let mut text = vec!["make 1 1 1", "repeat 5"];
    text.extend(inner);
    text.extend(["end", "hire 1"]);
    let mut unrolled = vec!["make 1 1 1"];
    for _ in 0..5 {
        unrolled.extend([
            "take 1", "give 1 1", "step 1", "ask 1 1", "step 1", "ask 1 1", "step 1", "ask 1 1",
            "step 1",
        ]);
    }
    unrolled.push("hire 1");
    assert_eq!(lines(&text), lines(&unrolled));
    assert_eq!(lines(&unrolled).lines().count(), 47);
}
