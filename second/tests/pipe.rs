//! The commands together: results into check, a changed line, a missing one, one too many, and the lines of the cases.

use std::fs;
use std::io::Write;
use std::path::Path;
use std::process::{Command, Output, Stdio};

fn second(arguments: &[&str], input: &[u8]) -> Output {
    let mut child = Command::new(env!("CARGO_BIN_EXE_second"))
        .args(arguments)
        .stdin(Stdio::piped())
        .stdout(Stdio::piped())
        .stderr(Stdio::piped())
        .spawn()
        .unwrap();
    let mut stdin = child.stdin.take().unwrap();
    let input = input.to_vec();
    let writer = std::thread::spawn(move || {
        // A program that stops at a difference reads no further.
        let _ = stdin.write_all(&input);
    });
    let output = child.wait_with_output().unwrap();
    writer.join().unwrap();
    output
}

fn text(output: &Output) -> String {
    String::from_utf8_lossy(&output.stdout).into_owned()
}

fn results(calls: &str) -> String {
    text(&second(&["results", "3", calls], b""))
}

/// The results without the line that ends them.
fn results_alone(calls: &str) -> String {
    let whole = results(calls);
    let end = format!("calls {calls}\n");
    whole.strip_suffix(&end).unwrap().into()
}

#[test]
fn the_results_pass() {
    let output = second(&["check", "3", "20000"], results("20000").as_bytes());
    assert!(text(&output).starts_with("20000 calls compared, no difference\n"));
    assert_eq!(output.status.code(), Some(0));
}

#[test]
fn the_lines_of_the_cases_give_the_results() {
    let cases = text(&second(&["cases", "3", "5000"], b""));
    let output = second(&["answer"], cases.as_bytes());
    assert!(text(&output) == results("5000"));
    assert!(cases.lines().all(|line| line.len() <= 65_535));
}

#[test]
fn long_lists_alone_pass() {
    let long = |command: &str| second(&[command, "3", "500", "long"], b"");
    let answers = second(&["answer"], &long("cases").stdout);
    assert!(answers.stdout == long("results").stdout);
    let output = second(&["check", "3", "500", "long"], &answers.stdout);
    assert!(text(&output).starts_with("500 calls compared, no difference\n"));
    assert_eq!(output.status.code(), Some(0));
    assert!(text(&long("cases"))
        .lines()
        .all(|line| line.split(' ').count() <= 601));
}

#[test]
fn a_changed_line_is_found() {
    let mut changed: Vec<String> = results("900").lines().map(String::from).collect();
    let last = changed.iter().rposition(|line| line.starts_with("pool"));
    changed[last.unwrap()].push('1');
    let output = second(
        &["check", "3", "900"],
        (changed.join("\n") + "\n").as_bytes(),
    );
    assert!(text(&output).starts_with("call 900: a difference\nkind: "));
    assert_eq!(output.status.code(), Some(1));
}

#[test]
fn the_first_of_two_differences_is_told() {
    let changed = results("900").replacen("answer at 4", "answer at 5", 2);
    let whole = results("900");
    let before = whole.split("answer at 4").next().unwrap();
    let number = before.matches("answer").count() + 1;
    let output = second(&["check", "3", "900"], changed.as_bytes());
    assert!(text(&output).starts_with(&format!("call {number}: a difference\n")));
    assert!(text(&output).contains("\nthe call:\nadvance"));
    assert!(text(&output).contains("\nthe result got:\nanswer at 5\n"));
    assert_eq!(output.status.code(), Some(1));
}

#[test]
fn output_that_ends_early_is_a_difference() {
    let output = second(&["check", "3", "900"], results_alone("899").as_bytes());
    assert!(text(&output).starts_with("call 900: a difference\n"));
    assert!(text(&output).ends_with("(the output ended)\n"));
    assert_eq!(output.status.code(), Some(1));
}

#[test]
fn results_without_the_number_of_calls_are_a_difference() {
    let output = second(&["check", "3", "900"], results_alone("900").as_bytes());
    assert!(text(&output).starts_with("after call 900: a difference\n"));
    assert!(text(&output).contains("\nthe end expected:\ncalls 900\n"));
    assert!(text(&output).ends_with("(the output ended)\n"));
    assert_eq!(output.status.code(), Some(1));
}

#[test]
fn another_number_of_calls_is_a_difference() {
    let other = results_alone("900") + "calls 899\n";
    let output = second(&["check", "3", "900"], other.as_bytes());
    assert!(text(&output).starts_with("after call 900: a difference\n"));
    assert!(text(&output).ends_with("\nthe end got:\ncalls 899\n"));
    assert_eq!(output.status.code(), Some(1));
}

#[test]
fn no_calls_are_counted_too() {
    assert_eq!(results("0"), "calls 0\n");
    assert_eq!(text(&second(&["answer"], b"")), "calls 0\n");
    let cut_off = second(&["answer"], b"leaving\nno call\n");
    assert!(text(&cut_off).ends_with("list\nline 2 not understood\n"));
}

#[test]
fn output_without_its_last_line_feed_is_a_difference() {
    let whole = results("900");
    let output = second(&["check", "3", "900"], whole.trim_end().as_bytes());
    assert!(text(&output).starts_with("after call 900: a difference\n"));
    assert_eq!(output.status.code(), Some(1));
}

#[test]
fn more_output_is_a_difference() {
    let more = results("900") + "line 7 not understood\n";
    let output = second(&["check", "3", "900"], more.as_bytes());
    assert!(text(&output).starts_with("after call 900: a difference\n"));
    assert!(text(&output).ends_with("calls 900\nline 7 not understood\n"));
    assert_eq!(output.status.code(), Some(1));
}

#[test]
fn empty_cells_are_named() {
    let output = second(&["table", "3", "30"], b"");
    assert!(text(&output).contains("\nempty cells:\n"));
    assert_eq!(output.status.code(), Some(1));
    let output = second(&["check", "3", "30"], results("30").as_bytes());
    assert!(text(&output).starts_with("30 calls compared, no difference\n"));
    assert_eq!(output.status.code(), Some(1));
}

#[test]
fn a_shorter_run_is_the_beginning_of_a_longer_one() {
    assert!(results("5000").starts_with(&results_alone("1234")));
}

#[test]
fn a_schedule_is_played() {
    let output = second(&["play"], b"make 1 1 1\nhire 1\nrepeat 3\nstep 1\nend\n");
    assert_eq!(text(&output), "1 ok\n2 ok\n3 at 4\n4 at 6\n5 guard 0\n");
    assert_eq!(output.status.code(), Some(0));
    assert_eq!(text(&second(&["play"], b"")), "bad line 1\n");
    assert_eq!(text(&second(&["play"], &[0xff; 100_000])), "too long\n");
}

#[test]
fn written_texts_have_their_transcripts() {
    let folder = Path::new(env!("CARGO_TARGET_TMPDIR")).join("texts");
    let _ = fs::remove_dir_all(&folder);
    let written = second(&["texts", "6", "800", folder.to_str().unwrap()], b"");
    assert_eq!(written.status.code(), Some(0));
    let mut texts = 0;
    for entry in fs::read_dir(&folder).unwrap() {
        let path = entry.unwrap().path();
        if path.extension().is_some_and(|end| end == "txt") {
            texts += 1;
            let kept = fs::read(path.with_extension("out")).unwrap();
            if texts % 20 == 0 {
                assert!(second(&["play"], &fs::read(&path).unwrap()).stdout == kept);
            }
        }
    }
    assert_eq!(texts, 800);
}

#[test]
fn empty_cells_of_texts_are_named() {
    let output = second(&["texts-table", "1", "30"], b"");
    assert!(text(&output).contains("\nempty cells:\n"));
    assert_eq!(output.status.code(), Some(1));
    let output = second(&["texts-table", "1", "800"], b"");
    assert_eq!(output.status.code(), Some(0));
}

#[test]
fn bad_usage() {
    for arguments in [
        &["cases", "1"][..],
        &["play", "1"],
        &["texts", "1", "1"],
        &["texts", "1", "x", "folder"],
        &["texts-table", "1"],
        &["texts-stored"],
        &["cases", "1", "x"],
        &["cases", "1", "2", "short"],
        &["texts-table", "1", "2", "long"],
        &["other", "1", "2"],
        &[],
    ] {
        assert_eq!(second(arguments, b"").status.code(), Some(2));
    }
}
