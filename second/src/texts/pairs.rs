//! The cells that a call and its answer fill. The transcript must have one line for each call of the unrolled text.

use super::judge::Cells;
use super::view::View;
use std::collections::BTreeMap;

pub fn answers(view: &View, transcript: &str, cells: &mut Cells) {
    let calls = view.unrolled();
    let printed: Vec<&str> = transcript.split('\n').collect();
    assert_eq!(calls.len(), printed.len(), "not one line for each call");
    // What each worker's last step printed.
    let mut last: BTreeMap<&str, &str> = BTreeMap::new();
    for (n, (call, printed)) in calls.iter().zip(printed).enumerate() {
        let call = std::str::from_utf8(call).unwrap_or_default();
        let (number, answer) = printed.split_once(' ').unwrap_or_default();
        assert_eq!(number, (n + 1).to_string(), "the numbers go up by one");
        let (word, numbers) = call.split_once(' ').unwrap_or_default();
        arguments(word, numbers, cells);
        if n == 0 {
            sizes(numbers, answer, cells);
        }
        cells.extend(answered(word, answer));
        if word == "step" {
            let before = last.insert(numbers, answer).unwrap_or_default();
            cells.extend(tried(before, answer).map(String::from));
        }
    }
}

fn answered(word: &str, answer: &str) -> Vec<String> {
    let parts: Vec<&str> = answer.split(' ').collect();
    match parts[..] {
        ["ok"] => vec![format!("ok-{word}")],
        ["at", label] => vec![format!("at-{label}")],
        ["guard", "0"] => vec!["guard-0".to_string()],
        ["guard", guard] => vec!["guard-above-0".to_string(), format!("guard-{guard}")],
        ["back"] => vec!["back-none".to_string()],
        ["back", _] => vec!["back-1-id".to_string()],
        ["back", .., "256"] if parts.len() == 257 => vec!["back-256-ids".to_string()],
        ["back", ..] => vec!["back-some-ids".to_string()],
        ["none" | "fired" | "posted" | "yes" | "no"] => vec![answer.to_string()],
        ["refused", number, place] => {
            let mut cells = vec![format!("refused-{number}-{word}")];
            if place != "0" {
                cells.push(format!("refused-{number}-place-above-0"));
                cells.push(format!("refused-at-place-{place}"));
            }
            cells
        }
        _ => panic!("no answer: {answer}"),
    }
}

/// What came of an exchange that had failed.
fn tried(before: &str, now: &str) -> Option<&'static str> {
    match (before, now) {
        ("at 25", "at 18") => Some("tries-again"),
        ("at 25", "at 31") => Some("tries-no-more-at-25"),
        ("at 22", "at 31") => Some("tries-no-more-at-22"),
        _ => None,
    }
}

fn arguments(word: &str, numbers: &str, cells: &mut Cells) {
    let mut count = 0;
    for (n, number) in numbers.split(' ').enumerate() {
        count += 1;
        // A give has its worker and then any number of ids.
        let place = if word == "give" { n.min(1) + 1 } else { n + 1 };
        match number {
            "4294967295" => cells.insert(format!("largest-{word}-{place}")),
            "0" => cells.insert(format!("zero-{word}-{place}")),
            _ => false,
        };
    }
    if count > 2_000 {
        cells.insert("give-thousands-of-ids".to_string());
    }
}

/// The one size of a refused make that is just out of its range.
fn sizes(numbers: &str, answer: &str, cells: &mut Cells) {
    let numbers: Vec<u64> = numbers.split(' ').flat_map(str::parse).collect();
    let most = [("w", 8), ("g", 32), ("b", 256)];
    let out: Vec<_> = most
        .iter()
        .zip(numbers)
        .filter(|((_, most), n)| *n < 1 || n > most)
        .collect();
    if let ([((name, most), n)], "refused 1 0") = (&out[..], answer) {
        match *n {
            0 => cells.insert(format!("make-{name}-low")),
            n if n == most + 1 => cells.insert(format!("make-{name}-high")),
            _ => false,
        };
    }
}
