//! The texts do what they are made for, and the judge agrees with the player about each of them.

use super::view::View;
use super::{cells, commands, judge, reason, texts};
use crate::chance::Chance;
use crate::play;
use std::collections::BTreeSet;

#[test]
fn the_text_of_each_cell_fills_it() {
    let mut names = BTreeSet::new();
    for cell in cells::all() {
        let transcript = play::transcript(&cell.text);
        let filled = judge::cells(&cell.text, &transcript);
        assert!(
            filled.contains(&cell.name),
            "{} fills {filled:?}",
            cell.name
        );
        assert!(names.insert(cell.name.clone()), "{} twice", cell.name);
    }
}

#[test]
fn no_cell_is_empty() {
    for seed in 1..=2 {
        let count = cells::all().len() as u64;
        let (_, empty) = commands::table(seed, count + 50);
        assert_eq!(empty, [""; 0]);
    }
    let (_, empty) = commands::table(1, 20);
    assert!(!empty.is_empty());
}

#[test]
fn the_same_seed_makes_the_same_texts() {
    let all = |seed, count| -> Vec<(String, Vec<u8>)> {
        let made = texts(seed, count);
        made.map(|text| (text.name, text.bytes)).collect()
    };
    let some = all(7, 1_100);
    assert_eq!(some[..900], all(7, 900));
    assert_ne!(some[1_000..], all(8, 1_100)[1_000..]);
}

/// A line after a make is played exactly if the judge sees nothing wrong with it.
#[test]
fn judge_and_player_agree_on_each_line() {
    let mut lawful = 0;
    for text in texts(3, 2_500) {
        for line in View::of(&text.bytes)
            .lines
            .iter()
            .filter(|line| line.len() < 400)
        {
            let alone = [b"make 1 1 1\n", &line[..], b"\n"].concat();
            let kinds = reason::kinds(line);
            let fits_alone =
                !line.starts_with(b"make") && !line.starts_with(b"repeat") && *line != b"end";
            if kinds.is_empty() && fits_alone {
                assert!(play::transcript(&alone).starts_with("1 ok\n2 "), "{line:?}");
                lawful += 1;
            } else {
                assert_eq!(play::transcript(&alone), "bad line 2\n", "{line:?}");
            }
        }
    }
    assert!(lawful > 10_000);
}

/// The transcript is that of the unrolled text, as far as that is short enough to be played.
#[test]
fn repeats_change_nothing() {
    let mut compared = 0;
    for text in texts(4, 2_500) {
        let transcript = play::transcript(&text.bytes);
        if !transcript.starts_with("1 ") {
            continue;
        }
        let mut unrolled = View::of(&text.bytes).unrolled().join(&b'\n');
        unrolled.push(b'\n');
        if unrolled.len() <= 16_384 {
            assert_eq!(play::transcript(&unrolled), transcript, "{}", text.name);
            compared += 1;
        }
    }
    assert!(compared > 700, "{compared}");
}

/// Random bytes are at fault in their first line, be it line 1 or the one after a make.
#[test]
fn any_bytes_are_played() {
    for number in 0..300 {
        let mut chance = Chance::of_case(9, number);
        let bytes: Vec<u8> = (0..chance.below(400)).map(|_| chance.any() as u8).collect();
        assert_eq!(play::transcript(&bytes), "bad line 1\n");
        let after = [b"make 1 1 1\n", &bytes[..]].concat();
        let transcript = play::transcript(&after);
        assert!(transcript == "1 ok\n" || transcript == "bad line 2\n");
    }
}
