//! Why a line is unlawful by itself: told from its look, and not by reading it as the player does.

const NUMBERS: [(&str, usize, usize); 10] = [
    ("make", 3, 3),
    ("take", 1, 1),
    ("hire", 1, 1),
    ("fire", 2, 2),
    ("post", 3, 3),
    ("give", 1, usize::MAX),
    ("ask", 2, 2),
    ("step", 1, 1),
    ("repeat", 1, 1),
    ("end", 0, 0),
];

const LARGEST: &str = "4294967295";

/// Every kind of fault that the line shows, and none if it is lawful.
pub fn kinds(line: &[u8]) -> Vec<String> {
    let mut kinds: Vec<String> = bytes(line).iter().map(|kind| kind.to_string()).collect();
    let text = String::from_utf8_lossy(line);
    let mut tokens = text.split(' ');
    let word = tokens.next().unwrap_or("");
    let rest: Vec<&str> = tokens.collect();
    match NUMBERS.iter().find(|(known, ..)| *known == word) {
        None => kinds.extend(no_word(word)),
        Some(&(_, fewest, most)) => {
            let bad = bad_tokens(word, &rest);
            let few = rest.len() < fewest && bad.is_empty();
            let many = rest.len() > most && bad.is_empty();
            kinds.extend(bad);
            kinds.extend(few.then(|| format!("few-for-{word}")));
            kinds.extend(many.then(|| format!("many-for-{word}")));
            if let ("repeat", [times], true) = (word, &rest[..], kinds.is_empty()) {
                kinds.extend(times_kind(times));
            }
        }
    }
    kinds
}

/// What the bytes show, whatever the words are.
fn bytes(line: &[u8]) -> Vec<&'static str> {
    let has = |wanted: fn(&u8) -> bool| line.iter().any(wanted);
    let blank = line.iter().all(|&byte| byte == b' ');
    let other = |byte: &u8| byte.is_ascii_control() && !b"\0\t\r".contains(byte);
    let utf8 = std::str::from_utf8(line).is_ok();
    let seen = [
        (line.is_empty(), "empty-line"),
        (blank && !line.is_empty(), "blank-line"),
        (!blank && line.starts_with(b" "), "leading-space"),
        (!blank && line.ends_with(b" "), "trailing-space"),
        (
            !blank && line.windows(2).any(|two| two == b"  "),
            "two-spaces",
        ),
        (line.contains(&b'\t'), "tab"),
        (line.contains(&b'\r'), "carriage-return"),
        (line.contains(&b'\0'), "nul"),
        (has(other), "other-control-byte"),
        (has(|byte| *byte > 127) && utf8, "letter-beyond-ascii"),
        (has(|byte| *byte > 127) && !utf8, "high-byte"),
    ];
    let seen = seen.into_iter().filter(|(is_so, _)| *is_so);
    seen.map(|(_, kind)| kind).collect()
}

fn is_word(text: &str) -> bool {
    NUMBERS.iter().any(|(known, ..)| *known == text)
}

fn no_word(word: &str) -> Option<String> {
    if word.is_empty() {
        return None;
    }
    let known = |matches: &dyn Fn(&str) -> bool| NUMBERS.iter().any(|(known, ..)| matches(known));
    let joined = |known: &str| {
        let more = word.strip_prefix(known).unwrap_or("");
        !more.is_empty() && more.bytes().all(|byte| byte.is_ascii_digit())
    };
    let kind = if is_word(&word.to_ascii_lowercase()) {
        "upper-case"
    } else if known(&joined) {
        "number-joined-to-word"
    } else if known(&|known| word.starts_with(known)) {
        "word-with-more"
    } else if known(&|known| known.starts_with(word)) {
        "word-cut-short"
    } else {
        "unknown-word"
    };
    Some(kind.to_string())
}

/// The tokens after the word that are no numbers, and where they stand.
fn bad_tokens(word: &str, rest: &[&str]) -> Vec<String> {
    let mut kinds = Vec::new();
    for (place, token) in rest.iter().enumerate() {
        let Some(kind) = token_kind(token) else {
            continue;
        };
        kinds.push(format!("{kind}-in-{word}"));
        kinds.push(kind.to_string());
        let digits = !token.is_empty() && token.bytes().all(|byte| byte.is_ascii_digit());
        let has_word = token.split(';').any(is_word);
        let where_it_stands = [
            (
                word == "repeat" && digits && token.starts_with('0'),
                "repeat-padded",
            ),
            (
                word == "repeat" && digits && !token.starts_with('0'),
                "repeat-too-large-for-a-number",
            ),
            (word == "repeat" && !digits, "repeat-no-number"),
            (word == "end" && !digits, "word-after-end"),
            (has_word && place > 0, "two-calls-in-a-line"),
            (word == "give" && place > 3, "bad-id-late-in-a-list"),
            (
                place == 0 && matches!(word, "ask" | "fire" | "post"),
                "bad-first-of-two-numbers",
            ),
            (place == 1 && word == "post", "bad-second-of-three-numbers"),
        ];
        let so = where_it_stands.iter().filter(|(is_so, _)| *is_so);
        kinds.extend(so.map(|(_, kind)| kind.to_string()));
    }
    kinds
}

fn token_kind(token: &str) -> Option<&'static str> {
    if token.is_empty() {
        return Some("nothing-for-a-number");
    }
    if !token.bytes().all(|byte| byte.is_ascii_digit()) {
        return Some(if is_word(token) {
            "word-for-a-number"
        } else if token.contains('+') {
            "plus-sign"
        } else if token.contains('-') {
            "minus-sign"
        } else if token.contains('.') {
            "point-in-number"
        } else if token.contains(',') {
            "comma-in-number"
        } else if token.contains(':') {
            "colon-in-number"
        } else if token.contains('/') {
            "slash-in-number"
        } else if token.contains('_') {
            "underscore-in-number"
        } else if token.bytes().any(|byte| byte.is_ascii_alphabetic()) {
            "letter-in-number"
        } else {
            "other-mark-in-number"
        });
    }
    let length = token.len();
    if length > 1 && token.starts_with('0') {
        let zeros = token.bytes().all(|byte| byte == b'0');
        return Some(if zeros {
            "double-zero"
        } else {
            "padded-number"
        });
    }
    match length {
        0..=9 => None,
        10 if token <= LARGEST => None,
        10 if token == "4294967296" => Some("number-2-to-the-32"),
        10 if token.starts_with("42949672") => Some("number-just-above-2-to-the-32"),
        11 => Some("number-of-eleven-digits"),
        20 if token.starts_with("184467440737095516") => Some("number-just-above-2-to-the-64"),
        21.. => Some("number-of-many-digits"),
        _ => Some("number-too-large"),
    }
}

/// What is wrong with a repeat's number that is a number.
fn times_kind(times: &str) -> Option<String> {
    let kind = match times.parse::<u64>() {
        Ok(1..=1_000) => return None,
        Ok(0) => "repeat-0",
        Ok(1_001) => "repeat-1001",
        Ok(65_536..) => "repeat-of-more-bits",
        _ => "repeat-above-1001",
    };
    Some(kind.to_string())
}
