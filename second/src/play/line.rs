//! One line of a schedule, without its newline: what it says, if it is lawful by itself.

use crate::call::Call;

#[derive(Clone, Debug, PartialEq, Eq)]
pub enum Line {
    /// The list is a give's ids, and otherwise empty.
    Call(Call, Vec<u32>),
    Repeat(u32),
    End,
}

pub fn read(line: &[u8]) -> Option<Line> {
    let mut words = line.split(|&byte| byte == b' ');
    let word = words.next()?;
    let numbers: Vec<u32> = words.map(number).collect::<Option<_>>()?;
    let call = match (word, &numbers[..]) {
        (b"make", &[w, g, b]) => Call::Make { w, g, b },
        (b"take", &[id]) => Call::Take { id },
        (b"hire", &[k]) => Call::Hire { k },
        (b"fire", &[k, g]) => Call::Fire { k, g },
        (b"post", &[k, g, id]) => Call::Post { k, g, id },
        (b"give", &[k, ref ids @ ..]) => return Some(Line::Call(Call::Give { k }, ids.to_vec())),
        (b"ask", &[k, id]) => Call::Ask { k, id },
        (b"step", &[k]) => Call::Advance { k },
        (b"repeat", &[times @ 1..=1_000]) => return Some(Line::Repeat(times)),
        (b"end", &[]) => return Some(Line::End),
        _ => return None,
    };
    Some(Line::Call(call, Vec::new()))
}

/// The largest number has ten digits, so that a longer one never has to be worked out.
fn number(digits: &[u8]) -> Option<u32> {
    let lawful = match digits {
        [] => false,
        [b'0'] => true,
        [b'0', ..] => false,
        _ => digits.len() <= 10 && digits.iter().all(u8::is_ascii_digit),
    };
    if !lawful {
        return None;
    }
    let value = digits
        .iter()
        .fold(0, |value: u64, digit| value * 10 + u64::from(digit - b'0'));
    u32::try_from(value).ok()
}
