//! The text form: records, lists, calls and results as lines, in both directions.

use crate::call::{Answer, Call};
use crate::record::{Guard, Record, Slot, Worker, BUFFERS, GUARDS, WORKERS};
use std::fmt::Write;

const LINE: usize = 65_535;
const NUMBERS: usize = 600;

fn line(out: &mut String, word: &str, numbers: &[u32]) {
    out.push_str(word);
    for n in numbers {
        let _ = write!(out, " {n}");
    }
    out.push('\n');
}

pub fn write_record(out: &mut String, record: &Record) {
    line(out, "pool", &[record.w, record.g, record.b, record.maxg]);
    for (n, guard) in record.guards.iter().enumerate() {
        if *guard != Guard::default() {
            let Slot { id, version } = guard.slot;
            let taken = u32::from(guard.taken);
            let numbers = [n as u32, taken, guard.employer, guard.posted, id, version];
            line(out, "guard", &numbers);
        }
    }
    if let Some(last) = record.states.iter().rposition(|&state| state != 0) {
        let states: Vec<u32> = record.states[..=last].iter().map(|&s| s.into()).collect();
        line(out, "states", &states);
    }
    for (n, worker) in record.workers.iter().enumerate() {
        let Slot { id, version } = worker.h;
        let Worker { i, v, max, .. } = *worker;
        let numbers = [worker.label, i, v, id, version, worker.attempts, max];
        if numbers != [0; 7] {
            let mut all = vec![n as u32 + 1];
            all.extend(numbers);
            line(out, "worker", &all);
        }
    }
    for (n, worker) in record.workers.iter().enumerate() {
        if !worker.set.is_empty() {
            let mut all = vec![n as u32 + 1];
            all.extend(&worker.set);
            line(out, "set", &all);
        }
    }
}

pub fn write_list(out: &mut String, list: &[u32]) {
    line(out, "list", list);
}

pub fn write_call(out: &mut String, call: &Call) {
    line(out, call.word(), &call.numbers());
}

/// The call as a schedule has it, without its newline. A question that no schedule asks has no line.
pub fn schedule_line(call: &Call, list: &[u32]) -> Option<String> {
    let mut out = String::new();
    match call {
        Call::Size { .. } | Call::Leaving | Call::Audit | Call::Sound => return None,
        Call::Give { k } => line(&mut out, "give", &[&[*k], list].concat()),
        Call::Advance { k } => line(&mut out, "step", &[*k]),
        _ => write_call(&mut out, call),
    }
    out.pop();
    Some(out)
}

pub fn write_result(out: &mut String, answer: Answer, record: &Record, list: &[u32]) {
    match answer {
        Answer::Accepted => line(out, "answer accepted", &[]),
        Answer::Yes => line(out, "answer yes", &[]),
        Answer::No => line(out, "answer no", &[]),
        Answer::At(label) => line(out, "answer at", &[label]),
        Answer::Guard(i) => line(out, "answer guard", &[i]),
        Answer::NoneFound => line(out, "answer none found", &[]),
        Answer::Fired => line(out, "answer fired", &[]),
        Answer::Posted => line(out, "answer posted", &[]),
        Answer::Back(count) => line(out, "answer back", &[count]),
        Answer::Count(n) => line(out, "answer count", &[n]),
        Answer::Clear => line(out, "answer clear", &[]),
        Answer::Fault(id, places) => line(out, "answer fault", &[id, places]),
        Answer::Refused(number, place) => line(out, "answer refused", &[number, place]),
    }
    write_record(out, record);
    write_list(out, list);
}

/// The line after the last result: how many calls were made.
pub fn write_end(out: &mut String, calls: u64) {
    let _ = writeln!(out, "calls {calls}");
}

/// Reads one line without its line feed. A line that sets something does so; a line that calls gives the call.
/// None: the line has not the form.
pub fn read_line(record: &mut Record, list: &mut Vec<u32>, text: &str) -> Option<Option<Call>> {
    if text.len() > LINE {
        return None;
    }
    let mut parts = text.split(' ');
    let word = parts.next()?;
    let numbers: Option<Vec<u32>> = parts.map(number).collect();
    let numbers = numbers?;
    if numbers.len() > NUMBERS {
        return None;
    }
    if let Some(call) = Call::read(word, &numbers) {
        return Some(Some(call));
    }
    set(record, list, word, &numbers)?;
    Some(None)
}

fn number(text: &str) -> Option<u32> {
    let digits = text.bytes().all(|c| c.is_ascii_digit());
    if digits {
        text.parse().ok()
    } else {
        None
    }
}

fn set(record: &mut Record, list: &mut Vec<u32>, word: &str, numbers: &[u32]) -> Option<()> {
    match (word, numbers) {
        ("pool", &[w, g, b, maxg]) => {
            *record = Record::fresh(w, g, b);
            record.maxg = maxg;
        }
        ("guard", &[n, taken @ 0..=1, employer, posted, id, version]) if n < GUARDS as u32 => {
            record.guards[n as usize] = Guard {
                taken: taken == 1,
                employer,
                posted,
                slot: Slot { id, version },
            };
        }
        ("states", states) if states.len() <= BUFFERS && states.iter().all(|&s| s < 256) => {
            record.states = states.iter().map(|&s| s as u8).collect();
            record.states.resize(BUFFERS, 0);
        }
        ("worker", &[k, label, i, v, id, version, attempts, max])
            if 1 <= k && k <= WORKERS as u32 =>
        {
            let worker = record.worker_mut(k);
            worker.label = label;
            worker.i = i;
            worker.v = v;
            worker.h = Slot { id, version };
            worker.attempts = attempts;
            worker.max = max;
        }
        ("set", &[k, ref members @ ..])
            if 1 <= k
                && k <= WORKERS as u32
                && members.iter().all(|&m| 1 <= m && m <= BUFFERS as u32) =>
        {
            record.worker_mut(k).set = members.iter().copied().collect();
        }
        ("list", entries) => *list = entries.to_vec(),
        _ => return None,
    }
    Some(())
}

#[cfg(test)]
mod tests {
    use super::*;
    use crate::cases::{self, Mix};
    use crate::stage::{Stage, Way};

    fn read_all(text: &str) -> Option<(Record, Vec<u32>)> {
        let mut record = Record::zero();
        let mut list = vec![5];
        for line in text.lines() {
            match read_line(&mut record, &mut list, line)? {
                None => {}
                Some(_) => return None,
            }
        }
        Some((record, list))
    }

    #[test]
    fn what_is_written_is_read_back() {
        let mut out = Vec::new();
        let mut stage = Stage::new(3_000, Mix::Every, Way::Results(&mut out));
        assert!(cases::play(4, &mut stage).is_ok());
        let text = String::from_utf8(out).unwrap();
        let mut results = 0;
        for result in text.split("answer ").skip(1) {
            let (_, lines) = result.split_once('\n').unwrap();
            let (record, list) = read_all(lines).unwrap();
            let mut again = String::new();
            write_record(&mut again, &record);
            write_list(&mut again, &list);
            assert_eq!(again, lines);
            results += 1;
        }
        assert_eq!(results, 3_000);
    }

    #[test]
    fn a_record_comes_back() {
        let mut record = Record::fresh(2, 0, u32::MAX);
        record.maxg = 7;
        record.guards[31].taken = true;
        record.guards[0].slot.version = u32::MAX;
        record.states[255] = 255;
        record.workers[7].max = 9;
        record.workers[0].set = [256].into();
        let mut text = String::new();
        write_record(&mut text, &record);
        write_list(&mut text, &[]);
        assert_eq!(read_all(&text), Some((record, vec![])));
    }

    #[test]
    fn leading_zeros_count_for_nothing() {
        let (record, list) = read_all("pool 01 2 003 0\nlist 00 0000000000042\n").unwrap();
        assert_eq!(record, Record::fresh(1, 2, 3));
        assert_eq!(list, [0, 42]);
    }

    #[test]
    fn a_line_has_at_most_600_numbers_and_65_535_characters() {
        let numbers = |count| format!("list{}", " 1".repeat(count));
        assert_eq!(read_all(&numbers(600)).unwrap().1.len(), 600);
        assert_eq!(read_all(&numbers(601)), None);
        let zeros = |length: usize| format!("list {}", "0".repeat(length - 5));
        assert_eq!(read_all(&zeros(65_535)).unwrap().1, [0]);
        assert_eq!(read_all(&zeros(65_536)), None);
    }

    #[test]
    fn other_lines_are_not_understood() {
        let bad = [
            "",
            "pool 1 1 1",
            "pool 1 1 1 ",
            "pool  1 1 1 1",
            "pool 1 1 1 4294967296",
            "pool 1 1 1 +1",
            "guard 32 0 0 0 0 0",
            "guard 0 2 0 0 0 0",
            "worker 0 0 0 0 0 0 0 0",
            "worker 9 0 0 0 0 0 0 0",
            "set 1 0",
            "set 1 257",
            "states 256",
            "hire",
            "Hire 1",
            "calls 1",
        ];
        for line in bad {
            let read = read_line(&mut Record::zero(), &mut vec![], line);
            assert_eq!(read, None, "{line}");
        }
    }
}
