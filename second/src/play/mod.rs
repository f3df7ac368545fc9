//! Schedules: a text of calls and repeats, played from its bytes to its transcript.

mod line;
mod player;
mod schedule;

#[cfg(test)]
mod tests;

use schedule::Schedule;

/// What playing this text prints, for any bytes.
pub fn transcript(text: &[u8]) -> String {
    match schedule::read(text) {
        Schedule::Bad(line) => format!("bad line {line}\n"),
        Schedule::TooLong => "too long\n".to_string(),
        Schedule::Ops(ops) => player::play(&ops),
    }
}
