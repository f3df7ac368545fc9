//! The stage on which the cases play: the current record and list, and what is done with each line and each result.

use crate::call::{Answer, Call};
use crate::calls::{self, Outcome};
use crate::cases::{Kind, Mix};
use crate::cover::Cover;
use crate::record::Record;
use crate::text;
use std::borrow::Cow;
use std::io::{self, BufRead, Write};

/// Why the cases end.
pub enum Stop {
    Done,
    Difference(String),
    Io(io::Error),
}

impl From<io::Error> for Stop {
    fn from(error: io::Error) -> Stop {
        Stop::Io(error)
    }
}

pub type Go = Result<(), Stop>;

pub enum Way<'a> {
    Cases(&'a mut dyn Write),
    Results(&'a mut dyn Write),
    Check(&'a mut dyn BufRead),
    Table,
    /// The lines of a schedule that can be played.
    Schedule(&'a mut Vec<String>),
}

/// What each step of a schedule lends.
const LENT: [u32; 256] = [0; 256];

pub struct Stage<'a> {
    pub record: Record,
    pub list: Vec<u32>,
    pub cover: Cover,
    pub mix: Mix,
    kind: Kind,
    made: u64,
    calls: u64,
    way: Way<'a>,
    text: String,
}

/// More lines than any result has; what is longer is no result and is cut there.
const RESULT_LINES: usize = 60;

impl<'a> Stage<'a> {
    pub fn new(calls: u64, mix: Mix, way: Way<'a>) -> Stage<'a> {
        Stage {
            record: Record::zero(),
            list: Vec::new(),
            cover: Cover::new(mix),
            mix,
            kind: Kind::Schedules,
            made: 0,
            calls,
            way,
            text: String::new(),
        }
    }

    /// Whether no call is left to make.
    pub fn is_over(&self) -> bool {
        self.made == self.calls
    }

    pub fn open(&mut self, kind: Kind) {
        self.kind = kind;
    }

    /// Sets the whole record.
    pub fn lay(&mut self, record: Record) -> Go {
        self.record = record;
        if let Way::Cases(out) = &mut self.way {
            self.text.clear();
            text::write_record(&mut self.text, &self.record);
            out.write_all(self.text.as_bytes())?;
        }
        Ok(())
    }

    /// Sets the lent list.
    pub fn lend(&mut self, list: Vec<u32>) -> Go {
        if list == self.list {
            return Ok(());
        }
        self.list = list;
        if let Way::Cases(out) = &mut self.way {
            self.text.clear();
            text::write_list(&mut self.text, &self.list);
            out.write_all(self.text.as_bytes())?;
        }
        Ok(())
    }

    pub fn call(&mut self, call: Call) -> Result<Answer, Stop> {
        if self.is_over() {
            return Err(Stop::Done);
        }
        if let (Way::Schedule(_), Call::Advance { .. }) = (&self.way, &call) {
            self.list = LENT.to_vec();
        }
        let outcome = calls::run(&self.record, &self.list, &call);
        self.made += 1;
        self.text.clear();
        match &mut self.way {
            Way::Cases(out) => {
                text::write_call(&mut self.text, &call);
                out.write_all(self.text.as_bytes())?;
            }
            Way::Results(out) => {
                text::write_result(
                    &mut self.text,
                    outcome.answer,
                    &outcome.record,
                    &outcome.list,
                );
                out.write_all(self.text.as_bytes())?;
            }
            Way::Check(_) => {
                self.compare(&call, &outcome)?;
                self.count(&call, &outcome);
            }
            Way::Table => self.count(&call, &outcome),
            Way::Schedule(lines) => lines.extend(text::schedule_line(&call, &self.list)),
        }
        self.record = outcome.record;
        self.list = outcome.list;
        // Told at once, so that no line is written that no call follows.
        if self.is_over() {
            return Err(Stop::Done);
        }
        Ok(outcome.answer)
    }

    fn count(&mut self, call: &Call, outcome: &Outcome) {
        self.cover
            .count(self.kind, &self.record, &self.list, call, outcome);
    }

    fn compare(&mut self, call: &Call, outcome: &Outcome) -> Go {
        let Way::Check(input) = &mut self.way else {
            return Ok(());
        };
        let mut expected = String::new();
        text::write_result(
            &mut expected,
            outcome.answer,
            &outcome.record,
            &outcome.list,
        );
        let got = read_result(input)?;
        if got == expected.as_bytes() {
            return Ok(());
        }
        let mut report = format!("call {}: a difference\nkind: ", self.made);
        report.push_str(self.kind.name());
        report.push_str("\n\nthe record and the list before the call:\n");
        text::write_record(&mut report, &self.record);
        text::write_list(&mut report, &self.list);
        report.push_str("\nthe call:\n");
        text::write_call(&mut report, call);
        report.push_str("\nthe result expected:\n");
        report.push_str(&expected);
        report.push_str("\nthe result got:\n");
        report.push_str(&shown(&got));
        Err(Stop::Difference(report))
    }

    /// After the last result there is the line with the number of calls, and nothing more.
    pub fn close(&mut self) -> Go {
        self.text.clear();
        text::write_end(&mut self.text, self.made);
        match &mut self.way {
            Way::Results(out) => out.write_all(self.text.as_bytes())?,
            Way::Check(input) => {
                let got = read_result(input)?;
                if got != self.text.as_bytes() {
                    let mut report = format!("after call {}: a difference\n", self.made);
                    report.push_str("\nthe end expected:\n");
                    report.push_str(&self.text);
                    report.push_str("\nthe end got:\n");
                    report.push_str(&shown(&got));
                    return Err(Stop::Difference(report));
                }
            }
            Way::Cases(_) | Way::Table | Way::Schedule(_) => {}
        }
        Ok(())
    }
}

fn shown(got: &[u8]) -> Cow<'_, str> {
    if got.is_empty() {
        return "(the output ended)\n".into();
    }
    String::from_utf8_lossy(got)
}

/// The lines up to the next `list` line, that one included, or up to the end.
fn read_result(input: &mut dyn BufRead) -> io::Result<Vec<u8>> {
    let mut result = Vec::new();
    for _ in 0..RESULT_LINES {
        let start = result.len();
        if input.read_until(b'\n', &mut result)? == 0 || result[start..].starts_with(b"list") {
            break;
        }
    }
    Ok(result)
}
