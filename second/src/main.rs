//! An independent second program: it writes cases for a pool engine, knows the results that must come out, and compares.

mod call;
mod calls;
mod cases;
mod cells;
mod chance;
mod cover;
mod edges;
mod lists;
mod order;
mod play;
mod record;
mod refusals;
mod sound;
mod stage;
mod steps;
mod text;
mod texts;

#[cfg(test)]
mod paper;
#[cfg(test)]
mod unsound;

use cases::Mix;
use stage::{Go, Stage, Stop, Way};
use std::io::{self, BufRead, BufReader, BufWriter, Read, Write};
use std::process::ExitCode;

const USAGE: &str = "usage: second cases SEED CALLS [long]     writes the lines of the cases
       second results SEED CALLS [long]   writes the results that must come out
       second check SEED CALLS [long]     compares the results on standard input
       second table SEED CALLS [long]     writes the coverage table
       second answer                   writes the results of the lines on standard input
       second play                     plays the schedule on standard input
       second texts SEED COUNT DIR     writes texts of schedules and their transcripts
       second texts-table SEED COUNT   writes the coverage table of those texts
       second texts-stored DIR         writes the texts that the repository keeps
       second texts-long DIR           writes those that it would keep if their transcripts were shorter
With 'long' every case is a long give-up list, and the table has the cells that these are for.
";

fn main() -> ExitCode {
    let arguments: Vec<String> = std::env::args().skip(1).collect();
    let mut words: Vec<&str> = arguments.iter().map(String::as_str).collect();
    let mut mix = Mix::Every;
    if let ["cases" | "results" | "check" | "table", _, _, "long"] = words[..] {
        words.pop();
        mix = Mix::LongLists;
    }
    let done = match words[..] {
        ["answer"] => answer(),
        ["play"] => play(),
        ["texts-stored", folder] => stored_texts(folder, true),
        ["texts-long", folder] => stored_texts(folder, false),
        ["texts", seed, count, folder] => match (seed.parse(), count.parse()) {
            (Ok(seed), Ok(count)) => write_texts(seed, count, folder),
            _ => return usage(),
        },
        [command, seed, calls] => match (seed.parse(), calls.parse()) {
            (Ok(seed), Ok(calls)) => match command {
                "cases" => cases(seed, calls, mix),
                "results" => results(seed, calls, mix),
                "check" => check(seed, calls, mix),
                "table" => table(seed, calls, mix),
                "texts-table" => texts_table(seed, calls),
                _ => return usage(),
            },
            _ => return usage(),
        },
        _ => return usage(),
    };
    match done {
        Ok(code) => code,
        Err(error) if error.kind() == io::ErrorKind::BrokenPipe => ExitCode::SUCCESS,
        Err(error) => {
            eprintln!("second: {error}");
            ExitCode::FAILURE
        }
    }
}

fn usage() -> ExitCode {
    eprint!("{USAGE}");
    ExitCode::from(2)
}

fn cases(seed: u64, calls: u64, mix: Mix) -> io::Result<ExitCode> {
    let mut out = BufWriter::new(io::stdout().lock());
    finish(cases::play(
        seed,
        &mut Stage::new(calls, mix, Way::Cases(&mut out)),
    ))?;
    out.flush()?;
    Ok(ExitCode::SUCCESS)
}

fn results(seed: u64, calls: u64, mix: Mix) -> io::Result<ExitCode> {
    let mut out = BufWriter::new(io::stdout().lock());
    let mut stage = Stage::new(calls, mix, Way::Results(&mut out));
    finish(cases::play(seed, &mut stage).and_then(|()| stage.close()))?;
    out.flush()?;
    Ok(ExitCode::SUCCESS)
}

fn check(seed: u64, calls: u64, mix: Mix) -> io::Result<ExitCode> {
    let mut input = BufReader::new(io::stdin().lock());
    let mut stage = Stage::new(calls, mix, Way::Check(&mut input));
    let played = cases::play(seed, &mut stage).and_then(|()| stage.close());
    if let Some(report) = finish(played)? {
        say(&report)?;
        return Ok(ExitCode::FAILURE);
    }
    say(&format!("{calls} calls compared, no difference\n\n"))?;
    show(&stage)
}

fn table(seed: u64, calls: u64, mix: Mix) -> io::Result<ExitCode> {
    let mut stage = Stage::new(calls, mix, Way::Table);
    finish(cases::play(seed, &mut stage))?;
    show(&stage)
}

/// The report of a difference, if there was one.
fn finish(played: Go) -> io::Result<Option<String>> {
    match played {
        Ok(()) | Err(Stop::Done) => Ok(None),
        Err(Stop::Difference(report)) => Ok(Some(report)),
        Err(Stop::Io(error)) => Err(error),
    }
}

/// Nobody reading on is no reason to end in another way.
fn say(text: &str) -> io::Result<()> {
    match io::stdout().write_all(text.as_bytes()) {
        Err(error) if error.kind() == io::ErrorKind::BrokenPipe => Ok(()),
        other => other,
    }
}

fn show(stage: &Stage) -> io::Result<ExitCode> {
    let empty: Vec<String> = stage.cover.empty().into_iter().map(String::from).collect();
    tell(&stage.cover.table(), &empty)
}

/// An empty cell is a failure.
fn tell(table: &str, empty: &[String]) -> io::Result<ExitCode> {
    say(table)?;
    if empty.is_empty() {
        return Ok(ExitCode::SUCCESS);
    }
    say(&format!("\nempty cells:\n  {}\n", empty.join("\n  ")))?;
    Ok(ExitCode::FAILURE)
}

fn play() -> io::Result<ExitCode> {
    let mut text = Vec::new();
    io::stdin().lock().read_to_end(&mut text)?;
    say(&play::transcript(&text))?;
    Ok(ExitCode::SUCCESS)
}

fn write_texts(seed: u64, count: u64, folder: &str) -> io::Result<ExitCode> {
    texts::commands::write_texts(seed, count, folder.as_ref())?;
    Ok(ExitCode::SUCCESS)
}

fn stored_texts(folder: &str, kept: bool) -> io::Result<ExitCode> {
    texts::commands::write_stored(folder.as_ref(), kept)?;
    Ok(ExitCode::SUCCESS)
}

fn texts_table(seed: u64, count: u64) -> io::Result<ExitCode> {
    let (table, empty) = texts::commands::table(seed, count);
    tell(&table, &empty)
}

/// The model in the engine's place: so the lines of the cases can be tried against the results.
fn answer() -> io::Result<ExitCode> {
    let mut out = BufWriter::new(io::stdout().lock());
    let mut record = record::Record::zero();
    let mut list = Vec::new();
    let mut text = String::new();
    let mut calls = 0;
    for (n, line) in BufReader::new(io::stdin().lock()).lines().enumerate() {
        match text::read_line(&mut record, &mut list, &line?) {
            None => {
                writeln!(out, "line {} not understood", n + 1)?;
                out.flush()?;
                return Ok(ExitCode::SUCCESS);
            }
            Some(None) => {}
            Some(Some(call)) => {
                let outcome = calls::run(&record, &list, &call);
                text.clear();
                text::write_result(&mut text, outcome.answer, &outcome.record, &outcome.list);
                out.write_all(text.as_bytes())?;
                record = outcome.record;
                list = outcome.list;
                calls += 1;
            }
        }
    }
    text.clear();
    text::write_end(&mut text, calls);
    out.write_all(text.as_bytes())?;
    out.flush()?;
    Ok(ExitCode::SUCCESS)
}
