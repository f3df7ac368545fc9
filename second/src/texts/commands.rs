//! The commands for texts: written to a folder, counted in a table, and the ones that the repository keeps.

use super::cells::{self, Cell};
use super::{judge, texts};
use crate::play;
use std::collections::BTreeMap;
use std::fmt::Write;
use std::fs;
use std::io;
use std::path::Path;

fn write(folder: &Path, name: &str, text: &[u8], transcript: &str) -> io::Result<()> {
    fs::write(folder.join(format!("{name}.txt")), text)?;
    fs::write(folder.join(format!("{name}.out")), transcript)
}

pub fn write_texts(seed: u64, count: u64, folder: &Path) -> io::Result<()> {
    fs::create_dir_all(folder)?;
    for text in texts(seed, count) {
        write(
            folder,
            &text.name,
            &text.bytes,
            &play::transcript(&text.bytes),
        )?;
    }
    Ok(())
}

/// A longer transcript is compared and not kept.
const KEPT: usize = 16_384;

fn keeps(cell: &Cell, transcript: &str) -> bool {
    cell.stored && transcript.len() <= KEPT
}

/// The texts that are kept, or the others that would be if their transcripts were not so long.
pub fn write_stored(folder: &Path, kept: bool) -> io::Result<()> {
    fs::create_dir_all(folder)?;
    for cell in cells::all().iter().filter(|cell| cell.stored) {
        let transcript = play::transcript(&cell.text);
        if keeps(cell, &transcript) == kept {
            write(folder, &cell.name, &cell.text, &transcript)?;
        }
    }
    Ok(())
}

/// The table of the cells, and the names of the empty ones.
pub fn table(seed: u64, count: u64) -> (String, Vec<String>) {
    let mut counts: BTreeMap<String, u64> = BTreeMap::new();
    for text in texts(seed, count) {
        let transcript = play::transcript(&text.bytes);
        for cell in judge::cells(&text.bytes, &transcript) {
            *counts.entry(cell).or_insert(0) += 1;
        }
    }
    let mut table = String::new();
    let mut empty = Vec::new();
    for cell in cells::all() {
        let count = counts.get(&cell.name).copied().unwrap_or(0);
        let _ = writeln!(table, "{:<60} {count:>9}", cell.name);
        if count == 0 {
            empty.push(cell.name);
        }
    }
    (table, empty)
}
