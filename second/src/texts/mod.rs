//! Texts for players of schedules: one for each cell of a table, then random mixtures. The same seed makes the same texts.

mod answers;
mod blocks;
mod cells;
pub mod commands;
mod judge;
mod limits;
mod mixture;
mod pairs;
mod piece;
mod reason;
mod unlawful;
mod view;

#[cfg(test)]
mod tests;

use crate::chance::Chance;

pub struct Text {
    pub name: String,
    pub bytes: Vec<u8>,
}

/// The texts of a seed, one after the other.
pub fn texts(seed: u64, count: u64) -> impl Iterator<Item = Text> {
    let cells = cells::all();
    (0..count).map(move |number| match cells.get(number as usize) {
        Some(cell) => Text {
            name: format!("{number:05}-{}", cell.name),
            bytes: cell.text.clone(),
        },
        None => {
            let mut chance = Chance::of_case(seed, number);
            let (kind, bytes) = mixture::text(&mut chance, number);
            Text {
                name: format!("{number:05}-{kind}"),
                bytes,
            }
        }
    })
}
