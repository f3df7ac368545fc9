//! A lawful text as a tree, so that parts of it can be repeated, moved and nested without breaking a block.

use crate::chance::Chance;

#[derive(Clone, Debug)]
pub enum Piece {
    Line(String),
    Block(u32, Vec<Piece>),
}

pub const DEPTH: usize = 4;

pub fn render(pieces: &[Piece]) -> Vec<String> {
    let mut lines = Vec::new();
    for piece in pieces {
        match piece {
            Piece::Line(line) => lines.push(line.clone()),
            Piece::Block(times, inner) => {
                lines.push(format!("repeat {times}"));
                lines.extend(render(inner));
                lines.push("end".to_string());
            }
        }
    }
    lines
}

fn depth(pieces: &[Piece]) -> usize {
    let deep = |piece: &Piece| match piece {
        Piece::Line(_) => 0,
        Piece::Block(_, inner) => 1 + depth(inner),
    };
    pieces.iter().map(deep).max().unwrap_or(0)
}

pub fn calls(pieces: &[Piece]) -> u64 {
    let of = |piece: &Piece| match piece {
        Piece::Line(_) => 1,
        Piece::Block(times, inner) => u64::from(*times) * calls(inner),
    };
    pieces.iter().map(of).sum()
}

/// Lines that follow one another and are alike become a block, most of them.
pub fn fold(chance: &mut Chance, lines: &[String]) -> Vec<Piece> {
    let mut pieces = Vec::new();
    for same in lines.chunk_by(|one, other| one == other) {
        let line = Piece::Line(same[0].clone());
        if (2..=1_000).contains(&same.len()) && chance.percent(80) {
            pieces.push(Piece::Block(same.len() as u32, vec![line]));
        } else {
            pieces.extend(same.iter().map(|_| line.clone()));
        }
    }
    pieces
}

/// A stretch of the pieces, at any depth, becomes a block of its own. The calls in all stay within the bound.
pub fn wrap(chance: &mut Chance, pieces: &mut Vec<Piece>, most: u64) {
    let room = DEPTH - depth(pieces).min(DEPTH);
    let all = calls(pieces);
    inner_wrap(chance, pieces, room, most.saturating_sub(all));
}

fn inner_wrap(chance: &mut Chance, pieces: &mut Vec<Piece>, room: usize, more: u64) {
    let length = pieces.len() as u32;
    let at = chance.below(length + 1) as usize;
    if let Some(Piece::Block(times, inner)) = pieces.get_mut(at) {
        if chance.percent(60) {
            let more = more / u64::from(*times);
            return inner_wrap(chance, inner, room, more);
        }
    }
    if room == 0 {
        return;
    }
    let end = (at + chance.below(8) as usize).min(pieces.len());
    let wrapped: Vec<Piece> = pieces.splice(at..end, []).collect();
    let once = calls(&wrapped).max(1);
    let times = match chance.below(4) {
        0 => 1,
        1 => 2,
        2 => chance.between(2, 9),
        _ => chance.between(1, 1_000),
    };
    let fits = u64::from(times - 1) * once <= more;
    let times = if fits { times } else { 1 };
    pieces.insert(at, Piece::Block(times, wrapped));
}

/// Blocks without a call, of any depth that there is room for, between the other pieces.
pub fn sprinkle(chance: &mut Chance, pieces: &mut Vec<Piece>, around: usize) {
    let mut nothing = Vec::new();
    for _ in 0..chance.between(1, (DEPTH - around) as u32) {
        let times = chance.pick(&[1, 2, 999, 1_000]);
        let beside = chance.percent(20).then(|| Piece::Block(7, vec![]));
        nothing = vec![Piece::Block(times, nothing)];
        nothing.extend(beside);
    }
    let at = chance.below(pieces.len() as u32 + 1) as usize;
    if let Some(Piece::Block(_, inner)) = pieces.get_mut(at) {
        if around + 1 < DEPTH && chance.percent(60) {
            return sprinkle(chance, inner, around + 1);
        }
    }
    pieces.splice(at..at, nothing);
}
