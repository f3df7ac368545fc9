//! A text as the judge looks at it: its lines, and how the blocks stand to one another.

use super::reason;

/// What a line is, from its look.
#[derive(Clone, Copy, Debug, PartialEq, Eq)]
pub enum Look {
    Bad,
    Make,
    Call,
    Repeat(u64),
    End,
}

pub struct View<'a> {
    pub text: &'a [u8],
    pub lines: Vec<&'a [u8]>,
    pub looks: Vec<Look>,
    /// Whether the last line has its newline.
    pub whole: bool,
}

impl<'a> View<'a> {
    pub fn of(text: &'a [u8]) -> View<'a> {
        let mut lines: Vec<&[u8]> = text.split(|byte| *byte == b'\n').collect();
        let whole = lines.last() == Some(&&b""[..]) && !text.is_empty();
        if whole || text.is_empty() {
            lines.pop();
        }
        let mut looks: Vec<Look> = lines.iter().map(|line| look(line)).collect();
        if let (false, Some(last)) = (whole, looks.last_mut()) {
            *last = Look::Bad;
        }
        View {
            text,
            lines,
            looks,
            whole,
        }
    }

    /// How many of the repeats before this line are open there.
    pub fn depth_before(&self, at: usize) -> usize {
        let mut depth = 0usize;
        for look in &self.looks[..at] {
            match look {
                Look::Repeat(_) => depth += 1,
                Look::End => depth = depth.saturating_sub(1),
                _ => {}
            }
        }
        depth
    }

    pub fn opened_before(&self, at: usize) -> usize {
        self.depth_before(at)
    }

    pub fn closed_before(&self, at: usize) -> bool {
        self.looks[..at].contains(&Look::End)
    }

    fn depths(&self) -> impl Iterator<Item = (usize, Look)> + '_ {
        let mut depth = 0usize;
        self.looks.iter().map(move |look| {
            match look {
                Look::Repeat(_) => depth += 1,
                Look::End => depth = depth.saturating_sub(1),
                _ => {}
            }
            (depth, *look)
        })
    }

    pub fn deepest(&self) -> usize {
        self.depths().map(|(depth, _)| depth).max().unwrap_or(0)
    }

    pub fn deepest_call(&self) -> usize {
        let calls = self.depths().filter(|(_, look)| *look == Look::Call);
        calls.map(|(depth, _)| depth).max().unwrap_or(0)
    }

    /// The repeats from this line on that stand more than four deep.
    pub fn too_deep_from(&self, at: usize) -> usize {
        let deep = self.depths().skip(at);
        deep.filter(|(depth, look)| *depth > 4 && matches!(look, Look::Repeat(_)))
            .count()
    }

    pub fn lines_from(&self, at: usize, wanted: fn(&[u8]) -> bool) -> usize {
        self.lines[at..].iter().filter(|line| wanted(line)).count()
    }

    /// The calls of the lawful lines, each as often as the repeats around it say.
    pub fn calls(&self) -> u128 {
        self.calls_before(self.looks.len())
    }

    pub fn calls_before(&self, at: usize) -> u128 {
        self.weights(at).iter().sum()
    }

    fn weights(&self, at: usize) -> Vec<u128> {
        let mut factors: Vec<u128> = vec![1];
        let mut weights = Vec::new();
        for look in &self.looks[..at] {
            let factor = factors[factors.len() - 1];
            match look {
                Look::Repeat(times) => {
                    factors.push(factor.saturating_mul((*times).into()).min(1 << 100))
                }
                Look::End if factors.len() > 1 => {
                    factors.pop();
                }
                Look::Make | Look::Call => weights.push(factor),
                _ => {}
            }
        }
        weights
    }

    /// The calls of each line or block that stands in no other.
    pub fn parts(&self) -> Vec<u128> {
        let mut parts = Vec::new();
        let mut before = 0;
        for (n, (depth, _)) in self.depths().enumerate() {
            if depth == 0 {
                let calls = self.calls_before(n + 1);
                parts.push(calls - before);
                before = calls;
            }
        }
        parts
    }

    /// A block without calls inside one that has calls and is played more than once.
    pub fn busy_with_empty(&self) -> bool {
        let empty = |n: usize| {
            matches!(self.looks[n], Look::Repeat(_)) && self.looks.get(n + 1) == Some(&Look::End)
        };
        let mut at = 0;
        while at < self.looks.len() {
            if let Look::Repeat(times) = self.looks[at] {
                let depth = self.depth_before(at);
                let end = (at + 1..self.looks.len()).find(|&n| self.depth_before(n + 1) == depth);
                let Some(end) = end else { return false };
                let busy = self.looks[at..end].contains(&Look::Call);
                if times > 1 && busy && (at + 1..end).any(empty) {
                    return true;
                }
                at = end;
            }
            at += 1;
        }
        false
    }

    /// No line is at fault by its look or its place; the blocks are not asked about.
    pub fn seems_lawful(&self) -> bool {
        let later = self.looks.get(1..).unwrap_or(&[]);
        let good = |look: &Look| !matches!(look, Look::Bad | Look::Make);
        self.looks.first() == Some(&Look::Make) && later.iter().all(good)
    }

    /// The calls' lines, each block as often as it is repeated.
    pub fn unrolled(&self) -> Vec<&'a [u8]> {
        let mut blocks: Vec<(u64, Vec<&[u8]>)> = vec![(1, Vec::new())];
        for (look, line) in self.looks.iter().zip(&self.lines) {
            match look {
                Look::Repeat(times) => blocks.push((*times, Vec::new())),
                Look::End => {
                    if let (Some((times, inner)), Some((_, outer))) =
                        (blocks.pop(), blocks.last_mut())
                    {
                        outer.extend(inner.repeat(times as usize));
                    }
                }
                _ => {
                    if let Some((_, inner)) = blocks.last_mut() {
                        inner.push(line);
                    }
                }
            }
        }
        blocks.pop().map(|(_, all)| all).unwrap_or_default()
    }
}

fn look(line: &[u8]) -> Look {
    if !reason::kinds(line).is_empty() {
        return Look::Bad;
    }
    let text = String::from_utf8_lossy(line);
    match text.split_once(' ') {
        Some(("make", _)) => Look::Make,
        Some(("repeat", times)) => times.parse().map_or(Look::Bad, Look::Repeat),
        None => Look::End,
        _ => Look::Call,
    }
}
