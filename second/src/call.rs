//! The calls and their answers, as the text form names them.

#[derive(Clone, Debug, PartialEq, Eq)]
pub enum Call {
    Make { w: u32, g: u32, b: u32 },
    Hire { k: u32 },
    Fire { k: u32, g: u32 },
    Post { k: u32, g: u32, id: u32 },
    Give { k: u32 },
    Take { id: u32 },
    Ask { k: u32, id: u32 },
    Advance { k: u32 },
    Size { k: u32 },
    Leaving,
    Audit,
    Sound,
}

#[derive(Clone, Copy, Debug, PartialEq, Eq)]
pub enum Answer {
    Accepted,
    Yes,
    No,
    At(u32),
    Guard(u32),
    NoneFound,
    Fired,
    Posted,
    Back(u32),
    Count(u32),
    Clear,
    Fault(u32, u32),
    Refused(u32, u32),
}

/// The words of the calls on a record, that is all but make.
pub const WORDS: [&str; 11] = [
    "hire", "fire", "post", "give", "take", "ask", "advance", "size", "leaving", "audit", "sound",
];

impl Call {
    pub fn word(&self) -> &'static str {
        match self {
            Call::Make { .. } => "make",
            Call::Hire { .. } => "hire",
            Call::Fire { .. } => "fire",
            Call::Post { .. } => "post",
            Call::Give { .. } => "give",
            Call::Take { .. } => "take",
            Call::Ask { .. } => "ask",
            Call::Advance { .. } => "advance",
            Call::Size { .. } => "size",
            Call::Leaving => "leaving",
            Call::Audit => "audit",
            Call::Sound => "sound",
        }
    }

    pub fn numbers(&self) -> Vec<u32> {
        match *self {
            Call::Make { w, g, b } => vec![w, g, b],
            Call::Hire { k } | Call::Give { k } | Call::Advance { k } | Call::Size { k } => vec![k],
            Call::Fire { k, g } => vec![k, g],
            Call::Post { k, g, id } => vec![k, g, id],
            Call::Take { id } => vec![id],
            Call::Ask { k, id } => vec![k, id],
            Call::Leaving | Call::Audit | Call::Sound => vec![],
        }
    }

    pub fn read(word: &str, n: &[u32]) -> Option<Call> {
        let call = match (word, n) {
            ("make", &[w, g, b]) => Call::Make { w, g, b },
            ("hire", &[k]) => Call::Hire { k },
            ("fire", &[k, g]) => Call::Fire { k, g },
            ("post", &[k, g, id]) => Call::Post { k, g, id },
            ("give", &[k]) => Call::Give { k },
            ("take", &[id]) => Call::Take { id },
            ("ask", &[k, id]) => Call::Ask { k, id },
            ("advance", &[k]) => Call::Advance { k },
            ("size", &[k]) => Call::Size { k },
            ("leaving", &[]) => Call::Leaving,
            ("audit", &[]) => Call::Audit,
            ("sound", &[]) => Call::Sound,
            _ => return None,
        };
        Some(call)
    }
}
