//! The nine calls on objects and what a call or a step answers.

use std::fmt;

#[derive(Clone, Copy, PartialEq, Eq, Debug)]
pub enum Call {
    New { s: u64, k: u64 },
    Copy { s: u64, t: u64 },
    Drop { s: u64 },
    Fetch { s: u64, j: u64, t: u64 },
    Put { s: u64, j: u64, t: u64 },
    Read { s: u64, j: u64 },
    Write { s: u64, j: u64, v: u32 },
    Same { s: u64, t: u64 },
    Kind { s: u64 },
}

impl Call {
    /// The slots it names, left to right.
    pub fn slots(&self) -> Vec<u64> {
        match *self {
            Call::New { s, .. } | Call::Drop { s } | Call::Read { s, .. } => vec![s],
            Call::Write { s, .. } | Call::Kind { s } => vec![s],
            Call::Copy { s, t } | Call::Same { s, t } => vec![s, t],
            Call::Fetch { s, t, .. } | Call::Put { s, t, .. } => vec![s, t],
        }
    }

    /// The same call with each slot renamed.
    pub fn renamed(&self, to: impl Fn(u64) -> u64) -> Call {
        match *self {
            Call::New { s, k } => Call::New { s: to(s), k },
            Call::Copy { s, t } => Call::Copy { s: to(s), t: to(t) },
            Call::Drop { s } => Call::Drop { s: to(s) },
            Call::Fetch { s, j, t } => Call::Fetch { s: to(s), j, t: to(t) },
            Call::Put { s, j, t } => Call::Put { s: to(s), j, t: to(t) },
            Call::Read { s, j } => Call::Read { s: to(s), j },
            Call::Write { s, j, v } => Call::Write { s: to(s), j, v },
            Call::Same { s, t } => Call::Same { s: to(s), t: to(t) },
            Call::Kind { s } => Call::Kind { s: to(s) },
        }
    }
}

impl fmt::Display for Call {
    fn fmt(&self, f: &mut fmt::Formatter) -> fmt::Result {
        match *self {
            Call::New { s, k } => write!(f, "new {s} {k}"),
            Call::Copy { s, t } => write!(f, "copy {s} {t}"),
            Call::Drop { s } => write!(f, "drop {s}"),
            Call::Fetch { s, j, t } => write!(f, "fetch {s} {j} {t}"),
            Call::Put { s, j, t } => write!(f, "put {s} {j} {t}"),
            Call::Read { s, j } => write!(f, "read {s} {j}"),
            Call::Write { s, j, v } => write!(f, "write {s} {j} {v}"),
            Call::Same { s, t } => write!(f, "same {s} {t}"),
            Call::Kind { s } => write!(f, "kind {s}"),
        }
    }
}

/// What the last step of a collection tells.
#[derive(Clone, Copy, PartialEq, Eq, Debug)]
pub struct Report {
    pub steps: u64,
    pub objects: u64,
    pub words: u64,
}

#[derive(Clone, Copy, PartialEq, Eq, Debug)]
pub enum Answer {
    Done,
    Number(u32),
    Same(bool),
    Kind(u64),
    Absent,
    Report(Report),
}

impl fmt::Display for Answer {
    fn fmt(&self, f: &mut fmt::Formatter) -> fmt::Result {
        match *self {
            Answer::Done => write!(f, "ok"),
            Answer::Number(v) => write!(f, "{v}"),
            Answer::Same(same) => write!(f, "{}", if same { "yes" } else { "no" }),
            Answer::Kind(k) => write!(f, "kind {k}"),
            Answer::Absent => write!(f, "absent"),
            Answer::Report(r) => write!(f, "report {} {} {}", r.steps, r.objects, r.words),
        }
    }
}
