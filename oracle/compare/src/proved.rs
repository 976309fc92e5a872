//! The calls that are judged, each with its judge.

use oracle::call::{Kind, Mode};
use oracle::case::Case;

use crate::judged::Judged;
use crate::{finder, script, sweep};

/// One proved call, or a wrong one that the tests put in its place.
#[derive(Clone, Copy)]
pub enum Proved {
    Script(script::Call),
    Sweep(Mode, sweep::Call),
    Finder(Mode, finder::Call),
}

/// The names of the calls on the command line.
pub const ALL: [(&str, Proved); 5] = [
    ("script", Proved::Script(kelonbaro::script)),
    (
        "minimizer",
        Proved::Sweep(Mode::Minimizer, sweep::minimizer),
    ),
    ("interval", Proved::Sweep(Mode::Interval, sweep::interval)),
    (
        "minimizer_finder",
        Proved::Finder(Mode::Minimizer, finder::minimizer),
    ),
    (
        "interval_finder",
        Proved::Finder(Mode::Interval, finder::interval),
    ),
];

impl Proved {
    pub fn named(name: &str) -> Option<Proved> {
        let found = ALL.iter().find(|call| call.0 == name)?;
        Some(found.1)
    }

    pub fn kind(self) -> Kind {
        match self {
            Proved::Script(_) => Kind::Script,
            Proved::Sweep(mode, _) => Kind::Sweep(mode),
            Proved::Finder(mode, _) => Kind::Finder(mode),
        }
    }

    /// Judges a case of this call's kind.
    pub fn judge(self, case: &Case) -> Judged {
        match (self, case) {
            (Proved::Script(proved), Case::Script(call)) => script::judge(proved, call),
            (Proved::Sweep(_, proved), Case::Sweep(call)) => sweep::judge(proved, call),
            (Proved::Finder(_, proved), Case::Finder(call)) => finder::judge(proved, call),
            _ => unreachable!("a case of another call"),
        }
    }
}
