//! A board's list: for each board nothing, or when and by which rule it was listed.

use crate::plan::{set_of, Set};

/// A rule, with the level of the node at which it listed a board.
#[derive(Clone, Copy, Debug, PartialEq, Eq)]
pub enum Rule {
    G(u8),
    C(u8),
}

impl Rule {
    pub fn level(self) -> u8 {
        match self {
            Rule::G(level) | Rule::C(level) => level,
        }
    }
}

/// The run and the round that were closed, and the rule.
#[derive(Clone, Copy, Debug, PartialEq, Eq)]
pub struct Entry {
    pub run: u8,
    pub round: u8,
    pub rule: Rule,
}

/// What is kept of each board.
#[derive(Clone, Copy, Debug, Default, PartialEq, Eq)]
pub struct List(pub [Option<Entry>; 7]);

impl List {
    /// The boards that have an entry.
    pub fn set(&self) -> Set {
        set_of((0..7).filter(|board| self.has(*board)))
    }

    pub fn has(&self, board: u8) -> bool {
        self.0[board as usize].is_some()
    }

    pub fn put(&mut self, board: u8, entry: Entry) {
        self.0[board as usize] = Some(entry);
    }

    /// The boards that have an entry, with it.
    pub fn entries(&self) -> impl Iterator<Item = (u8, Entry)> + '_ {
        (0..7).filter_map(|board| self.0[board as usize].map(|entry| (board, entry)))
    }
}
