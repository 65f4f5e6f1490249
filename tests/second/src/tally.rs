//! Counts of what the sheets reached.

use crate::places;
use crate::roots;
use crate::session::Outcome;
use crate::sheet::Refusal;
use crate::wide;
use crate::width::CURRENT;
use std::collections::BTreeMap;

/// The refusals that a sheet can meet, rising.
pub const NUMBERS: [u8; 14] = [1, 3, 4, 5, 6, 7, 8, 18, 20, 21, 22, 23, 24, 26];

/// Depth, boards and run after which roots can still be unequal.
pub const SPLITS: [(u8, u8, usize); 4] = [(4, 6, 1), (4, 7, 1), (5, 7, 1), (4, 7, 2)];

#[derive(Default)]
pub struct Tally {
    pub sheets: usize,
    pub accepted: usize,
    /// Unequal roots where none are possible.
    pub impossible: usize,
    /// Accepted sheets with a default other than 0, and those of them that decide it though nobody told it.
    pub defaults: usize,
    pub shown: usize,
    /// Accepted sheets with no sets, by their boards.
    no_sets: BTreeMap<u8, usize>,
    /// Accepted sheets that show each kind of place, and those with a list that has none.
    pub places: BTreeMap<&'static str, usize>,
    pub unplaced: usize,
    /// Accepted sheets that try what roots between runs are worth, and those that break a claim of it.
    pub roots: BTreeMap<&'static str, usize>,
    pub broken: usize,
    /// Accepted sheets that show each kind of values of two bytes.
    pub wide: BTreeMap<&'static str, usize>,
    refused: BTreeMap<u8, usize>,
    split: BTreeMap<(u8, u8, usize), usize>,
}

impl Tally {
    pub fn count(&mut self, result: &Result<Outcome, Refusal>) {
        self.sheets += 1;
        match result {
            Err(refusal) => *self.refused.entry(refusal.number).or_default() += 1,
            Ok(outcome) => self.count_accepted(outcome),
        }
    }

    fn count_accepted(&mut self, outcome: &Outcome) {
        self.accepted += 1;
        self.defaults += usize::from(outcome.plan.default != 0);
        self.shown += usize::from(outcome.default_shows());
        self.unplaced += usize::from(!places::all_placed(outcome));
        for (kind, _) in places::KINDS.iter().filter(|(_, shows)| shows(outcome)) {
            *self.places.entry(kind).or_default() += 1;
        }
        for (kind, _) in roots::KINDS.iter().filter(|(_, shows)| shows(outcome)) {
            *self.roots.entry(kind).or_default() += 1;
        }
        let wide = wide::kinds(outcome.width).iter();
        for (kind, _) in wide.filter(|(_, shows)| shows(outcome)) {
            *self.wide.entry(kind).or_default() += 1;
        }
        let holds = roots::CLAIMS.iter().all(|(_, holds)| holds(outcome));
        self.broken += usize::from(!holds);
        if outcome.plan.sets.is_empty() {
            *self.no_sets.entry(outcome.plan.n).or_default() += 1;
        }
        for run in (1..=outcome.roots.len()).filter(|r| outcome.unequal_after(*r)) {
            let key = (outcome.plan.depth, outcome.plan.n, run);
            *self.split.entry(key).or_default() += 1;
            if !outcome.can_be_unequal_after(run) {
                self.impossible += 1;
            }
        }
    }

    pub fn add(&mut self, other: Tally) {
        self.sheets += other.sheets;
        self.accepted += other.accepted;
        self.impossible += other.impossible;
        self.defaults += other.defaults;
        self.shown += other.shown;
        self.unplaced += other.unplaced;
        self.broken += other.broken;
        join(&mut self.no_sets, other.no_sets);
        join(&mut self.places, other.places);
        join(&mut self.roots, other.roots);
        join(&mut self.wide, other.wide);
        join(&mut self.refused, other.refused);
        join(&mut self.split, other.split);
    }

    /// Whether every number, every kind of unequal roots, of place and of roots between runs, at two bytes every kind
    /// of their values, an accepted sheet with no sets and one that decides a default other than 0 which nobody told
    /// were met, and no other number, no impossible roots, no list without a place and no broken claim.
    pub fn full(&self) -> bool {
        self.refused.keys().eq(&NUMBERS)
            && SPLITS.iter().all(|s| self.split.contains_key(s))
            && places::KINDS
                .iter()
                .all(|(kind, _)| self.places.contains_key(kind))
            && roots::KINDS
                .iter()
                .all(|(kind, _)| self.roots.contains_key(kind))
            && wide::kinds(CURRENT)
                .iter()
                .all(|(kind, _)| self.wide.contains_key(kind))
            && !self.no_sets.is_empty()
            && self.shown > 0
            && self.impossible == 0
            && self.unplaced == 0
            && self.broken == 0
    }

    pub fn print(&self) {
        println!("sheets {}, accepted {}", self.sheets, self.accepted);
        let boards = counts(1..=7, &self.no_sets);
        println!("accepted with no sets, by n  {boards}");
        let (defaults, shown) = (self.defaults, self.shown);
        println!("accepted with a default other than 0  {defaults}, decided though nobody told it: {shown}");
        let met = |n: &u8| NUMBERS.contains(n) || self.refused.contains_key(n);
        let numbers = counts((0..=u8::MAX).filter(met), &self.refused);
        println!("refusals  {numbers}");
        for key in SPLITS {
            let (b, n, run) = key;
            let count = self.split.get(&key).copied().unwrap_or(0);
            println!("unequal roots, b = {b}, n = {n}, after run {run}: {count}");
        }
        println!("unequal roots where none are possible: {}", self.impossible);
        for (kind, _) in places::KINDS {
            let count = self.places.get(kind).copied().unwrap_or(0);
            println!("place {kind}: {count}");
        }
        println!("lists without a place: {}", self.unplaced);
        for (kind, _) in roots::KINDS {
            let count = self.roots.get(kind).copied().unwrap_or(0);
            println!("roots {kind}: {count}");
        }
        println!("roots not worth what is claimed: {}", self.broken);
        for (kind, _) in wide::kinds(CURRENT) {
            let count = self.wide.get(kind).copied().unwrap_or(0);
            println!("{kind}: {count}");
        }
    }
}

/// Adds counts to others.
fn join<K: Ord>(to: &mut BTreeMap<K, usize>, from: BTreeMap<K, usize>) {
    from.into_iter()
        .for_each(|(k, c)| *to.entry(k).or_default() += c);
}

/// The counts of some keys as text.
fn counts(keys: impl Iterator<Item = u8>, among: &BTreeMap<u8, usize>) -> String {
    let count = |k: u8| among.get(&k).copied().unwrap_or(0);
    let texts: Vec<String> = keys.map(|k| format!("{k}: {}", count(k))).collect();
    texts.join(", ")
}
