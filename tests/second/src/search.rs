//! A search for adversaries that keep the roots of a cut tree unequal.

use crate::plan::{child, has, Label, Plan, Set, Tree};
use crate::prng::Prng;
use crate::session::{play, Adversary, Keepers, Outcome};
use crate::sheet::{Sheet, Slot};
use crate::width::{Value, Width, CURRENT};
use std::collections::{BTreeMap, HashMap};

/// In a run, a node within F as one receiver stores it.
pub type Place = (u8, Label, u8);

/// Lies at nodes within F; elsewhere the witness's cells are told.
pub type Lies = HashMap<Place, Value>;

/// Plays lies and writes down the frames and the places that it was asked for.
struct Liar<'a> {
    width: Width,
    lies: &'a Lies,
    faulty: Set,
    witness: u8,
    frames: BTreeMap<Slot, Vec<u8>>,
    places: Vec<Place>,
    /// For each run and level, how many nodes resolved to unequal values.
    split: Vec<Vec<usize>>,
    /// The last run that is of interest.
    last: usize,
}

impl Adversary for Liar<'_> {
    fn frame(&mut self, slot: Slot, nodes: &[Label], keepers: &Keepers) -> Option<Vec<u8>> {
        let witness = keepers
            .get(&self.witness)
            .or(keepers.values().next())
            .unwrap();
        let mut values = vec![];
        for label in nodes {
            let place = (slot.run, child(label, slot.sender), slot.receiver);
            let truth = witness.cells.get(label).copied().unwrap_or(0);
            values.push(self.lies.get(&place).copied().unwrap_or(truth));
            if label.iter().all(|b| has(self.faulty, *b)) {
                self.places.push(place);
            }
        }
        let frame = self.width.encode(&values);
        self.frames.insert(slot, frame.clone());
        Some(frame)
    }

    fn converted(&mut self, tree: &Tree, keepers: &Keepers) -> bool {
        let unequal = |label: &&Label| {
            let mut values = keepers.values().map(|k| k.resolved[*label]);
            let first = values.next();
            values.any(|v| Some(v) != first)
        };
        let count = |level| tree.level(level).iter().filter(unequal).count();
        self.split
            .push((1..=tree.plan.rounds()).map(count).collect());
        self.split.len() < self.last
    }
}

/// What lies lead to.
pub struct Trial {
    pub outcome: Outcome,
    pub sheet: Sheet,
    places: Vec<Place>,
    split: Vec<Vec<usize>>,
}

/// Plays lies up to a run, with the cells of one board told elsewhere.
pub fn trial(
    width: Width,
    plan: &Plan,
    faulty: Set,
    lies: &Lies,
    witness: u8,
    last: usize,
) -> Trial {
    let (frames, places, split) = (BTreeMap::new(), vec![], vec![]);
    let mut liar = Liar {
        width,
        lies,
        faulty,
        witness,
        frames,
        places,
        split,
        last,
    };
    let outcome = play(width, plan, 0, faulty, &mut liar, None);
    let sheet = Sheet {
        width,
        plan: plan.clone(),
        value: 0,
        faulty,
        frames: liar.frames,
    };
    Trial {
        outcome,
        sheet,
        places: liar.places,
        split: liar.split,
    }
}

/// High if unequal values climb far in each run, and if few boards stand on every list.
fn score(trial: &Trial) -> usize {
    let mut score = 0;
    for (split, lists) in trial.split.iter().zip(&trial.outcome.lists) {
        let high = split.iter().rev().take_while(|c| **c > 0).count();
        score += 1000 * high + split.get(split.len() - high).map_or(0, |c| 5 * (*c).min(9));
        let common = lists.iter().fold(!0, |all, l| all & l).count_ones() as usize;
        score += 50 * (8 - common);
        if high < split.len() {
            break;
        }
    }
    score
}

/// Climbs from random lies to roots that are unequal after a run.
pub fn climb(plan: &Plan, faulty: Set, run: usize, tries: usize, rng: &mut Prng) -> Option<Lies> {
    let trial = |lies: &Lies| trial(CURRENT, plan, faulty, lies, 0, run);
    let places = trial(&Lies::new()).places;
    let value = |rng: &mut Prng| rng.below(plan.span as usize) as Value;
    let mut lies: Lies = places.iter().map(|p| (p.clone(), value(rng))).collect();
    let mut best = 0;
    for _ in 0..tries {
        let mut next = lies.clone();
        for _ in 0..1 + rng.below(5) {
            next.insert(places[rng.below(places.len())].clone(), value(rng));
        }
        let found = trial(&next);
        if found.outcome.unequal_after(run) {
            return Some(next);
        }
        let reached = score(&found);
        if reached >= best {
            (best, lies) = (reached, next);
        }
    }
    None
}

/// The sheet of lies, up to a run.
pub fn sheet(width: Width, plan: &Plan, faulty: Set, lies: &Lies, witness: u8, last: u8) -> Sheet {
    let mut sheet = trial(width, plan, faulty, lies, witness, plan.runs()).sheet;
    sheet.frames.retain(|slot, _| slot.run <= last);
    sheet
}
