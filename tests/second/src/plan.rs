//! Structures, plans and the tree of labels.

use crate::mistake::Mistake;
use crate::width::Value;
use std::collections::BTreeSet;

/// A node's boards from the dealer on. The empty label stands above the root.
pub type Label = Vec<u8>;

/// A set of boards; bit i means board i.
pub type Set = u8;

pub fn has(set: Set, board: u8) -> bool {
    board < 8 && set >> board & 1 == 1
}

pub fn set_of(boards: impl IntoIterator<Item = u8>) -> Set {
    boards.into_iter().fold(0, |set, b| set | 1 << b)
}

pub fn within(set: Set, other: Set) -> bool {
    set & !other == 0
}

/// All boards below n.
pub fn all(n: u8) -> Set {
    set_of(0..n)
}

pub fn child(label: &[u8], board: u8) -> Label {
    let mut longer = label.to_vec();
    longer.push(board);
    longer
}

#[derive(Clone, Debug, PartialEq, Eq)]
pub struct Plan {
    pub n: u8,
    pub sets: Vec<Set>,
    pub dealer: u8,
    pub span: Value,
    /// The value that is put where there is none.
    pub default: Value,
    pub depth: u8,
}

impl Plan {
    /// The number under which a plan is turned down, if it is.
    pub fn refusal(&self) -> Option<u8> {
        self.refusal_with(None)
    }

    pub fn refusal_with(&self, mistake: Option<Mistake>) -> Option<u8> {
        let dealer = (6, self.dealer >= self.n);
        let span = (7, self.span < 2);
        let of_span = mistake == Some(Mistake::DefaultOfSpan) && self.default == self.span;
        let default = (26, self.default >= self.span && !of_span);
        let depth = (8, matches!(self.depth, 1..=3) || self.depth > 7);
        let judged = match mistake {
            Some(Mistake::DefaultBeforeSpan) => [dealer, default, span, depth],
            Some(Mistake::DefaultAfterDepth) => [dealer, span, depth, default],
            _ => [dealer, span, default, depth],
        };
        let first = judged.into_iter().find(|(_, met)| *met);
        let sets = admit_with(self.n, &self.sets, mistake);
        sets.err().or(first.map(|(number, _)| number))
    }

    /// A number taken as a value: the default if there is none or if it is m or more; 0 for the default if `zero`,
    /// which only a mistake asks for.
    pub fn value_with(&self, number: Option<Value>, zero: bool, mistake: Option<Mistake>) -> Value {
        let default = if zero { 0 } else { self.default };
        let below = |number: &Value| self.below(*number, mistake);
        number.filter(below).unwrap_or(default)
    }

    /// Whether a number is below m, with the mistake if it is one about this.
    pub fn below(&self, number: Value, mistake: Option<Mistake>) -> bool {
        let all = mistake == Some(Mistake::MarkBelowSpan) && self.span == Value::MAX;
        number < self.span || all
    }

    /// The place of the first listed set that holds this one, if one does. The empty set is held at place 0, also by an
    /// empty list.
    pub fn place(&self, set: Set) -> Option<usize> {
        if set == 0 {
            return Some(0);
        }
        self.first(|listed| within(set, listed))
    }

    /// A set is tolerated if it has a place.
    pub fn tolerated(&self, set: Set) -> bool {
        self.place(set).is_some()
    }

    /// The place of the first listed set that fits.
    fn first(&self, fits: impl Fn(Set) -> bool) -> Option<usize> {
        self.sets.iter().position(|s| fits(*s))
    }

    /// The place with the mistake, if it is one about this. Only two of them touch that of the empty set.
    pub fn place_with(&self, set: Set, mistake: Option<Mistake>) -> Option<usize> {
        let right = self.place(set)?;
        let wrong = match mistake {
            Some(Mistake::NoPlaceInEmptyList) if self.sets.is_empty() => return None,
            Some(Mistake::PlaceOfEmptySet) if set == 0 => self.first(|s| s == 0),
            Some(mistake) if set != 0 => self.wrong_place(set, right, mistake),
            _ => None,
        };
        wrong.or(Some(right))
    }

    /// What a mistake takes for the place of a set that is not empty.
    fn wrong_place(&self, set: Set, right: usize, mistake: Mistake) -> Option<usize> {
        let holds = |place: &usize| within(set, self.sets[*place]);
        let mut falling = (0..self.sets.len()).rev().filter(holds);
        match mistake {
            Mistake::PlaceZero => Some(0),
            Mistake::PlaceFromOne => Some(right + 1),
            Mistake::LastPlace => falling.next(),
            Mistake::PlaceOfEqual => self.first(|s| s == set),
            Mistake::PlaceOfLargest => falling.max_by_key(|place| self.sets[*place].count_ones()),
            Mistake::PlaceOfAnyBoard => self.first(|s| s & set != 0),
            Mistake::PlaceWithoutRepeats => Some(BTreeSet::from_iter(&self.sets[..right]).len()),
            Mistake::PlaceAmongSorted => {
                let mut sorted = self.clone();
                sorted.sets.sort();
                sorted.place(set)
            }
            _ => None,
        }
    }

    /// H: the levels of the whole tree.
    pub fn height(&self) -> usize {
        let holding = self.sets.iter().filter(|s| has(**s, self.dealer));
        1 + holding.map(|s| s.count_ones() as usize).max().unwrap_or(0)
    }

    pub fn cut(&self) -> bool {
        self.depth != 0 && self.height() > self.depth as usize
    }

    /// R: the levels that are played.
    pub fn rounds(&self) -> usize {
        if self.cut() {
            self.depth as usize
        } else {
            self.height()
        }
    }

    pub fn runs(&self) -> usize {
        if !self.cut() {
            return 1;
        }
        let (left, step) = (self.n as usize - 3, self.depth as usize - 3);
        left.div_ceil(step) + 1
    }

    /// The first round of a run.
    pub fn first_round(run: usize) -> usize {
        if run == 1 {
            1
        } else {
            2
        }
    }
}

/// Judges a list of sets; 5 comes without its places, which `first_cover` gives. An empty list is admitted, and only
/// the empty set is tolerated then.
pub fn admit(n: u8, sets: &[Set]) -> Result<(), u8> {
    admit_with(n, sets, None)
}

fn admit_with(n: u8, sets: &[Set], mistake: Option<Mistake>) -> Result<(), u8> {
    if n == 0 || n > 7 {
        Err(1)
    } else if sets.len() > 32 {
        Err(3)
    } else if sets.iter().any(|s| s & !all(n) != 0) {
        Err(4)
    } else if covers(n, sets, mistake) {
        Err(5)
    } else {
        Ok(())
    }
}

/// Whether number 5 is met, judged with the mistake if it is one about this.
fn covers(n: u8, sets: &[Set], mistake: Option<Mistake>) -> bool {
    let cover = match mistake {
        Some(Mistake::CoverByTwo) => cover_among(n, sets, |_, j, k| j == k),
        Some(Mistake::CoverByDifferent) => cover_among(n, sets, |i, j, k| i < j && j < k),
        Some(Mistake::CoverByFirst) => cover_among(n, sets, |_, _, k| k == 0),
        Some(Mistake::CoverByAll) => {
            return sets.iter().fold(0, |union, s| union | s) == all(n);
        }
        _ => first_cover(n, sets),
    };
    cover.is_some()
}

/// The places of the first three sets that cover all boards.
pub fn first_cover(n: u8, sets: &[Set]) -> Option<(usize, usize, usize)> {
    cover_among(n, sets, |_, _, _| true)
}

/// The same among the places that are tried.
fn cover_among(
    n: u8,
    sets: &[Set],
    tried: impl Fn(usize, usize, usize) -> bool,
) -> Option<(usize, usize, usize)> {
    for i in 0..sets.len() {
        for j in i..sets.len() {
            for k in j..sets.len() {
                if tried(i, j, k) && sets[i] | sets[j] | sets[k] == all(n) {
                    return Some((i, j, k));
                }
            }
        }
    }
    None
}

/// The labels of a plan, level by level, each level in rising order.
pub struct Tree {
    pub plan: Plan,
    levels: Vec<Vec<Label>>,
}

impl Tree {
    pub fn new(plan: &Plan) -> Tree {
        let mut tree = Tree {
            plan: plan.clone(),
            levels: vec![vec![vec![plan.dealer]]],
        };
        for level in 1..plan.rounds() {
            let mut next: Vec<Label> = Vec::new();
            for label in tree.internal_of(level) {
                next.extend(tree.children(label).map(|q| child(label, q)));
            }
            next.sort();
            tree.levels.push(next);
        }
        tree
    }

    /// All nodes of a level, in cell order.
    pub fn level(&self, level: usize) -> &[Label] {
        &self.levels[level - 1]
    }

    pub fn nodes(&self) -> usize {
        self.levels.iter().map(Vec::len).sum()
    }

    pub fn internal(&self, label: &[u8]) -> bool {
        label.len() < self.plan.rounds() && self.plan.tolerated(set_of(label.iter().copied()))
    }

    pub fn internal_of(&self, level: usize) -> impl DoubleEndedIterator<Item = &Label> {
        self.level(level)
            .iter()
            .filter(|label| self.internal(label))
    }

    /// The boards that give a node its children.
    pub fn children<'a>(&'a self, label: &'a [u8]) -> impl Iterator<Item = u8> + 'a {
        (0..self.plan.n).filter(move |q| !label.contains(q))
    }

    /// The nodes that a sender's frame of a round reports, in frame order.
    /// The dealer's frame of round 1 reports the empty label.
    pub fn reported(&self, round: usize, sender: u8) -> Vec<Label> {
        if round == 1 {
            return if sender == self.plan.dealer {
                vec![vec![]]
            } else {
                vec![]
            };
        }
        if round > self.plan.rounds() {
            return vec![];
        }
        let nodes = self.internal_of(round - 1);
        nodes
            .filter(|label| !label.contains(&sender))
            .cloned()
            .collect()
    }

    /// Whether a frame is due in this run and round between these boards.
    pub fn due(&self, run: usize, round: usize, sender: u8, receiver: u8) -> bool {
        let known = (1..=self.plan.runs()).contains(&run) && round >= Plan::first_round(run);
        let boards = sender < self.plan.n && receiver < self.plan.n;
        let keeps = receiver != sender && receiver != self.plan.dealer;
        known && boards && keeps && !self.reported(round, sender).is_empty()
    }
}
