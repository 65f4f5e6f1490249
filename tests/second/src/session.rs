//! A whole session, all boards in step.

use crate::keeper::Keeper;
use crate::line::Line;
use crate::mistake::Mistake;
use crate::plan::{has, Label, Plan, Set, Tree};
use crate::sheet::{Sheet, Slot};
use crate::width::{Value, Width};
use std::collections::{BTreeMap, BTreeSet};

pub type Keepers = BTreeMap<u8, Keeper>;

/// Gives the frames of the faulty boards.
pub trait Adversary {
    /// The bytes for a slot; `nodes` are the labels that they report, in order.
    fn frame(&mut self, slot: Slot, nodes: &[Label], keepers: &Keepers) -> Option<Vec<u8>>;

    /// Called for each frame that a keeper stores, or for its absence.
    fn stored(&mut self, _slot: Slot, _frame: Option<&[u8]>) {}

    /// Called when all keepers have converted; false ends the session early.
    fn converted(&mut self, _tree: &Tree, _keepers: &Keepers) -> bool {
        true
    }
}

/// A sheet's lines are an adversary.
impl Adversary for &BTreeMap<Slot, Vec<u8>> {
    fn frame(&mut self, slot: Slot, _: &[Label], _: &Keepers) -> Option<Vec<u8>> {
        self.get(&slot).cloned()
    }
}

#[derive(Clone, Debug, PartialEq, Eq)]
pub struct Outcome {
    pub width: Width,
    pub plan: Plan,
    pub faulty: Set,
    /// What is printed for each healthy board.
    pub lines: Vec<Line>,
    /// The roots of all healthy keepers after each run.
    pub roots: Vec<Vec<Value>>,
    /// Their lists after each run.
    pub lists: Vec<Vec<Set>>,
    /// All values that stand in frames of faulty boards.
    pub told: BTreeSet<Value>,
    /// Those in frames that count: of the due length, from a board that the receiver has not listed.
    pub counted: BTreeSet<Value>,
    /// Those of them that are below m, for each run.
    pub heard: Vec<BTreeSet<Value>>,
    /// By how many bytes frames of another length, from boards not listed, are longer than is due; below 0 if shorter.
    pub misfits: BTreeSet<isize>,
}

impl Outcome {
    pub fn print(&self) -> String {
        let print = |line: &Line| line.print(self.width);
        self.lines.iter().map(print).collect()
    }

    /// Whether a default other than 0 was decided, and nobody told it: the dealer is faulty, no faulty frame has it.
    pub fn default_shows(&self) -> bool {
        let default = self.plan.default;
        default != 0
            && !self.healthy_dealer()
            && !self.told.contains(&default)
            && self.lines.iter().any(|line| line.decision == default)
    }

    pub fn healthy_dealer(&self) -> bool {
        !has(self.faulty, self.plan.dealer)
    }

    /// Whether the roots differ after a run, counted from 1.
    pub fn unequal_after(&self, run: usize) -> bool {
        let roots = self.roots.get(run - 1);
        roots.is_some_and(|r| r.windows(2).any(|pair| pair[0] != pair[1]))
    }

    /// Whether roots can be unequal after a run: the tree is cut, the dealer is faulty, t (b - 3) + 3 boards are,
    /// and two boards that keep cells are not.
    pub fn can_be_unequal_after(&self, run: usize) -> bool {
        let keepers = self
            .lines
            .iter()
            .filter(|line| line.board != self.plan.dealer);
        self.plan.cut()
            && !self.healthy_dealer()
            && self.faulty.count_ones() as usize >= run * (self.plan.depth as usize - 3) + 3
            && keepers.count() >= 2
    }
}

pub fn play_sheet(sheet: &Sheet, mistake: Option<Mistake>) -> Outcome {
    play(
        sheet.width,
        &sheet.plan,
        sheet.value,
        sheet.faulty,
        &mut &sheet.frames,
        mistake,
    )
}

/// Plays a sheet by boards that try every value below m, however many there are.
pub fn play_sheet_trying_all(sheet: &Sheet) -> Outcome {
    play_by(
        |board| Keeper::new(sheet.width, board, None).trying_all(),
        sheet.width,
        &sheet.plan,
        sheet.value,
        sheet.faulty,
        &mut &sheet.frames,
        None,
    )
}

/// Plays a session against an adversary.
pub fn play(
    width: Width,
    plan: &Plan,
    value: Value,
    faulty: Set,
    adversary: &mut dyn Adversary,
    mistake: Option<Mistake>,
) -> Outcome {
    let keeper = |board| Keeper::new(width, board, mistake);
    play_by(keeper, width, plan, value, faulty, adversary, mistake)
}

/// The same by these boards.
fn play_by(
    keeper: impl Fn(u8) -> Keeper,
    width: Width,
    plan: &Plan,
    value: Value,
    faulty: Set,
    adversary: &mut dyn Adversary,
    mistake: Option<Mistake>,
) -> Outcome {
    let tree = Tree::new(plan);
    let healthy: Vec<u8> = (0..plan.n).filter(|b| !has(faulty, *b)).collect();
    let keeping = healthy.iter().filter(|b| **b != plan.dealer);
    let mut keepers: Keepers = keeping.map(|b| (*b, keeper(*b))).collect();
    let dealt = width.encode_with(&[value], mistake);
    let (mut roots, mut lists, mut told) = (vec![], vec![], BTreeSet::new());
    let (mut counted, mut heard, mut misfits) = (BTreeSet::new(), vec![], BTreeSet::new());
    for run in 1..=plan.runs() {
        let mut heard_now = BTreeSet::new();
        for round in Plan::first_round(run)..=plan.rounds() {
            for frame in exchange(&tree, &dealt, faulty, run, round, &mut keepers, adversary) {
                let values = width.decode(&frame.bytes);
                match frame.misfit(width) {
                    _ if frame.listed => (),
                    Some(by) => drop(misfits.insert(by)),
                    None => {
                        heard_now.extend(values.iter().filter(|value| **value < plan.span));
                        counted.extend(&values);
                    }
                }
                told.extend(values);
            }
        }
        heard.push(heard_now);
        keepers.values_mut().for_each(|k| k.convert(&tree, run));
        roots.push(
            keepers
                .values()
                .map(|k| k.cells[&vec![plan.dealer]])
                .collect(),
        );
        lists.push(keepers.values().map(|k| k.list.set()).collect());
        if !adversary.converted(&tree, &keepers) {
            break;
        }
    }
    let line = |board: &u8| {
        let (decision, list) = match keepers.get(board) {
            Some(k) => (k.value(&tree, &[plan.dealer]), k.list.set()),
            None => (value, 0),
        };
        let explained = explained(*board, list, faulty, &keepers, mistake);
        let swapped = mistake == Some(Mistake::DecisionLowByteFirst);
        Line {
            board: *board,
            decision: if swapped {
                decision.swap_bytes()
            } else {
                decision
            },
            list,
            place: plan.place_with(explained, mistake),
        }
    };
    Outcome {
        width,
        plan: plan.clone(),
        faulty,
        lines: healthy.iter().map(line).collect(),
        roots,
        lists,
        told,
        counted,
        heard,
        misfits,
    }
}

/// The set whose place a board's line has: its list, but for a mistake. Only the dealer keeps no cells.
fn explained(
    board: u8,
    list: Set,
    faulty: Set,
    keepers: &Keepers,
    mistake: Option<Mistake>,
) -> Set {
    match mistake {
        Some(Mistake::DealerPlace) if !keepers.contains_key(&board) => faulty,
        Some(Mistake::PlaceOfFaulty) if list != 0 => faulty,
        Some(Mistake::PlaceOfFirstBoard) if list != 0 => {
            keepers.values().next().unwrap().list.set()
        }
        _ => list,
    }
}

/// A frame of a faulty board, how many values are due, and whether the receiver has listed the board.
struct Told {
    bytes: Vec<u8>,
    due: usize,
    listed: bool,
}

impl Told {
    /// By how many bytes it is longer than is due, if it has another length.
    fn misfit(&self, width: Width) -> Option<isize> {
        let by = self.bytes.len() as isize - (self.due * width.bytes()) as isize;
        Some(by).filter(|by| *by != 0)
    }
}

/// One round: all frames are made, then stored, then every keeper closes. Gives all faulty frames.
fn exchange(
    tree: &Tree,
    dealt: &[u8],
    faulty: Set,
    run: usize,
    round: usize,
    keepers: &mut Keepers,
    adversary: &mut dyn Adversary,
) -> Vec<Told> {
    let mut frames: Vec<(Slot, usize, Option<Vec<u8>>)> = vec![];
    let mut told = vec![];
    for sender in 0..tree.plan.n {
        let nodes = tree.reported(round, sender);
        for receiver in keepers.keys().copied() {
            if receiver == sender || nodes.is_empty() {
                continue;
            }
            let slot = Slot {
                run: run as u8,
                round: round as u8,
                sender,
                receiver,
            };
            let frame = if has(faulty, sender) {
                adversary.frame(slot, &nodes, keepers)
            } else if sender == tree.plan.dealer {
                Some(dealt.to_vec())
            } else {
                Some(keepers[&sender].frame(tree, round))
            };
            frames.push((slot, nodes.len(), frame));
        }
    }
    for (slot, due, frame) in frames {
        let keeper = keepers.get_mut(&slot.receiver).unwrap();
        keeper.store(tree, round, slot.sender, frame.as_deref());
        adversary.stored(slot, frame.as_deref());
        if has(faulty, slot.sender) {
            let listed = keeper.list.has(slot.sender);
            told.extend(frame.map(|bytes| Told { bytes, due, listed }));
        }
    }
    keepers.values_mut().for_each(|k| k.close(tree, run, round));
    told
}
