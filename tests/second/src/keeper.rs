//! One board that keeps cells: storing, rule G, conversion and rule C.

use crate::entry::{Entry, List, Rule};
use crate::mistake::Mistake;
use crate::plan::{child, has, set_of, Label, Plan, Set, Tree};
use crate::width::{Value, Width};
use std::collections::{BTreeMap, BTreeSet, HashMap};

#[derive(Clone)]
pub struct Keeper {
    pub board: u8,
    pub list: List,
    pub cells: HashMap<Label, Value>,
    /// What the nodes resolved to when the last run ended.
    pub resolved: Resolved,
    width: Width,
    mistake: Option<Mistake>,
    /// Spans up to this are tried value by value.
    many: Value,
}

pub type Resolved = HashMap<Label, Option<Value>>;

/// The children of a node, each with its value if it has one.
type Children = Vec<(u8, Option<Value>)>;

impl Keeper {
    pub fn new(width: Width, board: u8, mistake: Option<Mistake>) -> Keeper {
        Keeper {
            board,
            list: List::default(),
            cells: HashMap::new(),
            resolved: HashMap::new(),
            width,
            mistake,
            many: 255,
        }
    }

    /// The same board, but it tries every span value by value.
    pub fn trying_all(self) -> Keeper {
        let many = Value::MAX;
        Keeper { many, ..self }
    }

    fn makes(&self, mistake: Mistake) -> bool {
        self.mistake == Some(mistake)
    }

    /// A number taken as a value; the mistake puts 0 for the default here.
    fn as_value(&self, tree: &Tree, number: Option<Value>, mistake: Mistake) -> Value {
        let zero = self.makes(mistake);
        tree.plan.value_with(number, zero, self.mistake)
    }

    /// A cell read as a value.
    pub fn value(&self, tree: &Tree, label: &[u8]) -> Value {
        let cell = self.cells[label];
        if self.makes(Mistake::RawRead) {
            cell
        } else {
            self.as_value(tree, Some(cell), Mistake::CellIsZero)
        }
    }

    /// The bytes that this board sends in a round.
    pub fn frame(&self, tree: &Tree, round: usize) -> Vec<u8> {
        let nodes = tree.reported(round, self.board);
        let values: Vec<Value> = nodes.iter().map(|label| self.value(tree, label)).collect();
        self.width.encode_with(&values, self.mistake)
    }

    /// Stores one sender's frame, or its absence.
    pub fn store(&mut self, tree: &Tree, round: usize, sender: u8, frame: Option<&[u8]>) {
        let nodes = tree.reported(round, sender);
        let listed = self.list.has(sender) && !self.makes(Mistake::ListedFrameKept);
        let values = match frame {
            _ if listed => self.no_values(tree, nodes.len(), Mistake::ListedIsZero),
            Some(frame) => self.accepted(tree, frame, nodes.len()),
            None => self.no_values(tree, nodes.len(), Mistake::MissingIsZero),
        };
        for (label, value) in nodes.iter().zip(values) {
            self.cells.insert(child(label, sender), value);
        }
    }

    /// What is stored for a frame that does not count.
    fn no_values(&self, tree: &Tree, wanted: usize, mistake: Mistake) -> Vec<Value> {
        vec![self.as_value(tree, None, mistake); wanted]
    }

    /// The values of a frame as they are stored.
    fn accepted(&self, tree: &Tree, frame: &[u8], wanted: usize) -> Vec<Value> {
        let mut values = self.width.decode_with(frame, self.mistake);
        if !self.fits(values.len(), wanted) {
            return self.no_values(tree, wanted, Mistake::MisfitIsZero);
        }
        if self.makes(Mistake::HighByteLost) {
            values.iter_mut().for_each(|value| *value &= 0xFF);
        }
        let raw = self.makes(Mistake::RawStored) || self.makes(Mistake::RawRead);
        let stored = |place: usize| match values.get(place) {
            Some(value) if raw => *value,
            value => self.as_value(tree, value.copied(), Mistake::BeyondIsZero),
        };
        (0..wanted).map(stored).collect()
    }

    /// Whether a frame has as many values as are due.
    fn fits(&self, count: usize, wanted: usize) -> bool {
        let bytes = self.width.bytes();
        match self.mistake {
            Some(Mistake::OverlongCut) => count >= wanted,
            Some(Mistake::ShortFilled) => count <= wanted,
            Some(Mistake::LengthInAByte) => count * bytes % 256 == wanted * bytes,
            Some(Mistake::CountInAByte) => count % 256 == wanted,
            _ => count == wanted,
        }
    }

    /// The board's own children get its own cells.
    fn copy_own(&mut self, tree: &Tree, round: usize) {
        for label in tree.reported(round, self.board) {
            let value = if self.makes(Mistake::OwnChildSilent) {
                tree.plan.default
            } else {
                self.value(tree, &label)
            };
            self.cells.insert(child(&label, self.board), value);
        }
    }

    /// Closes a round of a run after all frames were stored.
    pub fn close(&mut self, tree: &Tree, run: usize, round: usize) {
        let skipped = round == tree.plan.rounds() && self.makes(Mistake::NoGInLastRound);
        if round > 1 {
            self.copy_own(tree, round);
        }
        if round > 1 && !skipped {
            self.rule_g(tree, run, round);
        }
    }

    fn rule_g(&mut self, tree: &Tree, run: usize, round: usize) {
        let mut nodes: Vec<&Label> = tree.internal_of(round - 1).collect();
        if self.makes(Mistake::GReversed) {
            nodes.reverse();
        }
        let before = self.list.set();
        let mut looked_at: Set = 0;
        for label in nodes {
            let last = *label.last().unwrap();
            let skipped = self.makes(Mistake::CachedVerdict) && has(looked_at, last);
            looked_at |= set_of([last]);
            let list = self.list_for(Mistake::GWithoutList, before);
            let values = self.child_cells(tree, label);
            if self.looks_at(last) && !skipped && !self.explained(tree, &values, list) {
                let listed = self.list.has(last);
                let entry = self.entry(&tree.plan, run, round, Rule::G(label.len() as u8));
                self.list.put(last, entry);
                if !listed {
                    self.mask(tree, round, last);
                }
            }
        }
    }

    /// Whether a rule looks at the nodes of a board: not if it is listed.
    fn looks_at(&self, board: u8) -> bool {
        !self.list.has(board) || self.makes(Mistake::EntryOverwritten)
    }

    /// The entry that a rule writes when it lists a board.
    fn entry(&self, plan: &Plan, run: usize, round: usize, rule: Rule) -> Entry {
        let last = round == plan.rounds();
        let (run, round) = match self.mistake {
            Some(Mistake::EntryOfNextRound) if last => (run + 1, 2),
            Some(Mistake::EntryOfNextRound) => (run, round + 1),
            Some(Mistake::EntryInRun1) => (1, round),
            _ => (run, round),
        };
        let rule = match (self.mistake, rule) {
            (Some(Mistake::GLevelOfRound), Rule::G(level)) => Rule::G(level + 1),
            (Some(Mistake::CLevelOfLeaves), Rule::C(_)) => Rule::C(plan.rounds() as u8 - 1),
            (Some(Mistake::CAsG), Rule::C(level)) => Rule::G(level),
            _ => rule,
        };
        let (run, round) = (run as u8, round as u8);
        Entry { run, round, rule }
    }

    /// The list that a rule joins to the children that differ.
    fn list_for(&self, without: Mistake, before: Set) -> Set {
        if self.makes(without) {
            0
        } else if self.makes(Mistake::ListFrozen) {
            before
        } else {
            self.list.set()
        }
    }

    fn child_cells(&self, tree: &Tree, label: &[u8]) -> Children {
        let value = |q| Some(self.value(tree, &child(label, q)));
        tree.children(label).map(|q| (q, value(q))).collect()
    }

    /// Cells of this round's level that end in a board just listed become the default.
    fn mask(&mut self, tree: &Tree, round: usize, last: u8) {
        if self.makes(Mistake::NoMaskSameRound) {
            return;
        }
        let masked = self.as_value(tree, None, Mistake::MaskedIsZero);
        for label in tree.level(round).iter().filter(|l| l.last() == Some(&last)) {
            self.cells.insert(label.clone(), masked);
        }
    }

    /// Ends a run: resolves all nodes, applies rule C, keeps the root only.
    pub fn convert(&mut self, tree: &Tree, run: usize) {
        let resolved = self.resolve_all(tree);
        let forgets = self.makes(Mistake::LastRunWithoutC)
            || self.makes(Mistake::CutLastRunWithoutC) && tree.plan.cut();
        if run < tree.plan.runs() || !forgets {
            self.rule_c(tree, run, &resolved);
        }
        let root = vec![tree.plan.dealer];
        let unresolved = self.as_value(tree, None, Mistake::RootIsZero);
        let value = resolved[&root].unwrap_or(unresolved);
        self.cells = HashMap::from([(root, value)]);
        self.resolved = resolved;
        if self.makes(Mistake::ListCleared) && run < tree.plan.runs() {
            self.list = List::default();
        }
    }

    fn resolve_all(&self, tree: &Tree) -> Resolved {
        let mut resolved = Resolved::new();
        for level in (1..=tree.plan.rounds()).rev() {
            let mut by_last: BTreeMap<u8, Option<Value>> = BTreeMap::new();
            for label in tree.level(level) {
                let mut value = self.resolve(tree, label, &resolved);
                if self.makes(Mistake::CachedValue) {
                    value = *by_last.entry(*label.last().unwrap()).or_insert(value);
                }
                resolved.insert(label.clone(), value);
            }
        }
        resolved
    }

    fn resolve(&self, tree: &Tree, label: &[u8], resolved: &Resolved) -> Option<Value> {
        if !tree.internal(label) {
            return Some(self.value(tree, label));
        }
        let values = self.compared(child_values(tree, label, resolved));
        let supported = |v: &Value| {
            let same = values.iter().filter(|(_, value)| *value == Some(*v));
            !tree.plan.tolerated(set_of(same.map(|(q, _)| *q)))
        };
        let mut fitting = self.tried(tree, &values).filter(supported);
        let first = fitting.next();
        let unique = self.makes(Mistake::FirstValueWins) || fitting.next().is_none();
        let marked = self.makes(Mistake::MarkFF) && first == Some(0xFF);
        let none = self
            .makes(Mistake::NoneIsDefault)
            .then_some(tree.plan.default);
        first.filter(|_| unique && !marked).or(none)
    }

    fn rule_c(&mut self, tree: &Tree, run: usize, resolved: &Resolved) {
        let mut levels: Vec<usize> = (1..tree.plan.rounds()).rev().collect();
        if self.makes(Mistake::CUpwards) {
            levels.reverse();
        }
        let before = self.list.set();
        for level in levels {
            let mut nodes: Vec<&Label> = tree.internal_of(level).collect();
            if self.makes(Mistake::CReversed) {
                nodes.reverse();
            }
            for label in nodes {
                let last = *label.last().unwrap();
                let list = self.list_for(Mistake::CWithoutList, before);
                let values = child_values(tree, label, resolved);
                if self.looks_at(last) && !self.explained(tree, &values, list) {
                    let rule = Rule::C(level as u8);
                    let entry = self.entry(&tree.plan, run, tree.plan.rounds(), rule);
                    self.list.put(last, entry);
                }
            }
        }
    }

    /// Whether some value leaves a tolerated set of children with another, joined with the list.
    fn explained(&self, tree: &Tree, values: &Children, list: Set) -> bool {
        let values = self.compared(values.clone());
        self.tried(tree, &values).any(|v| {
            let other = values.iter().filter(|(_, value)| *value != Some(v));
            tree.plan.tolerated(set_of(other.map(|(q, _)| *q)) | list)
        })
    }

    /// The children's values as they are compared: unchanged, but with `LowByteCompared` each is the first that has its
    /// low byte.
    fn compared(&self, mut values: Children) -> Children {
        if self.makes(Mistake::LowByteCompared) {
            let low = |value: Option<Value>| value.map(|v| v & 0xFF);
            for place in 0..values.len() {
                let first = values.iter().find(|v| low(v.1) == low(values[place].1));
                values[place].1 = first.and_then(|v| v.1);
            }
        }
        values
    }

    /// The values that a rule tries, rising: all below m. Where these are many, those that children have and the least
    /// that none has. It stands for all others: from each of them all children differ.
    pub fn tried(&self, tree: &Tree, values: &Children) -> impl Iterator<Item = Value> {
        let span = tree.plan.span;
        if span <= self.many {
            return (0..span).chain(BTreeSet::new());
        }
        let mut tried: BTreeSet<Value> = values.iter().filter_map(|(_, value)| *value).collect();
        tried.extend((0..span).find(|v| !tried.contains(v)));
        tried.retain(|v| tree.plan.below(*v, self.mistake));
        (0..0).chain(tried)
    }
}

fn child_values(tree: &Tree, label: &[u8], resolved: &Resolved) -> Children {
    tree.children(label)
        .map(|q| (q, resolved[&child(label, q)]))
        .collect()
}
