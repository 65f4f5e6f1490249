//! One board's calls, each on what the call before left: numbers, values, record, cells and output.

use crate::keeper::Keeper;
use crate::mistake::Mistake;
use crate::plan::{child, first_cover, has, set_of, Label, Plan, Tree};
use crate::record::{Fields, Record};
use crate::script::{out, Act, Step, CELLS};
use crate::width::{Value, Width};
use std::collections::HashMap;
use std::rc::Rc;
use std::sync::OnceLock;

/// An answer: the number of the refusal, 0 if the call is taken, and the bytes beside it.
#[derive(Clone, Debug, PartialEq, Eq)]
pub struct Said {
    pub number: u8,
    pub beside: Vec<u8>,
}

impl Said {
    fn taken(beside: &[u8]) -> Said {
        let beside = beside.to_vec();
        Said { number: 0, beside }
    }

    fn refused(number: u8) -> Said {
        let beside = vec![];
        Said { number, beside }
    }

    /// The number, how many bytes stand beside it, and three of them.
    fn bytes(&self) -> Vec<u8> {
        let mut bytes = vec![self.number, self.beside.len() as u8];
        bytes.extend(&self.beside);
        bytes.resize(5, 0);
        bytes
    }
}

impl From<Result<Said, Said>> for Said {
    fn from(result: Result<Said, Said>) -> Said {
        result.unwrap_or_else(|said| said)
    }
}

/// The nodes of a plan, and where the cell of each label stands.
pub struct Layout {
    pub tree: Tree,
    places: HashMap<Label, usize>,
}

impl Layout {
    fn new(plan: &Plan) -> Layout {
        let labels = labels(plan.n, plan.dealer).into_iter().enumerate();
        Layout {
            tree: Tree::new(plan),
            places: labels.map(|(place, label)| (label, place)).collect(),
        }
    }

    /// The cells of a board.
    pub fn cells(&self) -> usize {
        self.places.len()
    }

    pub fn place(&self, label: &[u8]) -> usize {
        self.places[label]
    }

    fn nodes(&self) -> impl Iterator<Item = &Label> {
        (1..=self.tree.plan.rounds()).flat_map(|level| self.tree.level(level))
    }
}

/// All lists of different boards that start with the dealer, node or not: by level, inside a level by label.
pub fn labels(n: u8, dealer: u8) -> Vec<Label> {
    let (mut all, mut level) = (vec![], vec![vec![dealer]]);
    while !level.is_empty() {
        all.extend(level.clone());
        let others = |label: &Label| {
            let label = label.clone();
            let boards = (0..n).filter(|q| !label.contains(q));
            boards.map(|q| child(&label, q)).collect::<Vec<_>>()
        };
        level = level.iter().flat_map(others).collect();
        level.sort();
    }
    all
}

/// The cells that n boards need; 0 for an n that no plan has.
pub fn cell_count(n: u8) -> usize {
    static COUNTS: OnceLock<Vec<usize>> = OnceLock::new();
    let count = |n: u8| if n == 0 { 0 } else { labels(n, 0).len() };
    let counts = COUNTS.get_or_init(|| (0..=7).map(count).collect());
    counts.get(n as usize).copied().unwrap_or(0)
}

/// All that calls get and leave.
pub struct State {
    pub record: Record,
    pub cells: Vec<Value>,
    pub out: Vec<u8>,
    width: Width,
    mistake: Option<Mistake>,
    layout: Option<Rc<Layout>>,
}

impl State {
    pub fn new(width: Width, mistake: Option<Mistake>) -> State {
        State {
            record: Record::VOID,
            cells: vec![0; CELLS],
            out: vec![0; out(width)],
            width,
            mistake,
            layout: None,
        }
    }

    /// Makes a step.
    pub fn make(&mut self, step: &Step) -> Said {
        let lent = step.lent;
        match &step.act {
            Act::Plan(numbers, sets) => self.make_plan(numbers, sets),
            Act::Begin(board) => self.begin(*board, lent).into(),
            Act::Receive(sender, frame) => self.receive(*sender, frame, lent).into(),
            Act::Send => self.send(lent, step.room).into(),
            Act::Close | Act::CloseLent => self.close(lent).into(),
            Act::Decide => self.decide().into(),
            Act::Deal(value) => self.deal(*value).into(),
            change => self.change(change),
        }
    }

    /// What the program tells after a step.
    pub fn told(&self, said: &Said, step: &Step) -> Vec<u8> {
        let cells = self.width.encode(&self.cells[..step.shown]);
        let record = self.record.bytes(self.width);
        [said.bytes(), record, self.out.clone(), cells].concat()
    }

    fn change(&mut self, change: &Act) -> Said {
        match change {
            Act::Start(cell, out) => {
                self.record = Record::VOID;
                self.cells.fill(*cell);
                self.out.fill(*out);
            }
            Act::ChangeRecord(field, value) => self.record.put(*field, *value),
            Act::ChangeEntry(board, entry) => self.record.list.0[*board as usize] = *entry,
            Act::ChangeCells(place, values) => {
                self.cells[*place..place + values.len()].copy_from_slice(values);
            }
            _ => unreachable!("a call"),
        }
        Said::taken(&[])
    }

    fn make_plan(&mut self, numbers: &[Value; 5], sets: &[u8]) -> Said {
        let [n, dealer, span, default, depth] = *numbers;
        let plan = Plan {
            n: n as u8,
            sets: sets.to_vec(),
            dealer: dealer as u8,
            span,
            default,
            depth: depth as u8,
        };
        let judged = judge(&plan);
        self.record.plan = match judged {
            Ok(()) => Fields::of(&plan),
            Err(_) => Fields::VOID,
        };
        judged.err().unwrap_or(Said::taken(&[]))
    }

    fn begin(&mut self, board: u8, lent: usize) -> Result<Said, Said> {
        let fields = std::mem::replace(&mut self.record, Record::VOID).plan;
        let plan = fields.plan();
        judge(&plan)?;
        refuse(9, board >= plan.n)?;
        refuse(10, board == plan.dealer)?;
        let cells = cell_count(plan.n);
        refuse(11, lent < cells)?;
        self.record = Record::begun(fields, board);
        self.clear(cells);
        Ok(Said::taken(&[]))
    }

    /// So many cells have no value.
    fn clear(&mut self, cells: usize) {
        let blank = self.width.blank_with(self.mistake);
        self.cells[..cells].fill(blank);
    }

    /// The dealer's frame stands beside the number.
    fn deal(&self, value: Value) -> Result<Said, Said> {
        let plan = self.record.plan.plan();
        judge(&plan)?;
        refuse(18, value >= plan.span)?;
        let frame = self.width.encode_with(&[value], self.mistake);
        Ok(Said::taken(&frame))
    }

    /// 12, 11, 13.
    fn open(&mut self, lent: usize) -> Result<Rc<Layout>, Said> {
        refuse(12, self.record.bad(self.mistake))?;
        let layout = self.layout();
        refuse(11, lent < layout.cells())?;
        refuse(13, self.record.decided)?;
        Ok(layout)
    }

    /// The nodes and places of the record's plan.
    pub fn layout(&mut self) -> Rc<Layout> {
        let plan = self.record.plan.plan();
        match &self.layout {
            Some(layout) if layout.tree.plan == plan => layout.clone(),
            _ => {
                let layout = Rc::new(Layout::new(&plan));
                self.layout = Some(layout.clone());
                layout
            }
        }
    }

    /// Whether a frame is due now, by the record.
    pub fn due(&self, tree: &Tree, sender: u8, receiver: u8) -> bool {
        let (run, round) = (self.record.run as usize, self.record.round as usize);
        tree.due(run, round, sender, receiver)
    }

    /// The board with its list, and the cells of these labels.
    fn keeper<'a>(&self, layout: &Layout, labels: impl Iterator<Item = &'a Label>) -> Keeper {
        let mut keeper = Keeper::new(self.width, self.record.board, self.mistake);
        keeper.list = self.record.list;
        let cell = |label: &Label| (label.clone(), self.cells[layout.place(label)]);
        keeper.cells = labels.map(cell).collect();
        keeper
    }

    /// Puts the cells that a board has.
    fn keep(&mut self, layout: &Layout, keeper: &Keeper) {
        for (label, value) in &keeper.cells {
            self.cells[layout.place(label)] = *value;
        }
    }

    fn receive(&mut self, sender: u8, frame: &[u8], lent: usize) -> Result<Said, Said> {
        let layout = self.open(lent)?;
        let round = self.record.round as usize;
        refuse(14, !self.due(&layout.tree, sender, self.record.board))?;
        refuse(15, has(self.record.marks, sender))?;
        let mut keeper = self.keeper(&layout, [].iter());
        keeper.store(&layout.tree, round, sender, Some(frame));
        self.keep(&layout, &keeper);
        self.record.marks |= set_of([sender]);
        Ok(Said::taken(&[]))
    }

    fn send(&mut self, lent: usize, room: usize) -> Result<Said, Said> {
        let layout = self.open(lent)?;
        let (board, round) = (self.record.board, self.record.round as usize);
        let mut receivers = 0..layout.tree.plan.n;
        refuse(16, !receivers.any(|i| self.due(&layout.tree, board, i)))?;
        let nodes = layout.tree.reported(round, board);
        let frame = self
            .keeper(&layout, nodes.iter())
            .frame(&layout.tree, round);
        refuse(17, room < frame.len())?;
        self.out[..frame.len()].copy_from_slice(&frame);
        Ok(Said::taken(&[frame.len() as u8]))
    }

    fn close(&mut self, lent: usize) -> Result<Said, Said> {
        let layout = self.open(lent)?;
        let tree = &layout.tree;
        let (run, round) = (self.record.run as usize, self.record.round as usize);
        let mut keeper = self.keeper(&layout, layout.nodes());
        for sender in (0..tree.plan.n).filter(|q| !has(self.record.marks, *q)) {
            if self.due(tree, sender, keeper.board) {
                keeper.store(tree, round, sender, None);
            }
        }
        keeper.close(tree, run, round);
        if round < tree.plan.rounds() {
            self.record.round += 1;
        } else {
            keeper.convert(tree, run);
            self.clear(layout.cells());
            self.end_run(tree, keeper.cells[&vec![tree.plan.dealer]]);
        }
        self.keep(&layout, &keeper);
        self.record.list = keeper.list;
        self.record.marks = 0;
        Ok(match self.record.decided {
            true => Said::taken(&[]),
            false => {
                self.record.decision = 0;
                Said::taken(&[self.record.run, self.record.round])
            }
        })
    }

    /// Round 2 of the next run, or the decision.
    fn end_run(&mut self, tree: &Tree, root: Value) {
        if (self.record.run as usize) < tree.plan.runs() {
            self.record.run += 1;
            self.record.round = 2;
        } else {
            self.record.decided = true;
            self.record.decision = root;
        }
    }

    fn decide(&self) -> Result<Said, Said> {
        refuse(12, self.record.bad(self.mistake))?;
        refuse(19, !self.record.decided)?;
        Ok(Said::taken(&self.width.encode(&[self.record.decision])))
    }
}

fn refuse(number: u8, met: bool) -> Result<(), Said> {
    if met {
        Err(Said::refused(number))
    } else {
        Ok(())
    }
}

/// What planning says of a plan; 5 has its places.
fn judge(plan: &Plan) -> Result<(), Said> {
    let Some(number) = plan.refusal() else {
        return Ok(());
    };
    let mut said = Said::refused(number);
    if number == 5 {
        let (i, j, k) = first_cover(plan.n, &plan.sets).expect("sets that cover");
        said.beside = vec![i as u8, j as u8, k as u8];
    }
    Err(said)
}
