//! A maker of scripts: from a seed, the calls of one board in a fair session, on records and cells that no call made,
//! and refusals of planning and beginning; with what each call answers and leaves.

use crate::board::{cell_count, labels, Said, State};
use crate::chain;
use crate::damage;
use crate::make;
use crate::met::Met;
use crate::mistake::Mistake;
use crate::plan::{all, has, Label, Plan, Tree};
use crate::prng::Prng;
use crate::record::Fields;
use crate::script::{out, Act, Step, BLOCK, CELLS, START};
use crate::session::{play, Adversary, Keepers};
use crate::sheet::{Sheet, Slot};
use crate::width::{Value, Width, CURRENT};
use std::collections::{BTreeMap, HashMap};

/// Steps, and what is told after each.
pub struct Script {
    pub width: Width,
    pub seed: u64,
    pub steps: Vec<(Step, Vec<u8>)>,
    pub met: Met,
}

impl Script {
    /// The script of a seed.
    pub fn new(seed: u64) -> Script {
        Script::at(CURRENT, seed)
    }

    /// The same at a width.
    pub fn at(width: Width, seed: u64) -> Script {
        let mut maker = Maker::new(width, seed);
        match maker.rng.below(16) {
            0..=7 => maker.fair(),
            8..=14 => maker.foreign(),
            _ => maker.refusals(),
        }
        maker.script(seed)
    }

    /// Board 1 of four, where the dealer, board 0, tells each board another value: rule G lists it.
    pub fn example() -> Script {
        let plan = Plan {
            n: 4,
            sets: vec![1, 2, 4, 8],
            dealer: 0,
            span: 16,
            default: 15,
            depth: 0,
        };
        let mut maker = Maker::new(CURRENT, 0);
        let frame = |value: Value| CURRENT.encode(&[value]);
        maker.start(&plan);
        let acts = [
            Act::Begin(1),
            Act::Receive(0, frame(5)),
            Act::Close,
            Act::Send,
            Act::Receive(2, frame(7)),
            Act::Receive(3, frame(9)),
            Act::CloseLent,
            Act::Decide,
        ];
        maker.act_all(acts.to_vec());
        maker.script(0)
    }

    /// What the program reads.
    pub fn blocks(&self) -> Vec<u8> {
        self.steps
            .iter()
            .flat_map(|(step, _)| step.block(self.width))
            .collect()
    }

    /// What it tells.
    pub fn told(&self) -> Vec<u8> {
        self.steps
            .iter()
            .flat_map(|(_, told)| told.clone())
            .collect()
    }

    /// Whether a mistake shows in what is told.
    pub fn tells(&self, mistake: Mistake) -> bool {
        let mut state = State::new(self.width, Some(mistake));
        let differs = |(step, told): &(Step, Vec<u8>)| {
            let said = state.make(step);
            state.told(&said, step) != *told
        };
        self.steps.iter().any(differs)
    }
}

/// A sheet's frames, with all frames that are stored written down.
struct Recorder<'a> {
    sheet: &'a Sheet,
    stored: BTreeMap<Slot, Vec<u8>>,
}

impl Adversary for Recorder<'_> {
    fn frame(&mut self, slot: Slot, _: &[Label], _: &Keepers) -> Option<Vec<u8>> {
        self.sheet.frames.get(&slot).cloned()
    }

    fn stored(&mut self, slot: Slot, frame: Option<&[u8]>) {
        if let Some(frame) = frame {
            self.stored.insert(slot, frame.to_vec());
        }
    }
}

struct Maker {
    width: Width,
    rng: Prng,
    state: State,
    steps: Vec<(Step, Vec<u8>)>,
    met: Met,
    kind: &'static str,
    /// The cells that are told.
    shown: usize,
}

impl Maker {
    fn new(width: Width, seed: u64) -> Maker {
        Maker {
            width,
            rng: Prng::new(seed),
            state: State::new(width, None),
            steps: vec![],
            met: Met::default(),
            kind: "other",
            shown: 0,
        }
    }

    /// What was made, from a seed.
    fn script(self, seed: u64) -> Script {
        Script {
            width: self.width,
            seed,
            steps: self.steps,
            met: self.met,
        }
    }

    /// All output.
    fn out(&self) -> usize {
        out(self.width)
    }

    /// Takes a step with as many cells as are needed, or more, and all output.
    fn act(&mut self, act: Act) -> Said {
        let lent = (cell_count(self.state.record.plan.n) + self.rng.below(12)).min(CELLS);
        self.act_with(act, lent, self.out())
    }

    fn act_with(&mut self, act: Act, lent: usize, room: usize) -> Said {
        let shown = self.shown;
        let step = Step {
            act,
            lent,
            shown,
            room,
        };
        let before = self.state.record.clone();
        let said = self.state.make(&step);
        let told = self.state.told(&said, &step);
        self.met.call(self.width, &step.act, &said, &before);
        if said.number == 0 && matches!(step.act, Act::Close | Act::CloseLent) {
            self.met.closing(self.kind, &before, &self.state.record);
        }
        self.steps.push((step, told));
        said
    }

    fn act_all(&mut self, acts: Vec<Act>) {
        acts.into_iter().for_each(|act| drop(self.act(act)));
    }

    fn close(&mut self) -> Said {
        let act = self.rng.pick(&[0, 1]);
        self.act([Act::Close, Act::CloseLent][act].clone())
    }

    /// A fresh start on a plan.
    fn start(&mut self, plan: &Plan) {
        self.shown = (cell_count(plan.n) + 11).min(CELLS);
        let (cell, out) = (self.rng.value(self.width), self.rng.byte());
        self.act(Act::Start(cell, out));
        self.act(planning(plan));
    }

    // Fair sessions

    /// One board's calls in a session with faulty boards, and others between them that change nothing.
    fn fair(&mut self) {
        self.kind = "fair";
        let mut sheet = if self.rng.chance(1, 2) {
            chain::sheet(self.width, &mut self.rng)
        } else {
            make::good(self.width, &mut self.rng)
        };
        // A block has room for every frame that is due, but not for the longest misfits.
        let frames = sheet.frames.values_mut();
        frames.for_each(|frame| frame.truncate(BLOCK - START));
        let mut recorder = Recorder {
            sheet: &sheet,
            stored: BTreeMap::new(),
        };
        let plan = &sheet.plan;
        let (value, faulty) = (sheet.value, sheet.faulty);
        let outcome = play(self.width, plan, value, faulty, &mut recorder, None);
        self.start(plan);
        self.act(Act::Deal(value));
        let mut keeping = outcome.lines;
        keeping.retain(|line| line.board != plan.dealer);
        if keeping.is_empty() {
            self.act(Act::Begin(plan.dealer));
            return self.closed_to_all();
        }
        let line = &keeping[self.rng.below(keeping.len())];
        self.act(Act::Begin(line.board));
        while !self.state.record.decided {
            self.round(line.board, &recorder.stored);
        }
        for _ in 0..3 {
            self.noise();
        }
        self.closed_to_all();
        let record = &self.state.record;
        let end = (record.decision, record.list.set());
        assert_eq!(end, (line.decision, line.list), "the session in step");
    }

    /// One round: frames in any order, the board's own between them, then the closing.
    fn round(&mut self, board: u8, stored: &BTreeMap<Slot, Vec<u8>>) {
        let (run, round) = (self.state.record.run, self.state.record.round);
        let now = |slot: &Slot| (slot.run, slot.round, slot.receiver) == (run, round, board);
        let frames = stored.iter().filter(|(slot, _)| now(slot));
        let mut acts: Vec<Act> = frames
            .map(|(slot, frame)| Act::Receive(slot.sender, frame.clone()))
            .collect();
        acts.push(Act::Send);
        for i in 0..acts.len() {
            acts.swap(i, self.rng.below(i + 1));
        }
        for act in acts {
            self.act(act);
            if self.rng.chance(1, 8) {
                self.noise();
            }
        }
        self.noise();
        self.close();
    }

    /// A call that is turned down, or that changes nothing.
    fn noise(&mut self) {
        match self.rng.below(8) {
            0 => self.undue(),
            1 => self.repeated(),
            2 => {
                let cells = cell_count(self.state.record.plan.n);
                let lent =
                    [cells.saturating_sub(1), self.rng.below(cells.max(1))][self.rng.below(2)];
                let act = self.call();
                self.act_with(act, lent, self.out());
            }
            3 => {
                let room = self.rng.below(24 * self.width.bytes());
                self.act_with(Act::Send, CELLS, room);
            }
            4 => drop(self.act(Act::Send)),
            5 => drop(self.act(Act::Decide)),
            _ => self.damaged(),
        }
    }

    /// Any call on the record, with a frame of some length.
    fn call(&mut self) -> Act {
        match self.rng.below(5) {
            0 => Act::Send,
            1 => Act::Close,
            2 => Act::CloseLent,
            3 => Act::Decide,
            _ => Act::Receive(self.rng.below(7) as u8, vec![0; self.rng.below(4)]),
        }
    }

    /// A frame that is not due, from any number.
    fn undue(&mut self) {
        let sender = self.rng.pick(&[0, 1, 2, 3, 4, 5, 6, 7, 8, 255]);
        let layout = self.state.layout();
        if !self
            .state
            .due(&layout.tree, sender, self.state.record.board)
        {
            let frame = vec![self.rng.byte(); self.rng.below(4)];
            self.act(Act::Receive(sender, frame));
        }
    }

    /// A second frame from a sender whose frame was taken.
    fn repeated(&mut self) {
        let marks = self.state.record.marks;
        let taken: Vec<u8> = (0..7).filter(|q| has(marks, *q)).collect();
        if !taken.is_empty() {
            let frame = vec![self.rng.byte(); self.rng.below(30)];
            let sender = self.rng.pick(&taken);
            self.act(Act::Receive(sender, frame));
        }
    }

    /// Damages the record, makes calls that meet number 12, and mends it.
    fn damaged(&mut self) {
        let before = self.state.record.clone();
        if !before.grounds().is_empty() {
            return;
        }
        let changes = damage::record(self.width, &before, &mut self.rng);
        self.act_all(changes);
        if !self.state.record.grounds().is_empty() {
            for _ in 0..1 + self.rng.below(3) {
                let act = self.call();
                let lent = self.rng.below(CELLS + 1);
                self.act_with(act, lent, self.out());
            }
        }
        self.act_all(damage::mended(&self.state.record, &before));
    }

    /// All calls once on a record that is decided or void.
    fn closed_to_all(&mut self) {
        let frame = vec![0; self.rng.below(3)];
        let sender = self.rng.below(8) as u8;
        let receive = Act::Receive(sender, frame);
        let mut acts = [receive, Act::Send, Act::Close, Act::CloseLent, Act::Decide];
        for i in 0..acts.len() {
            acts.swap(i, self.rng.below(i + 1));
        }
        self.act_all(acts.to_vec());
    }

    // Records and cells that no call made

    fn foreign(&mut self) {
        self.kind = "foreign";
        let plan = match self.rng.below(12) {
            0 => make::deepest_plan(self.width, &mut self.rng),
            _ => make::plan(self.width, &mut self.rng),
        };
        self.start(&plan);
        let boards: Vec<u8> = (0..plan.n).filter(|b| *b != plan.dealer).collect();
        if boards.is_empty() {
            return self.closed_to_all();
        }
        let board = self.rng.pick(&boards);
        self.act(Act::Begin(board));
        for _ in 0..1 + self.rng.below(6) {
            if self.rng.chance(2, 3) {
                self.scatter(&plan);
            }
            if self.rng.chance(1, 3) {
                self.marked_by_all(&plan);
            }
            self.strange_round(&plan);
            if self.state.record.decided {
                self.closed_to_all();
                self.act(Act::ChangeRecord(4, 0));
            }
        }
    }

    /// Puts cells, and at times run, round, entries, marks and decision.
    fn scatter(&mut self, plan: &Plan) {
        let values = self.strange_cells(plan);
        let mut place = 0;
        for part in values.chunks(480 / self.width.bytes()) {
            self.act(Act::ChangeCells(place, part.to_vec()));
            place += part.len();
        }
        let (run, round) = damage::position(plan, &mut self.rng);
        self.act(Act::ChangeRecord(1, run.into()));
        self.act(Act::ChangeRecord(2, round.into()));
        let listed = self.rng.pick(&[0, 0, 1, 3]);
        for board in 0..plan.n {
            if self.rng.chance(listed, 6) {
                let entry = damage::good_entry(plan, &mut self.rng);
                self.act(Act::ChangeEntry(board, entry));
            }
        }
        if self.rng.chance(1, 3) {
            let marks = self.rng.byte() & all(plan.n);
            self.act(Act::ChangeRecord(3, marks.into()));
        }
        if self.rng.chance(1, 6) {
            let decision = self.rng.value(self.width);
            self.act(Act::ChangeRecord(5, decision));
        }
    }

    /// The last round of the run, with all frames taken: the closing reads the cells as they stand.
    fn marked_by_all(&mut self, plan: &Plan) {
        self.act(Act::ChangeRecord(2, plan.rounds() as Value));
        self.act(Act::ChangeRecord(3, all(plan.n).into()));
    }

    /// Cells of few values, of one with others here and there, or of any numbers. At times the nodes below each node of
    /// some level have one value, so that rule G finds nothing and rule C does.
    fn strange_cells(&mut self, plan: &Plan) -> Vec<Value> {
        let [first, second] = make::common(self.width, plan.span, &mut self.rng);
        let common = [first, second, self.rng.below(plan.span as usize) as Value];
        let others = self.rng.pick(&[1, 4, 16, 64]);
        let any = self.rng.pick(&[0, 0, 1, 64]);
        let above = self.rng.pick(&[9, 9, 2, 3, 4, 5]);
        let mut values: HashMap<Label, Value> = HashMap::new();
        let mut value = |label: Label| {
            let random = if self.rng.chance(any, 64) {
                make::any_number(self.width, plan.span, &mut self.rng)
            } else if self.rng.chance(others, 128) {
                self.rng.pick(&common)
            } else {
                common[0]
            };
            let shared = label[..label.len().min(above)].to_vec();
            *values.entry(shared).or_insert(random)
        };
        let labels = labels(plan.n, plan.dealer).into_iter();
        labels.map(&mut value).collect()
    }

    /// Some frames, of any values and at times of another length, then the closing.
    fn strange_round(&mut self, plan: &Plan) {
        let layout = self.state.layout();
        let (board, round) = (self.state.record.board, self.state.record.round as usize);
        for sender in 0..plan.n {
            let marked = has(self.state.record.marks, sender) && self.rng.chance(7, 8);
            let due = self.state.due(&layout.tree, sender, board);
            if !due || marked || self.rng.chance(1, 3) {
                continue;
            }
            let frame = self.strange_frame(&layout.tree, round, sender);
            self.act(Act::Receive(sender, frame));
        }
        if self.rng.chance(1, 2) {
            let room = [self.out(), self.rng.below(self.out())][self.rng.below(2)];
            self.act_with(Act::Send, CELLS, room);
        }
        if self.rng.chance(1, 2) {
            self.noise();
        }
        self.close();
    }

    fn strange_frame(&mut self, tree: &Tree, round: usize, sender: u8) -> Vec<u8> {
        let (width, span) = (self.width, tree.plan.span);
        let length = tree.reported(round, sender).len() * width.bytes();
        let length = match self.rng.below(8) {
            0 => self.rng.below(length + 3),
            1 => length + 256,
            _ => length,
        };
        let common = make::common(width, span, &mut self.rng);
        let any = self.rng.pick(&[0, 1, 16]);
        let mut value = |_| {
            if self.rng.chance(any, 16) {
                make::any_number(width, span, &mut self.rng)
            } else {
                self.rng.pick(&common)
            }
        };
        let values = (0..length.div_ceil(width.bytes())).map(&mut value);
        let mut frame = width.encode(&values.collect::<Vec<_>>());
        frame.truncate(length);
        frame
    }

    // Refusals of planning, beginning and dealing

    fn refusals(&mut self) {
        let plan = make::plan(self.width, &mut self.rng);
        self.start(&plan);
        for _ in 0..8 {
            self.bad_plan(&plan);
            self.act(planning(&plan));
            self.bad_beginning(&plan);
            self.act(planning(&plan));
        }
    }

    /// A plan that is mostly refused, in planning or as a plan that was damaged later.
    fn bad_plan(&mut self, plan: &Plan) {
        let mut fields = Fields::of(plan);
        for _ in 0..self.rng.pick(&[1, 1, 2]) {
            let changes = damage::plan(self.width, &fields, &mut self.rng);
            for (number, value) in changes {
                fields.put(number, value);
                self.act(Act::ChangeRecord(128 + number, value));
            }
        }
        if self.rng.chance(1, 2) {
            self.act(planning(&fields.plan()));
        }
        self.act(Act::Deal(0));
        let board = self.rng.below(8) as u8;
        self.act_with(Act::Begin(board), CELLS, self.out());
        self.closed_to_all();
    }

    /// Beginnings on a good plan that are mostly refused, and values to deal.
    fn bad_beginning(&mut self, plan: &Plan) {
        let board = self.rng.pick(&[0, 1, 2, 3, 4, 5, 6, 7, 255]);
        let cells = cell_count(plan.n);
        let lent = [cells - 1, cells, self.rng.below(cells), CELLS][self.rng.below(4)];
        self.act_with(Act::Begin(board), lent, self.out());
        self.act(Act::Decide);
        let blank = self.width.blank();
        let value = self.rng.pick(&[0, plan.span - 1, plan.span, blank]);
        self.act(Act::Deal(value));
    }
}

/// The call that makes a plan.
fn planning(plan: &Plan) -> Act {
    let [n, dealer, depth] = [plan.n, plan.dealer, plan.depth].map(Value::from);
    let numbers = [n, dealer, plan.span, plan.default, depth];
    Act::Plan(numbers, plan.sets.clone())
}
