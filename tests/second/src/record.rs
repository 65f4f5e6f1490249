//! A board's record as it is lent to calls: any bytes may stand in it. Number 12 judges it.

use crate::entry::{Entry, List, Rule};
use crate::mistake::Mistake;
use crate::plan::{all, Plan, Set};
use crate::width::{Value, Width};

/// The slots for sets.
pub const SLOTS: usize = 32;

/// A plan's fields.
#[derive(Clone, Debug, PartialEq, Eq)]
pub struct Fields {
    pub n: u8,
    pub dealer: u8,
    pub span: Value,
    pub default: Value,
    pub depth: u8,
    pub count: u8,
    pub sets: [Set; SLOTS],
}

impl Fields {
    /// What stands beside a refusal.
    pub const VOID: Fields = Fields {
        n: 0,
        dealer: 0,
        span: 0,
        default: 0,
        depth: 0,
        count: 0,
        sets: [0; SLOTS],
    };

    /// Those of an accepted plan; slots past its sets hold 00.
    pub fn of(plan: &Plan) -> Fields {
        let mut sets = [0; SLOTS];
        sets[..plan.sets.len()].copy_from_slice(&plan.sets);
        Fields {
            n: plan.n,
            dealer: plan.dealer,
            span: plan.span,
            default: plan.default,
            depth: plan.depth,
            count: plan.sets.len() as u8,
            sets,
        }
    }

    /// The plan: as many sets as the count says. Past the slots sets 00 stand in; there are too many then.
    pub fn plan(&self) -> Plan {
        let mut sets = self.sets.to_vec();
        sets.resize(self.count as usize, 0);
        Plan {
            n: self.n,
            sets,
            dealer: self.dealer,
            span: self.span,
            default: self.default,
            depth: self.depth,
        }
    }

    /// Puts a field by its number: n, dealer, span, default, depth, count; from 32 on a slot. All but span and default
    /// take the low byte.
    pub fn put(&mut self, number: u8, value: Value) {
        let byte = value as u8;
        match number {
            0 => self.n = byte,
            1 => self.dealer = byte,
            2 => self.span = value,
            3 => self.default = value,
            4 => self.depth = byte,
            5 => self.count = byte,
            _ => self.sets[number as usize - SLOTS] = byte,
        }
    }

    /// A field by its number.
    pub fn get(&self, number: u8) -> Value {
        match number {
            0 => self.n.into(),
            1 => self.dealer.into(),
            2 => self.span,
            3 => self.default,
            4 => self.depth.into(),
            5 => self.count.into(),
            _ => self.sets[number as usize - SLOTS].into(),
        }
    }

    pub fn bytes(&self, width: Width) -> Vec<u8> {
        let mut bytes = vec![self.n, self.dealer];
        bytes.extend(width.encode(&[self.span, self.default]));
        bytes.extend([self.depth, self.count]);
        bytes.extend(self.sets);
        bytes
    }
}

#[derive(Clone, Debug, PartialEq, Eq)]
pub struct Record {
    pub plan: Fields,
    pub board: u8,
    pub run: u8,
    pub round: u8,
    pub list: List,
    pub marks: Set,
    pub decided: bool,
    pub decision: Value,
}

/// Why number 12 is met.
#[derive(Clone, Copy, Debug, PartialEq, Eq, PartialOrd, Ord)]
pub enum Ground {
    /// The plan would meet this number.
    Plan(u8),
    /// The board would meet 9.
    Board,
    /// The board would meet 10.
    Dealer,
    Run0,
    RunAbove,
    /// Round 0, or round 1 after run 1.
    RoundBelow,
    RoundAbove,
    Marks,
    Decision,
    /// An entry for board n or above.
    EntryBoard,
    EntryRun0,
    EntryRunAbove,
    EntryRound0,
    /// Round 1 after run 1.
    EntryRound1,
    EntryRoundAbove,
    EntryLevel0,
    EntryLevelOfR,
    EntryLevelAbove,
    /// Any entry where R is 1.
    EntryAtAll,
}

impl Ground {
    /// What there is beside the plan's numbers.
    pub const REST: [Ground; 18] = [
        Ground::Board,
        Ground::Dealer,
        Ground::Run0,
        Ground::RunAbove,
        Ground::RoundBelow,
        Ground::RoundAbove,
        Ground::Marks,
        Ground::Decision,
        Ground::EntryBoard,
        Ground::EntryRun0,
        Ground::EntryRunAbove,
        Ground::EntryRound0,
        Ground::EntryRound1,
        Ground::EntryRoundAbove,
        Ground::EntryLevel0,
        Ground::EntryLevelOfR,
        Ground::EntryLevelAbove,
        Ground::EntryAtAll,
    ];

    /// The numbers that a plan in a record can meet.
    pub const PLANS: [u8; 8] = [1, 3, 4, 5, 6, 7, 26, 8];

    /// Whether a mistake passes this ground over.
    fn passed_by(self, mistake: Mistake) -> bool {
        use Ground::*;
        match mistake {
            Mistake::EntryLevelUnjudged => {
                matches!(
                    self,
                    EntryLevel0 | EntryLevelOfR | EntryLevelAbove | EntryAtAll
                )
            }
            Mistake::EntryLevelOfR => self == EntryLevelOfR,
            Mistake::EntryRoundUnjudged => matches!(
                self,
                EntryRun0 | EntryRunAbove | EntryRound0 | EntryRound1 | EntryRoundAbove
            ),
            Mistake::EntryRoundAlone => self == EntryRound1,
            Mistake::EntryBoardUnjudged => self == EntryBoard,
            _ => false,
        }
    }
}

impl Record {
    pub const VOID: Record = Record {
        plan: Fields::VOID,
        board: 0,
        run: 0,
        round: 0,
        list: List([None; 7]),
        marks: 0,
        decided: false,
        decision: 0,
    };

    /// That of a board that begins.
    pub fn begun(plan: Fields, board: u8) -> Record {
        Record {
            plan,
            board,
            run: 1,
            round: 1,
            ..Record::VOID
        }
    }

    /// All grounds on which number 12 is met; of a refused plan its number alone.
    pub fn grounds(&self) -> Vec<Ground> {
        let plan = self.plan.plan();
        if let Some(number) = plan.refusal() {
            return vec![Ground::Plan(number)];
        }
        let mut grounds = vec![];
        let mut ground = |met: bool, ground: Ground| grounds.extend(met.then_some(ground));
        ground(self.board >= plan.n, Ground::Board);
        ground(self.board == plan.dealer, Ground::Dealer);
        let (run, round) = (self.run as usize, self.round as usize);
        ground(run == 0, Ground::Run0);
        ground(run > plan.runs(), Ground::RunAbove);
        ground(round < Plan::first_round(run), Ground::RoundBelow);
        ground(round > plan.rounds(), Ground::RoundAbove);
        ground(self.marks & !all(plan.n) != 0, Ground::Marks);
        ground(self.decided && self.decision >= plan.span, Ground::Decision);
        for (board, entry) in self.list.entries() {
            ground(board >= plan.n, Ground::EntryBoard);
            grounds_of(&plan, entry)
                .into_iter()
                .for_each(|g| ground(true, g));
        }
        grounds
    }

    /// Whether number 12 is met.
    pub fn bad(&self, mistake: Option<Mistake>) -> bool {
        let mut grounds = self.grounds();
        grounds.retain(|ground| !mistake.is_some_and(|m| ground.passed_by(m)));
        !grounds.is_empty()
    }

    /// Puts a field by its number: board, run, round, marks, decided, decision; from 128 on one of the plan.
    pub fn put(&mut self, number: u8, value: Value) {
        let byte = value as u8;
        match number {
            0 => self.board = byte,
            1 => self.run = byte,
            2 => self.round = byte,
            3 => self.marks = byte,
            4 => self.decided = byte == 1,
            5 => self.decision = value,
            _ => self.plan.put(number - 128, value),
        }
    }

    /// A field by its number.
    pub fn get(&self, number: u8) -> Value {
        match number {
            0 => self.board.into(),
            1 => self.run.into(),
            2 => self.round.into(),
            3 => self.marks.into(),
            4 => self.decided.into(),
            5 => self.decision,
            _ => self.plan.get(number - 128),
        }
    }

    /// The plan, seven entries, board, run, round, the list as a set, marks, decided, decision.
    pub fn bytes(&self, width: Width) -> Vec<u8> {
        let mut bytes = self.plan.bytes(width);
        self.list
            .0
            .iter()
            .for_each(|e| bytes.extend(entry_bytes(*e)));
        bytes.extend([self.board, self.run, self.round]);
        bytes.extend([self.list.set(), self.marks]);
        bytes.push(self.decided.into());
        bytes.extend(width.encode(&[self.decision]));
        bytes
    }
}

/// What number 12 finds wrong with an entry.
fn grounds_of(plan: &Plan, entry: Entry) -> Vec<Ground> {
    let (run, round) = (entry.run as usize, entry.round as usize);
    let (level, rounds) = (entry.rule.level() as usize, plan.rounds());
    let judged = [
        (run == 0, Ground::EntryRun0),
        (run > plan.runs(), Ground::EntryRunAbove),
        (round == 0, Ground::EntryRound0),
        (round == 1 && run > 1, Ground::EntryRound1),
        (round > rounds, Ground::EntryRoundAbove),
        (rounds == 1, Ground::EntryAtAll),
        (rounds > 1 && level == 0, Ground::EntryLevel0),
        (rounds > 1 && level == rounds, Ground::EntryLevelOfR),
        (rounds > 1 && level > rounds, Ground::EntryLevelAbove),
    ];
    let met = judged.into_iter().filter(|(met, _)| *met);
    met.map(|(_, ground)| ground).collect()
}

/// Kind, run, round, level: kind 0 is nothing, 1 rule G, 2 rule C.
pub fn entry_bytes(entry: Option<Entry>) -> [u8; 4] {
    match entry {
        None => [0; 4],
        Some(Entry { run, round, rule }) => match rule {
            Rule::G(level) => [1, run, round, level],
            Rule::C(level) => [2, run, round, level],
        },
    }
}
