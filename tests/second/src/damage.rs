//! Damage to plans and records: changes after which number 12, or a number of planning, is met.

use crate::entry::{Entry, Rule};
use crate::make::BAD_DEPTHS;
use crate::plan::{all, Plan};
use crate::prng::Prng;
use crate::record::{Fields, Record, SLOTS};
use crate::script::Act;
use crate::width::{Value, Width};

/// Fields of a plan with other values, by number.
pub fn plan(width: Width, fields: &Fields, rng: &mut Prng) -> Vec<(u8, Value)> {
    let Fields { n, span, count, .. } = *fields;
    let used = count.clamp(1, SLOTS as u8);
    let slot = SLOTS as u8 + rng.below(used as usize) as u8;
    let used = (5, used.into());
    match rng.below(9) {
        0 => vec![(0, rng.pick(&[0, 8, 9, 255]))],
        1 => vec![(5, rng.pick(&[33, 34, 64, 255]))],
        2 => vec![used, (slot, 0x80 >> rng.below(8 - n.clamp(1, 7) as usize))],
        3 => vec![used, (slot, all(n.clamp(1, 7)).into())],
        4 => vec![(1, n.saturating_add(rng.pick(&[0, 0, 1, 200])).into())],
        5 => vec![(2, rng.pick(&[0, 1]))],
        6 => vec![(3, width.raise(span, rng.pick(&[0, 0, 1, width.blank()])))],
        7 => vec![(4, rng.pick(&BAD_DEPTHS).into())],
        _ => vec![(4, rng.pick(&[4, 7, 0])), (5, rng.below(33) as Value)],
    }
}

/// An entry that a record of this plan may have, if there is one.
pub fn good_entry(plan: &Plan, rng: &mut Prng) -> Option<Entry> {
    let levels = plan.rounds() - 1;
    if levels == 0 {
        return None;
    }
    let (run, round) = position(plan, rng);
    let level = 1 + rng.below(levels) as u8;
    let rule = rng.pick(&[Rule::G, Rule::C])(level);
    Some(Entry { run, round, rule })
}

/// A run and a round of this plan.
pub fn position(plan: &Plan, rng: &mut Prng) -> (u8, u8) {
    let run = 1 + rng.below(plan.runs());
    let first = Plan::first_round(run);
    if plan.rounds() < first {
        return (1, 1);
    }
    let round = first + rng.below(plan.rounds() - first + 1);
    (run as u8, round as u8)
}

/// An entry that no record of this plan may have.
fn bad_entry(plan: &Plan, rng: &mut Prng) -> Entry {
    let (runs, rounds) = (plan.runs() as u8, plan.rounds() as u8);
    let first = Entry {
        run: 1,
        round: 1,
        rule: Rule::C(1),
    };
    let mut entry = good_entry(plan, rng).unwrap_or(first);
    let make = match entry.rule {
        Rule::G(_) => Rule::G,
        Rule::C(_) => Rule::C,
    };
    match rng.below(8) {
        0 => entry.run = 0,
        1 => entry.run = runs + rng.pick(&[1, 1, 2, 200]),
        2 => entry.round = 0,
        3 if runs > 1 => (entry.run, entry.round) = (2 + rng.below(runs as usize - 1) as u8, 1),
        4 => entry.round = rounds + rng.pick(&[1, 1, 2, 200]),
        5 => entry.rule = make(0),
        6 => entry.rule = make(rounds),
        _ => entry.rule = make(rounds + rng.pick(&[1, 2, 200])),
    }
    entry
}

/// Changes of a good record, most of which lead to number 12.
pub fn record(width: Width, record: &Record, rng: &mut Prng) -> Vec<Act> {
    let sets = record.plan.plan();
    let (n, runs, rounds) = (sets.n, sets.runs() as u8, sets.rounds() as u8);
    let more = rng.pick(&[0, 0, 1, 200]);
    let field = |number: u8, value: u8| vec![Act::ChangeRecord(number, value.into())];
    let board = rng.below(n as usize) as u8;
    match rng.below(24) {
        0..=4 => {
            let changes = plan(width, &record.plan, rng).into_iter();
            changes
                .map(|(f, v)| Act::ChangeRecord(128 + f, v))
                .collect()
        }
        5 => field(0, n + more),
        6 => field(0, sets.dealer),
        7 => field(1, 0),
        8 => field(1, runs + 1 + more),
        9 => field(
            2,
            if record.run > 1 {
                rng.below(2) as u8
            } else {
                0
            },
        ),
        10 => field(2, rounds + 1 + more),
        11 => field(3, record.marks | 0x80 >> rng.below(8 - n as usize)),
        12 => {
            let decision = width.raise(sets.span, more.into());
            vec![Act::ChangeRecord(4, 1), Act::ChangeRecord(5, decision)]
        }
        13..=15 if n < 7 => {
            let board = n + rng.below(7 - n as usize) as u8;
            vec![Act::ChangeEntry(board, good_entry(&sets, rng))]
        }
        _ => vec![Act::ChangeEntry(board, Some(bad_entry(&sets, rng)))],
    }
}

/// The changes that lead from one record back to another.
pub fn mended(from: &Record, to: &Record) -> Vec<Act> {
    let mut acts = vec![];
    for number in (0..6).chain(128..134).chain(160..192) {
        let value = to.get(number);
        if from.get(number) != value {
            acts.push(Act::ChangeRecord(number, value));
        }
    }
    for board in 0..7 {
        let entry = to.list.0[board as usize];
        if from.list.0[board as usize] != entry {
            acts.push(Act::ChangeEntry(board, entry));
        }
    }
    acts
}
