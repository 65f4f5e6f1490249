//! Adversaries that keep the roots of a cut tree unequal: along a chain of faulty boards
//! every node is told differently to the boards on two sides.
//!
//! One healthy board, the pillar, lies in no listed set; the other healthy boards, the side,
//! lie in a set without it. Faulty boards elsewhere tell what the pillar has.
//! Values are told as for the default 0; with the default 1 both are swapped.

use crate::make::common;
use crate::plan::{all, set_of, Plan, Set};
use crate::prng::Prng;
use crate::search::{sheet as sheet_of, Lies};
use crate::sheet::Sheet;
use crate::width::{Value, Width};

/// Who plays which part.
struct Cast {
    n: u8,
    /// The faulty boards, the dealer first.
    chain: Vec<u8>,
    side: Vec<u8>,
    pillar: u8,
    default: Value,
}

impl Cast {
    fn new(n: u8, faulty: usize, rng: &mut Prng) -> Cast {
        let mut boards: Vec<u8> = (0..n).collect();
        for i in 0..boards.len() {
            boards.swap(i, rng.below(i + 1));
        }
        let side = boards.split_off(faulty);
        Cast {
            n,
            chain: boards,
            pillar: side[0],
            side: side[1..].to_vec(),
            default: rng.pick(&[0, 0, 1]),
        }
    }

    fn faulty(&self) -> Set {
        set_of(self.chain.iter().copied())
    }

    fn plan(&self, depth: u8, sets: Vec<Set>) -> Plan {
        Plan {
            n: self.n,
            sets,
            dealer: self.chain[0],
            span: 2,
            default: self.default,
            depth,
        }
    }

    /// Lies to the side and to the pillar at the node of some chain places.
    fn tell(&self, lies: &mut Lies, run: u8, node: &[usize], side: Value, pillar: Value) {
        let label: Vec<u8> = node.iter().map(|i| self.chain[*i]).collect();
        for board in &self.side {
            lies.insert((run, label.clone(), *board), side ^ self.default);
        }
        lies.insert((run, label, self.pillar), pillar ^ self.default);
    }
}

/// A sheet of this kind, at times spoilt a little; of two bytes at times with other values than 0 and 1.
pub fn sheet(width: Width, rng: &mut Prng) -> Sheet {
    let mut sheet = match rng.below(5) {
        0 | 1 => deep(width, rng),
        2 => single(width, 6, 4, 4, rng),
        3 => single(width, 7, 4, 4 + rng.below(2), rng),
        _ => single(width, 7, 5, 5, rng),
    };
    if width == Width::Two && rng.chance(1, 2) {
        let span = rng.pick(&[255, 256, 257, 512, Value::MAX]);
        let [zero, one] = common(width, span, rng);
        if zero != one {
            rename(&mut sheet, span, zero, one);
        }
    }
    sheet
}

/// Puts two values below a span for 0 and 1 everywhere.
pub fn rename(sheet: &mut Sheet, span: Value, zero: Value, one: Value) {
    let named = |value: Value| if value == 0 { zero } else { one };
    sheet.change_values(named);
    sheet.value = named(sheet.value);
    sheet.plan.default = named(sheet.plan.default);
    sheet.plan.span = span;
}

/// Unequal after run 1: the sides' values alternate down the chain.
/// At times the chain comes in a later run, when the roots are equal already.
pub fn single(width: Width, n: u8, depth: u8, faulty: usize, rng: &mut Prng) -> Sheet {
    let cast = Cast::new(n, faulty, rng);
    let sets = vec![cast.faulty(), set_of(cast.side.iter().copied())];
    let plan = cast.plan(depth, sets);
    let run = if rng.chance(1, 4) {
        1 + rng.below(plan.runs()) as u8
    } else {
        1
    };
    let mut lies = Lies::new();
    let last = depth as usize - 1;
    let node: Vec<usize> = (0..=last).collect();
    for i in 0..last {
        cast.tell(
            &mut lies,
            run,
            &node[..=i],
            (i % 2) as Value,
            ((i + 1) % 2) as Value,
        );
    }
    let (v, w) = (((last - 1) % 2) as Value, (last % 2) as Value);
    let swap = rng.chance(1, 2);
    cast.tell(
        &mut lies,
        run,
        &node,
        if swap { w } else { v },
        if swap { v } else { w },
    );
    let (plan, last) = spoilt(&cast, plan, &mut lies, run, rng);
    sheet_of(width, &plan, cast.faulty(), &lies, cast.pillar, last)
}

/// Unequal after runs 1 and 2: n = 7, b = 4, two boards must support a value of the side.
pub fn deep(width: Width, rng: &mut Prng) -> Sheet {
    let mut cast = Cast::new(7, 5, rng);
    if cast.chain[2] > cast.chain[3] {
        cast.chain.swap(2, 3);
    }
    let mut lies = Lies::new();
    let first: [(&[usize], Value, Value); 7] = [
        (&[0], 0, 1),
        (&[0, 1], 1, 0),
        (&[0, 2], 0, 0),
        (&[0, 1, 2], 0, 1),
        (&[0, 1, 3], 1, 1),
        (&[0, 1, 2, 3], 0, 1),
        (&[0, 1, 2, 4], 0, 1),
    ];
    let second: [(&[usize], Value, Value); 4] = [
        (&[0, 3], 1, 0),
        (&[0, 3, 4], 1, 1),
        (&[0, 3, 2], 0, 1),
        (&[0, 3, 2, 4], 0, 1),
    ];
    first
        .iter()
        .for_each(|(node, s, p)| cast.tell(&mut lies, 1, node, *s, *p));
    second
        .iter()
        .for_each(|(node, s, p)| cast.tell(&mut lies, 2, node, *s, *p));
    let around = |x: &u8| set_of([cast.side[0], cast.chain[0], *x]);
    let mut sets: Vec<Set> = cast.chain[1..].iter().map(around).collect();
    sets.push(cast.faulty());
    let (plan, last) = spoilt(&cast, cast.plan(4, sets), &mut lies, 2, rng);
    sheet_of(width, &plan, cast.faulty(), &lies, cast.pillar, last)
}

/// Shuffles the sets, and at times spoils lies or sets; the plan and the last run to tell lies in.
fn spoilt(cast: &Cast, mut plan: Plan, lies: &mut Lies, last: u8, rng: &mut Prng) -> (Plan, u8) {
    for i in 0..plan.sets.len() {
        plan.sets.swap(i, rng.below(i + 1));
    }
    if rng.chance(1, 3) {
        spoil_sets(cast, &mut plan, rng);
    }
    for _ in 0..rng.pick(&[0, 0, 1, 2, 4, 30]) {
        spoil_lie(cast, &plan, lies, last, rng);
    }
    let last = if rng.chance(1, 2) { last } else { 9 };
    (plan, last)
}

/// Adds a set around the side if the list is still accepted.
fn spoil_sets(cast: &Cast, plan: &mut Plan, rng: &mut Prng) {
    let side = set_of(cast.side.iter().copied());
    let mut other = plan.clone();
    other
        .sets
        .push(rng.byte() & rng.byte() & all(cast.n) & !set_of([cast.pillar]) | side);
    if other.refusal().is_none() {
        *plan = other;
    }
}

/// Adds a random lie at a node within F.
fn spoil_lie(cast: &Cast, plan: &Plan, lies: &mut Lies, last: u8, rng: &mut Prng) {
    let mut rest = cast.chain[1..].to_vec();
    let mut label = vec![cast.chain[0]];
    for _ in 0..1 + rng.below(plan.depth as usize - 1) {
        label.push(rest.swap_remove(rng.below(rest.len())));
    }
    let healthy: Vec<u8> = (0..cast.n).filter(|b| !cast.chain.contains(b)).collect();
    let run = 1 + rng.below(last as usize + 1) as u8;
    lies.insert((run, label, rng.pick(&healthy)), rng.below(2) as Value);
}
