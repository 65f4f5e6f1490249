//! What the roots that healthy boards hold between runs are worth.

use crate::session::Outcome;
use crate::width::Value;

/// What is claimed of every accepted sheet, by name.
pub const CLAIMS: [(&str, fn(&Outcome) -> bool); 3] = [
    ("a root that all hold stays", stays),
    ("a healthy dealer's value is every root", dealers_root),
    (
        "unequal roots name t (b - 3) + 1 boards on every list",
        bound,
    ),
];

/// Kinds of accepted sheets that try the claims, by name.
pub const KINDS: [(&str, fn(&Outcome) -> bool); 3] = [
    ("unequal, then equal", becomes_equal),
    (
        "equal beside a faulty dealer, others told later",
        told_later,
    ),
    ("of a healthy dealer, others told later", told_beside_dealer),
];

/// The root that all boards hold, if they hold one.
fn common(roots: &[Value]) -> Option<Value> {
    let first = roots.first()?;
    roots.iter().all(|root| root == first).then_some(*first)
}

fn stays(outcome: &Outcome) -> bool {
    let kept = |pair: &[Vec<Value>]| match common(&pair[0]) {
        Some(root) => common(&pair[1]) == Some(root),
        None => true,
    };
    outcome.roots.windows(2).all(kept)
}

/// The value of a healthy dealer.
fn dealers_value(outcome: &Outcome) -> Option<Value> {
    let dealer = outcome.plan.dealer;
    let line = outcome.lines.iter().find(|line| line.board == dealer);
    line.map(|line| line.decision)
}

fn dealers_root(outcome: &Outcome) -> bool {
    let mut roots = outcome.roots.iter().flatten();
    match dealers_value(outcome) {
        Some(value) => roots.all(|root| *root == value),
        None => true,
    }
}

fn bound(outcome: &Outcome) -> bool {
    let least = |run: usize| run * (outcome.plan.depth as usize).saturating_sub(3) + 1;
    let on_every = |run: usize| {
        outcome.lists[run - 1]
            .iter()
            .fold(u8::MAX, |all, l| all & l)
    };
    (1..=outcome.roots.len())
        .filter(|run| outcome.unequal_after(*run))
        .all(|run| on_every(run).count_ones() as usize >= least(run))
}

fn becomes_equal(outcome: &Outcome) -> bool {
    let equal = |pair: &[Vec<Value>]| common(&pair[0]).is_none() && common(&pair[1]).is_some();
    outcome.roots.windows(2).any(equal)
}

/// Whether faulty boards told another value than this root after a run.
fn others_after(outcome: &Outcome, run: usize, root: Value) -> bool {
    let mut later = outcome.heard.iter().skip(run).flatten();
    later.any(|value| *value != root)
}

/// The dealer is faulty, two boards or more hold one root after a run, and another value is told after it.
fn told_later(outcome: &Outcome) -> bool {
    let tried = |run: usize| {
        let roots = &outcome.roots[run - 1];
        let root = common(roots).filter(|_| roots.len() > 1);
        root.is_some_and(|root| others_after(outcome, run, root))
    };
    !outcome.healthy_dealer() && (1..=outcome.roots.len()).any(tried)
}

fn told_beside_dealer(outcome: &Outcome) -> bool {
    dealers_value(outcome).is_some_and(|value| others_after(outcome, 1, value))
}
