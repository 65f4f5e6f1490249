//! What values of two bytes can show.

use crate::session::Outcome;
use crate::width::{Value, Width};

/// A kind of accepted sheets, by name.
pub type Kind = (&'static str, fn(&Outcome) -> bool);

/// Values are those of frames that count.
const KINDS: [Kind; 23] = [
    ("span 2", |o| tells_under(o, 2)),
    ("span 255", |o| tells_under(o, 255)),
    ("span 256", |o| tells_under(o, 256)),
    ("span 257", |o| tells_under(o, 257)),
    ("span 65,535", |o| tells_under(o, Value::MAX)),
    ("default above 255", |o| o.plan.default > 255),
    ("default above 255, decided though nobody told it", |o| {
        o.plan.default > 255 && o.default_shows()
    }),
    ("decision above 255", |o| decides(o, |value| value > 255)),
    ("decision above 255 of a healthy dealer", |o| {
        o.healthy_dealer() && decides(o, |value| value > 255)
    }),
    ("decision of 255, span above it", |o| {
        o.plan.span > 255 && decides(o, |value| value == 255)
    }),
    ("unequal roots above 255", |o| {
        let above = |run: usize| o.roots[run - 1].iter().all(|root| *root > 255);
        let mut runs = 1..=o.roots.len();
        runs.any(|run| above(run) && o.unequal_after(run))
    }),
    ("value of m - 1, m above 255", |o| {
        o.plan.span > 255 && o.counted.contains(&(o.plan.span - 1))
    }),
    ("value of m, above 255", |o| {
        o.plan.span > 255 && o.counted.contains(&o.plan.span)
    }),
    ("value of m + 1, m above 255", |o| {
        let after = o.plan.span.checked_add(1);
        o.plan.span > 255 && after.is_some_and(|value| o.counted.contains(&value))
    }),
    ("value of FFFF, span below it", |o| {
        o.plan.span < Value::MAX && o.counted.contains(&Value::MAX)
    }),
    ("value of FFFE, span 65,535", |o| {
        o.plan.span == Value::MAX && o.counted.contains(&(Value::MAX - 1))
    }),
    ("value of FFFF, span 65,535", |o| {
        o.plan.span == Value::MAX && o.counted.contains(&Value::MAX)
    }),
    ("values that differ in the high byte alone", |o| {
        tells_two(o, |a, b| a & 0xFF == b & 0xFF)
    }),
    ("values above 255 that differ in the low byte alone", |o| {
        tells_two(o, |a, b| a > 255 && a >> 8 == b >> 8)
    }),
    ("frame with a byte too few", |o| o.misfits.contains(&-1)),
    ("frame with a byte too many", |o| o.misfits.contains(&1)),
    ("frame with 256 bytes too many", |o| {
        o.misfits.contains(&256)
    }),
    ("frame with 256 values too many", |o| {
        o.misfits.contains(&512)
    }),
];

/// The kinds that sheets of a width can be of.
pub fn kinds(width: Width) -> &'static [Kind] {
    match width {
        Width::One => &[],
        Width::Two => &KINDS,
    }
}

/// Whether the span is this, and a frame counts.
fn tells_under(outcome: &Outcome, span: Value) -> bool {
    outcome.plan.span == span && !outcome.counted.is_empty()
}

/// Whether a board that keeps cells decides so.
fn decides(outcome: &Outcome, shows: impl Fn(Value) -> bool) -> bool {
    let keeps = |board: u8| board != outcome.plan.dealer;
    let mut lines = outcome.lines.iter();
    lines.any(|line| keeps(line.board) && shows(line.decision))
}

/// Whether faulty boards tell two different values below m of which `so` holds.
fn tells_two(outcome: &Outcome, so: impl Fn(Value, Value) -> bool) -> bool {
    let told: Vec<&Value> = outcome.counted.range(..outcome.plan.span).collect();
    let rest = |place: usize| told[place + 1..].iter();
    (0..told.len()).any(|place| rest(place).any(|other| so(*told[place], **other)))
}
