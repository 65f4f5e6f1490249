//! What printed places can show.

use crate::line::Line;
use crate::plan::within;
use crate::session::Outcome;

/// Kinds of accepted sheets, by name.
pub const KINDS: [(&str, fn(&Outcome) -> bool); 9] = [
    ("above 0", |o| any(o, above_0)),
    ("31", |o| any(o, |_, line| line.place == Some(31))),
    ("of the only set that holds the list", |o| any(o, only)),
    ("of a repeated set", |o| any(o, repeated)),
    ("of a larger set before an equal one", |o| any(o, larger)),
    ("before that of F", |o| any(o, before_faulty)),
    ("0 though a set 00 comes later", |o| any(o, empty_later)),
    ("above 0 beside a healthy dealer", beside_dealer),
    ("different for two boards", different),
];

/// Whether every list has a place.
pub fn all_placed(outcome: &Outcome) -> bool {
    outcome.lines.iter().all(|line| line.place.is_some())
}

fn any(outcome: &Outcome, shows: impl Fn(&Outcome, &Line) -> bool) -> bool {
    outcome.lines.iter().any(|line| shows(outcome, line))
}

fn above_0(_: &Outcome, line: &Line) -> bool {
    line.place > Some(0)
}

/// The list is held by one set, and that is not the first.
fn only(outcome: &Outcome, line: &Line) -> bool {
    let holding = outcome.plan.sets.iter().filter(|s| within(line.list, **s));
    above_0(outcome, line) && holding.count() == 1
}

/// The set at the place comes again.
fn repeated(outcome: &Outcome, line: &Line) -> bool {
    let sets = &outcome.plan.sets;
    let again = |place: usize| sets[place + 1..].contains(&sets[place]);
    line.lists() && line.place.is_some_and(again)
}

/// The list itself is a listed set, but not the one at the place.
fn larger(outcome: &Outcome, line: &Line) -> bool {
    let sets = &outcome.plan.sets;
    let other = |place: usize| sets[place] != line.list;
    line.lists() && sets.contains(&line.list) && line.place.is_some_and(other)
}

fn before_faulty(outcome: &Outcome, line: &Line) -> bool {
    line.lists() && line.place < outcome.plan.place(outcome.faulty)
}

fn empty_later(outcome: &Outcome, line: &Line) -> bool {
    let later = outcome.plan.sets.iter().position(|s| *s == 0) > Some(0);
    !line.lists() && later
}

fn beside_dealer(outcome: &Outcome) -> bool {
    outcome.healthy_dealer() && any(outcome, above_0)
}

/// Two boards list somebody and have different places.
fn different(outcome: &Outcome) -> bool {
    let places: Vec<_> = outcome
        .lines
        .iter()
        .filter(|line| line.lists())
        .map(|line| line.place)
        .collect();
    places.iter().any(|place| *place != places[0])
}
