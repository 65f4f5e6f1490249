//! What scripts of calls met.

use crate::board::Said;
use crate::entry::{Entry, Rule};
use crate::plan::has;
use crate::record::{Ground, Record};
use crate::script::Act;
use crate::width::Width;
use std::collections::BTreeMap;

/// The numbers that each call can answer, 0 if it is taken, by the names of `Act::CALLS`.
const ANSWERS: [(&str, &[u8]); 8] = [
    ("plan", &[0, 1, 3, 4, 5, 6, 7, 26, 8]),
    ("begin", &[0, 1, 3, 4, 5, 6, 7, 26, 8, 9, 10, 11]),
    ("receive", &[0, 12, 11, 13, 14, 15]),
    ("send", &[0, 12, 11, 13, 16, 17]),
    ("close", &[0, 12, 11, 13]),
    ("close lent", &[0, 12, 11, 13]),
    ("decide", &[0, 12, 19]),
    ("deal", &[0, 1, 3, 4, 5, 6, 7, 26, 8, 18]),
];

/// A board wrote the longest frame that there is.
const LONGEST: &str = "frame of 120 values written";

/// Only values of two bytes can give a frame of an odd length.
const ODD: &str = "frame of an odd length";

/// Counts by name.
#[derive(Default)]
pub struct Met(pub BTreeMap<String, usize>);

impl Met {
    pub fn count(&mut self, name: String) {
        *self.0.entry(name).or_default() += 1;
    }

    pub fn add(&mut self, other: &Met) {
        for (name, count) in &other.0 {
            *self.0.entry(name.clone()).or_default() += count;
        }
    }

    /// A call was made on a record.
    pub fn call(&mut self, width: Width, act: &Act, said: &Said, before: &Record) {
        let Some(name) = Act::CALLS
            .get(act.kind() as usize)
            .filter(|_| act.kind() > 0)
        else {
            return;
        };
        self.count(format!("{name} {}", said.number));
        if said.number == 12 {
            let grounds = before.grounds();
            if grounds.len() == 1 {
                self.count(format!("12 by {:?} alone", grounds[0]));
            }
        }
        match act {
            Act::Receive(sender, frame) if said.number == 0 => {
                self.frame(width, *sender, frame, before)
            }
            Act::Send if said.beside == [120 * width.bytes() as u8] => {
                self.count(LONGEST.into());
            }
            _ => (),
        }
    }

    /// A frame was taken.
    fn frame(&mut self, width: Width, sender: u8, frame: &[u8], before: &Record) {
        if has(before.list.set(), sender) {
            self.count("frame from a listed board".into());
        }
        let mut values = width.decode(frame).into_iter();
        if values.any(|value| value >= before.plan.span) {
            self.count("frame with a value of m or more".into());
        }
        if frame.len() % width.bytes() != 0 {
            self.count(ODD.into());
        }
    }

    /// A closing was taken, in a session of this kind.
    pub fn closing(&mut self, kind: &str, before: &Record, after: &Record) {
        let plan = before.plan.plan();
        let cut = if plan.cut() { "cut" } else { "full" };
        self.count(format!("{kind} closing, n = {}, {cut}", plan.n));
        let new = |(board, _): &(u8, Entry)| !before.list.has(*board);
        let entries: Vec<Entry> = after.list.entries().filter(new).map(|(_, e)| e).collect();
        for entry in &entries {
            self.count(name_of(kind, *entry));
        }
        let by_g = |entry: &Entry| matches!(entry.rule, Rule::G(_));
        if entries.iter().any(by_g) && !entries.iter().all(by_g) {
            self.count(format!("{kind} entries by both rules in one closing"));
        }
        if after.run > before.run && after.list.set() != 0 {
            self.count(format!("{kind} entries kept over a run"));
        }
        let again = |e: &(u8, Entry)| e.1.run < after.run && before.list.has(e.0);
        if after.decided && after.list.entries().any(|e| again(&e)) {
            self.count(format!("{kind} entries of an earlier run at the decision"));
        }
    }

    /// What has to be met at a width, and was not.
    pub fn missing(&self, width: Width) -> Vec<String> {
        let mut wanted: Vec<String> = vec![];
        for (call, numbers) in ANSWERS {
            wanted.extend(numbers.iter().map(|number| format!("{call} {number}")));
        }
        let plans = Ground::PLANS.map(Ground::Plan);
        let grounds = plans.iter().chain(&Ground::REST);
        wanted.extend(grounds.map(|ground| format!("12 by {ground:?} alone")));
        for kind in ["fair", "foreign"] {
            wanted.extend((2..=7).map(|n| format!("{kind} closing, n = {n}, full")));
            wanted.extend((5..=7).map(|n| format!("{kind} closing, n = {n}, cut")));
            for rule in [Rule::G, Rule::C] {
                for (run, level) in [(1, 1), (1, 2), (2, 1), (2, 2)] {
                    // Where roots differ the dealer is on every list already.
                    if kind == "fair" && (run, level) == (2, 1) {
                        continue;
                    }
                    let (round, rule) = (2, rule(level));
                    wanted.push(name_of(kind, Entry { run, round, rule }));
                }
            }
            wanted.push(format!("{kind} entries by both rules in one closing"));
            wanted.push(format!("{kind} entries kept over a run"));
            wanted.push(format!("{kind} entries of an earlier run at the decision"));
        }
        wanted.push("frame from a listed board".into());
        wanted.push("frame with a value of m or more".into());
        wanted.push(LONGEST.into());
        if width == Width::Two {
            wanted.push(ODD.into());
        }
        wanted.retain(|name| !self.0.contains_key(name));
        wanted
    }

    /// Answers that a call cannot give, and others that must not be.
    pub fn impossible(&self) -> Vec<String> {
        let known = |name: &str| {
            let answer = |(call, numbers): &(&str, &[u8])| {
                numbers.iter().any(|n| format!("{call} {n}") == name)
            };
            let call = Act::CALLS.iter().any(|call| {
                name.strip_prefix(call)
                    .is_some_and(|rest| rest.starts_with(' ') && rest[1..].parse::<u8>().is_ok())
            });
            !call || ANSWERS.iter().any(answer)
        };
        let names = self.0.keys().filter(|name| !known(name));
        names.cloned().collect()
    }
}

/// The name of an entry's kind.
fn name_of(kind: &str, entry: Entry) -> String {
    let (rule, level) = match entry.rule {
        Rule::G(level) => ("G", level),
        Rule::C(level) => ("C", level),
    };
    let run = if entry.run == 1 {
        "run 1"
    } else {
        "a later run"
    };
    let level = if level == 1 {
        "level 1"
    } else {
        "a deeper level"
    };
    format!("{kind} entry by {rule}, {run}, {level}")
}
