//! mistakes [COUNT SEED]   a table of the deliberate mistakes and of the kept sheets that tell each,
//! and how many of COUNT made sheets do. Status 1 if a mistake is told by no kept sheet.

use second::{corpus, make, Mistake, CURRENT};
use std::process::exit;

fn main() {
    let args: Vec<u64> = std::env::args()
        .skip(1)
        .filter_map(|a| a.parse().ok())
        .collect();
    let kept: Vec<(String, Vec<Mistake>)> = corpus::load()
        .into_iter()
        .map(|(name, text)| (name, Mistake::told_by(&text)))
        .collect();
    let made: Vec<Vec<Mistake>> = match args[..] {
        [count, seed] => (0..count)
            .map(|i| Mistake::told_by(&make::sheet(make::own_seed(seed, i))))
            .collect(),
        _ => vec![],
    };
    let (mistakes, mut untold) = (Mistake::at(CURRENT), 0);
    for mistake in mistakes.iter().copied() {
        let names: Vec<&str> = kept
            .iter()
            .filter(|(_, told)| told.contains(&mistake))
            .map(|(name, _)| name.as_str())
            .collect();
        let count = made.iter().filter(|told| told.contains(&mistake)).count();
        let made = if made.is_empty() {
            String::new()
        } else {
            format!("made {count:5}  ")
        };
        let sheets = match (names.is_empty(), mistake.hidden()) {
            (false, false) => names.join(" "),
            (true, true) => "none can: it changes nothing that is printed, calls tell it".into(),
            (true, false) => "NONE".into(),
            (false, true) => format!("NOT HIDDEN: {}", names.join(" ")),
        };
        untold += usize::from(names.is_empty() != mistake.hidden());
        println!(
            "{:20} {made}kept {:2}  {sheets}",
            format!("{mistake:?}"),
            names.len()
        );
    }
    println!(
        "mistakes: {}, {untold} not told by the corpus",
        mistakes.len()
    );
    exit(if untold == 0 { 0 } else { 1 });
}
