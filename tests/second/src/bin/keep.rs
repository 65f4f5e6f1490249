//! keep COUNT SEED   makes the corpus smaller, or anew, from COUNT made sheets and itself:
//! a small sheet for each mistake, each refusal and each kind of unequal roots.

use second::sheet::read;
use second::shrink::shrink;
use second::tally::{NUMBERS, SPLITS};
use second::{bench_with, corpus, make, play, print, session, Mistake, Sheet, CURRENT};
use std::collections::BTreeMap;

/// How many candidates for one name are made smaller.
const CANDIDATES: usize = 6;

/// Candidates by name, the shortest first.
type Found = BTreeMap<String, Vec<Vec<u8>>>;

fn main() {
    let args: Vec<u64> = std::env::args()
        .skip(1)
        .filter_map(|a| a.parse().ok())
        .collect();
    let [count, seed] = args[..] else {
        return eprintln!("keep COUNT SEED");
    };
    let mut found = Found::new();
    let made = (0..count).map(|i| make::sheet(make::own_seed(seed, i)));
    for text in made.chain(corpus::load().into_iter().map(|(_, text)| text)) {
        for name in names(&text) {
            let candidates = found.entry(name).or_default();
            candidates.push(text.clone());
            candidates.sort_by_key(Vec::len);
            candidates.truncate(CANDIDATES);
        }
    }
    for (name, candidates) in found {
        let small = candidates.into_iter().map(|text| smaller(&name, text));
        let least = small.min_by_key(Vec::len).unwrap();
        println!("{name}: {} bytes", least.len());
        std::fs::write(corpus::folder().join(name + ".sheet"), least).expect("a corpus folder");
    }
}

/// What a sheet could be kept for.
fn names(text: &[u8]) -> Vec<String> {
    match play(text, None) {
        Err(refusal) if refusal.number == 20 => vec![],
        Err(refusal) => vec![format!("refusal-{:02}", refusal.number)],
        Ok(_) => names_accepted(&read(text).unwrap()),
    }
}

fn names_accepted(sheet: &Sheet) -> Vec<String> {
    let mistakes = Mistake::at(CURRENT).into_iter();
    let mut names: Vec<String> = mistakes.map(|m| format!("mistake-{m:?}")).collect();
    names.extend(SPLITS.map(|(b, n, run)| format!("unequal-b{b}-n{n}-run{run}")));
    names.retain(|name| shows(name, sheet));
    names
}

/// Whether an accepted sheet shows what the name says.
fn shows(name: &str, sheet: &Sheet) -> bool {
    let text = sheet.write();
    let mistake = Mistake::at(CURRENT)
        .into_iter()
        .find(|m| format!("mistake-{m:?}") == name);
    if let Some(mistake) = mistake {
        return print(&play(&text, None)) != bench_with(&text, mistake);
    }
    SPLITS.into_iter().any(|(b, n, run)| {
        format!("unequal-b{b}-n{n}-run{run}") == name
            && (sheet.plan.depth, sheet.plan.n) == (b, n)
            && session::play_sheet(sheet, None).unequal_after(run)
    })
}

fn smaller(name: &str, text: Vec<u8>) -> Vec<u8> {
    if NUMBERS.iter().any(|n| format!("refusal-{n:02}") == name) {
        return text;
    }
    shrink(read(&text).unwrap(), &|sheet| shows(name, sheet)).write()
}
