//! The place of a list: what the corpus and made sheets show of it.

use second::places::KINDS;
use second::sheet::read;
use second::tally::Tally;
use second::{bench_with, corpus, make, play, print, session};
use second::{Line, Mistake, Outcome, Sheet};

/// The mistakes about places.
const WRONG: [Mistake; 13] = [
    Mistake::NoPlaceInEmptyList,
    Mistake::PlaceOfEmptySet,
    Mistake::PlaceZero,
    Mistake::PlaceFromOne,
    Mistake::LastPlace,
    Mistake::PlaceOfEqual,
    Mistake::PlaceOfLargest,
    Mistake::PlaceOfAnyBoard,
    Mistake::PlaceWithoutRepeats,
    Mistake::PlaceAmongSorted,
    Mistake::PlaceOfFaulty,
    Mistake::PlaceOfFirstBoard,
    Mistake::DealerPlace,
];

/// A sheet kept for a place tells these mistakes about places, and no other.
#[test]
fn corpus_tells_wrong_places() {
    use Mistake::*;
    let told: [(&str, &[Mistake]); 9] = [
        ("empty-list-n7", &[NoPlaceInEmptyList]),
        ("place-nobody-listed", &[PlaceOfEmptySet]),
        ("place-later", &[PlaceZero, PlaceFromOne, PlaceAmongSorted]),
        ("place-31", &[PlaceZero, PlaceFromOne, PlaceAmongSorted]),
        (
            "place-repeated",
            &[
                PlaceZero,
                PlaceFromOne,
                LastPlace,
                PlaceWithoutRepeats,
                PlaceAmongSorted,
            ],
        ),
        (
            "place-larger",
            &[
                PlaceZero,
                PlaceFromOne,
                LastPlace,
                PlaceOfEqual,
                PlaceAmongSorted,
                DealerPlace,
            ],
        ),
        (
            "place-smaller",
            &[
                PlaceZero,
                PlaceFromOne,
                LastPlace,
                PlaceOfLargest,
                PlaceAmongSorted,
                DealerPlace,
            ],
        ),
        (
            "place-dealer",
            &[PlaceZero, PlaceFromOne, PlaceAmongSorted, DealerPlace],
        ),
        (
            "place-by-board",
            &[
                PlaceZero,
                PlaceFromOne,
                LastPlace,
                PlaceOfLargest,
                PlaceOfAnyBoard,
                PlaceAmongSorted,
                PlaceOfFaulty,
                PlaceOfFirstBoard,
            ],
        ),
    ];
    for (name, expected) in told {
        let mut told = Mistake::told_by(&corpus::kept(name));
        told.retain(|m| WRONG.contains(m));
        assert_eq!(told, expected, "{name}");
    }
}

/// Made sheets show every kind of place often, and tell every mistake about places.
#[test]
fn made_sheets_show_places() {
    let (mut tally, mut untold) = (Tally::default(), WRONG.to_vec());
    for seed in 0..5000 {
        let text = make::sheet(seed);
        let result = play(&text, None);
        tally.count(&result);
        if let Ok(outcome) = &result {
            places_follow(&read(&text).unwrap(), outcome, seed);
            let right = print(&result);
            untold.retain(|m| bench_with(&text, *m) == right);
        }
    }
    for (kind, _) in KINDS {
        let count = tally.places.get(kind).copied().unwrap_or(0);
        let least = if kind == "31" { 2 } else { 20 };
        assert!(count >= least, "{kind}: {count}");
    }
    assert_eq!(tally.unplaced, 0);
    assert_eq!(untold, []);
}

/// The sets listed once more print the same. With a set 00 before them the place of a board that lists somebody is one
/// more; in another order only places change.
fn places_follow(sheet: &Sheet, outcome: &Outcome, seed: u64) {
    let lines = |change: &dyn Fn(&mut Vec<u8>)| -> Vec<Line> {
        let mut other = sheet.clone();
        change(&mut other.plan.sets);
        session::play_sheet(&other, None).lines
    };
    let twice = lines(&|sets| sets.extend(sets.clone()));
    assert_eq!(twice, outcome.lines, "seed {seed}");
    let mut later = outcome.lines.clone();
    for line in later.iter_mut().filter(|line| line.lists()) {
        line.place = line.place.map(|place| place + 1);
    }
    assert_eq!(lines(&|sets| sets.insert(0, 0)), later, "seed {seed}");
    let unplaced = |mut lines: Vec<Line>| {
        lines.iter_mut().for_each(|line| line.place = None);
        lines
    };
    let turned = lines(&|sets| sets.reverse());
    let same = unplaced(outcome.lines.clone());
    assert_eq!(unplaced(turned), same, "seed {seed}");
}
