//! What roots between runs are worth: sheets keep it, and what breaks it is seen.

use second::roots::{CLAIMS, KINDS};
use second::tally::Tally;
use second::{corpus, make, play, Mistake, Outcome};

fn played(name: &str, mistake: Option<Mistake>) -> Outcome {
    play(&corpus::kept(name), mistake).unwrap()
}

/// The names of the claims that an outcome breaks.
fn broken(outcome: &Outcome) -> Vec<&'static str> {
    let fails = CLAIMS.iter().filter(|(_, holds)| !holds(outcome));
    fails.map(|(name, _)| *name).collect()
}

/// A kept sheet for each claim keeps it, and tells a mistake that breaks it alone.
#[test]
fn mistakes_break_claims() {
    let mistakes = [
        ("root-stays", Mistake::CachedValue),
        ("case-9", Mistake::OwnChildSilent),
        ("unequal-b4-n6-run1", Mistake::ListCleared),
    ];
    for ((name, mistake), (claim, _)) in mistakes.into_iter().zip(CLAIMS) {
        assert!(broken(&played(name, None)).is_empty(), "{name}");
        assert_eq!(broken(&played(name, Some(mistake))), [claim], "{name}");
    }
}

/// A root that changes for all boards or for one, one that is not a healthy dealer's value and a list with a board too
/// few are counted, each by its own claims.
#[test]
fn broken_claims_are_counted() {
    let [stays, dealers_root, bound] = CLAIMS.map(|(claim, _)| claim);
    let changed = |name: &str, change: &dyn Fn(&mut Outcome)| {
        let (mut outcome, mut tally) = (played(name, None), Tally::default());
        change(&mut outcome);
        let claims = broken(&outcome);
        tally.count(&Ok(outcome));
        assert_eq!(tally.broken, usize::from(!claims.is_empty()), "{name}");
        claims
    };
    let none: [&str; 0] = [];
    assert_eq!(changed("root-stays", &|_| ()), none);
    for run in 1..4 {
        assert_eq!(changed("root-stays", &|o| o.roots[run].fill(0)), [stays]);
        let one = changed("root-stays", &|o| o.roots[run][0] = 0);
        assert_eq!(one, [stays, bound]);
    }
    let other = |o: &mut Outcome| o.roots[0].iter_mut().for_each(|root| *root ^= 1);
    assert_eq!(changed("case-9", &other), [dealers_root]);
    let unequal = "unequal-b4-n7-run2";
    let drop = |o: &mut Outcome, run: usize| o.lists[run][0] &= o.lists[run][0] - 1;
    assert_eq!(changed(unequal, &|o| drop(o, 1)), [bound]);
    assert_eq!(changed(unequal, &|o| drop(o, 3)), none);
    assert_eq!(changed(unequal, &|o| o.roots[1][0] = 2), none);
}

/// Made sheets try each claim often, and break none.
#[test]
fn made_sheets_try_roots() {
    let mut tally = Tally::default();
    (0..3000).for_each(|seed| tally.count(&play(&make::sheet(seed), None)));
    for (kind, _) in KINDS {
        let count = tally.roots.get(kind).copied().unwrap_or(0);
        assert!(count >= 20, "{kind}: {count}");
    }
    assert_eq!(tally.broken, 0);
}
