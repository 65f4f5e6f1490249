//! The corpus shows what it is kept for, and made sheets keep the promises.

use second::plan::{has, set_of, within, Set, Tree};
use second::sheet::{Refusal, Slot};
use second::shrink::shrink;
use second::tally::{Tally, NUMBERS, SPLITS};
use second::{
    bench, bench_with, chain, corpus, make, places, play, play_at, print, roots, session, sheet,
    wide, widen,
};
use second::{Line, Mistake, Outcome, Sheet, Value, Width, CURRENT};
use std::collections::BTreeSet;

#[test]
fn corpus_names_hold() {
    for (name, text) in corpus::load() {
        let result = play(&text, None);
        let mut words = name.split('-');
        match words.next().unwrap() {
            "refusal" => assert_eq!(
                result.err().map(|r| r.number),
                words.next().and_then(|n| n.parse().ok()),
                "{name}"
            ),
            _ => assert!(result.is_ok(), "{name}"),
        }
        let no_sets = sheet::with_set_00(&text).is_some();
        assert!(!name.contains("empty-list") || no_sets, "{name}");
        let told: Vec<String> = Mistake::told_by(&text)
            .iter()
            .map(|m| format!("mistake-{m:?}"))
            .collect();
        assert!(
            !name.starts_with("mistake") || told.contains(&name),
            "{name}"
        );
    }
}

/// The cases, defaults, places and sheets of values above 255 that are kept are those of `tests/cases`, but for one,
/// and print what stands there.
#[test]
fn corpus_has_the_cases() {
    let folder = concat!(env!("CARGO_MANIFEST_DIR"), "/../cases");
    let case = |name: &str, extension: &str| {
        let text = std::fs::read_to_string(format!("{folder}/{name}.{extension}"));
        text.unwrap_or_else(|_| panic!("{name}.{extension}"))
    };
    let text = |bytes: Vec<u8>| String::from_utf8(bytes).unwrap();
    let mut count = 0;
    for (name, kept) in corpus::load() {
        let kind = name.split('-').next().unwrap();
        let asked = ["case", "default", "place", "wide"].contains(&kind);
        if asked && name != "wide-unequal" {
            assert_eq!(text(bench(&kept)), case(&name, "out"), "{name}");
            assert_eq!(text(kept), case(&name, "sheet"), "{name}");
            count += 1;
        }
    }
    assert_eq!(count, 24);
}

/// What the index says of sheets of values above 255: span, values that are told, decision and list of every board.
#[test]
fn corpus_wide_names_hold() {
    let played = |name: &str| play(&corpus::kept(name), None).unwrap();
    let dealer = set_of([0]);
    let sheets: [(&str, Value, &[Value], Value, Set); 7] = [
        ("wide-257", 257, &[1, 256], 256, 0),
        ("wide-FFFE", 0xFFFF, &[0xFFFE, 0xFFFF], 0xFFFE, 0),
        ("wide-above", 257, &[257, 258, 0xFFFF], 7, 0),
        ("wide-dealer", 0xFFFF, &[0xFE, 0xFFFF], 0xFFFE, 0),
        ("wide-default", 0x200, &[0x200], 0x107, 0),
        ("wide-low-bytes", 0xFFFF, &[0x105, 0x106, 0x107], 7, dealer),
        (
            "mistake-LowByteCompared",
            0xFFFF,
            &[0x105, 0x205, 0x305],
            7,
            dealer,
        ),
    ];
    for (name, span, told, decision, list) in sheets {
        let outcome = played(name);
        assert_eq!(outcome.plan.span, span, "{name}");
        assert!(outcome.counted.iter().eq(told), "{name}");
        for line in &outcome.lines {
            assert_eq!((line.decision, line.list), (decision, list), "{name}");
        }
        let healthy = name == "wide-dealer";
        assert_eq!(outcome.healthy_dealer(), healthy, "{name}");
        assert_eq!(outcome.faulty, if healthy { set_of([3]) } else { dealer });
    }
    assert!(played("wide-above").default_shows() && played("wide-default").default_shows());

    let mut unequal = sheet::read(&corpus::kept("unequal-b4-n6-run1")).unwrap();
    chain::rename(&mut unequal, 0x206, 0x105, 0x205);
    assert_eq!(unequal.write(), corpus::kept("wide-unequal"));

    let text = corpus::kept("wide-one-byte");
    let one = play_at(Width::One, &text, None);
    assert_ne!(widen::printed(&print(&one)), bench(&text));
    let sets = one.unwrap().plan.sets;
    assert_eq!((sets.len(), sets[2]), (4, 1));
    assert_eq!(played("wide-one-byte").plan.sets.len(), 1);
}

/// By how many bytes the frames of `overlong-` sheets are too long. They count as the default, as frames that are
/// missing do, and not as what they begin with.
#[test]
fn corpus_overlong_names_hold() {
    let sheets: [(&str, &[isize]); 6] = [
        ("overlong-by-1", &[2]),
        ("overlong-by-128", &[256]),
        ("overlong-by-256", &[512]),
        ("overlong-121", &[238, 240, 242]),
        ("overlong-241", &[238, 239, 240]),
        ("overlong-round-4", &[2]),
    ];
    for (name, by) in sheets {
        let text = corpus::kept(name);
        let (outcome, mut sheet) = (play(&text, None).unwrap(), sheet::read(&text).unwrap());
        assert!(outcome.misfits.iter().eq(by), "{name}");
        assert_eq!(outcome.plan.default, 0, "{name}");
        let tree = Tree::new(&sheet.plan);
        let due = |slot: &Slot| 2 * tree.reported(slot.round.into(), slot.sender).len();
        sheet.frames.retain(|slot, frame| frame.len() == due(slot));
        assert_eq!(session::play_sheet(&sheet, None).lines, outcome.lines);
        assert!(Mistake::told_by(&text).contains(&Mistake::OverlongCut));
    }
    let round_4 = sheet::read(&corpus::kept("overlong-round-4")).unwrap();
    let slots: Vec<u8> = round_4.frames.keys().map(|slot| slot.round).collect();
    assert_eq!(slots, [4, 4]);
}

/// The heads of `refusal-22-` sheets, which have two digits a byte: what is left out of them.
#[test]
fn corpus_heads_of_22() {
    let head = |name: &str| {
        let text = String::from_utf8(corpus::kept(name)).unwrap();
        text.lines().next().unwrap().to_string()
    };
    let (ten, nine) = (head("refusal-22-ten"), head("refusal-22-nine"));
    assert_eq!((ten.len(), nine.len()), (20, 18));
    for whole in [format!("{ten}00\n"), format!("{nine}0000\n")] {
        assert!(play(whole.as_bytes(), None).is_ok(), "{whole}");
    }
    let without = |name: &str, from: usize, to: usize| {
        let whole = head(name);
        whole[..2 * from].to_string() + &whole[2 * to..]
    };
    let default = CURRENT.head().default;
    let no_default = without("place-later", default, default + 2);
    assert_eq!(head("refusal-22-no-default"), no_default);
    let half = without("case-7", default, default + 1);
    assert_eq!(head("refusal-22-half-default"), half);
    let one_byte = corpus::kept("refusal-22-one-byte");
    assert_eq!(widen::sheet(&one_byte), corpus::kept("case-7"));
}

/// Sheets of unequal roots have the depth, the boards and the run of their names. The climbed one, made smaller, is the
/// other of its numbers.
#[test]
fn corpus_unequal_names_hold() {
    let mut count = 0;
    for (name, text) in corpus::load() {
        let mut words = name.split('-');
        if !["unequal", "climbed"].contains(&words.next().unwrap()) {
            continue;
        }
        let number = |word: &str| word.trim_start_matches(char::is_alphabetic).parse();
        let numbers: Vec<usize> = words.map(|word| number(word).unwrap()).collect();
        let outcome = play(&text, None).unwrap();
        let plan = &outcome.plan;
        assert_eq!(numbers[..2], [plan.depth.into(), plan.n.into()], "{name}");
        assert!(plan.cut() && outcome.unequal_after(numbers[2]), "{name}");
        count += 1;
    }
    assert_eq!(count, SPLITS.len() + 1);
    let climbed = sheet::read(&corpus::kept("climbed-b4-n7-run2")).unwrap();
    let small = shrink(climbed, &|s| session::play_sheet(s, None).unequal_after(2));
    assert_eq!(small.write(), corpus::kept("unequal-b4-n7-run2"));
}

/// Number 5 is met by one set for every n, by two where no one covers, and by three where no two do; the mistakes in
/// trying sets tell which.
#[test]
fn corpus_covers_by_one_two_and_three() {
    let kept = corpus::load();
    let told = |kind: &str, mistake: Mistake| -> Vec<bool> {
        let sheets = kept.iter().filter(|(name, _)| name.starts_with(kind));
        sheets
            .map(|(_, text)| Mistake::told_by(text).contains(&mistake))
            .collect()
    };
    let (one, two, three) = ("refusal-05-one-n", "refusal-05-two", "refusal-05-three");
    assert_eq!(told(one, Mistake::CoverByDifferent), [true; 7]);
    assert_eq!(told(one, Mistake::CoverByFirst), [false; 7]);
    assert_eq!(told(two, Mistake::CoverByFirst), [true; 2]);
    assert_eq!(told(two, Mistake::CoverByTwo), [false; 2]);
    assert_eq!(told(three, Mistake::CoverByTwo), [true; 2]);
}

/// A sheet kept for a place where the default is put tells the mistake that leaves 0 there, and no other such mistake.
/// The default is 7; it is decided, though nobody told it, where only the dealer is faulty.
#[test]
fn corpus_puts_the_default_in_each_place() {
    let zeros = [
        ("default-silent-dealer", Mistake::MissingIsZero, true),
        ("default-listed", Mistake::ListedIsZero, false),
        ("default-masked", Mistake::MaskedIsZero, false),
        ("default-misfit", Mistake::MisfitIsZero, true),
        ("default-value-of-m", Mistake::BeyondIsZero, true),
        ("default-unresolved-root", Mistake::RootIsZero, true),
    ];
    let kept = corpus::load();
    for (name, mistake, shows) in zeros {
        let (_, text) = kept.iter().find(|(kept, _)| kept == name).expect(name);
        let outcome = play(text, None).unwrap();
        assert_eq!((outcome.plan.default, outcome.default_shows()), (7, shows));
        let mut told = Mistake::told_by(text);
        told.retain(|m| zeros.iter().any(|(_, zero, _)| zero == m));
        assert_eq!(told, [mistake], "{name}");
    }
}

#[test]
fn corpus_meets_all_but_the_longest() {
    let tally = |asked: &dyn Fn(&str, &Result<Outcome, Refusal>) -> bool| {
        let mut tally = Tally::default();
        for (name, text) in corpus::load() {
            let result = play(&text, None);
            if asked(&name, &result) {
                tally.count(&result);
            }
        }
        tally.count(&play(&vec![b'0'; 65_537], None));
        tally
    };
    let mut all = tally(&|_, _| true);
    assert!(all.full(), "numbers {NUMBERS:?}, splits {SPLITS:?}");
    for without in ["refusal-03", "refusal-26", "unequal-b5-n7"] {
        let some = tally(&|name, _| !name.starts_with(without));
        assert!(!some.full(), "{without}");
    }
    let listed = tally(&|_, result| !result.as_ref().is_ok_and(|o| o.plan.sets.is_empty()));
    assert!(!listed.full(), "no sets");
    let hidden = tally(&|_, result| !result.as_ref().is_ok_and(|o| o.default_shows()));
    assert!(!hidden.full(), "a default that shows");
    for (kind, shows) in places::KINDS {
        let some = tally(&|_, result| !result.as_ref().is_ok_and(shows));
        assert!(!some.full(), "a place {kind}");
    }
    for (kind, shows) in roots::KINDS {
        let some = tally(&|_, result| !result.as_ref().is_ok_and(shows));
        assert!(!some.full(), "roots {kind}");
    }
    for (kind, shows) in wide::kinds(CURRENT) {
        let some = tally(&|_, result| !result.as_ref().is_ok_and(shows));
        assert!(!some.full(), "{kind}");
    }
    let no_sets = widen::sheet(b"0410000000050000\n");
    let mut changed = play(&no_sets, None);
    changed.as_mut().unwrap().roots[0][0] = 6;
    let mut some = tally(&|_, _| true);
    some.count(&changed);
    assert!(!some.full(), "a healthy dealer's value is no root");
    let mut unplaced = play(&no_sets, None);
    unplaced.as_mut().unwrap().lines[3].place = None;
    let mut some = tally(&|_, _| true);
    some.count(&unplaced);
    assert!(!some.full(), "a list without a place");
    all.count(&Err(Refusal { number: 2, line: 1 }));
    assert!(!all.full(), "number 2 is free");
}

#[test]
fn made_sheets_agree_and_list_only_faulty_boards() {
    for seed in 0..3000 {
        let text = make::sheet(seed);
        let Ok(outcome) = play(&text, None) else {
            continue;
        };
        let faulty = sheet::read(&text).unwrap().faulty;
        let first = outcome.lines[0].decision;
        for line in &outcome.lines {
            assert!(!has(faulty, line.board), "seed {seed}");
            assert!(within(line.list, faulty), "seed {seed}");
            assert_eq!(line.decision, first, "seed {seed}");
            held_first(&outcome, line, seed);
        }
        detected_while_unequal(&outcome, seed);
        let mut hidden = Mistake::at(CURRENT);
        hidden.retain(|mistake| mistake.hidden());
        let some = hidden.iter().skip(seed as usize % 4).step_by(4);
        some.for_each(|m| assert_eq!(bench_with(&text, *m), print(&play(&text, None))));
    }
}

/// The set at the list's place holds it and no earlier one does; with no sets the place is 0. A dealer's place is 0.
fn held_first(outcome: &Outcome, line: &Line, seed: u64) {
    let place = line.place.expect("a place");
    let holds = |set: &u8| within(line.list, *set);
    let (before, after) = outcome.plan.sets.split_at(place);
    assert!(!before.iter().any(holds), "seed {seed}");
    assert!(after.first().map_or(line.list == 0, holds), "seed {seed}");
    assert!(line.board != outcome.plan.dealer || place == 0);
}

/// With no sets a sheet prints what it prints with the one set 00. Made ones meet every number that such a sheet can
/// meet and no other; accepted ones have every number of boards, dealer and depth.
#[test]
fn made_sheets_with_no_sets() {
    let (mut numbers, mut dealers) = (BTreeSet::new(), BTreeSet::new());
    let mut depths = BTreeSet::new();
    for seed in 0..20_000 {
        let text = make::sheet(seed);
        let Some(other) = sheet::with_set_00(&text) else {
            continue;
        };
        let result = play(&text, None);
        assert_eq!(print(&result), bench(&other), "seed {seed}");
        match result {
            Err(refusal) => drop(numbers.insert(refusal.number)),
            Ok(outcome) => {
                decided_at_once(&sheet::read(&text).unwrap(), &outcome, seed);
                dealers.insert((outcome.plan.n, outcome.plan.dealer));
                depths.insert(outcome.plan.depth);
            }
        }
    }
    let met = [1, 6, 7, 8, 18, 21, 22, 23, 24, 26];
    assert_eq!(Vec::from_iter(numbers), met);
    assert_eq!(dealers.len(), (1..=7).sum::<usize>());
    assert_eq!(Vec::from_iter(depths), [0, 4, 5, 6, 7]);
}

/// F is empty, there is one round, and every board decides the dealer's value.
fn decided_at_once(sheet: &Sheet, outcome: &Outcome, seed: u64) {
    let line = |board| Line {
        board,
        decision: sheet.value,
        list: 0,
        place: Some(0),
    };
    let lines: Vec<Line> = (0..sheet.plan.n).map(line).collect();
    assert_eq!((sheet.faulty, sheet.frames.len()), (0, 0), "seed {seed}");
    assert_eq!((sheet.plan.runs(), sheet.plan.rounds()), (1, 1));
    assert_eq!(outcome.lines, lines, "seed {seed}");
}

/// Made sheets meet 7 where 26 applies too, 26 where 8 does, and 26 by a default of m. Accepted ones have the default
/// 0, m - 1 or another; those other than 0 show at times, and differ from 0 in name only.
#[test]
fn made_sheets_with_defaults() {
    let judged = [
        Mistake::DefaultBeforeSpan,
        Mistake::DefaultAfterDepth,
        Mistake::DefaultOfSpan,
    ];
    let (mut told, mut kinds) = (BTreeSet::<Mistake>::new(), BTreeSet::new());
    for seed in 0..3000 {
        let text = make::sheet(seed);
        match play(&text, None) {
            Ok(outcome) => {
                let kind = match outcome.plan.default {
                    0 => "0",
                    default if default == outcome.plan.span - 1 => "m - 1",
                    _ => "other",
                };
                kinds.insert((kind, outcome.default_shows()));
                swapped_with_zero(&sheet::read(&text).unwrap(), &outcome, seed);
            }
            Err(refusal) => {
                let right = refusal.print().into_bytes();
                told.extend(judged.iter().filter(|m| bench_with(&text, **m) != right));
            }
        }
    }
    assert_eq!(Vec::from_iter(told), judged);
    let (shown, others) = (["m - 1", "other"], ["0", "m - 1", "other"]);
    let mut all = BTreeSet::from(others.map(|kind| (kind, false)));
    all.extend(shown.map(|kind| (kind, true)));
    assert_eq!(kinds, all);
}

/// With the default and 0 swapped in the head and in all values, the decisions are swapped and the lists are the same.
fn swapped_with_zero(sheet: &Sheet, outcome: &Outcome, seed: u64) {
    let default = sheet.plan.default;
    let swap = |value: Value| match value {
        0 => default,
        _ if value == default => 0,
        _ => value,
    };
    let mut other = sheet.clone();
    (other.plan.default, other.value) = (0, swap(sheet.value));
    other.change_values(swap);
    let mut lines = session::play_sheet(&other, None).lines;
    lines.iter_mut().for_each(|l| l.decision = swap(l.decision));
    assert_eq!(lines, outcome.lines, "seed {seed}");
}

/// A default shows if it is not 0, the dealer is faulty, it is decided, and no faulty board told it.
#[test]
fn shown_defaults_are_counted() {
    let kept = corpus::load();
    let silent = |(name, _): &&(String, Vec<u8>)| name == "default-silent-dealer";
    let (_, text) = kept.iter().find(silent).unwrap();
    let shown = |change: &dyn Fn(&mut Outcome)| {
        let (mut outcome, mut tally) = (play(text, None).unwrap(), Tally::default());
        change(&mut outcome);
        tally.count(&Ok(outcome));
        (tally.defaults, tally.shown)
    };
    assert_eq!(shown(&|_| ()), (1, 1));
    assert_eq!(shown(&|o| o.told.extend([7])), (1, 0));
    assert_eq!(shown(&|o| o.faulty = 0), (1, 0));
    assert_eq!(shown(&|o| o.plan.default = 6), (1, 0));
    let zero = |o: &mut Outcome| {
        o.plan.default = 0;
        o.lines.iter_mut().for_each(|l| l.decision = 0);
    };
    assert_eq!(shown(&zero), (0, 0));
}

/// A sheet that need not show anything is made smaller down to no sets.
#[test]
fn shrinking_ends_with_no_sets() {
    let kept = corpus::load();
    let (_, text) = kept.iter().find(|(name, _)| name == "case-7").unwrap();
    let small = shrink(sheet::read(text).unwrap(), &|_| true);
    assert_eq!(small.write(), widen::sheet(b"0402000000000000\n"));
}

/// Roots that differ in a full tree, or with too few faulty boards, are counted as impossible.
#[test]
fn impossible_roots_are_counted() {
    let kept = corpus::load();
    let (_, text) = kept
        .iter()
        .find(|(name, _)| name == "unequal-b4-n7-run2")
        .unwrap();
    let unequal = || play(text, None).unwrap();
    let impossible = |outcome| {
        let mut tally = Tally::default();
        tally.count(&Ok(outcome));
        tally.impossible
    };
    assert_eq!(impossible(unequal()), 0);
    let mut full = unequal();
    full.plan.depth = 0;
    assert_eq!(impossible(full), 2);
    let mut few = unequal();
    few.faulty = set_of([few.plan.dealer]);
    assert_eq!(impossible(few), 2);
    let mut healthy_dealer = unequal();
    healthy_dealer.faulty &= !set_of([healthy_dealer.plan.dealer]);
    assert_eq!(impossible(healthy_dealer), 2);
    let mut later = unequal();
    later.roots.push(later.roots[1].clone());
    assert_eq!(impossible(later), 1);
}

/// Unequal roots after run t mean t (b - 3) + 1 boards on every list.
fn detected_while_unequal(outcome: &Outcome, seed: u64) {
    for run in (1..=outcome.roots.len()).filter(|r| outcome.unequal_after(*r)) {
        let common = outcome.lists[run - 1].iter().fold(!0, |all, l| all & l);
        let least = run * (outcome.plan.depth as usize - 3) + 1;
        assert!(common.count_ones() as usize >= least, "seed {seed}");
    }
}
