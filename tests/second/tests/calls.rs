//! Entries, and what scripts of calls show.

use second::board::{cell_count, labels};
use second::entry::{Entry, Rule};
use second::met::Met;
use second::record::{Ground, Record};
use second::script::Act;
use second::scripts::Script;
use second::{make, Mistake, Width, CURRENT};

/// The bytes that are told of an answer and a plan, and then of entries.
fn parts(width: Width) -> [usize; 2] {
    [5 + 36 + 2 * width.bytes(), 28]
}

/// The entries of a record as it is told: kind, run, round, level of each board.
fn entries(width: Width, told: &[u8]) -> Vec<&[u8]> {
    let [before, length] = parts(width);
    told[before..][..length].chunks(4).collect()
}

/// Rule G lists the dealer in round 2, at the root.
#[test]
fn example_lists_the_dealer() {
    let script = Script::example();
    let told = |place: usize| &script.steps[place].1;
    assert_eq!(script.steps.len(), 10);
    assert_eq!(entries(CURRENT, told(7)), [[0; 4]; 7]);
    let mut listed = [[0; 4]; 7];
    listed[0] = [1, 1, 2, 1];
    assert_eq!(entries(CURRENT, told(8)), listed);
    let decision = CURRENT.encode(&[15]);
    assert_eq!(told(9)[..2], [0, decision.len() as u8]);
    assert_eq!(told(9)[2..][..decision.len()], decision);
}

/// The kept script of the program is the example.
#[test]
fn example_is_kept() {
    let folder = concat!(env!("CARGO_MANIFEST_DIR"), "/../../crates/calls");
    let kept = |name: &str| std::fs::read(format!("{folder}/{name}")).expect(name);
    let script = Script::example();
    assert_eq!(kept("stdin"), script.blocks());
    assert_eq!(kept("stdout"), script.told());
}

#[test]
fn cells_stand_by_level_and_label() {
    let counts: Vec<usize> = (0..=8).map(cell_count).collect();
    assert_eq!(counts, [0, 1, 2, 5, 16, 65, 326, 1957, 0]);
    let expected: [&[u8]; 5] = [&[1], &[1, 0], &[1, 2], &[1, 0, 2], &[1, 2, 0]];
    assert_eq!(labels(3, 1), expected);
}

/// Each ground of number 12 that an entry gives, by itself, on a cut plan: R = 4, four runs.
#[test]
fn grounds_of_12() {
    let plan = second::plan::Plan {
        n: 6,
        sets: vec![0x1F],
        dealer: 0,
        span: 16,
        default: 15,
        depth: 4,
    };
    let fields = second::record::Fields::of(&plan);
    let good = Record::begun(fields, 1);
    assert_eq!((plan.runs(), plan.rounds(), good.grounds()), (4, 4, vec![]));
    let with = |board: u8, run, round, rule| {
        let mut record = good.clone();
        record.list.put(board, Entry { run, round, rule });
        record.grounds()
    };
    let no: [Ground; 0] = [];
    assert_eq!(with(1, 1, 1, Rule::G(3)), no);
    assert_eq!(with(5, 4, 4, Rule::C(1)), no);
    assert_eq!(with(0, 2, 2, Rule::G(2)), no);
    assert_eq!(with(6, 1, 2, Rule::G(1)), [Ground::EntryBoard]);
    assert_eq!(with(1, 0, 2, Rule::G(1)), [Ground::EntryRun0]);
    assert_eq!(with(1, 5, 2, Rule::G(1)), [Ground::EntryRunAbove]);
    assert_eq!(with(1, 1, 0, Rule::G(1)), [Ground::EntryRound0]);
    assert_eq!(with(1, 2, 1, Rule::G(1)), [Ground::EntryRound1]);
    assert_eq!(with(1, 1, 5, Rule::G(1)), [Ground::EntryRoundAbove]);
    assert_eq!(with(1, 1, 2, Rule::G(0)), [Ground::EntryLevel0]);
    assert_eq!(with(1, 1, 2, Rule::C(4)), [Ground::EntryLevelOfR]);
    assert_eq!(with(1, 1, 2, Rule::C(5)), [Ground::EntryLevelAbove]);
}

/// In made scripts an entry that a closing writes has the closed run and round; G has the level below the round, C is
/// written in round R; an entry that stood stays, whatever call is made.
#[test]
fn entries_are_written_once() {
    for (place, width) in (0..400).flat_map(|place| Width::BOTH.map(|width| (place, width))) {
        let script = Script::at(width, make::own_seed(2, place));
        for pair in script.steps.windows(2) {
            let ((_, before), (step, after)) = (&pair[0], &pair[1]);
            let call = (1..=8).contains(&step.act.kind()) && !matches!(step.act, Act::Begin(_));
            if call {
                let [was, is] = [before, after].map(|told| entries(width, told));
                let boards = was.into_iter().zip(is);
                let record = &before[parts(width).iter().sum()..];
                boards.for_each(|(was, is)| written_once(record, was, is));
            }
        }
    }
}

fn written_once(record: &[u8], was: &[u8], is: &[u8]) {
    if was != is {
        let [kind, run, round, level] = *is else {
            panic!("four bytes");
        };
        assert_eq!(was, [0; 4]);
        assert_eq!((run, round), (record[1], record[2]));
        assert!(kind == 2 || level + 1 == round);
        assert!(kind == 1 || level < round);
    }
}

/// Some scripts meet nearly all that is asked for, fit their blocks, and tell every mistake that no sheet can show.
#[test]
fn scripts_tell_hidden_mistakes() {
    for (width, count) in [(Width::One, 13), (Width::Two, 14)] {
        let mut met = Met::default();
        let mut untold = Mistake::at(width);
        untold.retain(|mistake| mistake.hidden());
        assert_eq!(untold.len(), count);
        for place in 0..600 {
            let script = Script::at(width, make::own_seed(3, place));
            untold.retain(|mistake| !script.tells(*mistake));
            met.add(&script.met);
            assert_eq!(script.blocks().len(), 512 * script.steps.len());
        }
        assert_eq!(untold, []);
        assert_eq!(met.impossible(), [""; 0]);
        let missing = met.missing(width);
        assert!(missing.len() < 12, "{missing:?}");
    }
}

/// A missing count and an answer that a call cannot give are found.
#[test]
fn counts_are_judged() {
    let mut met = Met::default();
    let all = met.missing(CURRENT).len();
    met.count("receive 14".into());
    assert_eq!(met.missing(CURRENT).len(), all - 1);
    assert_eq!(met.impossible(), [""; 0]);
    met.count("receive 16".into());
    assert_eq!(met.impossible(), ["receive 16"]);
}
