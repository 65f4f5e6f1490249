//! bench_sheets DEPTH SETS COUNT DIR [every]   writes sheets of seven boards for the benchmark into a folder
//!
//! For depth 0 the tree is full: the set of the boards 0 to 5 gives seven levels under dealer 0.
//! For another depth the set of the boards 0 to 4 gives six, which are cut, and boards get listed.
//! With `every` the sets name every board, and number 5 must try them: the set of the boards 0 to 3 gives five levels,
//! which is the most that leaves room for it. That set stands last of SETS. Three of its boards are faulty and send
//! frames. Spans are at most 255: the sheets are made in one-byte values and widened, so that both widths have the same
//! sessions.

use second::make;
use second::plan::{Plan, Set};
use second::prng::Prng;
use second::{widen, Width};

fn main() {
    let args: Vec<String> = std::env::args().skip(1).collect();
    let number = |place: usize| args.get(place).and_then(|a| a.parse::<u64>().ok());
    let (Some(depth), Some(sets), Some(count), Some(folder)) =
        (number(0), number(1), number(2), args.get(3))
    else {
        eprintln!("bench_sheets DEPTH SETS COUNT DIR [every]");
        std::process::exit(2);
    };
    let every = args.get(4).is_some_and(|a| a == "every");
    for seed in 1..=count {
        let path = format!("{folder}/{seed}.sheet");
        std::fs::write(path, sheet(depth as u8, sets, seed, every)).expect("a folder to write to");
    }
}

fn sheet(depth: u8, count: u64, seed: u64, every: bool) -> Vec<u8> {
    let mut rng = Prng::new(seed);
    let large: Set = match (every, depth) {
        (true, _) => 0x0F,
        (_, 0) => 0x3F,
        _ => 0x1F,
    };
    let mut sets: Vec<Set> = (1..count).map(|i| other(large, i, &mut rng)).collect();
    sets.push(large);
    let span = rng.pick(&[2, 16, 255]);
    let plan = Plan {
        n: 7,
        sets,
        dealer: 0,
        span,
        default: 0,
        depth,
    };
    // The dealer is faulty in every other sheet.
    let faulty = if seed % 2 == 0 { 0b000111 } else { 0b001110 };
    widen::sheet(&make::lied_to(Width::One, plan, faulty, &mut rng).write())
}

/// A set beside the large one, so that no three cover all boards. Board 6 is in none; if the large set has four boards,
/// each of the others names one of the boards 4 to 6, and none names board 3.
fn other(large: Set, place: u64, rng: &mut Prng) -> Set {
    match large {
        0x3F => rng.byte() & large,
        0x1F => rng.byte() & rng.byte() & large | 0x20,
        _ => rng.byte() & 0x07 | 0x10 << (place % 3),
    }
}
