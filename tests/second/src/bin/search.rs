//! search N B FAULTY RUN SEED   climbs to a sheet whose roots are unequal after a run
//! of a cut tree with depth B, and prints it. FAULTY is the number of faulty boards.

use second::plan::{all, set_of, Plan};
use second::prng::Prng;
use second::search::{climb, sheet};
use second::CURRENT;
use std::io::Write;

/// Changes tried before the climb starts anew with other sets.
const TRIES: usize = 2000;

fn main() {
    let args: Vec<u64> = std::env::args()
        .skip(1)
        .filter_map(|a| a.parse().ok())
        .collect();
    let [n, depth, size, run, seed] = args[..] else {
        return eprintln!("search N B FAULTY RUN SEED");
    };
    let (n, size, mut rng) = (n as u8, size as u8, Prng::new(seed));
    loop {
        let plan = plan(n, depth as u8, size, &mut rng);
        if plan.refusal().is_some() || !plan.cut() {
            continue;
        }
        if let Some(lies) = climb(&plan, all(size), run as usize, TRIES, &mut rng) {
            let found = sheet(CURRENT, &plan, all(size), &lies, 0, run as u8);
            return std::io::stdout()
                .write_all(&found.write())
                .expect("an open output");
        }
    }
}

/// The first boards are faulty, the last is in no set, sets around the next are random.
fn plan(n: u8, depth: u8, size: u8, rng: &mut Prng) -> Plan {
    let mut sets = vec![all(size)];
    for _ in 0..1 + rng.below(4) {
        sets.push(rng.byte() & rng.byte() & all(n - 1) | set_of([size]));
    }
    Plan {
        n,
        sets,
        dealer: 0,
        span: 2,
        default: 0,
        depth,
    }
}
