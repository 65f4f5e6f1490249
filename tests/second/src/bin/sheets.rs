//! sheets SEED          prints the sheet of a seed
//! sheets SEED COUNT DIR  writes the sheets of COUNT seeds from SEED on into a folder

use second::make;
use std::io::Write;

fn main() {
    let args: Vec<String> = std::env::args().skip(1).collect();
    let number = |place: usize| args.get(place).and_then(|a| a.parse::<u64>().ok());
    match (number(0), number(1), args.get(2)) {
        (Some(seed), Some(count), Some(folder)) => {
            for seed in seed..seed + count {
                let path = format!("{folder}/{seed}.sheet");
                std::fs::write(path, make::sheet(seed)).expect("a folder to write to");
            }
        }
        (Some(seed), None, None) => {
            std::io::stdout()
                .write_all(&make::sheet(seed))
                .expect("an open output");
        }
        _ => eprintln!("sheets SEED [COUNT DIR]"),
    }
}
