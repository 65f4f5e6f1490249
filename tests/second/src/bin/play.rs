//! play [MISTAKE]   the bench as this crate has it: a sheet on standard input, printed lines out

use second::{bench, bench_with, Mistake, CURRENT};
use std::io::{Read, Write};

fn main() {
    let mut sheet = vec![];
    std::io::stdin().read_to_end(&mut sheet).expect("a sheet");
    let printed = match std::env::args().nth(1) {
        None => bench(&sheet),
        Some(name) => {
            let mut mistakes = Mistake::at(CURRENT).into_iter();
            let named = mistakes.find(|m| format!("{m:?}") == name);
            bench_with(&sheet, named.expect("the name of a mistake"))
        }
    };
    std::io::stdout()
        .write_all(&printed)
        .expect("an open output");
}
