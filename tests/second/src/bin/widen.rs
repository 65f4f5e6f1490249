//! widen [printed]   a sheet of one-byte values on standard input, or what is printed for it; two-byte values out

use second::widen;
use std::io::{Read, Write};

fn main() {
    let wider = match std::env::args().nth(1).as_deref() {
        None => widen::sheet,
        Some("printed") => widen::printed,
        Some(_) => return eprintln!("widen [printed]"),
    };
    let mut text = vec![];
    std::io::stdin().read_to_end(&mut text).expect("a sheet");
    std::io::stdout()
        .write_all(&wider(&text))
        .expect("an open output");
}
