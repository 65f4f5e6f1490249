//! compare PATH_TO_BENCH COUNT SEED   plays made sheets and the corpus with both implementations
//!
//! A sheet with no sets is played with the one set 00 as well, and must print the same.
//! A made sheet is told by its own seed, which `sheets` takes; COUNT and SEED repeat the whole.

use second::sheet::with_set_00;
use second::tally::Tally;
use second::{corpus, make, play, print};
use std::io::{Read, Write};
use std::iter;
use std::process::{exit, Child, Command, Stdio};
use std::sync::{mpsc, Mutex};
use std::thread;
use std::time::Duration;

const THREADS: u64 = 2;

/// A program that plays one sheet for longer hangs, and is ended.
const LIMIT: Duration = Duration::from_secs(20);

/// A sheet with a name to find it by.
type Named = (String, Vec<u8>);

fn main() {
    let args: Vec<String> = std::env::args().skip(1).collect();
    let number = |place: usize| args.get(place).and_then(|a| a.parse::<u64>().ok());
    let (Some(path), Some(count), Some(seed)) = (args.first(), number(1), number(2)) else {
        eprintln!("compare PATH_TO_BENCH COUNT SEED");
        exit(2);
    };
    println!("compare: {count} made sheets of seed {seed}");
    exit(if compare(path, count, seed) { 0 } else { 1 });
}

/// The made sheets that one thread takes.
fn made(count: u64, seed: u64, thread: u64) -> impl Iterator<Item = Named> {
    let mine = (0..count).filter(move |i| i % THREADS == thread);
    mine.map(move |i| make::own_seed(seed, i))
        .map(|own| (format!("made, seed {own}"), make::sheet(own)))
}

/// Compares with the program; true if nothing differs and everything was met.
fn compare(path: &str, count: u64, seed: u64) -> bool {
    let (mut total, mut differences) = (Tally::default(), 0);
    let mut parts = vec![compare_all(path, corpus::load().into_iter())];
    thread::scope(|scope| {
        let job = |thread| move || compare_all(path, made(count, seed, thread));
        let threads: Vec<_> = (0..THREADS).map(|t| scope.spawn(job(t))).collect();
        let done = threads.into_iter().map(|t| t.join());
        parts.extend(done.map(|part| part.expect("a thread that ends")));
    });
    for (tally, differ) in parts {
        total.add(tally);
        differences += differ;
    }
    total.print();
    println!("differences {differences}");
    differences == 0 && total.full()
}

fn compare_all(path: &str, sheets: impl Iterator<Item = Named>) -> (Tally, usize) {
    let (mut tally, mut differences) = (Tally::default(), 0);
    for (name, sheet) in sheets {
        let result = play(&sheet, None);
        let before = (tally.impossible, tally.unplaced, tally.broken);
        tally.count(&result);
        if tally.impossible > before.0 {
            println!("unequal roots where none are possible: {name}");
        }
        if tally.unplaced > before.1 {
            println!("a list without a place: {name}");
        }
        if tally.broken > before.2 {
            println!("roots not worth what is claimed: {name}");
        }
        let (ours, other) = (print(&result), with_set_00(&sheet));
        for text in iter::once(&sheet).chain(&other) {
            let theirs = run_program(path, text);
            if ours != theirs {
                differences += 1;
                if differences <= 5 {
                    report(&name, text, &ours, &theirs);
                }
            }
        }
    }
    (tally, differences)
}

/// What the program prints for a sheet, and its status if that is not 0. It may stop reading early.
fn run_program(path: &str, sheet: &[u8]) -> Vec<u8> {
    let program = Command::new(path)
        .stdin(Stdio::piped())
        .stdout(Stdio::piped())
        .spawn();
    let mut program = program.expect("a program to compare with");
    let (stdin, stdout) = (program.stdin.take(), program.stdout.take());
    let (program, mut printed) = (Mutex::new(program), vec![]);
    let (done, waiting) = mpsc::channel::<()>();
    thread::scope(|scope| {
        scope.spawn(|| end_late(&program, waiting));
        let _ = stdin.unwrap().write_all(sheet);
        stdout
            .unwrap()
            .read_to_end(&mut printed)
            .expect("its output");
        drop(done);
    });
    let status = program.into_inner().unwrap().wait().expect("its status");
    if !status.success() {
        printed.extend(format!("{status}\n").bytes());
    }
    printed
}

/// Ends a program that is not done in time.
fn end_late(program: &Mutex<Child>, done: mpsc::Receiver<()>) {
    if done.recv_timeout(LIMIT) == Err(mpsc::RecvTimeoutError::Timeout) {
        let _ = program.lock().unwrap().kill();
    }
}

fn report(name: &str, sheet: &[u8], ours: &[u8], theirs: &[u8]) {
    let text = |bytes: &[u8]| String::from_utf8_lossy(bytes).into_owned();
    println!("differs: {name}, {} bytes", sheet.len());
    if sheet.len() < 2000 {
        println!("{}", text(sheet));
    }
    println!(
        "second prints:\n{}program prints:\n{}",
        text(ours),
        text(theirs)
    );
}
