//! calls PATH_TO_PROGRAM COUNT SEED   makes COUNT scripts of calls and compares what the program tells, byte for byte
//! calls SEED                         prints the steps of one script
//! calls example FOLDER               writes a short script and what is told of it: stdin and stdout
//!
//! Then every mistake that no sheet can show must be told by a script.

use second::make::own_seed;
use second::met::Met;
use second::script::{Act, Step};
use second::scripts::Script;
use second::{Mistake, CURRENT};
use std::io::{Read, Write};
use std::process::{exit, ChildStdin, Command, Stdio};
use std::sync::mpsc::{sync_channel, SyncSender};
use std::thread;

fn main() {
    let args: Vec<String> = std::env::args().skip(1).collect();
    let number = |place: usize| args.get(place).and_then(|a| a.parse::<u64>().ok());
    match (args.len(), number(0), number(1), number(2)) {
        (1, Some(seed), ..) => show(&Script::new(seed)),
        (2, ..) if args[0] == "example" => write(&Script::example(), &args[1]),
        (3, _, Some(count), Some(seed)) => {
            println!("calls: {count} scripts of seed {seed}");
            exit(if compare(&args[0], count, seed) { 0 } else { 1 });
        }
        _ => {
            eprintln!("calls PATH_TO_PROGRAM COUNT SEED, calls SEED, or calls example FOLDER");
            exit(2);
        }
    }
}

fn show(script: &Script) {
    for (place, (step, told)) in script.steps.iter().enumerate() {
        println!("{place}: {step:?}: {:02X?}", &told[..5]);
    }
}

fn write(script: &Script, folder: &str) {
    std::fs::write(format!("{folder}/stdin"), script.blocks()).expect("a folder to write to");
    std::fs::write(format!("{folder}/stdout"), script.told()).expect("a folder to write to");
}

/// Compares with the program; true if nothing differs, all was met and every hidden mistake was told.
fn compare(path: &str, count: u64, seed: u64) -> bool {
    let program = Command::new(path)
        .stdin(Stdio::piped())
        .stdout(Stdio::piped())
        .spawn();
    let mut program = program.expect("a program to compare with");
    let (stdin, mut stdout) = (
        program.stdin.take().unwrap(),
        program.stdout.take().unwrap(),
    );
    let (made, scripts) = sync_channel(8);
    let maker = thread::spawn(move || make_all(count, seed, stdin, made));
    let (mut met, mut steps, mut differences) = (Met::default(), 0, 0);
    for script in scripts {
        let script: Script = script;
        steps += script.steps.len();
        met.add(&script.met);
        if let Err(difference) = check(&script, &mut stdout) {
            differences += 1;
            if differences <= 5 {
                println!("differs: seed {}, {difference}", script.seed);
            }
        }
    }
    drop(stdout);
    let untold = maker.join().expect("a thread that ends");
    let status = program.wait().expect("its status");
    met.0
        .iter()
        .for_each(|(name, count)| println!("{name}: {count}"));
    met.missing(CURRENT)
        .iter()
        .for_each(|name| println!("NOT MET: {name}"));
    met.impossible()
        .iter()
        .for_each(|name| println!("IMPOSSIBLE: {name}"));
    untold
        .iter()
        .for_each(|mistake| println!("NOT TOLD: {mistake:?}"));
    println!("calls: {count} scripts, {steps} steps, {differences} scripts differ");
    let full = met.missing(CURRENT).is_empty() && met.impossible().is_empty();
    differences == 0 && full && untold.is_empty() && status.success()
}

/// Makes the scripts and hands them to the program; the mistakes that none of them tells.
fn make_all(
    count: u64,
    seed: u64,
    mut stdin: ChildStdin,
    made: SyncSender<Script>,
) -> Vec<Mistake> {
    let mut untold = Mistake::at(CURRENT);
    untold.retain(|mistake| mistake.hidden());
    for place in 0..count {
        let script = Script::new(own_seed(seed, place));
        untold.retain(|mistake| !script.tells(*mistake));
        let blocks = script.blocks();
        let sent = made.send(script).is_ok() && stdin.write_all(&blocks).is_ok();
        if !sent {
            break;
        }
    }
    untold
}

/// Reads what the program tells of a script, and finds the first step that differs.
fn check(script: &Script, stdout: &mut impl Read) -> Result<(), String> {
    let mut first = Ok(());
    for (place, (step, told)) in script.steps.iter().enumerate() {
        let mut theirs = vec![0; told.len()];
        stdout
            .read_exact(&mut theirs)
            .map_err(|error| format!("step {place}: {error}"))?;
        if theirs != *told && first.is_ok() {
            first = Err(difference(place, step, told, &theirs));
        }
    }
    first
}

/// Where two replies differ: the answer has 5 bytes, the record 36 and two values for its plan, 28 for its entries,
/// then 6 and a value.
fn difference(place: usize, step: &Step, ours: &[u8], theirs: &[u8]) -> String {
    let places: Vec<usize> = (0..ours.len()).filter(|i| ours[*i] != theirs[*i]).collect();
    let step = match &step.act {
        Act::ChangeCells(..) => "ChangeCells".into(),
        _ => format!("{step:?}"),
    };
    let length = 5 + 36 + 28 + 6 + 3 * CURRENT.bytes();
    let (ours, theirs) = (&ours[..length], &theirs[..length]);
    format!("step {place}: {step}: bytes {places:?}\nsecond  {ours:02X?}\nprogram {theirs:02X?}")
}
