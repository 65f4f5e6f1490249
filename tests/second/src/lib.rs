//! A second implementation of the bench, written from the paper by labels and maps.
//! It is slow and plain on purpose. Sets of boards are bytes, everything else is looked up.

pub mod board;
pub mod chain;
pub mod corpus;
pub mod damage;
pub mod entry;
pub mod keeper;
pub mod line;
pub mod make;
pub mod met;
pub mod mistake;
pub mod places;
pub mod plan;
pub mod prng;
pub mod record;
pub mod roots;
pub mod script;
pub mod scripts;
pub mod search;
pub mod session;
pub mod sheet;
pub mod shrink;
pub mod tally;
pub mod wide;
pub mod widen;
pub mod width;

pub use line::Line;
pub use mistake::Mistake;
pub use session::Outcome;
pub use sheet::{Refusal, Sheet};
pub use width::{Value, Width, CURRENT};

/// All that the bench prints for a sheet.
pub fn bench(sheet: &[u8]) -> Vec<u8> {
    print(&play(sheet, None))
}

/// The same with one deliberate mistake.
pub fn bench_with(sheet: &[u8], mistake: Mistake) -> Vec<u8> {
    print(&play(sheet, Some(mistake)))
}

/// Reads a sheet and plays its session.
pub fn play(sheet: &[u8], mistake: Option<Mistake>) -> Result<Outcome, Refusal> {
    play_at(CURRENT, sheet, mistake)
}

/// The same at a width.
pub fn play_at(width: Width, sheet: &[u8], mistake: Option<Mistake>) -> Result<Outcome, Refusal> {
    sheet::read_at(width, sheet, mistake).map(|s| session::play_sheet(&s, mistake))
}

/// The same with so much output and so many cells.
pub fn play_lent(
    width: Width,
    sheet: &[u8],
    output: usize,
    cells: usize,
) -> Result<Outcome, Refusal> {
    sheet::judge_lent(width, sheet, output, cells)?;
    play_at(width, sheet, None)
}

/// The printed form of an outcome or a refusal.
pub fn print(result: &Result<Outcome, Refusal>) -> Vec<u8> {
    let text = match result {
        Ok(outcome) => outcome.print(),
        Err(refusal) => refusal.print(),
    };
    text.into_bytes()
}
