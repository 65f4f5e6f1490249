//! Makes a sheet smaller while it still shows what it was kept for.

use crate::plan::{has, set_of};
use crate::sheet::{read, Sheet};

/// The smallest sheet found by dropping lines, faulty boards and sets, by lowering the head, and by clearing values.
pub fn shrink(mut sheet: Sheet, shows: &dyn Fn(&Sheet) -> bool) -> Sheet {
    loop {
        let before = sheet.clone();
        drop_lines(&mut sheet, shows);
        drop_boards(&mut sheet, shows);
        drop_sets(&mut sheet, shows);
        lower_head(&mut sheet, shows);
        clear_values(&mut sheet, shows);
        if sheet.lines() == before.lines() {
            return sheet;
        }
    }
}

/// Takes a change if the sheet stays accepted and still shows it.
fn attempt(sheet: &mut Sheet, shows: &dyn Fn(&Sheet) -> bool, change: impl Fn(&mut Sheet)) {
    let mut next = sheet.clone();
    change(&mut next);
    if next.lines() != sheet.lines() && read(&next.write()).is_ok() && shows(&next) {
        *sheet = next;
    }
}

fn drop_lines(sheet: &mut Sheet, shows: &dyn Fn(&Sheet) -> bool) {
    for slot in sheet.frames.clone().into_keys() {
        attempt(sheet, shows, |s| drop(s.frames.remove(&slot)));
    }
}

fn drop_boards(sheet: &mut Sheet, shows: &dyn Fn(&Sheet) -> bool) {
    for board in (0..sheet.plan.n)
        .filter(|b| has(sheet.faulty, *b))
        .collect::<Vec<_>>()
    {
        attempt(sheet, shows, |s| {
            s.faulty &= !set_of([board]);
            s.frames.retain(|slot, _| slot.sender != board);
        });
    }
}

fn drop_sets(sheet: &mut Sheet, shows: &dyn Fn(&Sheet) -> bool) {
    for place in (0..sheet.plan.sets.len()).rev() {
        attempt(sheet, shows, |s| {
            s.plan.sets.remove(place);
        });
    }
}

fn lower_head(sheet: &mut Sheet, shows: &dyn Fn(&Sheet) -> bool) {
    for default in 0..sheet.plan.default.min(2) {
        attempt(sheet, shows, |s| s.plan.default = default);
    }
    for span in 2..sheet.plan.span.min(8) {
        attempt(sheet, shows, |s| s.plan.span = span);
    }
    attempt(sheet, shows, |s| s.value = 0);
}

fn clear_values(sheet: &mut Sheet, shows: &dyn Fn(&Sheet) -> bool) {
    let width = sheet.width;
    for (slot, frame) in sheet.frames.clone() {
        for (place, value) in width.decode(&frame).into_iter().enumerate() {
            for low in 0..value.min(2) {
                attempt(sheet, shows, |s| {
                    let frame = s.frames.get_mut(&slot).unwrap();
                    width.put_number(frame, place * width.bytes(), low)
                });
            }
        }
        attempt(sheet, shows, |s| {
            let left = frame.len().saturating_sub(width.bytes());
            s.frames.get_mut(&slot).unwrap().truncate(left);
        });
    }
}
