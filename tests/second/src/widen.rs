//! Sheets, frames, cells and printed lines of one-byte values, written in two bytes.

use crate::width::{Value, Width};

/// A sheet: 00 before the span, the default and the dealer's value of line 1, and before each value of later lines.
/// Lines are taken two characters at a time, whatever they are; a single last one stays as it is.
pub fn sheet(text: &[u8]) -> Vec<u8> {
    let head = Width::One.head();
    let in_head = |place: usize| [head.span, head.default, head.value].contains(&place);
    widened(text, |line, place| match line {
        0 => in_head(place),
        _ => place >= 4,
    })
}

/// Printed lines: 00 before the decision. A refusal stays as it is.
pub fn printed(text: &[u8]) -> Vec<u8> {
    if text.starts_with(b"FF") {
        return text.to_vec();
    }
    widened(text, |_, place| place == 1)
}

/// Puts 00 before some bytes of a text, by line and place.
fn widened(text: &[u8], value: impl Fn(usize, usize) -> bool) -> Vec<u8> {
    let mut wider = vec![];
    for (number, line) in text.split(|c| *c == b'\n').enumerate() {
        if number > 0 {
            wider.push(b'\n');
        }
        for (place, pair) in line.chunks(2).enumerate() {
            if pair.len() == 2 && value(number, place) {
                wider.extend(b"00");
            }
            wider.extend(pair);
        }
    }
    wider
}

/// A frame: 00 before each value.
pub fn frame(bytes: &[u8]) -> Vec<u8> {
    Width::Two.encode(&Width::One.decode(bytes))
}

/// A cell: FF, no value, becomes FFFF.
pub fn cell(cell: Value) -> Value {
    if cell == Width::One.blank() {
        Width::Two.blank()
    } else {
        cell
    }
}
