//! Reading a sheet, line by line, with its refusals.

use crate::mistake::Mistake;
use crate::plan::{all, has, Plan, Set, Tree};
use crate::width::{Value, Width, CURRENT};
use std::collections::BTreeMap;

pub const LONGEST: usize = 65_536;

/// The cells that playing needs: those of seven boards.
pub const CELLS: usize = 7 * 1957;

/// When and between whom a frame goes.
#[derive(Clone, Copy, Debug, PartialEq, Eq, PartialOrd, Ord)]
pub struct Slot {
    pub run: u8,
    pub round: u8,
    pub sender: u8,
    pub receiver: u8,
}

#[derive(Clone, Debug)]
pub struct Sheet {
    pub width: Width,
    pub plan: Plan,
    pub value: Value,
    pub faulty: Set,
    /// The bytes of each frame.
    pub frames: BTreeMap<Slot, Vec<u8>>,
}

#[derive(Clone, Copy, Debug, PartialEq, Eq)]
pub struct Refusal {
    pub number: u8,
    pub line: usize,
}

impl Refusal {
    pub fn print(&self) -> String {
        format!("FF{:02X}{:04X}\n", self.number, self.line)
    }
}

pub fn read(text: &[u8]) -> Result<Sheet, Refusal> {
    read_at(CURRENT, text, None)
}

/// What is judged before anything is read: the length, then the lent output and cells.
pub fn judge_lent(width: Width, text: &[u8], output: usize, cells: usize) -> Result<(), Refusal> {
    let judged = [
        (20, text.len() > LONGEST),
        (17, output < width.output_needed()),
        (11, cells < CELLS),
    ];
    let first = judged.into_iter().find(|(_, met)| *met);
    first.map_or(Ok(()), |(number, _)| Err(Refusal { number, line: 0 }))
}

pub fn read_at(width: Width, text: &[u8], mistake: Option<Mistake>) -> Result<Sheet, Refusal> {
    judge_lent(width, text, width.output_needed(), CELLS)?;
    let mut lines = lines(text).into_iter().enumerate();
    let at = |line: usize| {
        move |number: u8| Refusal {
            number,
            line: line + 1,
        }
    };
    let first = lines.next().map_or(Err(22), |(_, line)| digits(line));
    let mut sheet = first
        .and_then(|bytes| head(width, &bytes, mistake))
        .map_err(at(0))?;
    let tree = Tree::new(&sheet.plan);
    for (place, line) in lines {
        let bytes = digits(line).map_err(at(place))?;
        let (slot, values) = frame(&sheet, &tree, &bytes).ok_or(24).map_err(at(place))?;
        sheet.frames.insert(slot, values.to_vec());
    }
    Ok(sheet)
}

/// The lines with their newlines; text after the last newline is a line too.
fn lines(text: &[u8]) -> Vec<&[u8]> {
    text.split_inclusive(|c| *c == b'\n').collect()
}

/// The bytes of a line, or 21.
fn digits(line: &[u8]) -> Result<Vec<u8>, u8> {
    let line = line.strip_suffix(b"\n").ok_or(21)?;
    if line.len() % 2 != 0 {
        return Err(21);
    }
    line.chunks(2)
        .map(|pair| Ok(digit(pair[0])? * 16 + digit(pair[1])?))
        .collect()
}

fn digit(c: u8) -> Result<u8, u8> {
    match c {
        b'0'..=b'9' => Ok(c - b'0'),
        b'A'..=b'F' => Ok(c - b'A' + 10),
        _ => Err(21),
    }
}

/// The head: n, m, the default, d, b, the dealer's value, s, the sets, F.
fn head(width: Width, bytes: &[u8], mistake: Option<Mistake>) -> Result<Sheet, u8> {
    let at = width.head();
    let count = *bytes.get(at.count).ok_or(22)?;
    if bytes.len() != width.head_length(count as usize) {
        return Err(22);
    }
    let swapped = mistake == Some(Mistake::HeadLowByteFirst);
    let number = |place: usize| match width.number_at(bytes, place) {
        number if swapped => number.swap_bytes(),
        number => number,
    };
    let (faulty, value) = (bytes[bytes.len() - 1], number(at.value));
    let plan = Plan {
        n: bytes[0],
        sets: bytes[at.sets..bytes.len() - 1].to_vec(),
        dealer: bytes[at.dealer],
        span: number(at.span),
        default: number(at.default),
        depth: bytes[at.depth],
    };
    if let Some(number) = plan.refusal_with(mistake) {
        return Err(number);
    }
    let untolerated = faulty & !all(plan.n) != 0 || plan.place_with(faulty, mistake).is_none();
    if untolerated && mistake == Some(Mistake::FaultyBeforeValue) {
        return Err(23);
    }
    if value >= plan.span {
        return Err(18);
    }
    if untolerated {
        return Err(23);
    }
    Ok(Sheet {
        width,
        plan,
        value,
        faulty,
        frames: BTreeMap::new(),
    })
}

/// A frame line's slot and the bytes of its values, or nothing if it meets 24.
fn frame<'a>(sheet: &Sheet, tree: &Tree, bytes: &'a [u8]) -> Option<(Slot, &'a [u8])> {
    if bytes.len() < 4 {
        return None;
    }
    let (run, round, sender, receiver) = (bytes[0], bytes[1], bytes[2], bytes[3]);
    let slot = Slot {
        run,
        round,
        sender,
        receiver,
    };
    let rising = sheet
        .frames
        .last_key_value()
        .is_none_or(|(before, _)| *before < slot);
    let boards = has(sheet.faulty, sender) && !has(sheet.faulty, receiver);
    let due = tree.due(run as usize, round as usize, sender, receiver);
    (rising && boards && due).then(|| (slot, &bytes[4..]))
}

impl Sheet {
    /// The head's bytes.
    pub fn head(&self) -> Vec<u8> {
        let (p, width) = (&self.plan, self.width);
        let mut bytes = vec![p.n];
        bytes.extend(width.encode(&[p.span, p.default]));
        bytes.extend([p.dealer, p.depth]);
        bytes.extend(width.encode(&[self.value]));
        bytes.push(p.sets.len() as u8);
        bytes.extend(&p.sets);
        bytes.push(self.faulty);
        bytes
    }

    /// Changes every value of every frame; one of an odd length has none.
    pub fn change_values(&mut self, change: impl Fn(Value) -> Value) {
        for frame in self.frames.values_mut() {
            let values: Vec<Value> = self.width.decode(frame).into_iter().map(&change).collect();
            let written = self.width.encode(&values);
            frame[..written.len()].copy_from_slice(&written);
        }
    }

    /// The lines as bytes, the head first.
    pub fn lines(&self) -> Vec<Vec<u8>> {
        let mut lines = vec![self.head()];
        for (slot, values) in &self.frames {
            let mut line = vec![slot.run, slot.round, slot.sender, slot.receiver];
            line.extend(values);
            lines.push(line);
        }
        lines
    }

    pub fn write(&self) -> Vec<u8> {
        write(&self.lines())
    }
}

/// A sheet with s = 00, good or not, with the one set 00 in its stead; nothing for others and if that is too long.
pub fn with_set_00(text: &[u8]) -> Option<Vec<u8>> {
    let at = 2 * CURRENT.head().count;
    let no_sets = text.get(at..at + 2)? == b"00" && !text[..at].contains(&b'\n');
    let longer = [&text[..at], b"0100", &text[at + 2..]].concat();
    (no_sets && longer.len() <= LONGEST).then_some(longer)
}

/// Lines as hexadecimal text.
pub fn write(lines: &[Vec<u8>]) -> Vec<u8> {
    let mut text = String::new();
    for line in lines {
        line.iter().for_each(|byte| text += &format!("{byte:02X}"));
        text.push('\n');
    }
    text.into_bytes()
}
