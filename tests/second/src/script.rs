//! A script of calls for the program `calls`: blocks of one length, and what it tells after each.

use crate::entry::Entry;
use crate::record::entry_bytes;
use crate::width::{Value, Width};

/// The bytes of a block, and where its list of bytes starts.
pub const BLOCK: usize = 512;
pub const START: usize = 16;

/// The cells that the program has.
pub const CELLS: usize = 1957 + 11;

/// The output that the program has: the longest frame, and a surplus.
pub fn out(width: Width) -> usize {
    120 * width.bytes() + 8
}

/// The bytes that a block has for its numbers: the most are those of a plan.
fn room_for_numbers(width: Width) -> usize {
    3 + 2 * width.bytes()
}

/// A call, or a change that no call makes.
#[derive(Clone, Debug, PartialEq, Eq)]
pub enum Act {
    /// A void record; all cells hold this number, all output this byte.
    Start(Value, u8),
    /// A plan for the record: n, dealer, span, default, depth; the sets.
    Plan([Value; 5], Vec<u8>),
    /// On the record's plan.
    Begin(u8),
    /// A sender and the bytes of its frame.
    Receive(u8, Vec<u8>),
    Send,
    Close,
    /// Closing over a lent record.
    CloseLent,
    Decide,
    /// On the record's plan.
    Deal(Value),
    /// A field of the record, and an entry.
    ChangeRecord(u8, Value),
    ChangeEntry(u8, Option<Entry>),
    /// Cells from a place on.
    ChangeCells(usize, Vec<Value>),
}

impl Act {
    /// The names of the calls, by kind.
    pub const CALLS: [&'static str; 9] = [
        "start",
        "plan",
        "begin",
        "receive",
        "send",
        "close",
        "close lent",
        "decide",
        "deal",
    ];

    /// What a block has first.
    pub fn kind(&self) -> u8 {
        match self {
            Act::Start(..) => 0,
            Act::Plan(..) => 1,
            Act::Begin(..) => 2,
            Act::Receive(..) => 3,
            Act::Send => 4,
            Act::Close => 5,
            Act::CloseLent => 6,
            Act::Decide => 7,
            Act::Deal(..) => 8,
            Act::ChangeRecord(..) => 9,
            Act::ChangeEntry(..) => 10,
            Act::ChangeCells(..) => 11,
        }
    }

    /// Its numbers: span, default, a value and the contents of a cell or of a field as values, others as bytes.
    fn numbers(&self, width: Width) -> Vec<u8> {
        let value = |value: &Value| width.encode(&[*value]);
        match self {
            Act::Start(cell, byte) => [value(cell), vec![*byte]].concat(),
            Act::Plan([n, dealer, span, default, depth], _) => {
                let [n, dealer, depth] = [n, dealer, depth].map(|number| *number as u8);
                [vec![n, dealer], value(span), value(default), vec![depth]].concat()
            }
            Act::Begin(number) | Act::Receive(number, _) => vec![*number],
            Act::Deal(dealt) => value(dealt),
            Act::ChangeRecord(field, content) => [vec![*field], value(content)].concat(),
            Act::ChangeEntry(board, entry) => [&[*board], &entry_bytes(*entry)[..]].concat(),
            _ => vec![],
        }
    }

    /// Its list of bytes.
    fn bytes(&self, width: Width) -> Vec<u8> {
        match self {
            Act::Plan(_, bytes) | Act::Receive(_, bytes) => bytes.clone(),
            Act::ChangeCells(_, values) => width.encode(values),
            _ => vec![],
        }
    }
}

#[derive(Clone, Debug, PartialEq, Eq)]
pub struct Step {
    pub act: Act,
    /// The cells that are lent, those that are told, and the output that is lent.
    pub lent: usize,
    pub shown: usize,
    pub room: usize,
}

impl Step {
    /// Kind and numbers; then the cells that are lent or where a change starts, those that are told, the output that is
    /// lent, and the length of the list; then the list.
    pub fn block(&self, width: Width) -> [u8; BLOCK] {
        let mut block = [0; BLOCK];
        let mut put = |at: usize, bytes: &[u8]| block[at..at + bytes.len()].copy_from_slice(bytes);
        let lent = match self.act {
            Act::ChangeCells(place, _) => place,
            _ => self.lent,
        };
        let pair = |number: usize| (number as u16).to_be_bytes();
        let bytes = self.act.bytes(width);
        let sizes = 1 + room_for_numbers(width);
        put(0, &[self.act.kind()]);
        put(1, &self.act.numbers(width));
        put(sizes, &pair(lent));
        put(sizes + 2, &pair(self.shown));
        put(sizes + 4, &[self.room as u8]);
        put(sizes + 5, &pair(bytes.len()));
        put(START, &bytes);
        block
    }
}
