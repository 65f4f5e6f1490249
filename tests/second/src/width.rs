//! How values are written: in one byte, or in two with the high byte first.

use crate::mistake::Mistake;

/// A value, or what a cell holds.
pub type Value = u16;

#[derive(Clone, Copy, Debug, PartialEq, Eq)]
pub enum Width {
    One,
    Two,
}

/// The width that the programs use.
pub const CURRENT: Width = Width::Two;

/// Where the numbers of a head start, in bytes. n stands at 0, F after the sets.
#[derive(Clone, Copy, Debug, PartialEq, Eq)]
pub struct Head {
    pub span: usize,
    pub default: usize,
    pub dealer: usize,
    pub depth: usize,
    pub value: usize,
    pub count: usize,
    pub sets: usize,
}

impl Width {
    pub const BOTH: [Width; 2] = [Width::One, Width::Two];

    /// The bytes of a value.
    pub fn bytes(self) -> usize {
        match self {
            Width::One => 1,
            Width::Two => 2,
        }
    }

    /// The mark of a cell without a value. It is the largest number, so no span is above it.
    pub fn blank(self) -> Value {
        match self {
            Width::One => 0xFF,
            Width::Two => 0xFFFF,
        }
    }

    /// The mark with the mistake, if it is one about this.
    pub fn blank_with(self, mistake: Option<Mistake>) -> Value {
        match mistake {
            Some(Mistake::MarkFF) => 0xFF,
            _ => self.blank(),
        }
    }

    /// A number so much larger, or the largest one.
    pub fn raise(self, value: Value, by: Value) -> Value {
        value.saturating_add(by).min(self.blank())
    }

    /// The bytes of values.
    pub fn encode(self, values: &[Value]) -> Vec<u8> {
        let bytes = |value: &Value| {
            let [high, low] = value.to_be_bytes();
            match self {
                Width::One => vec![low],
                Width::Two => vec![high, low],
            }
        };
        values.iter().flat_map(bytes).collect()
    }

    /// The values of bytes: none if their number is odd and a value has two.
    pub fn decode(self, bytes: &[u8]) -> Vec<Value> {
        match self {
            Width::One => bytes.iter().map(|byte| (*byte).into()).collect(),
            Width::Two if bytes.len() % 2 != 0 => vec![],
            Width::Two => {
                let number = |pair: &[u8]| Value::from_be_bytes([pair[0], pair[1]]);
                bytes.chunks(2).map(number).collect()
            }
        }
    }

    /// A frame of values, written with the mistake if it is one about this.
    pub fn encode_with(self, values: &[Value], mistake: Option<Mistake>) -> Vec<u8> {
        match mistake {
            Some(Mistake::LowByteFirst) => self.encode(&swapped(values)),
            Some(Mistake::FrameOf121) => {
                let mut frame = self.encode(values);
                frame.truncate(121);
                frame
            }
            _ => self.encode(values),
        }
    }

    /// The values of a frame, read with the mistake if it is one about this.
    pub fn decode_with(self, frame: &[u8], mistake: Option<Mistake>) -> Vec<Value> {
        match mistake {
            Some(Mistake::LowByteFirst) => swapped(&self.decode(frame)),
            Some(Mistake::OddRoundedDown) => {
                let whole = frame.len() / self.bytes() * self.bytes();
                self.decode(&frame[..whole])
            }
            Some(Mistake::OddFilled) => {
                let mut whole = frame.to_vec();
                whole.resize(frame.len().next_multiple_of(self.bytes()), 0);
                self.decode(&whole)
            }
            _ => self.decode(frame),
        }
    }

    /// The number that starts at a place.
    pub fn number_at(self, bytes: &[u8], place: usize) -> Value {
        self.decode(&bytes[place..place + self.bytes()])[0]
    }

    /// Puts a number at a place.
    pub fn put_number(self, bytes: &mut [u8], place: usize, number: Value) {
        let written = self.encode(&[number]);
        bytes[place..place + self.bytes()].copy_from_slice(&written);
    }

    /// The places of a head: n, m, the default, d, b, the dealer's value, s, the sets, F.
    pub fn head(self) -> Head {
        let (span, wide) = (1, self.bytes());
        let default = span + wide;
        let dealer = default + wide;
        let depth = dealer + 1;
        let value = depth + 1;
        let count = value + wide;
        let sets = count + 1;
        Head {
            span,
            default,
            dealer,
            depth,
            value,
            count,
            sets,
        }
    }

    /// The bytes of a head with so many sets.
    pub fn head_length(self, sets: usize) -> usize {
        self.head().sets + sets + 1
    }

    /// The characters of a printed line: board, decision, list and place, and a newline.
    pub fn line_length(self) -> usize {
        2 * (1 + self.bytes() + 1 + 1) + 1
    }

    /// The output that playing needs: a line for each of seven boards.
    pub fn output_needed(self) -> usize {
        7 * self.line_length()
    }
}

/// The values with their bytes swapped.
fn swapped(values: &[Value]) -> Vec<Value> {
    values.iter().map(|value| value.swap_bytes()).collect()
}
