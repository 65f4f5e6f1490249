//! What is printed for a healthy board.

use crate::plan::Set;
use crate::width::{Value, Width};

#[derive(Clone, Debug, PartialEq, Eq)]
pub struct Line {
    pub board: u8,
    pub decision: Value,
    pub list: Set,
    /// The place of the list; there always is one, but for a mistake.
    pub place: Option<usize>,
}

impl Line {
    /// Board, decision, list and place; FF for a list without a place.
    pub fn print(&self, width: Width) -> String {
        let place = self.place.unwrap_or(0xFF);
        let (board, decision, list) = (self.board, self.decision, self.list);
        let digits = 2 * width.bytes();
        format!("{board:02X}{decision:0digits$X}{list:02X}{place:02X}\n")
    }

    /// Whether the board lists somebody.
    pub fn lists(&self) -> bool {
        self.list != 0
    }
}
