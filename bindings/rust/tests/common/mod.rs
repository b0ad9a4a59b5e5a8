//! What the tests share.

use mezhukan::{LineEntry, Refusal, Slowest};

pub const SHEET: &[u8] = b"1,2,3,4,5,6,7,8,9,10,11,12,13,14,15,16,17,18,19,20,21,22,23,24,25,26,27,1,2,3,4,5,6\n";
/// How much longer than its limit an output is lent.
pub const MORE: usize = 7;

pub fn entry(offset: u16, line: u16, column: u16) -> LineEntry {
    LineEntry { offset, line, column }
}

pub fn refusal(number: u8, place: u64) -> Refusal {
    Refusal { number, place }
}

pub fn run(count: u64, outcomes: &[bool]) -> Slowest {
    Slowest::Run { count, outcomes: outcomes.to_vec() }
}
