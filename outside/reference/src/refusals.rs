//! The numbers a caller gets: what was refused, and where. Numbers 15 and 22 to 27 are unused.

pub const SHORT: u64 = 1;
pub const START: u64 = 2;
pub const TAG: u64 = 3;
pub const LEN: u64 = 4;
pub const VALUE: u64 = 5;
pub const ROWS: u64 = 6;
pub const OVERLAP: u64 = 7;
pub const ROOM: u64 = 8;
pub const NODE: u64 = 9;
pub const COLUMN: u64 = 10;
pub const UNDER: u64 = 11;
pub const DEEP: u64 = 12;
pub const END: u64 = 13;
pub const SITUATION: u64 = 14;
pub const CODE: u64 = 16;
pub const CUT: u64 = 17;
pub const NEST: u64 = 18;
pub const TAIL: u64 = 19;
pub const RISE: u64 = 20;
pub const FACTS: u64 = 21;
pub const WEEK: u64 = 28;

#[derive(Clone, Copy, PartialEq, Eq, Debug)]
pub struct Refusal {
    pub number: u64,
    pub place: u64,
    pub second: u64,
}

pub fn refuse<T>(number: u64, place: usize) -> Result<T, Refusal> {
    Err(Refusal { number, place: place as u64, second: 0 })
}
