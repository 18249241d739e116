//! Situations: one answer per column, 1 to 6 columns; their order in base 4, and merging.

use crate::answers::{join, Answer, ALL};
use crate::refusals::{Refusal, SITUATION};

/// A situation by value. Length and bytes may be anything; the bytes from the length on carry no answer.
#[derive(Clone, Copy, PartialEq, Eq, Debug)]
pub struct Situation {
    pub length: u64,
    pub bytes: [u8; 6],
}

fn situation_refused<T>(place: u64) -> Result<T, Refusal> {
    Err(Refusal { number: SITUATION, place, second: 0 })
}

/// The number of columns: outside 1 to 6 it is SITUATION, and its own place.
pub fn columns(length: u64) -> Result<usize, Refusal> {
    if (1..=6).contains(&length) {
        Ok(length as usize)
    } else {
        situation_refused(length)
    }
}

/// The answers of a situation given as bytes: first its length is judged, then its first answer above 3.
pub fn read(bytes: &[u8]) -> Result<Vec<Answer>, Refusal> {
    columns(bytes.len() as u64)?;
    match bytes.iter().position(|&byte| byte > 3) {
        Some(index) => situation_refused(index as u64),
        None => Ok(bytes.iter().map(|&byte| ALL[usize::from(byte)]).collect()),
    }
}

impl Situation {
    fn answers(&self) -> Result<Vec<Answer>, Refusal> {
        read(&self.bytes[..columns(self.length)?])
    }

    /// The join column by column. What lies beyond the columns stays the first operand's.
    pub fn merge(self, second: Situation) -> Result<Situation, Refusal> {
        let ours = self.answers()?;
        let theirs = second.answers()?;
        if self.length != second.length {
            return situation_refused(second.length);
        }
        let mut merged = self;
        for (byte, (&p, &q)) in merged.bytes.iter_mut().zip(ours.iter().zip(&theirs)) {
            *byte = join(p, q).number();
        }
        Ok(merged)
    }
}

/// The situation with this base-4 number; column 0 is the highest digit.
pub fn from_index(index: usize, columns: usize) -> Vec<Answer> {
    (0..columns).map(|column| ALL[index / 4usize.pow((columns - 1 - column) as u32) % 4]).collect()
}

/// All situations of so many columns, in base-4 order.
pub fn all(columns: usize) -> Vec<Vec<Answer>> {
    (0..4usize.pow(columns as u32)).map(|number| from_index(number, columns)).collect()
}

/// A situation's base-4 number.
pub fn index(situation: &[Answer]) -> usize {
    situation.iter().fold(0, |index, answer| index * 4 + usize::from(answer.number()))
}
