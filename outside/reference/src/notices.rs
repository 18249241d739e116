//! Notices: facts with strictly rising numbers, each a number and a value.

use crate::refusals::{refuse, Refusal, FACTS, LEN, RISE, SHORT, TAG};

#[derive(Clone, Copy, PartialEq, Eq, Debug)]
pub struct Fact {
    pub number: u16,
    pub value: u32,
}

const MOST_FACTS: usize = 32;

pub fn read(notice: &[u8]) -> Result<Vec<Fact>, Refusal> {
    let mut facts: Vec<Fact> = Vec::new();
    let mut at = 0;
    while at < notice.len() {
        let fact = field(notice, at, facts.len())?;
        if facts.last().is_some_and(|last| fact.number <= last.number) {
            return refuse(RISE, at);
        }
        facts.push(fact);
        at += 9;
    }
    Ok(facts)
}

/// The fact at this offset, all that comes before RISE being judged.
fn field(notice: &[u8], at: usize, read: usize) -> Result<Fact, Refusal> {
    let left = &notice[at..];
    if left.len() < 3 {
        return refuse(SHORT, at);
    }
    if left[0] != 16 {
        return refuse(TAG, at);
    }
    if read == MOST_FACTS {
        return refuse(FACTS, at);
    }
    if left[1..3] != [0, 6] {
        return refuse(LEN, at);
    }
    match left[3..] {
        [n1, n0, v3, v2, v1, v0, ..] => {
            Ok(Fact { number: u16::from_be_bytes([n1, n0]), value: u32::from_be_bytes([v3, v2, v1, v0]) })
        }
        _ => refuse(SHORT, at),
    }
}

/// The value of a fact, if the notice has it.
pub fn look_up(facts: &[Fact], number: u16) -> Option<u32> {
    facts.iter().find(|fact| fact.number == number).map(|fact| fact.value)
}
