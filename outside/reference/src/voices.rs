//! Voices: one policy in prefix form, read in full into a tree, then answered over the facts of a notice. A comparison on a
//! fact that is not there may be true or false, so what comes out is a set of answers.

use crate::answers::{self, Answer};
use crate::notices::{self, look_up, Fact};
use crate::refusals::{refuse, Refusal, CODE, CUT, NEST, TAIL};
use std::collections::BTreeSet;

enum Policy {
    Constant(Answer),
    One(fn(Answer) -> Answer, Box<Policy>),
    Two(fn(Answer, Answer) -> Answer, Box<Policy>, Box<Policy>),
    Replace(Answer, Box<Policy>, Box<Policy>),
    When(Box<Test>, Box<Policy>),
}

enum Test {
    Not(Box<Test>),
    And(Box<Test>, Box<Test>),
    Or(Box<Test>, Box<Test>),
    Equal(u16, u32),
    AtLeast(u16, u32),
    Below(u16, u32),
    Present(u16),
    Answers(Answer, Box<Policy>),
}

/// The answers that a voice may give.
pub type Set = BTreeSet<Answer>;

/// What the voice's column receives: the meet of what the voice may answer.
pub fn speak(notice: &[u8], voice: &[u8]) -> Result<Answer, Refusal> {
    speak_set(notice, voice).map(|set| meet(&set))
}

/// What the voice may answer. The notice is judged before the voice.
pub fn speak_set(notice: &[u8], voice: &[u8]) -> Result<Set, Refusal> {
    let facts = notices::read(notice)?;
    let mut reader = Reader { voice, at: 0 };
    let root = reader.policy(1)?;
    if reader.at < voice.len() {
        return refuse(TAIL, reader.at);
    }
    Ok(root.answers(&facts))
}

pub fn meet(set: &Set) -> Answer {
    set.iter().copied().reduce(answers::meet).expect("a voice has an answer")
}

/// The set as a number: bit a for answer a.
pub fn set_number(set: &Set) -> u8 {
    set.iter().map(|answer| 1 << answer.number()).sum()
}

const DEEPEST: usize = 16;

struct Reader<'a> {
    voice: &'a [u8],
    at: usize,
}

impl Reader<'_> {
    /// The code that stands next, and its offset.
    fn code(&mut self, level: usize) -> Result<(u8, usize), Refusal> {
        let at = self.at;
        if level > DEEPEST {
            return refuse(NEST, at);
        }
        match self.voice.get(at) {
            Some(&code) => {
                self.at += 1;
                Ok((code, at))
            }
            None => refuse(CUT, at),
        }
    }

    /// The bytes that belong to the code at the given offset.
    fn bytes<const N: usize>(&mut self, code: usize) -> Result<[u8; N], Refusal> {
        match self.voice[self.at..].first_chunk::<N>() {
            Some(&bytes) => {
                self.at += N;
                Ok(bytes)
            }
            None => refuse(CUT, code),
        }
    }

    fn comparison(&mut self, code: usize) -> Result<(u16, u32), Refusal> {
        let [n1, n0, v3, v2, v1, v0] = self.bytes(code)?;
        Ok((u16::from_be_bytes([n1, n0]), u32::from_be_bytes([v3, v2, v1, v0])))
    }

    fn policy(&mut self, level: usize) -> Result<Policy, Refusal> {
        let (code, at) = self.code(level)?;
        let answer = |base: u8| answers::ALL[usize::from(code - base)];
        Ok(match code {
            0..=3 => Policy::Constant(answer(0)),
            8 => Policy::One(answers::negate, self.below(level)?),
            9 => Policy::One(answers::floor, self.below(level)?),
            10 => Policy::One(answers::ceiling, self.below(level)?),
            12 => Policy::Two(answers::truth_meet, self.below(level)?, self.below(level)?),
            13 => Policy::Two(answers::truth_join, self.below(level)?, self.below(level)?),
            14 => Policy::Two(answers::meet, self.below(level)?, self.below(level)?),
            15 => Policy::Two(answers::join, self.below(level)?, self.below(level)?),
            16 => Policy::Two(answers::implication, self.below(level)?, self.below(level)?),
            17 => Policy::Two(answers::guard, self.below(level)?, self.below(level)?),
            18 => Policy::Two(answers::priority, self.below(level)?, self.below(level)?),
            20..=23 => Policy::Replace(answer(20), self.below(level)?, self.below(level)?),
            24 => Policy::When(self.test_below(level)?, self.below(level)?),
            _ => return refuse(CODE, at),
        })
    }

    fn test(&mut self, level: usize) -> Result<Test, Refusal> {
        let (code, at) = self.code(level)?;
        Ok(match code {
            40 => Test::Not(self.test_below(level)?),
            41 => Test::And(self.test_below(level)?, self.test_below(level)?),
            42 => Test::Or(self.test_below(level)?, self.test_below(level)?),
            43 => self.comparison(at).map(|(number, value)| Test::Equal(number, value))?,
            44 => self.comparison(at).map(|(number, value)| Test::AtLeast(number, value))?,
            45 => self.comparison(at).map(|(number, value)| Test::Below(number, value))?,
            46 => Test::Present(u16::from_be_bytes(self.bytes(at)?)),
            48..=51 => Test::Answers(answers::ALL[usize::from(code - 48)], self.below(level)?),
            _ => return refuse(CODE, at),
        })
    }

    fn below(&mut self, level: usize) -> Result<Box<Policy>, Refusal> {
        self.policy(level + 1).map(Box::new)
    }

    fn test_below(&mut self, level: usize) -> Result<Box<Test>, Refusal> {
        self.test(level + 1).map(Box::new)
    }
}

/// What comes of each possible operand.
fn each<P: Copy, R: Ord>(operator: impl Fn(P) -> R, p: BTreeSet<P>) -> BTreeSet<R> {
    p.into_iter().map(operator).collect()
}

/// What comes of every pair of possible operands.
fn every_pair<P: Copy, R: Ord>(operator: impl Fn(P, P) -> R, p: BTreeSet<P>, q: BTreeSet<P>) -> BTreeSet<R> {
    p.iter().flat_map(|&p| q.iter().map(move |&q| (p, q))).map(|(p, q)| operator(p, q)).collect()
}

impl Policy {
    fn answers(&self, facts: &[Fact]) -> Set {
        match self {
            Policy::Constant(answer) => Set::from([*answer]),
            Policy::One(operator, p) => each(operator, p.answers(facts)),
            Policy::Two(operator, p, q) => every_pair(operator, p.answers(facts), q.answers(facts)),
            Policy::Replace(x, p, q) => every_pair(|p, q| answers::replace(*x, p, q), p.answers(facts), q.answers(facts)),
            Policy::When(test, p) => {
                let where_it_is = |truth| if truth { p.answers(facts) } else { Set::from([Answer::Silent]) };
                test.truths(facts).into_iter().flat_map(where_it_is).collect()
            }
        }
    }
}

impl Test {
    fn truths(&self, facts: &[Fact]) -> BTreeSet<bool> {
        match self {
            Test::Not(test) => each(|p: bool| !p, test.truths(facts)),
            Test::And(a, b) => every_pair(|p, q| p && q, a.truths(facts), b.truths(facts)),
            Test::Or(a, b) => every_pair(|p, q| p || q, a.truths(facts), b.truths(facts)),
            Test::Equal(number, value) => compared(facts, *number, |found| found == *value),
            Test::AtLeast(number, value) => compared(facts, *number, |found| found >= *value),
            Test::Below(number, value) => compared(facts, *number, |found| found < *value),
            Test::Present(number) => BTreeSet::from([look_up(facts, *number).is_some()]),
            Test::Answers(answer, p) => each(|p: Answer| p == *answer, p.answers(facts)),
        }
    }
}

/// A comparison on an absent fact may be true or false.
fn compared(facts: &[Fact], number: u16, test: impl Fn(u32) -> bool) -> BTreeSet<bool> {
    match look_up(facts, number) {
        Some(found) => BTreeSet::from([test(found)]),
        None => BTreeSet::from([false, true]),
    }
}
