//! The four answers, their two orders, and every operator.

use crate::refusals::{refuse, Refusal, VALUE};
use Answer::{Bury, Clash, Keep, Silent};

/// Ordered by their numbers; the orders that mean something are `contained` and `below`.
#[derive(Clone, Copy, PartialEq, Eq, PartialOrd, Ord, Debug)]
pub enum Answer {
    Silent,
    Bury,
    Keep,
    Clash,
}

pub const ALL: [Answer; 4] = [Silent, Bury, Keep, Clash];

impl Answer {
    pub fn number(self) -> u8 {
        self as u8
    }

    /// The answer with this number; none above 3.
    pub fn from_number(number: u8) -> Option<Answer> {
        ALL.get(usize::from(number)).copied()
    }
}

/// The information order: silent is in everything, everything is in clash.
pub fn contained(p: Answer, q: Answer) -> bool {
    p == q || p == Silent || q == Clash
}

/// The truth order: bury is least, keep greatest, silent and clash lie between and are unrelated.
pub fn below(p: Answer, q: Answer) -> bool {
    p == q || p == Bury || q == Keep
}

type Order = fn(Answer, Answer) -> bool;

/// The greatest answer that is under both.
fn greatest(order: Order, p: Answer, q: Answer) -> Answer {
    let under = |a: Answer| order(a, p) && order(a, q);
    ALL.into_iter().find(|&a| under(a) && ALL.into_iter().all(|b| !under(b) || order(b, a))).expect("both orders are lattices")
}

/// The least answer that is over both.
fn least(order: Order, p: Answer, q: Answer) -> Answer {
    let over = |a: Answer| order(p, a) && order(q, a);
    ALL.into_iter().find(|&a| over(a) && ALL.into_iter().all(|b| !over(b) || order(a, b))).expect("both orders are lattices")
}

pub fn meet(p: Answer, q: Answer) -> Answer {
    greatest(contained, p, q)
}

pub fn join(p: Answer, q: Answer) -> Answer {
    least(contained, p, q)
}

pub fn truth_meet(p: Answer, q: Answer) -> Answer {
    greatest(below, p, q)
}

pub fn truth_join(p: Answer, q: Answer) -> Answer {
    least(below, p, q)
}

pub fn negate(p: Answer) -> Answer {
    match p {
        Bury => Keep,
        Keep => Bury,
        other => other,
    }
}

pub fn turn(p: Answer) -> Answer {
    match p {
        Silent => Bury,
        Bury => Keep,
        Keep => Clash,
        Clash => Silent,
    }
}

pub fn floor(p: Answer) -> Answer {
    match p {
        Silent | Clash => Bury,
        other => other,
    }
}

pub fn ceiling(p: Answer) -> Answer {
    match p {
        Silent | Clash => Keep,
        other => other,
    }
}

fn holds(p: Answer) -> bool {
    p == Keep || p == Clash
}

pub fn implication(p: Answer, q: Answer) -> Answer {
    if holds(p) {
        q
    } else {
        Keep
    }
}

pub fn guard(p: Answer, q: Answer) -> Answer {
    if holds(p) {
        q
    } else {
        Silent
    }
}

pub fn priority(p: Answer, q: Answer) -> Answer {
    if p == Silent {
        q
    } else {
        p
    }
}

pub fn replace(x: Answer, p: Answer, q: Answer) -> Answer {
    if p == x {
        q
    } else {
        p
    }
}

/// Answers given as bytes: the first above 3 is VALUE, its place the index among the operands.
pub fn from_bytes<const N: usize>(operands: [u8; N]) -> Result<[Answer; N], Refusal> {
    match operands.iter().position(|&byte| byte > 3) {
        Some(index) => refuse(VALUE, index),
        None => Ok(operands.map(|byte| ALL[usize::from(byte)])),
    }
}
