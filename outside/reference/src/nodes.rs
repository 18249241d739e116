//! Arrays of one-byte nodes, and their evaluator with a stack of 16.

use crate::answers::{join, meet, negate, turn, Answer, ALL};
use crate::refusals::{refuse, Refusal, COLUMN, DEEP, END, NODE, UNDER};
use crate::situations;

pub const NEGATE: u8 = 4;
pub const TURN: u8 = 5;
pub const MEET: u8 = 6;
pub const JOIN: u8 = 7;
pub const COLUMN_0: u8 = 16;
const COLUMN_5: u8 = 21;
const STACK: usize = 16;

/// Judges the situation, then runs the nodes.
pub fn evaluate(nodes: &[u8], situation: &[u8]) -> Result<Answer, Refusal> {
    run(nodes, &situations::read(situation)?)
}

pub fn run(nodes: &[u8], situation: &[Answer]) -> Result<Answer, Refusal> {
    let mut stack = Vec::new();
    for (at, &node) in nodes.iter().enumerate() {
        if let Err(number) = step(node, situation, &mut stack) {
            return refuse(number, at);
        }
    }
    match stack[..] {
        [answer] => Ok(answer),
        _ => refuse(END, nodes.len()),
    }
}

/// The answer in each of these situations.
pub fn answers(nodes: &[u8], situations: &[Vec<Answer>]) -> Result<Vec<Answer>, Refusal> {
    situations.iter().map(|situation| run(nodes, situation)).collect()
}

/// One node, or the number of its refusal.
fn step(node: u8, situation: &[Answer], stack: &mut Vec<Answer>) -> Result<(), u64> {
    match node {
        0..=3 => push(stack, ALL[usize::from(node)]),
        NEGATE => one(stack, negate),
        TURN => one(stack, turn),
        MEET => two(stack, meet),
        JOIN => two(stack, join),
        COLUMN_0..=COLUMN_5 => match situation.get(usize::from(node - COLUMN_0)) {
            Some(&answer) => push(stack, answer),
            None => Err(COLUMN),
        },
        _ => Err(NODE),
    }
}

fn push(stack: &mut Vec<Answer>, answer: Answer) -> Result<(), u64> {
    if stack.len() == STACK {
        return Err(DEEP);
    }
    stack.push(answer);
    Ok(())
}

fn one(stack: &mut Vec<Answer>, operator: fn(Answer) -> Answer) -> Result<(), u64> {
    let top = stack.last_mut().ok_or(UNDER)?;
    *top = operator(*top);
    Ok(())
}

fn two(stack: &mut Vec<Answer>, operator: fn(Answer, Answer) -> Answer) -> Result<(), u64> {
    if stack.len() < 2 {
        return Err(UNDER);
    }
    let q = stack.pop().ok_or(UNDER)?;
    let p = stack.pop().ok_or(UNDER)?;
    stack.push(operator(p, q));
    Ok(())
}
