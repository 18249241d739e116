//! The growth check: does the array's answer only grow as the situation grows?

use crate::answers::{contained, Answer, ALL};
use crate::nodes;
use crate::refusals::Refusal;
use crate::situations::{all, columns, index};

/// A step that fails: in this situation, raising this column to this answer loses something.
#[derive(Clone, PartialEq, Eq, Debug)]
pub struct Step {
    pub situation: Vec<Answer>,
    pub column: usize,
    pub answer: Answer,
}

/// None for yes, the first failing step for no.
pub fn check(nodes: &[u8], number_of_columns: u64) -> Result<Option<Step>, Refusal> {
    let n = columns(number_of_columns)?;
    let situations = all(n);
    let answers = nodes::answers(nodes, &situations)?;
    Ok(situations.iter().find_map(|situation| first_failing(situation, &answers)))
}

fn first_failing(situation: &[Answer], answers: &[Answer]) -> Option<Step> {
    for column in 0..situation.len() {
        for answer in ALL.into_iter().filter(|&answer| raises(situation[column], answer)) {
            let mut raised = situation.to_vec();
            raised[column] = answer;
            if !contained(answers[index(situation)], answers[index(&raised)]) {
                return Some(Step { situation: situation.to_vec(), column, answer });
            }
        }
    }
    None
}

/// The four steps: 0 to 1, 0 to 2, 1 to 3, 2 to 3.
fn raises(old: Answer, new: Answer) -> bool {
    matches!((old.number(), new.number()), (0, 1) | (0, 2) | (1, 3) | (2, 3))
}
