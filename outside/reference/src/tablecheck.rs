//! The text of the program tablecheck for a standard input.

use crate::compile::compile;
use crate::growth;
use crate::refusals::Refusal;

const JUDGED: usize = 1024;
const ROOM: usize = 4223;

pub fn text(input: &[u8]) -> String {
    let judged = &input[..input.len().min(JUDGED)];
    lines(judged).unwrap_or_else(|refusal| format!("refused {} {} {}\n", refusal.number, refusal.place, refusal.second))
}

fn lines(table: &[u8]) -> Result<String, Refusal> {
    let mut lent = [0; ROOM];
    let compiled = compile(table, &mut lent)?;
    let growth = match growth::check(&lent[..compiled.nodes], compiled.columns as u64)? {
        None => "yes".to_string(),
        Some(step) => {
            let situation: String = step.situation.iter().map(|answer| format!("{} ", answer.number())).collect();
            format!("no {}column {} to {}", situation, step.column, step.answer.number())
        }
    };
    Ok(format!("columns {}\nrows {}\nnodes {}\ngrowth {}\n", compiled.columns, compiled.rows, compiled.nodes, growth))
}
