//! A table back from an array of nodes: a row for each situation that is answered.

use crate::answers::Answer;
use crate::nodes;
use crate::refusals::{refuse, Refusal, ROOM, ROWS};
use crate::situations::{all, columns};
use crate::tables::MOST_ROWS;
use crate::valid::table_bytes;

/// 64 rows of six columns.
pub const LONGEST_TABLE_BACK: usize = 644;

/// Writes the table to the front of the lent buffer and says how long it is; a refusal leaves the buffer alone.
pub fn untable(nodes: &[u8], number_of_columns: u64, lent: &mut [u8]) -> Result<usize, Refusal> {
    let n = columns(number_of_columns)?;
    let situations = all(n);
    let answers = nodes::answers(nodes, &situations)?;
    let answered = situations.iter().zip(answers).filter(|&(_, answer)| answer != Answer::Silent);
    let rows: Vec<Vec<u8>> = answered.map(|(cells, outcome)| row(cells, outcome)).collect();
    if rows.len() > MOST_ROWS {
        return refuse(ROWS, rows.len());
    }
    let table = table_bytes(n as u8, &rows);
    match lent.get_mut(..table.len()) {
        Some(front) => front.copy_from_slice(&table),
        None => return refuse(ROOM, table.len()),
    }
    Ok(table.len())
}

fn row(cells: &[Answer], outcome: Answer) -> Vec<u8> {
    cells.iter().chain([&outcome]).map(|answer| answer.number()).collect()
}
