//! From a table to its nodes.

use crate::answers::Answer;
use crate::nodes::{COLUMN_0, JOIN, MEET, NEGATE, TURN};
use crate::refusals::{refuse, Refusal, ROOM};
use crate::tables::{self, Row, Table};

#[derive(Clone, Copy, PartialEq, Eq, Debug)]
pub struct Compiled {
    pub columns: usize,
    pub rows: usize,
    pub nodes: usize,
}

/// Judges a table and writes its nodes to the front of the lent buffer; a refusal leaves the buffer alone.
pub fn compile(bytes: &[u8], lent: &mut [u8]) -> Result<Compiled, Refusal> {
    let table = tables::read(bytes)?;
    let nodes = nodes_of(&table);
    match lent.get_mut(..nodes.len()) {
        Some(front) => front.copy_from_slice(&nodes),
        None => return refuse(ROOM, nodes.len()),
    }
    Ok(Compiled { columns: table.columns, rows: table.rows.len(), nodes: nodes.len() })
}

/// The rows that are not silent, then the default's, joined; the constant 0 where there is none.
pub fn nodes_of(table: &Table) -> Vec<u8> {
    let default_rows = table.default_rows();
    let rows = table.rows.iter().filter(|row| row.outcome != Answer::Silent).chain(&default_rows);
    folded(rows.map(row_nodes), JOIN).unwrap_or_else(|| vec![Answer::Silent.number()])
}

fn row_nodes(row: &Row) -> Vec<u8> {
    let cells = row.cells.iter().enumerate().filter_map(|(column, cell)| cell.map(|answer| (column, answer)));
    let selectors = cells.map(|(column, cell)| selector(column as u8, cell, row.outcome));
    folded(selectors, MEET).unwrap_or_else(|| vec![row.outcome.number()])
}

/// The first part, then each further part followed by the operator.
fn folded(parts: impl Iterator<Item = Vec<u8>>, operator: u8) -> Option<Vec<u8>> {
    parts.reduce(|mut before, part| {
        before.extend(part);
        before.push(operator);
        before
    })
}

/// The outcome where the column answers as the cell, silent elsewhere.
fn selector(column: u8, cell: Answer, outcome: Answer) -> Vec<u8> {
    let k = 3 - usize::from(cell.number());
    let turned = |turns: usize| [vec![COLUMN_0 + column], vec![TURN; turns]].concat();
    match outcome {
        Answer::Keep => [turned(k), turned((k + 3) % 4), vec![MEET]].concat(),
        Answer::Bury => [turned(k), turned((k + 3) % 4), vec![MEET, NEGATE]].concat(),
        Answer::Clash => [turned(k), turned(k), vec![NEGATE, MEET]].concat(),
        Answer::Silent => unreachable!("silent rows are left out"),
    }
}
