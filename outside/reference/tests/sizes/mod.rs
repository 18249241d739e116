//! The number of nodes of a table by the sizes that the document prints.

use reference::answers::Answer;
use reference::tables::{Row, Table};

pub fn size(table: &Table) -> usize {
    let default_rows = table.default_rows();
    let rows = table.rows.iter().filter(|row| row.outcome != Answer::Silent).chain(&default_rows);
    operators_and(rows.map(row_size))
}

fn row_size(row: &Row) -> usize {
    operators_and(row.cells.iter().flatten().map(|&cell| selector_size(cell, row.outcome)))
}

/// Parts with one operator fewer than parts between them; no part is one constant.
fn operators_and(parts: impl Iterator<Item = usize>) -> usize {
    match parts.fold((0, 0), |(sum, parts), part| (sum + part, parts + 1)) {
        (_, 0) => 1,
        (sum, parts) => sum + parts - 1,
    }
}

fn selector_size(cell: Answer, outcome: Answer) -> usize {
    let k = 3 - usize::from(cell.number());
    match outcome {
        Answer::Clash => 4 + 2 * k,
        Answer::Bury => 1 + k + 1 + (k + 3) % 4 + 2,
        _ => 1 + k + 1 + (k + 3) % 4 + 1,
    }
}
