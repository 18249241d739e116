//! Table bytes: fields read from the front, then the search for two rows that disagree. And what a table says.

use crate::answers::{Answer, ALL};
use crate::refusals::{refuse, Refusal, LEN, OVERLAP, ROWS, SHORT, START, TAG, VALUE};
use crate::situations::all;

/// A cell is an answer, or none for any.
#[derive(Clone, PartialEq, Eq, Debug)]
pub struct Row {
    pub cells: Vec<Option<Answer>>,
    pub outcome: Answer,
}

#[derive(Clone, PartialEq, Eq, Debug)]
pub struct Table {
    pub columns: usize,
    /// Silent where no field says another one.
    pub default: Answer,
    /// The rows that are written.
    pub rows: Vec<Row>,
}

pub const MOST_ROWS: usize = 64;

/// The only offset at which a default may stand: directly after the columns field.
const DEFAULT_AT: usize = 4;

#[derive(Clone, Copy)]
enum Field {
    Columns,
    Default,
    Row,
}

/// Reads and judges a table; what is left to ask is whether there is room for its nodes.
pub fn read(bytes: &[u8]) -> Result<Table, Refusal> {
    let table = read_fields(bytes)?;
    match table.disagreement() {
        Some((later, earlier)) => Err(Refusal { number: OVERLAP, place: later as u64, second: earlier as u64 }),
        None => Ok(table),
    }
}

fn read_fields(bytes: &[u8]) -> Result<Table, Refusal> {
    if bytes.is_empty() {
        return refuse(START, 0);
    }
    let mut table = Table { columns: 0, default: Answer::Silent, rows: Vec::new() };
    let mut at = 0;
    while at < bytes.len() {
        let (field, value) = field(bytes, at, &table)?;
        let start = at + 3;
        match field {
            Field::Columns => table.columns = read_columns(value, start)?,
            Field::Default => table.default = read_answer(value[0], start)?,
            Field::Row => table.rows.push(read_row(value, start)?),
        }
        at = start + value.len();
    }
    Ok(table)
}

/// The field at this offset and its value, all that comes before VALUE being judged.
fn field<'a>(bytes: &'a [u8], at: usize, table: &Table) -> Result<(Field, &'a [u8]), Refusal> {
    let left = &bytes[at..];
    if left.len() < 3 {
        return refuse(SHORT, at);
    }
    let field = match (at, left[0]) {
        (0, 1) => Field::Columns,
        (0, _) => return refuse(START, at),
        (DEFAULT_AT, 3) => Field::Default,
        (_, 2) => Field::Row,
        _ => return refuse(TAG, at),
    };
    if table.rows.len() == MOST_ROWS {
        return refuse(ROWS, at);
    }
    let length = usize::from(u16::from_be_bytes([left[1], left[2]]));
    let wanted = match field {
        Field::Columns | Field::Default => 1,
        Field::Row => table.columns + 1,
    };
    if length != wanted {
        return refuse(LEN, at);
    }
    match left.get(3..3 + length) {
        Some(value) => Ok((field, value)),
        None => refuse(SHORT, at),
    }
}

fn read_columns(value: &[u8], start: usize) -> Result<usize, Refusal> {
    match value[0] {
        n @ 1..=6 => Ok(usize::from(n)),
        _ => refuse(VALUE, start),
    }
}

fn read_answer(byte: u8, at: usize) -> Result<Answer, Refusal> {
    match Answer::from_number(byte) {
        Some(answer) => Ok(answer),
        None => refuse(VALUE, at),
    }
}

fn read_row(value: &[u8], start: usize) -> Result<Row, Refusal> {
    let (&outcome, cells) = value.split_last().expect("a row has an outcome");
    if let Some(index) = cells.iter().position(|&cell| cell > 4) {
        return refuse(VALUE, start + index);
    }
    let outcome = read_answer(outcome, start + cells.len())?;
    Ok(Row { cells: cells.iter().map(|&cell| Answer::from_number(cell)).collect(), outcome })
}

impl Row {
    pub fn matches(&self, situation: &[Answer]) -> bool {
        self.cells.iter().zip(situation).all(|(cell, answer)| cell.is_none() || *cell == Some(*answer))
    }

    /// Whether some situation is matched by both rows: in each column one answer must suit both cells.
    fn meets(&self, other: &Row) -> bool {
        let suits = |cell: &Option<Answer>, answer| cell.is_none() || *cell == Some(answer);
        self.cells.iter().zip(&other.cells).all(|(p, q)| ALL.into_iter().any(|answer| suits(p, answer) && suits(q, answer)))
    }
}

impl Table {
    /// The smallest later row that disagrees with an earlier one, and the smallest such earlier row.
    fn disagreement(&self) -> Option<(usize, usize)> {
        for (later, row) in self.rows.iter().enumerate() {
            for (earlier, other) in self.rows[..later].iter().enumerate() {
                if row.outcome != other.outcome && row.meets(other) {
                    return Some((later, earlier));
                }
            }
        }
        None
    }

    /// What the table says: the outcome of a matching row, the default where no row matches.
    pub fn says(&self, situation: &[Answer]) -> Answer {
        self.rows.iter().find(|row| row.matches(situation)).map_or(self.default, |row| row.outcome)
    }

    /// The rows that a default other than silent stands for: each situation that no row matches, in base-4 order.
    pub fn default_rows(&self) -> Vec<Row> {
        if self.default == Answer::Silent {
            return Vec::new();
        }
        let unmatched = all(self.columns).into_iter().filter(|situation| !self.rows.iter().any(|row| row.matches(situation)));
        unmatched.map(|situation| Row { cells: situation.into_iter().map(Some).collect(), outcome: self.default }).collect()
    }
}
