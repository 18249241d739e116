//! Calls for a table back that are named one by one: every refusal with its place, and which of two comes first; no rows, one row,
//! 64 rows and 65 in every number of columns; rooms around the need; tables with any, silent rows and a default, compiled and given
//! back, and what was given back compiled and given back again.

use crate::calls::hex;
use crate::compile::nodes_of;
use crate::listed::{laptop, largest};
use crate::tables;
use crate::untable::{untable, LONGEST_TABLE_BACK as LONGEST};
use crate::valid::{rows_beside, table_bytes, with_default};

pub fn calls() -> Vec<String> {
    [
        column_counts(),
        refusals(),
        full_stacks(),
        single_nodes(),
        constants(),
        one_row(),
        each_column(),
        numbers_of_rows(),
        rooms_of_the_laptop(),
        chains(),
        limits(),
    ]
    .concat()
}

fn back(nodes: &[u8], columns: u64, room: usize) -> String {
    format!("untable {} {columns} {room}", hex(nodes))
}

fn compiled(table: &[u8]) -> Vec<u8> {
    nodes_of(&tables::read(table).expect("a lawful table"))
}

/// The table that an array gives back, none where it needs more than 64 rows.
fn given_back(nodes: &[u8], columns: usize) -> Option<Vec<u8>> {
    let mut lent = [0; LONGEST];
    untable(nodes, columns as u64, &mut lent).ok().map(|length| lent[..length].to_vec())
}

/// With one byte of room too few, just enough, and one more.
fn rooms(nodes: &[u8], columns: usize) -> [String; 3] {
    let needed = given_back(nodes, columns).expect("at most 64 rows").len();
    [needed - 1, needed, needed + 1].map(|room| back(nodes, columns as u64, room))
}

fn all_situations(columns: usize) -> Vec<Vec<u8>> {
    (0..1usize << (2 * columns))
        .map(|number| (0..columns).rev().map(|digit| (number >> (2 * digit) & 3) as u8).collect())
        .collect()
}

/// A row for each of these situations, the outcomes 1, 2, 3 in turn.
fn rows_of(situations: &[Vec<u8>]) -> Vec<Vec<u8>> {
    situations.iter().zip([1, 2, 3].into_iter().cycle()).map(|(cells, outcome)| [&cells[..], &[outcome]].concat()).collect()
}

/// The whole number is judged, before the nodes.
fn column_counts() -> Vec<String> {
    let mut calls = Vec::new();
    for columns in [0, 1, 2, 3, 4, 5, 6, 7, 8, 255, 256, 257, 1 << 32, (1 << 32) + 2, 1 << 63, (1 << 63) + 6, u64::MAX] {
        for nodes in [&[0u8][..], &[], &[99], &[16 + 5], &[16, 0, 6], &[3]] {
            calls.extend([0, 20].map(|room| back(nodes, columns, room)));
        }
    }
    calls
}

/// The evaluator's refusals, in every number of columns; they come before ROWS and ROOM.
fn refusals() -> Vec<String> {
    let arrays: [&[u8]; 20] = [
        // END: none left, more than one left
        &[],
        &[0, 1],
        &[16, 3, 2],
        &[16; 16],
        // UNDER at the start and later
        &[4],
        &[5, 0],
        &[6],
        &[0, 7],
        &[3, 1, 7, 7],
        &[16, 1, 2, 7, 7, 7],
        // NODE, behind what would need many rows too
        &[8],
        &[3, 8],
        &[3, 4, 5, 255],
        &[16, 22],
        &[16, 15, 4],
        &[3, 99, 6, 21],
        // COLUMN and DEEP
        &[21],
        &[16, 20, 7],
        &[18; 17],
        &[3; 17],
    ];
    let mut calls = Vec::new();
    for nodes in arrays {
        for columns in 1..=6 {
            calls.extend([0, LONGEST].map(|room| back(nodes, columns, room)));
        }
    }
    // each column in each number of columns
    for columns in 1..=6 {
        calls.extend((16..=22).map(|node| back(&[node, 0, 6], columns, 10)));
    }
    calls
}

/// Each kind of byte onto a full stack: a column not below n is COLUMN there, another byte NODE. And stacks that are just full.
fn full_stacks() -> Vec<String> {
    let mut calls = Vec::new();
    for node in [0, 1, 2, 3, 4, 5, 6, 7, 8, 15, 16, 17, 21, 22, 255] {
        calls.push(back(&[vec![16; 16], vec![node]].concat(), 1, 24));
        calls.push(back(&[vec![16; 16], vec![node], vec![6; 15]].concat(), 1, 24));
    }
    for columns in 1..=6u8 {
        let pushed: Vec<u8> = (0..16).map(|at| 16 + at % columns).collect();
        for operator in [6, 7] {
            calls.push(back(&[&pushed[..], &[operator; 15]].concat(), columns.into(), 400));
        }
    }
    calls
}

/// Every node and some bytes that are none, alone, above one answer and above two.
fn single_nodes() -> Vec<String> {
    let mut calls = Vec::new();
    for node in (0..=24).chain([32, 48, 64, 127, 128, 144, 255]) {
        calls.push(back(&[node], 1, 24));
        calls.push(back(&[16, node], 1, 24));
        calls.push(back(&[16, 17, node], 2, 100));
    }
    calls
}

/// The same answer everywhere, and nowhere: no rows are four bytes, and from four columns on a constant is ROWS.
fn constants() -> Vec<String> {
    let mut calls = Vec::new();
    for columns in 1..=6 {
        for room in [0, 3, 4, 5, LONGEST] {
            calls.push(back(&[0], columns, room));
            calls.push(back(&[15 + columns as u8, 0, 6], columns, room));
        }
        for answer in 1..=3 {
            calls.extend([0, 23, 24, 99, 100, 451, 452, LONGEST].map(|room| back(&[answer], columns, room)));
        }
    }
    calls
}

/// One situation, with each outcome; in up to two columns each situation.
fn one_row() -> Vec<String> {
    let mut calls = Vec::new();
    for columns in 1..=6 {
        let every = [1, 1, 1, 3, 17, 67, 269][columns];
        for cells in all_situations(columns).iter().step_by(every) {
            for outcome in 0..=3 {
                let nodes = compiled(&table_bytes(columns as u8, &[[&cells[..], &[outcome]].concat()]));
                calls.push(back(&nodes, columns as u64, 8 + columns));
            }
        }
    }
    calls
}

/// One column's answer, turned and negated, alone or beside others; in three columns and fewer.
fn each_column() -> Vec<String> {
    let mut calls = Vec::new();
    for columns in 1..=3u8 {
        for column in 0..columns {
            for turns in 0..4 {
                let turned = [vec![16 + column], vec![5; turns]].concat();
                calls.push(back(&turned, columns.into(), LONGEST));
                calls.push(back(&[turned.clone(), vec![4]].concat(), columns.into(), LONGEST));
                for other in 0..columns {
                    calls.push(back(&[turned.clone(), vec![16 + other, 6]].concat(), columns.into(), LONGEST));
                    calls.push(back(&[turned.clone(), vec![16 + other, 4, 7]].concat(), columns.into(), LONGEST));
                }
            }
        }
    }
    calls
}

/// About 64 rows, and many more: the first situations, the last, and some that are spread.
fn numbers_of_rows() -> Vec<String> {
    let mut calls = Vec::new();
    for columns in 3..=6 {
        let all = all_situations(columns);
        let spread: Vec<Vec<u8>> = all.iter().step_by(all.len() / 64).cloned().collect();
        for chosen in [&all[..64], &all[all.len() - 64..], &spread] {
            for rows in [2, 17, 63, 64] {
                calls.extend(rooms(&compiled(&table_bytes(columns as u8, &rows_of(&chosen[..rows]))), columns));
            }
        }
    }
    for columns in 4..=6 {
        // three columns any are 64 situations; one more row is one more situation, four with any, sixteen with two of them
        let wide = [&[2u8, 1, 3][..columns - 3], &[4, 4, 4], &[1]].concat();
        calls.extend(rooms(&compiled(&table_bytes(columns as u8, &[wide.clone()])), columns));
        for any in 0..columns {
            let more = [vec![0; columns - any], vec![4; any], vec![2]].concat();
            let nodes = compiled(&table_bytes(columns as u8, &[wide.clone(), more]));
            calls.extend([0, LONGEST, 4300].map(|room| back(&nodes, columns as u64, room)));
        }
        // every situation, and every situation but those at which the last column is silent
        for nodes in [&[3][..], &[15 + columns as u8], &[16, 5, 5, 5], &[16, 17, 6, 4], &[18, 19, 7, 5]] {
            calls.extend([0, LONGEST].map(|room| back(nodes, columns as u64, room)));
        }
    }
    calls
}

fn rooms_of_the_laptop() -> Vec<String> {
    let nodes = compiled(&laptop());
    let mut calls: Vec<String> = (0..=100).map(|room| back(&nodes, 2, room)).collect();
    calls.extend((0..=8).map(|columns| back(&nodes, columns, 4300)));
    // cut, and with another byte in its place
    for at in 0..nodes.len() {
        calls.push(back(&nodes[..at], 2, 100));
        let mut changed = nodes.clone();
        changed[at] = [0, 4, 5, 6, 16, 99][at % 6];
        calls.push(back(&changed, 2, 100));
    }
    calls
}

/// A table compiled, given back, compiled again and given back again.
fn chain(table: &[u8]) -> Vec<String> {
    let columns = usize::from(table[3]);
    let nodes = compiled(table);
    let compile = |table: &[u8], nodes: &[u8]| format!("compile {} {}", hex(table), nodes.len());
    let mut calls = vec![compile(table, &nodes), back(&nodes, columns as u64, LONGEST)];
    if let Some(given) = given_back(&nodes, columns) {
        let again = compiled(&given);
        calls.extend([compile(&given, &again), back(&again, columns as u64, given.len()), back(&again, columns as u64, LONGEST)]);
    }
    calls
}

/// Rows with any, silent rows, rows out of order and more than once, and defaults.
fn chains() -> Vec<String> {
    let two_columns: [&[[u8; 3]]; 9] = [
        &[],
        &[[4, 4, 3]],
        &[[4, 4, 0]],
        &[[3, 3, 1], [2, 4, 2], [0, 0, 3], [0, 1, 1]],
        &[[1, 2, 3], [1, 2, 3], [4, 2, 3], [1, 4, 3]],
        &[[0, 4, 0], [1, 0, 0], [1, 1, 1], [2, 2, 2], [3, 3, 3]],
        &[[4, 1, 1], [4, 2, 2]],
        &[[4, 0, 0], [4, 3, 0]],
        &[[1, 4, 1], [2, 4, 2], [3, 4, 3], [0, 1, 1], [0, 2, 2], [0, 3, 3]],
    ];
    let two_columns = two_columns.map(|rows| table_bytes(2, &rows.iter().map(|row| row.to_vec()).collect::<Vec<_>>()));
    let three_columns = [
        table_bytes(3, &[vec![4, 1, 4, 2], vec![0, 0, 4, 0], vec![3, 3, 3, 1]]),
        table_bytes(3, &rows_of(&all_situations(3))),
        table_bytes(3, &rows_of(&all_situations(3)).into_iter().rev().collect::<Vec<_>>()),
    ];
    let more_columns = [4, 5, 6].map(|columns| table_bytes(columns, &[[vec![4; columns as usize], vec![0]].concat()]));
    let mut calls = Vec::new();
    for table in two_columns.iter().chain(&three_columns).chain(&more_columns) {
        calls.extend(chain(table));
        calls.extend((0..=3).flat_map(|default| chain(&with_default(table, default))));
    }
    // many columns, all situations silent but those that begin with these answers: they are left to the default
    for columns in 4..=6 {
        for begin in [[0, 0, 0, 0, 0, 0], [1, 2, 0, 3, 2, 1], [3, 3, 3, 3, 3, 3]] {
            for left in 0..=3 {
                let rows = rows_beside(&begin[..columns - left], columns, || 0);
                let default = 1 + (columns + left) % 3;
                calls.extend(chain(&with_default(&table_bytes(columns as u8, &rows), default as u8)));
            }
        }
    }
    calls
}

/// The arrays with the most nodes: of 64 equal rows, and of 64 rows that are given back.
fn limits() -> Vec<String> {
    [&rooms(&compiled(&largest()), 6)[..], &rooms(&compiled(&largest_given_back()), 6), &chain(&largest_given_back())].concat()
}

/// Of the tables that can be given back the one with the most nodes: the 64 situations whose rows are the longest, those whose
/// numbers of answers add up to the least, with the outcome clash.
pub fn largest_given_back() -> Vec<u8> {
    let mut situations = all_situations(6);
    situations.sort_by_key(|cells| cells.iter().sum::<u8>());
    situations.truncate(64);
    situations.sort();
    table_bytes(6, &situations.iter().map(|cells| [&cells[..], &[3]].concat()).collect::<Vec<_>>())
}
