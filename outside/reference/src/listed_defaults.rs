//! Calls about tables with a default that are named one by one: every refusal of its field and of one that stands elsewhere, what
//! comes first of two faults, each default beside silent rows, rows of any and rows that match all situations but one, and inputs
//! at the limits.

use crate::calls::hex;
use crate::compile::nodes_of;
use crate::listed::laptop;
use crate::tables;
use crate::valid::{field, rows_beside, table_bytes, with_default};

pub fn calls() -> Vec<String> {
    [refusals(), lengths_and_values(), elsewhere(), order(), no_rows(), with_rows(), one_unmatched(), few_unmatched(), limits()]
        .concat()
}

fn compile(table: &[u8], room: usize) -> String {
    format!("compile {} {room}", hex(table))
}

fn compiled(table: &[u8]) -> Vec<u8> {
    nodes_of(&tables::read(table).expect("a lawful table"))
}

/// With one byte of room too few, just enough, and one more.
fn rooms(table: &[u8]) -> [String; 3] {
    let needed = compiled(table).len();
    [needed - 1, needed, needed + 1].map(|room| compile(table, room))
}

/// In each of these situations, and whether it grows.
fn answers(table: &[u8], situations: &[Vec<u8>]) -> Vec<String> {
    let nodes = hex(&compiled(table));
    let evaluated = situations.iter().map(|situation| format!("evaluate {nodes} {}", hex(situation)));
    evaluated.chain([format!("growth {nodes} {}", table[3])]).collect()
}

fn all_situations(columns: u32) -> Vec<Vec<u8>> {
    (0..4u32.pow(columns)).map(|number| (0..columns).rev().map(|digit| (number >> (2 * digit) & 3) as u8).collect()).collect()
}

fn one_row(columns: usize, cell: u8, outcome: u8) -> Vec<u8> {
    [vec![cell; columns], vec![outcome]].concat()
}

/// Two columns, default bury, two rows: cut at each place, and with one byte wrong, up to the first row's length.
fn refusals() -> Vec<String> {
    let good = with_default(&table_bytes(2, &[vec![0, 4, 1], vec![1, 4, 2]]), 1);
    let mut calls: Vec<String> = (0..=good.len()).map(|length| compile(&good[..length], 400)).collect();
    for at in 0..11 {
        for byte in [0, 1, 2, 3, 4, 5, 6, 7, 128, 255] {
            let mut table = good.clone();
            table[at] = byte;
            calls.push(compile(&table, 400));
        }
    }
    calls
}

/// LEN whatever there is behind it, SHORT for a value that is not there, and VALUE, the last with rows behind it too.
fn lengths_and_values() -> Vec<String> {
    let columns = field(1, &[2]);
    let mut calls = Vec::new();
    for length in [0u16, 1, 2, 3, 4, 255, 256, 257, 512, 65535] {
        let [high, low] = length.to_be_bytes();
        for value in [&[][..], &[1], &[1, 1], &[1, 1, 1], &[4], &[255, 255], &[1; 256], &[1; 257]] {
            calls.push(compile(&[&columns[..], &[3, high, low], value].concat(), 800));
        }
    }
    for default in 0..=255 {
        calls.push(compile(&with_default(&columns, default), 300));
    }
    for default in [4, 5, 16, 255] {
        calls.push(compile(&with_default(&laptop(), default), 800));
        calls.push(compile(&with_default(&laptop(), default)[..9], 800));
    }
    calls
}

/// A default where none may stand: a second one, one behind rows, behind 64 of them, before the columns and in their place.
fn elsewhere() -> Vec<String> {
    let of_one = |rows: usize| table_bytes(1, &vec![vec![4, 3]; rows]);
    // whole, with a wrong length, with a value out of range, cut
    let fields: [&[u8]; 8] =
        [&[3, 0, 1, 2], &[3, 0, 2, 1, 1], &[3, 0, 0], &[3, 0, 1, 4], &[3, 0, 1], &[3, 255, 255], &[3, 0], &[3]];
    let mut calls = Vec::new();
    for further in fields {
        for rows in [0, 1, 2, 63, 64] {
            calls.push(compile(&[&with_default(&of_one(rows), 2), further].concat(), 200));
            calls.push(compile(&[&with_default(&of_one(rows), 2), further, &field(2, &[0, 3])].concat(), 200));
            calls.push(compile(&[&of_one(rows), further].concat(), 200));
        }
        calls.push(compile(further, 10));
        calls.push(compile(&[further, &of_one(1)].concat(), 10));
    }
    // a row of the default's own length is none: n + 1 is at least 2
    calls.push(compile(&[&field(1, &[1])[..], &field(2, &[1])].concat(), 10));
    // the columns again behind a default
    calls.push(compile(&[with_default(&of_one(0), 2), of_one(1)].concat(), 10));
    calls
}

/// What is refused first: the columns, the default, the rows from the front, OVERLAP, ROOM.
fn order() -> Vec<String> {
    let faulty_defaults: [&[u8]; 4] = [&[3, 0, 2, 1, 1], &[3, 0, 1, 4], &[3, 0, 0], &[3, 1, 1, 1]];
    let faulty_rows: [&[u8]; 6] =
        [&[2, 0, 3, 5, 4, 1], &[2, 0, 3, 4, 4, 4], &[2, 0, 4, 4, 4, 1, 1], &[1, 0, 1, 2], &[2, 0, 3, 4], &[2]];
    let disagreeing = [field(2, &[0, 4, 1]), field(2, &[4, 0, 2])].concat();
    let mut calls = Vec::new();
    for rows in faulty_rows.into_iter().chain([&disagreeing[..]]) {
        for default in faulty_defaults {
            calls.push(compile(&[&[1, 0, 1, 2], default, rows].concat(), 0));
            calls.push(compile(&[&[1, 0, 1, 7], default, rows].concat(), 0));
        }
        for default in 0..=3 {
            calls.push(compile(&[&[1, 0, 1, 2, 3, 0, 1, default], rows].concat(), 0));
            calls.push(compile(&[&[1, 0, 1, 2, 3, 0, 1, default], &disagreeing[..], rows].concat(), 0));
        }
    }
    // rows that differ from the default do not disagree with it; silent rows disagree with others as ever
    for default in 0..=3 {
        for rows in [[[0, 4, 1], [1, 4, 1]], [[0, 4, 0], [4, 1, 3]], [[2, 2, 0], [2, 2, 1]], [[4, 4, 3], [4, 4, 3]]] {
            let table = with_default(&table_bytes(2, &rows.map(|row| row.to_vec())), default);
            calls.extend([0, 200].map(|room| compile(&table, room)));
        }
    }
    calls
}

/// Every situation is the default's.
fn no_rows() -> Vec<String> {
    let mut calls = Vec::new();
    for default in 0..=3 {
        for columns in 1..=3 {
            let table = with_default(&table_bytes(columns, &[]), default);
            calls.extend(rooms(&table));
            calls.push(compile(&table, 0));
        }
        for columns in 1..=2 {
            calls.extend(answers(&with_default(&table_bytes(columns, &[]), default), &all_situations(columns.into())));
        }
        // too many nodes for a call: only how many are needed is told
        for columns in 4..=6 {
            calls.extend([0, 1, 4300].map(|room| compile(&with_default(&table_bytes(columns, &[]), default), room)));
        }
    }
    calls
}

/// Each default beside each outcome: one row of one column, rows of any, the laptop table, and all situations matched.
fn with_rows() -> Vec<String> {
    let mut calls = Vec::new();
    for default in 0..=3 {
        for outcome in 0..=3 {
            for cell in 0..=4 {
                let table = with_default(&table_bytes(1, &[vec![cell, outcome]]), default);
                calls.extend(rooms(&table));
                calls.extend(answers(&table, &all_situations(1)));
            }
            // two columns: any in one of them, in both, and every answer of the last column written out
            let each: Vec<Vec<u8>> = (0..4).map(|answer| vec![4, answer, outcome]).collect();
            for rows in
                [vec![vec![4, 1, outcome]], vec![vec![2, 4, outcome]], vec![one_row(2, 4, outcome)], each[1..].to_vec(), each]
            {
                let table = with_default(&table_bytes(2, &rows), default);
                calls.extend(rooms(&table));
                calls.extend(answers(&table, &[vec![2, 1]]));
            }
            // the same row many times, and six columns with a row of any: nothing is left
            calls.extend(rooms(&with_default(&table_bytes(1, &vec![vec![0, outcome]; 64]), default)));
            calls.extend(rooms(&with_default(&table_bytes(6, &[one_row(6, 4, outcome)]), default)));
        }
        calls.extend(rooms(&with_default(&laptop(), default)));
        calls.extend(answers(&with_default(&laptop(), default), &all_situations(2)));
        // every situation of three columns written out, with every outcome, and without the last, the first, one between
        let base_4: Vec<Vec<u8>> = all_situations(3).iter().map(|situation| [&situation[..], &situation[2..]].concat()).collect();
        for missing in [0, 1, 27, 63, 64] {
            let rows: Vec<Vec<u8>> = (0..64).filter(|&row| row != missing).map(|row| base_4[row].clone()).collect();
            calls.extend(rooms(&with_default(&table_bytes(3, &rows), default)));
        }
    }
    calls
}

/// All situations of two columns but one have a row of their own, silent or not; the one that is left is the default's.
fn one_unmatched() -> Vec<String> {
    let mut calls = Vec::new();
    for default in 0..=3 {
        for left in all_situations(2) {
            for outcome in [0, 3] {
                let others = all_situations(2).into_iter().filter(|situation| *situation != left);
                let rows: Vec<Vec<u8>> = others.map(|situation| [situation, vec![outcome]].concat()).collect();
                let table = with_default(&table_bytes(2, &rows), default);
                calls.push(compile(&table, 300));
                calls.extend(answers(&table, &[left.clone()]));
            }
        }
    }
    calls
}

/// Many columns, and rows that leave 1, 4, 16 or 64 situations to the default: those that begin with these answers.
fn few_unmatched() -> Vec<String> {
    let mut calls = Vec::new();
    for columns in 3..=6 {
        for begin in [[0, 0, 0, 0, 0, 0], [1, 2, 0, 3, 2, 1]] {
            for left in 0..=3 {
                for default in 0..=3 {
                    let mut outcomes = (0u8..).map(|row| row * 3 % 4);
                    let rows = rows_beside(&begin[..columns - left], columns, || outcomes.next().unwrap());
                    let table = with_default(&table_bytes(columns as u8, &rows), default);
                    calls.extend(rooms(&table));
                    if left < 3 {
                        calls.extend(answers(&table, &[begin[..columns].to_vec()]));
                    }
                }
            }
        }
    }
    calls
}

/// 64 rows and 65, the longest table and one byte more, and the table with the most nodes.
fn limits() -> Vec<String> {
    let mut calls = Vec::new();
    for default in 0..=3 {
        for rows in [63, 64, 65, 66] {
            calls.extend(
                [0, 127, 400].map(|room| compile(&with_default(&table_bytes(1, &vec![vec![4, 3]; rows]), default), room)),
            );
        }
        // ROWS comes before the 65th row's LEN, SHORT and VALUE, and after its short header and its TAG
        for last in [&[2u8, 0][..], &[2, 0, 2], &[2, 0, 9], &[2, 0, 2, 9, 9], &[3, 0, 1, 0], &[2]] {
            calls.push(compile(&[&with_default(&table_bytes(1, &vec![vec![4, 3]; 64]), default), last].concat(), 300));
        }
        let longest = with_default(&table_bytes(6, &vec![one_row(6, 4, 3); 64]), default);
        calls.extend(rooms(&longest));
        for last in [&[0u8][..], &[2], &[3], &[2, 0, 7], &[3, 0, 1], &[3, 0, 1, 1], &one_row(6, 4, 3)] {
            calls.push(compile(&[&longest, last].concat(), 200));
        }
        for cell in [0, 3] {
            calls.push(compile(&with_default(&table_bytes(6, &vec![one_row(6, cell, 3); 64]), default), 4223));
            calls.push(compile(&with_default(&table_bytes(6, &vec![one_row(6, cell, 0); 64]), default), 4300));
        }
    }
    calls
}
