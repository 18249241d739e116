//! A table back from an array, held to the array's own answers, to the table that the array was compiled from, and to the limits.

mod sizes;

use reference::answers::Answer;
use reference::compile::nodes_of;
use reference::listed::{laptop, largest};
use reference::listed_back::largest_given_back;
use reference::nodes::run;
use reference::random::Random;
use reference::refusals::{Refusal, COLUMN, DEEP, END, NODE, ROOM, ROWS, SITUATION, UNDER};
use reference::situations::{all, index};
use reference::tables::{self, Table};
use reference::untable::untable;
use reference::valid::{self, table_bytes, with_default};
use sizes::size;

fn read(bytes: &[u8]) -> Table {
    tables::read(bytes).expect("a lawful table")
}

fn compiled(bytes: &[u8]) -> Vec<u8> {
    nodes_of(&read(bytes))
}

/// The bytes of the table, or the refusal; of the lent bytes only those of the table may change.
fn back(nodes: &[u8], columns: u64) -> Result<Vec<u8>, Refusal> {
    let mut lent = [170; 700];
    let reply = untable(nodes, columns, &mut lent);
    let length = reply.unwrap_or_default();
    assert!(lent[length..].iter().all(|&byte| byte == 170));
    reply.map(|length| lent[..length].to_vec())
}

fn refused(nodes: &[u8], columns: u64) -> Option<(u64, u64)> {
    back(nodes, columns).err().map(|refusal| (refusal.number, refusal.place))
}

/// Sound arrays made by hand and compiled, with their numbers of columns.
fn random_arrays(seed: u64, wanted: usize) -> Vec<(Vec<u8>, usize)> {
    let mut random = Random::new(seed);
    let mut arrays = Vec::new();
    for _ in 0..wanted / 3 {
        let columns = valid::columns(&mut random).min(4);
        let turns = random.below(9);
        arrays.push((valid::nodes(&mut random, columns, turns), columns));
        arrays.push((compiled(&valid::table(&mut random, columns)), columns));
        arrays.push((compiled(&valid::defaulted_table(&mut random, columns)), columns));
    }
    arrays
}

/// How many situations of so many columns the array answers other than silent.
fn answered(nodes: &[u8], columns: usize) -> usize {
    all(columns).iter().filter(|situation| run(nodes, situation) != Ok(Answer::Silent)).count()
}

#[test]
fn the_table_says_what_the_array_answers() {
    let (mut given, mut too_many) = (0, 0);
    for (nodes, columns) in random_arrays(21, 1500) {
        let needed = answered(&nodes, columns);
        match back(&nodes, columns as u64) {
            Ok(bytes) => {
                let table = read(&bytes);
                assert_eq!((table.columns, table.rows.len()), (columns, needed));
                for situation in all(columns) {
                    assert_eq!(run(&nodes, &situation), Ok(table.says(&situation)), "{nodes:?} at {situation:?}");
                }
                given += 1;
            }
            Err(refusal) => {
                assert!(needed > 64);
                assert_eq!(refusal, Refusal { number: ROWS, place: needed as u64, second: 0 });
                too_many += 1;
            }
        }
    }
    assert!(given > 1000 && too_many > 50, "{given} {too_many}");
}

/// By the bytes alone: no default, no any, no silent outcome, and the situations' numbers rise.
#[test]
fn rows_are_situations_in_base_4_order() {
    for (nodes, columns) in random_arrays(22, 1500) {
        let Ok(bytes) = back(&nodes, columns as u64) else { continue };
        assert_eq!(bytes[..4], [1, 0, 1, columns as u8]);
        let mut last = None;
        for row in bytes[4..].chunks(columns + 4) {
            assert_eq!(row[..3], [2, 0, columns as u8 + 1]);
            assert!(row[3..].iter().all(|&byte| byte <= 3) && row[columns + 3] > 0);
            let cells: Vec<Answer> = row[3..columns + 3].iter().map(|&cell| Answer::from_number(cell).unwrap()).collect();
            assert!(last < Some(index(&cells)));
            last = Some(index(&cells));
        }
    }
}

/// "It compiles to the same answers, and writing what was so compiled gives the same bytes again."
#[test]
fn what_is_given_back_comes_back_the_same() {
    let mut again = 0;
    for (nodes, columns) in random_arrays(23, 1500) {
        let Ok(bytes) = back(&nodes, columns as u64) else { continue };
        let second = compiled(&bytes);
        assert!(all(columns).iter().all(|situation| run(&second, situation) == run(&nodes, situation)));
        assert_eq!(back(&second, columns as u64), Ok(bytes));
        again += 1;
    }
    assert!(again > 1000);
}

#[test]
fn the_laptop_table() {
    let given = back(&compiled(&laptop()), 2).unwrap();
    let rows = [1, 2, 3].map(|library| vec![0, library, library]).into_iter();
    let rows = rows.chain([1, 2, 3].into_iter().flat_map(|laptop| (0..4).map(move |library| vec![laptop, library, laptop])));
    assert_eq!(given, table_bytes(2, &rows.collect::<Vec<_>>()));
    assert_eq!(given.len(), 4 + 15 * 6);
}

#[test]
fn what_is_not_in_the_array_does_not_come_back() {
    // silent rows, the order of rows, rows written twice, any, and a default
    let one = table_bytes(1, &[vec![1, 2], vec![2, 2]]);
    let others = [
        table_bytes(1, &[vec![2, 2], vec![0, 0], vec![1, 2], vec![1, 2]]),
        with_default(&table_bytes(1, &[vec![0, 0], vec![3, 0]]), 2),
        with_default(&table_bytes(1, &[vec![1, 2], vec![2, 2]]), 0),
    ];
    for other in others {
        assert_eq!(back(&compiled(&other), 1), Ok(one.clone()));
    }
    assert_eq!(back(&[0], 6), Ok(vec![1, 0, 1, 6]));
    assert_eq!(back(&compiled(&largest()), 6), Ok(table_bytes(6, &[vec![0, 0, 0, 0, 0, 0, 3]])));
}

#[test]
fn refusals_and_their_places() {
    for columns in [0, 7, 8, 256, 1 << 32, (1 << 32) + 2, 1 << 63, u64::MAX] {
        for nodes in [&[][..], &[99], &[3]] {
            assert_eq!(refused(nodes, columns), Some((SITUATION, columns)));
        }
    }
    assert_eq!(refused(&[3, 99], 6), Some((NODE, 1)));
    assert_eq!(refused(&[16, 18, 7], 2), Some((COLUMN, 1)));
    assert_eq!(refused(&[3, 7], 6), Some((UNDER, 1)));
    assert_eq!(refused(&[3; 17], 6), Some((DEEP, 16)));
    assert_eq!(refused(&[], 1), Some((END, 0)));
    assert_eq!(refused(&[3, 3], 6), Some((END, 2)));
    // a constant: a row for every situation, up to three columns
    let rows = (1..=6).map(|columns| refused(&[3], columns)).collect::<Vec<_>>();
    assert_eq!(rows, [None, None, None, Some((ROWS, 256)), Some((ROWS, 1024)), Some((ROWS, 4096))]);
    // 64 situations and 65
    let wide = vec![1, 4, 4, 4, 1];
    assert_eq!(refused(&compiled(&table_bytes(4, &[wide.clone()])), 4), None);
    assert_eq!(refused(&compiled(&table_bytes(4, &[wide, vec![0, 0, 0, 0, 1]])), 4), Some((ROWS, 65)));
    // no refusal but the last looks at the room
    for nodes in [&[99][..], &[3, 3], &[3]] {
        assert_eq!(untable(nodes, 6, &mut []).err(), back(nodes, 6).err());
    }
}

#[test]
fn room_for_the_bytes() {
    let nodes = compiled(&laptop());
    let needed = back(&nodes, 2).unwrap().len();
    for room in 0..needed {
        let mut lent = vec![170; room];
        assert_eq!(untable(&nodes, 2, &mut lent), Err(Refusal { number: ROOM, place: needed as u64, second: 0 }));
        assert!(lent.iter().all(|&byte| byte == 170));
    }
    assert_eq!(untable(&nodes, 2, &mut vec![170; needed]), Ok(needed));
}

/// The most bytes, and the most nodes of what is given back: each situation's longest row, the 64 longest of these.
#[test]
fn limits() {
    let table = largest_given_back();
    assert_eq!(table.len(), 644);
    assert!(include_str!("../../../include/carmuspeno.h").contains("#define CARM_BACK_MAX 644\n"));
    let nodes = compiled(&table);
    assert_eq!(back(&nodes, 6), Ok(table.clone()));
    let row = |cells: &[Answer], outcome| {
        size(&read(&table_bytes(6, &[cells.iter().map(|cell| cell.number()).chain([outcome]).collect::<Vec<_>>()])))
    };
    let mut rows: Vec<usize> =
        all(6).iter().map(|cells| [1, 2, 3].map(|outcome| row(cells, outcome)).into_iter().max().unwrap()).collect();
    rows.sort();
    assert_eq!(nodes.len(), rows.iter().rev().take(64).sum::<usize>() + 63);
    assert_eq!(nodes.len(), 3911);
}

#[test]
fn up_to_three_columns_there_are_never_too_many_rows() {
    let mut random = Random::new(24);
    for _ in 0..1000 {
        let columns = 1 + random.below(3);
        let turns = random.below(9);
        let nodes = valid::nodes(&mut random, columns, turns);
        assert!(back(&nodes, columns as u64).is_ok());
    }
}

/// The example arrays, and what the manual says of them.
#[test]
fn the_manual_on_tables_back() {
    let examples: [(&[u8], &[u8]); 3] = [
        (include_bytes!("../../../examples/laptop.table"), include_bytes!("../../../examples/laptop.nodes")),
        (include_bytes!("../../../examples/unless.table"), include_bytes!("../../../examples/unless.nodes")),
        (include_bytes!("../../../examples/any-burial.table"), include_bytes!("../../../examples/any-burial.nodes")),
    ];
    for (table, nodes) in examples {
        assert_eq!(compiled(table), nodes);
    }
    let [laptop, unless, any_burial] = examples.map(|(_, nodes)| nodes);
    assert_eq!(back(laptop, 2).unwrap(), include_bytes!("../../../examples/laptop-back.table"));
    assert_eq!(back(unless, 2).unwrap(), include_bytes!("../../../examples/unless-back.table"));
    assert_eq!(refused(laptop, 1), Some((COLUMN, 26)));
    assert_eq!(refused(any_burial, 4), Some((ROWS, 240)));
    // in parts: a selector for each answer of column 0, and a meet
    let parts = [0, 1, 2, 3].map(|answer| {
        let turned = [vec![16], vec![5; 3 - answer]].concat();
        let part = back(&[any_burial, &turned, &turned, &[4, 6, 6]].concat(), 4).unwrap();
        assert!(read(&part).rows.iter().all(|row| row.cells[0] == Answer::from_number(answer as u8)));
        read(&part).rows.len()
    });
    assert_eq!(parts, [56, 64, 56, 64]);
    // a column too many: each row four times
    let wider = read(&back(laptop, 3).unwrap());
    assert_eq!(wider.rows.len(), 60);
    assert!(all(3).iter().all(|situation| wider.says(situation) == read(&back(laptop, 2).unwrap()).says(&situation[..2])));
}
