//! A default other than silent, held to the rows' own bytes, to tables that write its rows out, and to the limits.

mod sizes;

use reference::answers::{contained, Answer, ALL};
use reference::compile::{compile, nodes_of, Compiled};
use reference::growth;
use reference::listed::{laptop, largest};
use reference::nodes::run;
use reference::random::Random;
use reference::refusals::{Refusal, LEN, OVERLAP, ROOM, ROWS, SHORT, START, TAG, VALUE};
use reference::situations::from_index;
use reference::tablecheck;
use reference::tables::{self, Table};
use reference::valid::{self, field, table_bytes, with_default};
use sizes::size;

fn situations(columns: usize) -> Vec<Vec<Answer>> {
    (0..4usize.pow(columns as u32)).map(|number| from_index(number, columns)).collect()
}

fn read(bytes: &[u8]) -> Table {
    tables::read(bytes).expect("a lawful table")
}

fn needed(bytes: &[u8]) -> usize {
    size(&read(bytes))
}

/// Lawful tables of at most four columns with a default's field.
fn random_tables(seed: u64, wanted: usize) -> Vec<Vec<u8>> {
    let mut random = Random::new(seed);
    let mut tables = Vec::new();
    for _ in 0..wanted {
        let columns = valid::columns(&mut random).min(4);
        tables.push(valid::defaulted_table(&mut random, columns));
    }
    tables
}

/// The outcome of the first row whose bytes match, by a look at the bytes alone.
fn looked_up(bytes: &[u8], situation: &[Answer]) -> Option<u8> {
    let columns = usize::from(bytes[3]);
    let suits = |(&cell, answer): (&u8, &Answer)| cell == 4 || cell == answer.number();
    bytes[8..].chunks(columns + 4).find(|row| row[3..].iter().zip(situation).all(suits)).map(|row| row[columns + 3])
}

#[test]
fn a_row_decides_and_the_default_where_no_row_matches() {
    let (mut by_row, mut by_default, mut silent_rows) = (0, 0, 0);
    for bytes in random_tables(12, 600) {
        let table = read(&bytes);
        let nodes = nodes_of(&table);
        for situation in situations(table.columns) {
            let found = looked_up(&bytes, &situation);
            let answer = ALL[usize::from(found.unwrap_or(bytes[7]))];
            assert_eq!(table.says(&situation), answer);
            assert_eq!(run(&nodes, &situation), Ok(answer), "{bytes:?} at {situation:?}");
            by_row += usize::from(found.is_some());
            by_default += usize::from(found.is_none() && bytes[7] != 0);
            silent_rows += usize::from(found == Some(0) && bytes[7] != 0);
        }
    }
    assert!(by_row > 5000 && by_default > 5000 && silent_rows > 1000, "{by_row} {by_default} {silent_rows}");
}

/// The same nodes as a table that has no default and, behind its rows, a row for each situation that no row matches.
#[test]
fn the_default_is_rows_behind_the_written_ones() {
    let mut written_out = 0;
    for bytes in random_tables(13, 2000) {
        let columns = usize::from(bytes[3]);
        let unmatched: Vec<Vec<Answer>> =
            situations(columns).into_iter().filter(|situation| looked_up(&bytes, situation).is_none()).collect();
        let mut without = [&bytes[..4], &bytes[8..]].concat();
        if bytes[7] != 0 {
            for situation in &unmatched {
                let cells = situation.iter().map(|answer| answer.number());
                without.extend(field(2, &cells.chain([bytes[7]]).collect::<Vec<u8>>()));
            }
        }
        if without.len() <= 4 + 64 * (columns + 4) {
            assert_eq!(nodes_of(&read(&bytes)), nodes_of(&read(&without)));
            written_out += usize::from(bytes[7] != 0 && !unmatched.is_empty());
        }
    }
    assert!(written_out > 500, "{written_out}");
}

#[test]
fn a_silent_default_adds_nothing() {
    for bytes in random_tables(14, 300) {
        let without = [&bytes[..4], &bytes[8..]].concat();
        assert_eq!(nodes_of(&read(&with_default(&without, 0))), nodes_of(&read(&without)));
    }
}

/// Rows in a reply are the written ones; nodes are all, also in ROOM.
#[test]
fn rows_are_the_written_ones_and_nodes_are_all() {
    // keep where the column says keep, else bury: the row's nodes, the default's at silent, bury and clash, and three joins
    let table = with_default(&table_bytes(1, &[vec![2, 2]]), 1);
    let mut lent = [170; 40];
    let nodes = needed(&table);
    assert_eq!(nodes, 4 + 9 + 7 + 7 + 3);
    assert_eq!(compile(&table, &mut lent[..nodes - 1]), Err(Refusal { number: ROOM, place: nodes as u64, second: 0 }));
    assert_eq!(lent, [170; 40]);
    assert_eq!(compile(&table, &mut lent), Ok(Compiled { columns: 1, rows: 1, nodes }));
    assert!(lent[nodes..].iter().all(|&byte| byte == 170));
    // silent where a row says so
    let silenced = with_default(&table_bytes(1, &[vec![2, 0], vec![4, 0]]), 3);
    assert_eq!(compile(&silenced, &mut lent), Ok(Compiled { columns: 1, rows: 2, nodes: 1 }));
    assert_eq!(lent[0], 0);
}

#[test]
fn refusals_of_the_default_and_their_places() {
    let refused = |bytes: &[u8]| tables::read(bytes).err().map(|refusal| (refusal.number, refusal.place));
    let columns = [1, 0, 1, 2];
    let behind = |more: &[u8]| refused(&[&columns, more].concat());
    assert_eq!(behind(&[3]), Some((SHORT, 4)));
    assert_eq!(behind(&[3, 0]), Some((SHORT, 4)));
    assert_eq!(behind(&[3, 0, 1]), Some((SHORT, 4)));
    assert_eq!(behind(&[3, 0, 0]), Some((LEN, 4)));
    assert_eq!(behind(&[3, 0, 2]), Some((LEN, 4)));
    assert_eq!(behind(&[3, 1, 0]), Some((LEN, 4)));
    assert_eq!(behind(&[3, 1, 1, 1]), Some((LEN, 4)));
    assert_eq!(behind(&[3, 0, 1, 4]), Some((VALUE, 7)));
    assert_eq!(behind(&[3, 0, 1, 255]), Some((VALUE, 7)));
    assert_eq!(behind(&[4, 0, 1, 1]), Some((TAG, 4)));
    for default in 0..=3 {
        assert_eq!(behind(&[3, 0, 1, default]), None);
        assert_eq!(behind(&[3, 0, 1, default, 3, 0, 1, default]), Some((TAG, 8)));
        assert_eq!(behind(&[3, 0, 1, default, 3, 0]), Some((SHORT, 8)));
    }
    assert_eq!(behind(&[2, 0, 3, 4, 4, 1, 3, 0, 1, 1]), Some((TAG, 10)));
    assert_eq!(refused(&[3, 0, 1, 1, 1, 0, 1, 2]), Some((START, 0)));
    // 64 rows, then a default: TAG is tested before ROWS
    let full = table_bytes(1, &vec![vec![4, 1]; 64]);
    assert_eq!(refused(&[&full[..], &[3, 0, 1, 1]].concat()), Some((TAG, 324)));
    assert_eq!(refused(&[&with_default(&full, 2)[..], &[3, 0, 1, 1]].concat()), Some((TAG, 328)));
    assert_eq!(refused(&[&with_default(&full, 2)[..], &field(2, &[4, 1])].concat()), Some((ROWS, 328)));
    // rows are counted from 0, the default is none of them
    assert_eq!(behind(&[3, 0, 1, 1, 2, 0, 3, 4, 4, 1, 2, 0, 3, 0, 0, 2]), Some((OVERLAP, 1)));
}

#[test]
fn the_longest_lawful_table() {
    let longest = with_default(&largest(), 1);
    assert_eq!(longest.len(), 648);
    assert!(tables::read(&longest).is_ok());
    for byte in 0..=255 {
        assert!(tables::read(&[&longest[..], &[byte]].concat()).is_err());
    }
}

/// The kinds of row, as far as the number of nodes goes: which column a cell stands in does not count.
fn kinds(columns: usize) -> Vec<Vec<u8>> {
    if columns == 0 {
        return vec![vec![]];
    }
    let fewer = kinds(columns - 1);
    let with = |cells: &Vec<u8>| (cells.last().copied().unwrap_or(0)..=4).map(|cell| [&cells[..], &[cell]].concat()).collect();
    fewer.iter().flat_map(|cells| -> Vec<Vec<u8>> { with(cells) }).collect()
}

/// 64 equal rows of every kind with every outcome and every default: the most nodes and the table.
fn most_of_equal_rows(columns: usize) -> (usize, Vec<u8>) {
    let mut most = (0, Vec::new());
    for cells in kinds(columns) {
        for outcome in 0..=3 {
            let rows = vec![[&cells[..], &[outcome]].concat(); 64];
            for default in 0..=3 {
                let table = with_default(&table_bytes(columns as u8, &rows), default);
                most = most.max((needed(&table), table));
            }
        }
    }
    most
}

#[test]
fn the_most_nodes() {
    let no_rows = [0, 1, 2, 3].map(|default| needed(&with_default(&table_bytes(6, &[]), default)));
    assert_eq!(no_rows, [1, 196_607, 172_031, 196_607]);
    let worst = with_default(&largest(), 1);
    assert_eq!(nodes_of(&read(&worst)).len(), 200_771);
    assert_eq!(most_of_equal_rows(6), (200_771, worst));
    // up to three columns tablecheck has room for all of them
    let most = (1..=5).map(|columns| most_of_equal_rows(columns).0).collect::<Vec<_>>();
    assert_eq!(most, [725, 1643, 3617, 10_967, 44_429]);
}

/// Rows of one column, none of which disagree, from all kinds of row: each kind once, the rest the one with most nodes.
fn most_of_one_column(kinds: &[[u8; 2]], rows: &mut Vec<Vec<u8>>, default: u8) -> usize {
    let Some((kind, kinds)) = kinds.split_first() else {
        let alone = |row: &Vec<u8>| needed(&table_bytes(1, &[row.clone()]));
        let filled = rows.iter().max_by_key(|row| alone(row)).cloned();
        let all: Vec<Vec<u8>> = rows.iter().cloned().chain(filled.into_iter().cycle().take(64 - rows.len())).collect();
        return needed(&with_default(&table_bytes(1, &all), default));
    };
    let without = most_of_one_column(kinds, rows, default);
    rows.push(kind.to_vec());
    let with = if tables::read(&table_bytes(1, rows)).is_ok() { most_of_one_column(kinds, rows, default) } else { 0 };
    rows.pop();
    without.max(with)
}

#[test]
fn no_table_of_one_column_has_more() {
    let kinds: Vec<[u8; 2]> = (0..=4).flat_map(|cell| (0..=3).map(move |outcome| [cell, outcome])).collect();
    let most = [0, 1, 2, 3].map(|default| most_of_one_column(&kinds, &mut Vec::new(), default));
    assert_eq!(most.into_iter().max(), Some(most_of_equal_rows(1).0));
}

#[test]
fn no_random_table_has_more() {
    let mut random = Random::new(15);
    for _ in 0..60 {
        let kinds = 1 + random.below(4);
        let cells = random.pick(&[1, 2, 4, 5]);
        let kind = |random: &mut Random| (0..6).map(|_| random.byte(cells)).chain([3]).collect::<Vec<u8>>();
        let kinds: Vec<Vec<u8>> = (0..kinds).map(|_| kind(&mut random)).collect();
        let rows: Vec<Vec<u8>> = (0..64).map(|row| kinds[row % kinds.len()].clone()).collect();
        for default in 1..=3 {
            assert!(needed(&with_default(&table_bytes(6, &rows), default)) <= 200_771);
        }
    }
}

#[test]
fn the_header_has_room_for_the_most_nodes() {
    let header = include_str!("../../../include/carmuspeno.h");
    assert!(header.contains("#define CARM_NODES_MAX 200771\n"));
}

/// Where no row matches the situation that is silent everywhere, a yes takes every answer to contain the default.
#[test]
fn a_table_that_grows_says_the_default_everywhere_if_it_says_it_to_silence() {
    let (mut yes, mut no) = (0, 0);
    for bytes in random_tables(16, 3000) {
        let table = read(&bytes);
        let default = ALL[usize::from(bytes[7])];
        if default == Answer::Silent || looked_up(&bytes, &from_index(0, table.columns)).is_some() {
            continue;
        }
        if growth::check(&nodes_of(&table), table.columns as u64).unwrap().is_none() {
            assert!(situations(table.columns).iter().all(|situation| contained(default, table.says(situation))));
            yes += 1;
        } else {
            no += 1;
        }
    }
    assert!(yes > 50 && no > 200, "{yes} {no}");
}

#[test]
fn tablecheck_has_room_for_some_defaults() {
    let printed = |table: &[u8], default| tablecheck::text(&with_default(table, default));
    assert_eq!(printed(&table_bytes(1, &[]), 1), "columns 1\nrows 0\nnodes 31\ngrowth yes\n");
    assert_eq!(printed(&table_bytes(3, &[]), 3), "columns 3\nrows 0\nnodes 1535\ngrowth yes\n");
    assert_eq!(printed(&table_bytes(4, &[]), 1), "refused 8 8191 0\n");
    assert_eq!(printed(&table_bytes(6, &[]), 0), "columns 6\nrows 0\nnodes 1\ngrowth yes\n");
    assert_eq!(printed(&largest(), 1), "refused 8 200771 0\n");
    // the laptop table says nothing to silence alone
    assert_eq!(printed(&laptop(), 1), "columns 2\nrows 6\nnodes 85\ngrowth no 0 0 column 0 to 2\n");
}

/// Nothing while nobody speaks, what all who speak agree on, and clash by default where they differ.
fn clash_unless(columns: usize) -> Vec<u8> {
    let mut rows = vec![vec![0; columns + 1]];
    for outcome in [1, 2] {
        let said = |speakers: usize| (0..columns).map(move |column| if speakers >> column & 1 == 1 { outcome } else { 0 });
        rows.extend((1..1 << columns).map(|speakers| said(speakers).chain([outcome]).collect::<Vec<u8>>()));
    }
    with_default(&table_bytes(columns as u8, &rows), 3)
}

/// The example tables and the numbers that the manual has of them.
#[test]
fn the_manual_on_defaults() {
    let says = |bytes: &[u8]| situations(read(bytes).columns).iter().map(|s| read(bytes).says(s)).collect::<Vec<_>>();
    let grows = include_bytes!("../../../examples/grows.table");
    assert_eq!(says(include_bytes!("../../../examples/clash-unless.table")), says(grows));
    assert_eq!(says(&clash_unless(2)), says(grows));
    let numbers = |columns| (read(&clash_unless(columns)).rows.len(), needed(&clash_unless(columns)));
    assert_eq!([2, 3, 4, 5].map(numbers), [(7, 215), (15, 1439), (31, 7967), (63, 40_439)]);
    for columns in 2..=4 {
        assert_eq!(growth::check(&nodes_of(&read(&clash_unless(columns))), columns as u64), Ok(None));
    }
    let (refused, fits) =
        (include_bytes!("../../../examples/refused-room.table"), include_bytes!("../../../examples/fits.table"));
    let matched = [&fits[..], &field(2, &[0, 4, 4, 4, 1])].concat();
    assert_eq!((says(refused), says(fits)), (says(fits), says(&matched)));
    assert_eq!([needed(refused), needed(fits), needed(&matched)], [4235, 2195, 29]);
}
