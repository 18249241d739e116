//! The checked examples of document 01, by their numbers, example 16 as request K1 has it.

use reference::answers::{from_bytes, implication, join, replace, truth_meet, turn, Answer};
use reference::compile::{compile, Compiled};
use reference::listed::{laptop, largest};
use reference::refusals::{Refusal, DEEP, ROOM};
use reference::{nodes, tablecheck, voices};

fn answer(number: u8) -> Answer {
    Answer::from_number(number).unwrap()
}

fn compiled(table: &[u8]) -> Vec<u8> {
    let mut lent = vec![0; 5000];
    let nodes = compile(table, &mut lent).unwrap().nodes;
    lent.truncate(nodes);
    lent
}

#[test]
fn examples_1_to_6_operators() {
    assert_eq!(turn(answer(3)), answer(0));
    assert_eq!(truth_meet(answer(0), answer(3)), answer(1));
    assert_eq!(join(answer(1), answer(2)), answer(3));
    assert_eq!(implication(answer(0), answer(1)), answer(2));
    assert_eq!(implication(answer(3), answer(1)), answer(1));
    assert_eq!(replace(answer(1), answer(1), answer(2)), answer(2));
}

#[test]
fn examples_7_to_10_nodes() {
    assert_eq!(compiled(&[1, 0, 1, 1, 2, 0, 2, 2, 2]), [16, 5, 16, 6]);
    assert_eq!(compiled(&[1, 0, 1, 1, 2, 0, 2, 0, 1]), [16, 5, 5, 5, 16, 5, 5, 6, 4]);
    assert_eq!(compiled(&[1, 0, 1, 1]), [0]);
    assert_eq!(compiled(&[1, 0, 1, 1, 2, 0, 2, 4, 3]), [3]);
}

#[test]
fn the_laptop_table_is_as_printed() {
    let printed = "01 00 01 02 02 00 03 01 04 01 02 00 03 02 04 02 02 00 03 03 04 03 \
                   02 00 03 00 01 01 02 00 03 00 02 02 02 00 03 00 03 03";
    let bytes: Vec<u8> = printed.split(' ').map(|byte| u8::from_str_radix(byte, 16).unwrap()).collect();
    assert_eq!(laptop(), bytes);
}

#[test]
fn examples_11_to_13_the_laptop_table() {
    let nodes = compiled(&laptop());
    assert_eq!(nodes.len(), 65);
    assert_eq!(nodes::evaluate(&nodes, &[0, 1]), Ok(answer(1)));
    assert_eq!(nodes::evaluate(&nodes, &[2, 1]), Ok(answer(2)));
    let mut lent = [170; 66];
    assert_eq!(compile(&laptop(), &mut lent[..64]), Err(Refusal { number: ROOM, place: 65, second: 0 }));
    assert_eq!(lent, [170; 66]);
    assert_eq!(compile(&laptop(), &mut lent[..65]), Ok(Compiled { columns: 2, rows: 6, nodes: 65 }));
    assert_eq!((&lent[..65], lent[65]), (&nodes[..], 170));
}

#[test]
fn example_14_the_largest_table() {
    assert_eq!(compiled(&largest()).len(), 4223);
}

#[test]
fn example_15_a_full_stack() {
    let full = [vec![16; 16], vec![7; 15]].concat();
    assert_eq!(nodes::evaluate(&full, &[2]), Ok(answer(2)));
    assert_eq!(nodes::evaluate(&[16; 17], &[2]), Err(Refusal { number: DEEP, place: 16, second: 0 }));
}

#[test]
fn example_16_a_voice() {
    let voice = [24, 40, 43, 0, 7, 0, 0, 0, 1, 2];
    assert_eq!(voices::speak(&[], &voice), Ok(answer(0)));
    assert_eq!(voices::speak_set(&[], &voice), Ok([0, 2].map(answer).into()));
}

#[test]
fn example_16_where_the_fact_is_there() {
    let voice = [24, 40, 43, 0, 7, 0, 0, 0, 1, 2];
    for (value, said) in [(0, 2), (1, 0), (2, 2)] {
        let notice = [16, 0, 6, 0, 7, 0, 0, 0, value];
        assert_eq!(voices::speak(&notice, &voice), Ok(answer(said)));
        assert_eq!(voices::speak_set(&notice, &voice), Ok([answer(said)].into()));
    }
}

#[test]
fn equal_comparisons_may_go_different_ways() {
    // keep when c, joined with keep when not c
    let voice = [15, 24, 43, 0, 7, 0, 0, 0, 1, 2, 24, 40, 43, 0, 7, 0, 0, 0, 1, 2];
    assert_eq!(voices::speak_set(&[], &voice), Ok([0, 2].map(answer).into()));
    assert_eq!(voices::speak(&[], &voice), Ok(answer(0)));
}

#[test]
fn tablecheck_on_the_laptop_table() {
    assert_eq!(tablecheck::text(&laptop()), "columns 2\nrows 6\nnodes 65\ngrowth no 0 1 column 0 to 2\n");
    assert_eq!(tablecheck::text(&[]), "refused 2 0 0\n");
    assert_eq!(tablecheck::text(&[1, 0, 1, 1]), "columns 1\nrows 0\nnodes 1\ngrowth yes\n");
}

#[test]
fn bytes_above_three_are_refused_at_the_first() {
    assert_eq!(from_bytes([3, 4, 255]).map_err(|refusal| refusal.place), Err(1));
}
