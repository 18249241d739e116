//! Calls that are named one by one: the examples of document 01, the operators' grids on answers and on sets of them, every
//! refusal at each place where it can stand, and inputs at the limits.

use crate::calls::hex;
use crate::compile::nodes_of;
use crate::listed_weeks;
use crate::notices::Fact;
use crate::tables;
use crate::valid::{field, notice_bytes, table_bytes};

pub fn calls() -> Vec<String> {
    [
        grids(),
        selectors(),
        examples(),
        table_refusals(),
        overlaps(),
        limits_of_tables(),
        single_nodes(),
        array_refusals(),
        situation_refusals(),
        merges(),
        growth_checks(),
        only_steps(),
        notices(),
        codes(),
        voice_refusals(),
        comparisons(),
        sets(),
        operators_on_sets(),
        tests_on_sets(),
        absent_facts(),
        after_presence(),
        refusals_of_sets(),
        written_out(),
        listed_weeks::calls(),
    ]
    .concat()
}

fn written_out() -> Vec<String> {
    include_str!("written.calls").lines().filter(|line| !line.starts_with('#')).map(String::from).collect()
}

fn compile(table: &[u8], room: usize) -> String {
    format!("compile {} {room}", hex(table))
}

fn evaluate(nodes: &[u8], situation: &[u8]) -> String {
    format!("evaluate {} {}", hex(nodes), hex(situation))
}

fn growth(nodes: &[u8], columns: u64) -> String {
    format!("growth {} {columns}", hex(nodes))
}

fn notice(bytes: &[u8]) -> String {
    format!("notice {}", hex(bytes))
}

fn speak(notice: &[u8], voice: &[u8]) -> String {
    format!("speak {} {}", hex(notice), hex(voice))
}

fn speak_set(notice: &[u8], voice: &[u8]) -> String {
    format!("speak_set {} {}", hex(notice), hex(voice))
}

/// The laptop table.
pub fn laptop() -> Vec<u8> {
    table_bytes(2, &[vec![1, 4, 1], vec![2, 4, 2], vec![3, 4, 3], vec![0, 1, 1], vec![0, 2, 2], vec![0, 3, 3]])
}

/// The table with the most nodes: 64 equal rows of six silent cells, outcome clash.
pub fn largest() -> Vec<u8> {
    table_bytes(6, &vec![vec![0, 0, 0, 0, 0, 0, 3]; 64])
}

fn compiled(table: &[u8]) -> Vec<u8> {
    nodes_of(&tables::read(table).expect("a lawful table"))
}

fn grids() -> Vec<String> {
    let bytes = [0, 1, 2, 3, 4, 255];
    let mut calls = Vec::new();
    for name in ["negate", "turn", "floor", "ceiling"] {
        calls.extend(bytes.map(|p| format!("{name} {p}")));
    }
    for name in ["meet", "join", "truth_meet", "truth_join", "implication", "guard", "priority", "contained"] {
        for p in bytes {
            calls.extend(bytes.map(|q| format!("{name} {p} {q}")));
        }
    }
    for x in bytes {
        for p in bytes {
            calls.extend(bytes.map(|q| format!("replace {x} {p} {q}")));
        }
    }
    calls
}

/// Each cell with each outcome: what it compiles to, and what that answers.
fn selectors() -> Vec<String> {
    let mut calls = Vec::new();
    for cell in 0..=4 {
        for outcome in 0..=3 {
            let table = table_bytes(1, &[vec![cell, outcome]]);
            calls.push(compile(&table, 14));
            calls.extend((0..4).map(|answer| evaluate(&compiled(&table), &[answer])));
        }
    }
    calls
}

fn examples() -> Vec<String> {
    let laptop = laptop();
    let nodes = compiled(&laptop);
    let mut calls = vec![
        compile(&table_bytes(1, &[vec![2, 2]]), 4),
        compile(&table_bytes(1, &[vec![0, 1]]), 9),
        compile(&table_bytes(1, &[]), 1),
        compile(&table_bytes(1, &[vec![4, 3]]), 1),
        compile(&laptop, 64),
        compile(&laptop, 65),
        compile(&laptop, 80),
        compile(&largest(), 4222),
        compile(&largest(), 4223),
        compile(&largest(), 4300),
        evaluate(&[vec![16; 16], vec![7; 15]].concat(), &[2]),
        evaluate(&[16; 17], &[2]),
        evaluate(&[vec![16; 17], vec![7; 16]].concat(), &[2]),
        speak(&[], &[24, 40, 43, 0, 7, 0, 0, 0, 1, 2]),
        speak_set(&[], &[24, 40, 43, 0, 7, 0, 0, 0, 1, 2]),
        growth(&nodes, 2),
    ];
    for p in 0..4 {
        calls.extend((0..4).map(|q| evaluate(&nodes, &[p, q])));
    }
    calls.extend((0..laptop.len()).map(|length| compile(&laptop[..length], 65)));
    let largest_nodes = compiled(&largest());
    calls.push(evaluate(&largest_nodes, &[0; 6]));
    calls.push(evaluate(&largest_nodes, &[0, 0, 0, 0, 0, 1]));
    calls.push(evaluate(&largest_nodes, &[3; 6]));
    calls
}

/// Two columns and two rows, with one thing wrong.
fn table_refusals() -> Vec<String> {
    let good = table_bytes(2, &[vec![0, 4, 1], vec![1, 4, 2]]);
    let mut calls = Vec::new();
    let with = |at: usize, byte: u8| {
        let mut table = good.clone();
        table[at] = byte;
        compile(&table, 40)
    };
    // each byte of the table in turn: START, LEN, VALUE, TAG, LEN, VALUE of a cell, VALUE of the outcome
    for at in 0..good.len() {
        calls.extend([0, 1, 2, 3, 4, 5, 6, 7, 255].map(|byte| with(at, byte)));
    }
    // input of no byte, of one and of two
    calls.push(compile(&[], 0));
    calls.push(compile(&[], 10));
    for first in [0, 1, 2, 255] {
        calls.push(compile(&[first], 10));
        calls.push(compile(&[first, 0], 10));
        calls.push(compile(&[first, 0, 1], 10));
        calls.push(compile(&[first, 0, 0], 10));
        calls.push(compile(&[first, 0, 1, 2], 10));
    }
    calls.extend((0..=8).map(|columns| compile(&table_bytes(columns, &[]), 1)));
    // a further field of each tag, whole and cut
    for tag in [0, 1, 2, 3, 16, 255] {
        let more = [good.clone(), field(tag, &[2, 2, 2])].concat();
        calls.extend([good.len() + 2, good.len() + 3, more.len() - 1, more.len()].map(|length| compile(&more[..length], 60)));
        calls.push(compile(&[good.clone(), field(tag, &[2])].concat(), 60));
        calls.push(compile(&[good.clone(), field(tag, &[2, 2, 2, 2])].concat(), 60));
    }
    // lengths that are right in their low byte only, and the longest
    calls.push(compile(&[1, 1, 1, 2], 10));
    calls.push(compile(&[&good[..], &[2, 1, 3, 2, 2, 2]].concat(), 60));
    calls.push(compile(&[&good[..], &[2, 255, 255, 2, 2, 2]].concat(), 60));
    // the first of two bytes out of range, and VALUE before OVERLAP
    calls.push(compile(&[&good[..], &field(2, &[5, 9, 9])].concat(), 60));
    calls.push(compile(&[&good[..], &field(2, &[4, 9, 9])].concat(), 60));
    calls.push(compile(&[&good[..], &field(2, &[0, 4, 2]), &field(2, &[0, 4, 4])].concat(), 60));
    calls
}

fn overlaps() -> Vec<String> {
    let tables: [&[[u8; 3]]; 10] = [
        // the same situations, another outcome
        &[[0, 1, 1], [0, 1, 2]],
        // a silent row counts
        &[[0, 1, 1], [0, 1, 0]],
        &[[4, 4, 0], [2, 1, 3]],
        // equal outcomes may overlap
        &[[0, 1, 1], [4, 1, 1], [0, 1, 1]],
        // the smallest later row, then the smallest earlier one
        &[[0, 1, 1], [1, 1, 1], [4, 4, 2], [0, 4, 3]],
        &[[3, 3, 1], [1, 4, 1], [1, 2, 1], [4, 2, 2], [4, 4, 3]],
        &[[2, 4, 1], [4, 2, 1], [0, 0, 2], [0, 2, 2]],
        // any against an answer, in the last column only
        &[[0, 4, 1], [0, 3, 2]],
        // different in one column is enough
        &[[0, 0, 1], [0, 1, 2], [1, 0, 3], [4, 2, 0], [4, 3, 1]],
        // both any
        &[[4, 1, 3], [4, 2, 3], [4, 4, 3]],
    ];
    let mut calls = Vec::new();
    for rows in tables {
        let table = table_bytes(2, &rows.iter().map(|row| row.to_vec()).collect::<Vec<_>>());
        calls.extend([0, 12, 200].map(|room| compile(&table, room)));
    }
    calls
}

fn limits_of_tables() -> Vec<String> {
    let one = |rows: usize| table_bytes(1, &vec![vec![0, 3]; rows]);
    let mut calls = Vec::new();
    for rows in [63, 64, 65, 66] {
        calls.push(compile(&one(rows), 700));
        calls.push(compile(&one(rows), 702));
        calls.push(compile(&one(rows), 703));
    }
    // ROWS comes before the 65th row's LEN, SHORT and VALUE, and after its short header and its TAG
    for last in [&[2u8, 0][..], &[2, 0, 2], &[2, 0, 9], &[2, 0, 2, 9, 9], &[3, 0, 2, 0, 0], &[2]] {
        calls.push(compile(&[&one(64), last].concat(), 703));
    }
    // rows of each outcome in six columns, and the longest lawful table
    for outcome in 0..=3 {
        let table = table_bytes(6, &[vec![0, 1, 2, 3, 4, 0, outcome]]);
        calls.extend([0, 38, 39, 43, 44, 60].map(|room| compile(&table, room)));
    }
    let base_4: Vec<Vec<u8>> = (0..64u8).map(|row| vec![row / 16, row / 4 % 4, row % 4, row % 4]).collect();
    let table = table_bytes(3, &base_4);
    calls.extend([2000, 1999, 4300].map(|room| compile(&table, room)));
    calls.push(growth(&compiled(&table), 3));
    calls.push(compile(&vec![2; 4300], 10));
    calls.push(compile(&[one(64), vec![0; 400]].concat(), 10));
    calls
}

/// Every byte as the only node, then above one answer and above two.
fn single_nodes() -> Vec<String> {
    let mut calls = Vec::new();
    for node in 0..=255 {
        calls.push(evaluate(&[node], &[2]));
        calls.push(evaluate(&[node], &[3]));
        calls.push(evaluate(&[node], &[0, 1, 2, 3, 0, 1]));
        calls.push(evaluate(&[node], &[1, 2, 3, 0, 1, 2]));
        calls.push(evaluate(&[16, node], &[1]));
        calls.push(evaluate(&[16, 2, node], &[1]));
    }
    calls
}

fn array_refusals() -> Vec<String> {
    let mut calls = vec![
        // END: none left, more than one left
        evaluate(&[], &[0]),
        evaluate(&[0, 1], &[0]),
        evaluate(&[16, 17, 2], &[0, 0]),
        evaluate(&[16; 16], &[0]),
        // UNDER at the start and later
        evaluate(&[4], &[0]),
        evaluate(&[5, 0], &[0]),
        evaluate(&[6], &[0]),
        evaluate(&[0, 7], &[0]),
        evaluate(&[0, 1, 6, 6], &[0]),
        evaluate(&[0, 1, 2, 7, 7, 7], &[0]),
        // the first refusal stands
        evaluate(&[16, 99, 4, 21], &[0]),
        evaluate(&[16, 17, 99], &[0]),
        evaluate(&[8, 15, 22], &[0]),
        // the situation is judged before the nodes
        evaluate(&[99], &[]),
        evaluate(&[99], &[4]),
        evaluate(&[], &[]),
    ];
    // each byte onto a full stack: a column not below n is COLUMN there, another byte NODE
    for node in [0, 1, 2, 3, 4, 5, 6, 7, 8, 15, 16, 17, 21, 22, 255] {
        calls.push(evaluate(&[vec![16; 16], vec![node]].concat(), &[1]));
        calls.push(evaluate(&[vec![16; 16], vec![node], vec![6; 15]].concat(), &[1]));
    }
    for columns in 1..=6 {
        calls.extend((16..=22).map(|node| evaluate(&[node], &[1; 6][..columns])));
        calls.extend((16..=22).map(|node| evaluate(&[node, 2, 6], &[0, 1, 2, 3, 2, 3][..columns])));
    }
    calls
}

fn situation_refusals() -> Vec<String> {
    let mut calls = Vec::new();
    for length in [0, 1, 6, 7, 8, 16, 255, 256, 4300] {
        calls.push(evaluate(&[1], &vec![0; length]));
        calls.push(evaluate(&[1], &vec![4; length]));
    }
    for length in 1..=6 {
        for at in 0..length {
            for byte in [4, 255] {
                let mut situation = vec![3; length];
                situation[at] = byte;
                calls.push(evaluate(&[1], &situation));
            }
        }
    }
    calls.push(evaluate(&[1], &[0, 5, 4]));
    calls
}

fn merges() -> Vec<String> {
    let merge = |length: u64, six: [u8; 6], length_2: u64, six_2: [u8; 6]| {
        format!("merge {length} {} {length_2} {}", hex(&six), hex(&six_2))
    };
    let mut calls = Vec::new();
    for p in 0..6 {
        calls.extend((0..6).map(|q| merge(1, [p, 9, 9, 9, 9, 9], 1, [q, 7, 7, 7, 7, 7])));
    }
    let ours = [0, 1, 2, 3, 0, 1];
    let theirs = [1, 2, 0, 0, 3, 1];
    let lengths = [0, 1, 2, 3, 4, 5, 6, 7, 8, 255, 256, 257, 1 << 32, (1 << 32) + 2, 1 << 63, u64::MAX];
    for length in lengths {
        calls.extend([0, 1, 2, 5, 6, 7, length].map(|length_2| merge(length, ours, length_2, theirs)));
        calls.extend([1, 6].map(|length_1| merge(length_1, ours, length, theirs)));
    }
    // an answer above 3 at each place, in the first, in the second and in both, with equal and unequal lengths
    for at in 0..6 {
        for byte in [4, 255] {
            let mut bad = ours;
            bad[at] = byte;
            let mut bad_too = theirs;
            bad_too[5 - at] = byte;
            for length in [1, 3, 6] {
                calls.push(merge(length, bad, length, theirs));
                calls.push(merge(length, ours, length, bad_too));
                calls.push(merge(length, bad, length, bad_too));
                calls.push(merge(length, bad, 2, theirs));
                calls.push(merge(2, ours, length, bad_too));
                calls.push(merge(length, bad, 9, theirs));
                calls.push(merge(9, bad, length, bad_too));
            }
        }
    }
    calls
}

fn growth_checks() -> Vec<String> {
    let mut calls = Vec::new();
    for columns in [0, 1, 2, 3, 4, 5, 6, 7, 8, 255, 256, 257, 1 << 32, (1 << 32) + 1, 1 << 63, u64::MAX] {
        calls.push(growth(&[2], columns));
        calls.push(growth(&[], columns));
        calls.push(growth(&[99], columns));
        calls.push(growth(&[16 + 5], columns));
    }
    // each failing step there is: one column turned, seen alone or kept silent below
    for turns in 0..4 {
        for column in 0..3u8 {
            let turned = [vec![16 + column], vec![5; turns]].concat();
            calls.push(growth(&turned, 3));
            for guard in [16, 17, 18] {
                calls.push(growth(&[turned.clone(), vec![guard, 6]].concat(), 3));
                calls.push(growth(&[turned.clone(), vec![guard, 4, 7]].concat(), 3));
            }
        }
    }
    // one row in one column, each cell and outcome
    for cell in 0..=4 {
        calls.extend((0..=3).map(|outcome| growth(&compiled(&table_bytes(1, &[vec![cell, outcome]])), 1)));
    }
    // six columns: yes after every step, no at the last situation, no at the first step
    // bury but where the column clashes: the first failing step is 1 to 3, since none goes from 0 to 3
    calls.push(growth(&compiled(&table_bytes(1, &[vec![0, 1], vec![1, 1], vec![2, 1]])), 1));
    calls.push(growth(&[16, 17, 7, 18, 7, 19, 6, 20, 7, 21, 7], 6));
    calls.push(growth(&compiled(&table_bytes(6, &[vec![3, 3, 3, 3, 3, 2, 2]])), 6));
    calls.push(growth(&compiled(&table_bytes(6, &[vec![0, 0, 0, 0, 0, 0, 3]])), 6));
    calls.push(growth(&compiled(&largest()), 6));
    // the evaluator's refusals
    for nodes in [&[17u8][..], &[16, 17, 7], &[4], &[16, 6], &[16, 16], &[16; 17], &[8], &[16, 22], &[0, 4, 5, 255]] {
        calls.extend([1, 2].map(|columns| growth(nodes, columns)));
    }
    calls
}

/// Tables in which one step alone fails: each column of each number of columns, each of the four steps. The other
/// columns are any, so that the step fails at once, or clash, so that it fails late.
fn only_steps() -> Vec<String> {
    // the answers of the column at which the outcome is said: 0 to 1 fails, 0 to 2, 1 to 3, 2 to 3
    let said: [&[u8]; 4] = [&[0, 2, 3], &[0, 1, 3], &[1], &[2]];
    let mut calls = Vec::new();
    for columns in 1..=6 {
        for column in 0..columns {
            for answers in said {
                for (others, outcome) in [(4, 1), (3, 1), (3, 2)] {
                    let row = |&answer: &u8| {
                        let mut row = vec![others; columns];
                        row[column] = answer;
                        [row, vec![outcome]].concat()
                    };
                    let rows: Vec<Vec<u8>> = answers.iter().map(row).collect();
                    calls.push(growth(&compiled(&table_bytes(columns as u8, &rows)), columns as u64));
                }
            }
        }
    }
    calls
}

pub fn rising(facts: u16) -> Vec<Fact> {
    (0..facts).map(|number| Fact { number: number * 3, value: u32::from(number) }).collect()
}

fn notices() -> Vec<String> {
    let three = notice_bytes(&rising(3));
    let mut calls: Vec<String> = (0..=three.len()).map(|length| notice(&three[..length])).collect();
    for at in 0..three.len() {
        for byte in [0, 1, 2, 3, 4, 6, 7, 15, 16, 17, 255] {
            let mut changed = three.clone();
            changed[at] = byte;
            calls.push(notice(&changed));
        }
    }
    for facts in [31, 32, 33, 34] {
        calls.push(notice(&notice_bytes(&rising(facts))));
    }
    // FACTS comes before the 33rd field's LEN, SHORT and RISE, and after its short header and its TAG
    let full = notice_bytes(&rising(32));
    for last in [&[16u8][..], &[16, 0], &[16, 0, 6], &[16, 0, 7], &[15, 0, 6], &[16, 0, 6, 0, 0, 0, 0, 0, 0]] {
        calls.push(notice(&[&full, last].concat()));
    }
    // numbers equal, falling, and rising over the byte's edge; the largest number
    for numbers in
        [[5, 5, 6], [5, 6, 6], [5, 4, 6], [5, 9, 8], [255, 256, 257], [256, 255, 257], [0, 65534, 65535], [65535, 0, 1]]
    {
        calls.push(notice(&notice_bytes(&numbers.map(|number| Fact { number, value: 7 }))));
    }
    // SHORT comes before RISE, RISE before what is wrong in the next field
    let falling = notice_bytes(&[Fact { number: 9, value: 1 }, Fact { number: 8, value: 1 }, Fact { number: 20, value: 1 }]);
    calls.extend([11, 12, 17, 18, 19, 21, 26].map(|length| notice(&falling[..length])));
    // lengths that are right in their low byte only
    calls.push(notice(&[16, 1, 6, 0, 1, 0, 0, 0, 1]));
    calls.push(notice(&[16, 255, 255, 0, 1, 0, 0, 0, 1]));
    calls
}

/// Every byte where a policy stands and where a test stands, with operands that suit most codes.
fn codes() -> Vec<String> {
    let facts = notice_bytes(&[Fact { number: 7, value: 1 }, Fact { number: 8, value: 0x8000_0000 }]);
    let mut calls = Vec::new();
    for code in 0..=255 {
        calls.push(speak(&facts, &[code]));
        calls.push(speak(&facts, &[code, 2]));
        calls.push(speak(&facts, &[code, 1, 2]));
        calls.push(speak(&facts, &[24, code, 2]));
        calls.push(speak(&facts, &[24, code, 0, 7, 0, 0, 0, 1, 2]));
        calls.push(speak(&facts, &[24, code, 46, 0, 7, 46, 0, 7, 3]));
    }
    // each operator on all answers, by its code
    for code in [8, 9, 10] {
        calls.extend((0..4).map(|p| speak(&[], &[code, p])));
    }
    for code in [12, 13, 14, 15, 16, 17, 18, 20, 21, 22, 23] {
        for p in 0..4 {
            calls.extend((0..4).map(|q| speak(&[], &[code, p, q])));
        }
    }
    // tests on answers, and the truth tables of not, and, or
    for code in 48..=51 {
        calls.extend((0..4).map(|p| speak(&[], &[24, code, p, 2])));
        calls.extend((0..4).map(|p| speak(&[], &[24, 40, code, p, 1])));
    }
    for code in [41, 42] {
        for p in [1, 2] {
            calls.extend([1, 2].map(|q| speak(&[], &[24, code, 50, p, 50, q, 3])));
        }
    }
    calls
}

fn voice_refusals() -> Vec<String> {
    let facts = notice_bytes(&[Fact { number: 7, value: 1 }]);
    // every prefix of voices that hold each kind of code
    let voices: [&[u8]; 5] = [
        &[24, 40, 43, 0, 7, 0, 0, 0, 1, 2],
        &[18, 24, 41, 46, 0, 7, 44, 0, 7, 0, 0, 0, 1, 1, 15, 2, 8, 1],
        &[20, 24, 42, 45, 0, 7, 0, 0, 0, 1, 49, 9, 0, 3, 2],
        &[24, 51, 24, 48, 10, 0, 3, 2],
        &[13, 12, 0, 3, 17, 2, 24, 46, 255, 255, 3],
    ];
    let mut calls = Vec::new();
    for voice in voices {
        calls.extend((0..=voice.len()).map(|length| speak(&facts, &voice[..length])));
        calls.extend([0, 24, 255].map(|byte| speak(&facts, &[voice, &[byte, byte]].concat())));
        for at in 0..voice.len() {
            for byte in [4, 11, 19, 25, 39, 47, 52, 255] {
                let mut changed = voice.to_vec();
                changed[at] = byte;
                calls.push(speak(&facts, &changed));
            }
        }
    }
    // sixteen levels and seventeen, each with a constant, a wrong code, and nothing at the end
    for step in [&[8u8][..], &[15, 0], &[18, 0], &[24, 50], &[24, 46, 0, 7], &[24, 40, 49]] {
        for steps in 4..=16 {
            let spine = step.repeat(steps);
            for last in [&[2u8][..], &[255], &[], &[2, 2]] {
                calls.push(speak(&facts, &[&spine, last].concat()));
            }
        }
    }
    // the last level may hold a test, and a test's operands count too
    for nots in 12..=16 {
        calls.push(speak(&facts, &[&[24u8][..], &vec![40; nots], &[46, 0, 7, 2]].concat()));
        calls.push(speak(&facts, &[&[24u8][..], &vec![40; nots], &[50, 2, 2]].concat()));
        calls.push(speak(&facts, &[&[24u8][..], &vec![41; nots], &[46, 0, 7].repeat(nots + 1), &[2]].concat()));
    }
    // the notice is judged before the voice
    for bad in [&[16u8][..], &[15, 0, 6], &[16, 0, 5], &[16, 0, 6, 0], &[&facts[..], &facts].concat()] {
        calls.push(speak(bad, &[2]));
        calls.push(speak(bad, &[]));
        calls.push(speak(bad, &[255]));
    }
    calls.push(speak(&notice_bytes(&rising(33)), &[2]));
    calls.push(speak(&[], &[]));
    // read in full where the answer is known sooner
    calls.push(speak(&[], &[24, 46, 0, 1, 255]));
    calls.push(speak(&[], &[24, 41, 46, 0, 1, 255, 2]));
    calls.push(speak(&facts, &[24, 42, 46, 0, 7, 47, 2]));
    calls.push(speak(&facts, &[18, 1, 255]));
    calls.push(speak(&facts, &[17, 1, 8]));
    calls
}

/// Comparisons at values where signed and unsigned, or one byte's order, would show.
fn comparisons() -> Vec<String> {
    let values = [0u32, 1, 255, 256, 0x8000, 0xffff, 0x1_0000, 0xff_0000, 0x7fff_ffff, 0x8000_0000, 0xffff_ffff];
    let mut calls = Vec::new();
    for value in values {
        let facts = notice_bytes(&[Fact { number: 258, value }, Fact { number: 513, value: 5 }]);
        for asked in values {
            for code in [43, 44, 45] {
                let voice = [&[24, code, 1, 2][..], &asked.to_be_bytes(), &[2]].concat();
                calls.push(speak(&facts, &voice));
            }
        }
    }
    // an absent fact: every comparison may be true or false, and present is false
    for code in [43, 44, 45] {
        calls.push(speak(&[], &[24, code, 0, 0, 0, 0, 0, 0, 2]));
        calls.push(speak(&[], &[24, 40, code, 0, 0, 0, 0, 0, 0, 2]));
        calls.push(speak(&notice_bytes(&rising(32)), &[24, code, 0, 93, 0, 0, 0, 31, 2]));
        calls.push(speak(&notice_bytes(&rising(32)), &[24, code, 0, 94, 0, 0, 0, 31, 2]));
    }
    for number in [0, 1, 3, 92, 93, 94] {
        calls.push(speak(&notice_bytes(&rising(32)), &[24, 46, 0, number, 2]));
    }
    calls
}

/// Fact 7 is 1, asked where there is no fact 7 unless said.
const ABSENT: [u8; 7] = [43, 0, 7, 0, 0, 0, 1];

fn when(test: &[u8], policy: &[u8]) -> Vec<u8> {
    [&[24], test, policy].concat()
}

/// A voice that may answer what the set has and nothing else: each answer where its own comparison is true and no earlier
/// one is, the last where none is. Silent comes last, since priority passes over it.
pub fn may_answer(set: u8) -> Vec<u8> {
    let mut answers = [1, 2, 3, 0].into_iter().filter(|answer| set >> answer & 1 == 1).rev();
    let last = vec![answers.next().expect("a set of one to four answers")];
    answers.fold(last, |rest, answer| [&[18], &when(&ABSENT, &[answer])[..], &rest].concat())
}

/// A test that may have these truths: false, true, both.
const TRUTHS: [&[u8]; 3] = [&[46, 0, 7], &[40, 46, 0, 7], &ABSENT];

fn sets() -> Vec<String> {
    let mut calls = Vec::new();
    for set in 1..=15 {
        calls.push(speak(&[], &may_answer(set)));
        calls.push(speak_set(&[], &may_answer(set)));
        calls.extend(TRUTHS.map(|test| speak_set(&[], &when(test, &may_answer(set)))));
        // every set in a policy below a test below a policy
        for code in 48..=51 {
            calls.push(speak_set(&[], &when(&[&[code], &may_answer(set)[..]].concat(), &[2])));
            calls.push(speak_set(&[], &when(&[&[40, code], &may_answer(set)[..]].concat(), &[3])));
        }
    }
    calls
}

/// Each operator on all sets, by its code.
fn operators_on_sets() -> Vec<String> {
    let mut calls = Vec::new();
    for code in [8, 9, 10] {
        calls.extend((1..=15).map(|p| speak_set(&[], &[&[code], &may_answer(p)[..]].concat())));
    }
    for code in [12, 13, 14, 15, 16, 17, 18, 20, 21, 22, 23] {
        for p in 1..=15 {
            calls.extend((1..=15).map(|q| speak_set(&[], &[&[code], &may_answer(p)[..], &may_answer(q)].concat())));
        }
    }
    calls
}

/// Not, and, or of tests that are false, true, or either.
fn tests_on_sets() -> Vec<String> {
    let mut calls = Vec::new();
    for p in TRUTHS {
        calls.push(speak_set(&[], &when(&[&[40], p].concat(), &[2])));
        for q in TRUTHS {
            calls.extend([41, 42].map(|code| speak_set(&[], &when(&[&[code], p, q].concat(), &[2]))));
            calls.extend([41, 42].map(|code| speak_set(&[], &when(&[&[40, code], p, q].concat(), &[1]))));
        }
    }
    calls
}

fn absent_facts() -> Vec<String> {
    let full = notice_bytes(&rising(32));
    let mut calls = Vec::new();
    // before the first fact, between two, at the last, behind it; with values that no fact, or every fact, is below
    for number in [0, 1, 3, 92, 93, 94] {
        for code in [43, 44, 45] {
            for value in [0, 31, 255] {
                calls.push(speak_set(&full, &[24, code, 0, number, value, value, value, value, 2]));
                calls.push(speak_set(&full[9..], &[24, code, 0, number, 0, 0, 0, value, 1]));
            }
        }
        calls.push(speak_set(&full, &[24, 46, 0, number, 2]));
        calls.push(speak_set(&full[9..], &[24, 40, 46, 0, number, 2]));
    }
    // a comparison on an absent fact beside itself: each goes its own way
    let (keep_when, keep_when_not) = (when(&ABSENT, &[2]), when(&[&[40], &ABSENT[..]].concat(), &[2]));
    for code in 12..=18 {
        calls.push(speak_set(&[], &[&[code], &keep_when[..], &keep_when_not].concat()));
        calls.push(speak_set(&[], &[&[code], &keep_when[..], &keep_when].concat()));
    }
    // as deep as a voice goes: every compared fact absent, two of three, none
    for (step, first) in [(3, 1), (1, 0), (3, 0)] {
        let whens = |levels: u8| (0..levels).flat_map(move |level| [24, 44, 0, level * step + first, 0, 0, 0, 0]);
        for answer in 0..4 {
            calls.extend([1, 2, 14, 15, 16].map(|levels| speak_set(&full, &whens(levels).chain([answer]).collect::<Vec<_>>())));
        }
    }
    calls
}

/// A fact compared, then compared only where it is present: absent, with the value asked for, with another.
fn after_presence() -> Vec<String> {
    let fact_7 = |value: u32| notice_bytes(&[Fact { number: 7, value }]);
    let not_equal = [&[40], &ABSENT[..]].concat();
    let voices = [
        when(&not_equal, &[2]),
        when(&[46, 0, 7], &when(&not_equal, &[2])),
        when(&[&[41, 46, 0, 7], &not_equal[..]].concat(), &[2]),
        when(&[&[42, 40, 46, 0, 7], &not_equal[..]].concat(), &[2]),
        [&[18], &when(&[46, 0, 7], &when(&not_equal, &[2]))[..], &[1]].concat(),
    ];
    let notices = [vec![], fact_7(1), fact_7(2)];
    voices.iter().flat_map(|voice| notices.iter().map(|notice| speak_set(notice, voice)).collect::<Vec<_>>()).collect()
}

/// Every refusal of a notice or a voice, also behind a comparison on an absent fact.
fn refusals_of_sets() -> Vec<String> {
    let one = notice_bytes(&rising(1));
    let two = [&one[..], &notice_bytes(&rising(2))[9..]].concat();
    let mut calls = Vec::new();
    for bad in [&[16u8][..], &[16, 0, 6, 0], &[15, 0, 6], &[16, 0, 5], &[&one[..], &one].concat(), &[&two[..], &[16]].concat()] {
        calls.extend([&[2u8][..], &[], &[255]].map(|voice| speak_set(bad, voice)));
    }
    calls.push(speak_set(&notice_bytes(&rising(33)), &[2]));
    let absent = when(&ABSENT, &[2]);
    for front in [&[][..], &[15, 2], &[&[15], &absent[..]].concat(), &[&[24, 41], &ABSENT[..], &[50]].concat()] {
        for end in [&[][..], &[255], &[43], &[24], &[24, 47], &[24, 2], &[24, 46, 0], &[24, 43, 0, 7, 0, 0, 0], &[24, 46, 0, 7]] {
            calls.push(speak_set(&one, &[front, end].concat()));
        }
        for last in [&[2u8][..], &[], &[255]] {
            calls.extend((12..=16).map(|levels| speak_set(&one, &[front, &vec![8; levels], last].concat())));
        }
    }
    calls.push(speak_set(&one, &[&absent[..], &[0]].concat()));
    calls.push(speak_set(&one, &[&absent[..], &absent].concat()));
    // sixteen levels of tests and seventeen
    for nots in 13..=15 {
        calls.push(speak_set(&[], &[&[24], &vec![40; nots][..], &ABSENT, &[2]].concat()));
        calls.push(speak_set(&[], &[&[24], &vec![40; nots][..], &[50, 2, 2]].concat()));
    }
    calls
}
