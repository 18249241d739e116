//! Lawful tables, node arrays, notices, batches and voices, drawn at random.

use crate::nodes::{COLUMN_0, JOIN, MEET, NEGATE, TURN};
use crate::notices::Fact;
use crate::random::Random;

pub fn field(tag: u8, value: &[u8]) -> Vec<u8> {
    let [high, low] = (value.len() as u16).to_be_bytes();
    [&[tag, high, low], value].concat()
}

/// The bytes of a table: each row is its cells, then its outcome.
pub fn table_bytes(columns: u8, rows: &[Vec<u8>]) -> Vec<u8> {
    let mut bytes = field(1, &[columns]);
    for row in rows {
        bytes.extend(field(2, row));
    }
    bytes
}

/// A table with a default's field behind its columns.
pub fn with_default(table: &[u8], default: u8) -> Vec<u8> {
    let (columns, rows) = table.split_at(4);
    [columns, &field(3, &[default]), rows].concat()
}

/// Rows of which no two overlap and which match every situation but those that begin with these answers: at each of these
/// columns the three other answers have a row.
pub fn rows_beside(begin: &[u8], columns: usize, mut outcome: impl FnMut() -> u8) -> Vec<Vec<u8>> {
    let mut rows = Vec::new();
    for (column, &answer) in begin.iter().enumerate() {
        for other in (0..4).filter(|&other| other != answer) {
            rows.push([&begin[..column], &[other], &vec![4; columns - column - 1], &[outcome()]].concat());
        }
    }
    rows
}

pub fn columns(random: &mut Random) -> usize {
    random.pick(&[1, 1, 2, 2, 2, 3, 3, 3, 4, 4, 5, 6])
}

/// Rows that may well disagree.
pub fn rows(random: &mut Random, columns: usize, most: usize) -> Vec<Vec<u8>> {
    let wanted = random.below(most + 1);
    let row = |random: &mut Random| {
        let mut row: Vec<u8> = (0..columns).map(|_| random.byte(5)).collect();
        row.push(random.byte(4));
        row
    };
    (0..wanted).map(|_| row(random)).collect()
}

/// A table without OVERLAP. A row that would disagree with an earlier one takes its outcome, or is dropped where
/// that makes it disagree with another.
pub fn table(random: &mut Random, columns: usize) -> Vec<u8> {
    let wanted = if random.one_in(12) { random.below(65) } else { random.below(9) };
    let any = random.below(4);
    let mut rows: Vec<Vec<u8>> = Vec::new();
    for _ in 0..wanted {
        let mut row: Vec<u8> = (0..columns).map(|_| if random.below(4) < any { 4 } else { random.byte(4) }).collect();
        row.push(random.byte(4));
        let overlaps = |other: &&Vec<u8>| (0..columns).all(|at| other[at] == 4 || row[at] == 4 || other[at] == row[at]);
        let outcomes: Vec<u8> = rows.iter().filter(overlaps).map(|other| other[columns]).collect();
        if let Some(&outcome) = outcomes.first() {
            row[columns] = outcome;
        }
        if outcomes.iter().all(|&outcome| outcome == row[columns]) {
            rows.push(row);
        }
    }
    table_bytes(columns as u8, &rows)
}

/// A table with a default and without OVERLAP; from four columns on few situations are left to the default.
pub fn defaulted_table(random: &mut Random, columns: usize) -> Vec<u8> {
    let written = if columns > 3 || random.one_in(3) {
        let left = random.below(columns.min(3) + 1);
        let begin = situation(random, columns - left);
        table_bytes(columns as u8, &rows_beside(&begin, columns, || random.byte(4)))
    } else {
        table(random, columns)
    };
    with_default(&written, random.pick(&[0, 1, 1, 2, 2, 3, 3]))
}

/// An array that leaves one answer, over columns below the given number. `turns` out of 8 unary operators turn; with
/// none of them the array grows.
pub fn nodes(random: &mut Random, columns: usize, turns: usize) -> Vec<u8> {
    let mut nodes = Vec::new();
    if random.one_in(6) {
        let height = 1 + random.below(16);
        nodes = comb(random, columns, height);
    } else {
        let levels = 1 + random.below(5);
        tree(random, columns, turns, levels, &mut nodes);
    }
    nodes
}

fn leaf(random: &mut Random, columns: usize) -> u8 {
    if random.one_in(5) {
        random.byte(4)
    } else {
        COLUMN_0 + random.below(columns) as u8
    }
}

fn two(random: &mut Random) -> u8 {
    random.pick(&[MEET, JOIN])
}

fn tree(random: &mut Random, columns: usize, turns: usize, levels: usize, nodes: &mut Vec<u8>) {
    if levels == 1 || random.one_in(6) {
        nodes.push(leaf(random, columns));
    } else if random.one_in(3) {
        tree(random, columns, turns, levels - 1, nodes);
        nodes.push(if random.below(8) < turns { TURN } else { NEGATE });
    } else {
        tree(random, columns, turns, levels - 1, nodes);
        tree(random, columns, turns, levels - 1, nodes);
        nodes.push(two(random));
    }
}

/// All operands first, then all operators, so that the stack gets this high.
pub fn comb(random: &mut Random, columns: usize, height: usize) -> Vec<u8> {
    let mut nodes: Vec<u8> = (0..height).map(|_| leaf(random, columns)).collect();
    nodes.extend((1..height).map(|_| two(random)));
    nodes
}

pub fn situation(random: &mut Random, columns: usize) -> Vec<u8> {
    (0..columns).map(|_| random.byte(4)).collect()
}

/// Values at which a comparison can go wrong.
const VALUES: [u32; 8] = [0, 1, 2, 255, 256, 0x7fff_ffff, 0x8000_0000, 0xffff_ffff];

fn value(random: &mut Random) -> u32 {
    if random.one_in(4) {
        random.next() as u32
    } else {
        random.pick(&VALUES)
    }
}

pub fn facts(random: &mut Random) -> Vec<Fact> {
    let wanted = if random.one_in(12) { random.below(33) } else { random.below(6) };
    rising(random, wanted)
}

/// This many facts, their numbers mostly close together.
pub fn rising(random: &mut Random, wanted: usize) -> Vec<Fact> {
    let mut facts = Vec::new();
    let mut number = random.below(4);
    for _ in 0..wanted {
        facts.push(Fact { number: number as u16, value: value(random) });
        let step = if random.one_in(20) { random.below(1500) } else { random.below(3) };
        number += 1 + step;
    }
    facts
}

fn fact_bytes(number: u16, value: u32) -> Vec<u8> {
    [&number.to_be_bytes()[..], &value.to_be_bytes()[..]].concat()
}

pub fn notice_bytes(facts: &[Fact]) -> Vec<u8> {
    facts.iter().flat_map(|fact| field(16, &fact_bytes(fact.number, fact.value))).collect()
}

/// What an old device sends of the facts that voices ask for: all of them, some, or none.
pub fn sent(random: &mut Random, facts: &[Fact]) -> Vec<Fact> {
    let out_of_four = random.pick(&[0, 1, 2, 4]);
    facts.iter().copied().filter(|_| random.below(4) < out_of_four).collect()
}

/// The bytes of a batch: a field for each notice.
pub fn batch_bytes<T: AsRef<[u8]>>(notices: &[T]) -> Vec<u8> {
    notices.iter().flat_map(|notice| field(17, notice.as_ref())).collect()
}

/// A notice of some of these facts, some of their values moved to the next.
pub fn moved(random: &mut Random, facts: &[Fact]) -> Vec<Fact> {
    let mut facts = sent(random, facts);
    for fact in &mut facts {
        fact.value = fact.value.wrapping_add(random.pick(&[0, 0, 1, u32::MAX]));
    }
    facts
}

/// A voice of at most 16 levels that mostly asks for these facts, with values equal or beside theirs.
pub fn voice(random: &mut Random, facts: &[Fact]) -> Vec<u8> {
    let spine = random.one_in(6);
    let levels = if spine { 1 + random.below(16) } else { 1 + random.below(5) };
    voice_of(random, facts, levels, spine)
}

/// A voice of so many levels: bushy, or a spine of which all levels but the last few have one long operand.
pub fn voice_of(random: &mut Random, facts: &[Fact], levels: usize, spine: bool) -> Vec<u8> {
    let mut voice = Vec::new();
    policy(random, facts, levels, spine, &mut voice);
    voice
}

/// How deep the operand at this index goes: on a spine one operand goes on and the others are short.
fn levels_of(random: &mut Random, levels: usize, spine: bool, goes_on: bool) -> usize {
    if spine && !goes_on {
        1 + random.below((levels - 1).min(2))
    } else {
        levels - 1
    }
}

fn policy(random: &mut Random, facts: &[Fact], levels: usize, spine: bool, voice: &mut Vec<u8>) {
    if levels == 1 || (!spine && random.one_in(6)) {
        voice.push(random.byte(4));
        return;
    }
    let code = random.pick(&[8, 9, 10, 12, 13, 14, 15, 16, 17, 18, 20, 21, 22, 23, 24, 24, 24, 24, 24, 24, 24, 24]);
    voice.push(code);
    let goes_on = random.below(2);
    if code < 12 {
        policy(random, facts, levels - 1, spine, voice);
        return;
    }
    let first = levels_of(random, levels, spine, goes_on == 0);
    let second = levels_of(random, levels, spine, goes_on == 1);
    if code == 24 {
        test(random, facts, first, spine && goes_on == 0, voice);
    } else {
        policy(random, facts, first, spine && goes_on == 0, voice);
    }
    policy(random, facts, second, spine && goes_on == 1, voice);
}

fn test(random: &mut Random, facts: &[Fact], levels: usize, spine: bool, voice: &mut Vec<u8>) {
    if levels == 1 || (!spine && random.one_in(3)) {
        question(random, facts, voice);
        return;
    }
    let code = random.pick(&[40, 41, 42, 48, 49, 50, 51]);
    voice.push(code);
    match code {
        40 => test(random, facts, levels - 1, spine, voice),
        41 | 42 => {
            let goes_on = random.below(2);
            for operand in 0..2 {
                let deep = levels_of(random, levels, spine, goes_on == operand);
                test(random, facts, deep, spine && goes_on == operand, voice);
            }
        }
        _ => policy(random, facts, levels - 1, spine, voice),
    }
}

fn question(random: &mut Random, facts: &[Fact], voice: &mut Vec<u8>) {
    let asked = if facts.is_empty() || random.one_in(3) {
        Fact { number: random.below(12) as u16, value: value(random) }
    } else {
        let fact = facts[random.below(facts.len())];
        let beside = random.pick(&[0, 0, 1, u32::MAX]);
        Fact { number: fact.number, value: fact.value.wrapping_add(beside) }
    };
    let code = random.pick(&[43, 44, 45, 46]);
    voice.push(code);
    if code == 46 {
        voice.extend(asked.number.to_be_bytes());
    } else {
        voice.extend(fact_bytes(asked.number, asked.value));
    }
}
