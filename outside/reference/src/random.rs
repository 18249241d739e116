//! Random calls, the same for the same seed: half of them valid or one byte away from valid.

use crate::calls::hex;
use crate::compile::nodes_of;
use crate::notices::Fact;
use crate::tables;
use crate::untable::untable;
use crate::valid;

/// The generator xorshift64*.
pub struct Random(u64);

impl Random {
    pub fn new(seed: u64) -> Random {
        // the state must not be 0, and small seeds should not start alike
        let mut random = Random((seed ^ 0x9e37_79b9_7f4a_7c15) | 1 << 63);
        for _ in 0..8 {
            random.next();
        }
        random
    }

    pub fn next(&mut self) -> u64 {
        self.0 ^= self.0 >> 12;
        self.0 ^= self.0 << 25;
        self.0 ^= self.0 >> 27;
        self.0.wrapping_mul(0x2545_f491_4f6c_dd1d)
    }

    pub fn below(&mut self, bound: usize) -> usize {
        (self.next() >> 32) as usize % bound
    }

    pub fn byte(&mut self, bound: usize) -> u8 {
        self.below(bound) as u8
    }

    pub fn one_in(&mut self, bound: usize) -> bool {
        self.below(bound) == 0
    }

    pub fn pick<T: Copy>(&mut self, from: &[T]) -> T {
        from[self.below(from.len())]
    }
}

/// How far a call's bytes are from lawful ones.
#[derive(Clone, Copy, PartialEq)]
enum Distance {
    Valid,
    OneByte,
    Far,
}

pub fn call(random: &mut Random) -> String {
    let distance = random.pick(&[Distance::Valid, Distance::OneByte, Distance::Far, Distance::Far]);
    match random.below(100) {
        0..=3 => operator(random, distance),
        4..=29 => compile(random, distance),
        30..=51 => evaluate(random, distance),
        52..=59 => merge(random, distance),
        60..=71 => growth(random, distance),
        72..=79 => notice(random, distance),
        80..=87 => voice("speak", random, distance),
        _ => voice("speak_set", random, distance),
    }
}

/// Bytes that mean something in a table, an array, a notice, a batch and a voice.
const IN_TABLES: &[u8] = &[0, 1, 2, 3, 4, 5, 6, 7];
const IN_NODES: &[u8] = &[0, 1, 2, 3, 4, 5, 5, 6, 6, 7, 7, 16, 16, 17, 18, 19, 20, 21, 22, 8, 15];
const IN_SITUATIONS: &[u8] = &[0, 1, 2, 3, 4];
const IN_NOTICES: &[u8] = &[0, 0, 1, 6, 6, 16, 16, 255];
const IN_BATCHES: &[u8] = &[0, 0, 1, 6, 9, 16, 17, 17, 17, 32, 33, 255];
const IN_VOICES: &[u8] = &[
    0, 1, 2, 3, 4, 8, 9, 10, 11, 12, 13, 14, 15, 16, 17, 18, 19, 20, 21, 22, 23, 24, 24, 24, 25, 40, 41, 42, 43, 44, 45, 46, 47,
    48, 49, 50, 51, 52,
];

fn any_byte(random: &mut Random, alphabet: &[u8]) -> u8 {
    if random.one_in(3) {
        random.byte(256)
    } else {
        random.pick(alphabet)
    }
}

/// One byte changed, put in or taken out.
fn edit(random: &mut Random, bytes: &mut Vec<u8>, alphabet: &[u8]) {
    let byte = any_byte(random, alphabet);
    let at = random.below(bytes.len() + 1);
    match random.below(4) {
        0 => bytes.insert(at, byte),
        1 if at < bytes.len() => {
            bytes.remove(at);
        }
        2 if at < bytes.len() => bytes[at] = bytes[at].wrapping_add(random.pick(&[1, 255])),
        _ if at < bytes.len() => bytes[at] = byte,
        _ => bytes.push(byte),
    }
}

fn disturb(random: &mut Random, bytes: &mut Vec<u8>, distance: Distance, alphabet: &[u8]) {
    match distance {
        Distance::Valid => {}
        Distance::OneByte => edit(random, bytes, alphabet),
        Distance::Far => match random.below(4) {
            0 => {
                let length = random.below(24);
                *bytes = (0..length).map(|_| any_byte(random, alphabet)).collect();
            }
            1 => {
                let length = random.below(bytes.len() + 1);
                bytes.truncate(length);
            }
            _ => {
                for _ in 0..2 + random.below(4) {
                    edit(random, bytes, alphabet);
                }
            }
        },
    }
}

/// Of two arguments, one or the other is disturbed, seldom both.
fn disturb_one_of(random: &mut Random, arguments: [(&mut Vec<u8>, &[u8]); 2], distance: Distance) {
    let [(first, in_first), (second, in_second)] = arguments;
    let which = random.below(if distance == Distance::Far { 9 } else { 8 });
    if which < 5 || which == 8 {
        disturb(random, first, distance, in_first);
    }
    if which >= 5 {
        disturb(random, second, distance, in_second);
    }
}

fn operator(random: &mut Random, distance: Distance) -> String {
    let names = [
        "negate",
        "turn",
        "floor",
        "ceiling",
        "meet",
        "join",
        "truth_meet",
        "truth_join",
        "implication",
        "guard",
        "priority",
        "contained",
        "replace",
    ];
    let which = random.below(names.len());
    let operands = [1, 1, 1, 1, 2, 2, 2, 2, 2, 2, 2, 2, 3][which];
    let mut bytes: Vec<u8> = (0..operands).map(|_| random.byte(4)).collect();
    let changed = match distance {
        Distance::Valid => 0,
        Distance::OneByte => 1,
        Distance::Far => operands,
    };
    for _ in 0..changed {
        let at = random.below(operands);
        bytes[at] = random.byte(256);
    }
    let words: String = bytes.iter().map(|byte| format!(" {byte}")).collect();
    format!("{}{words}", names[which])
}

fn compile(random: &mut Random, distance: Distance) -> String {
    let columns = valid::columns(random);
    let mut table = valid::table(random, columns);
    let needed = tables::read(&table).map_or(0, |table| nodes_of(&table).len());
    if distance == Distance::Far && random.one_in(3) {
        let most = random.pick(&[2, 3, 6, 12]);
        table = valid::table_bytes(columns as u8, &valid::rows(random, columns, most));
    } else {
        disturb(random, &mut table, distance, IN_TABLES);
    }
    compile_line(random, &table, needed)
}

/// No longer than the longest argument of a call.
const LONGEST: usize = 4300;

/// A table and the room for its nodes: often just enough, or one byte too little.
fn compile_line(random: &mut Random, table: &[u8], needed: usize) -> String {
    let room = match random.below(6) {
        0 => needed.saturating_sub(1),
        1 | 2 => needed,
        3 => needed + random.below(10),
        4 => random.below(2 * needed + 2),
        _ => random.below(300),
    };
    format!("compile {} {}", hex(table), room.min(LONGEST))
}

/// A call about a table with a default: mostly its bytes, lawful or not, else its nodes.
pub fn defaulted(random: &mut Random) -> String {
    let distance = random.pick(&[Distance::Valid, Distance::Valid, Distance::OneByte, Distance::Far]);
    let columns = random.pick(&[1, 1, 2, 2, 2, 3, 3, 3, 4, 5, 6]);
    let mut table = valid::defaulted_table(random, columns);
    let nodes = nodes_of(&tables::read(&table).expect("a lawful table"));
    match random.below(8) {
        0 if nodes.len() <= LONGEST => {
            let situation = valid::situation(random, columns);
            format!("evaluate {} {}", hex(&nodes), hex(&situation))
        }
        1 if columns <= 3 => format!("growth {} {columns}", hex(&nodes)),
        _ => {
            disturb_defaulted(random, &mut table, columns, distance);
            compile_line(random, &table, nodes.len())
        }
    }
}

/// Anywhere in the table, or at its default only; or with rows that may disagree, or a default where none may stand.
fn disturb_defaulted(random: &mut Random, table: &mut Vec<u8>, columns: usize, distance: Distance) {
    match random.below(4) {
        0 => {
            let rows = table.split_off(8);
            disturb(random, table, distance, IN_TABLES);
            table.extend(rows);
        }
        1 if distance == Distance::Far => {
            let rows = valid::rows(random, columns, 6);
            *table = valid::with_default(&valid::table_bytes(columns as u8, &rows), random.byte(4));
        }
        2 if distance == Distance::Far => {
            let fields = (table.len() - 8) / (columns + 4);
            let at = 8 + random.below(fields + 1) * (columns + 4);
            table.splice(at..at, valid::field(3, &[random.byte(4)]));
            if random.one_in(2) {
                table.drain(4..8);
            }
        }
        _ => disturb(random, table, distance, IN_TABLES),
    }
}

/// An array made by hand or compiled from a table.
fn array(random: &mut Random, columns: usize, turns: usize) -> Vec<u8> {
    if random.one_in(4) {
        let table = valid::table(random, columns);
        let nodes = tables::read(&table).map(|table| nodes_of(&table)).unwrap_or_default();
        if nodes.len() <= 250 {
            return nodes;
        }
    }
    valid::nodes(random, columns, turns)
}

fn evaluate(random: &mut Random, distance: Distance) -> String {
    let columns = valid::columns(random);
    let turns = random.below(9);
    let mut nodes = array(random, columns, turns);
    let mut situation = valid::situation(random, columns);
    if distance == Distance::Far && random.one_in(10) {
        let height = 14 + random.below(6);
        nodes = valid::comb(random, columns, height);
        return format!("evaluate {} {}", hex(&nodes), hex(&situation));
    }
    disturb_one_of(random, [(&mut nodes, IN_NODES), (&mut situation, IN_SITUATIONS)], distance);
    format!("evaluate {} {}", hex(&nodes), hex(&situation))
}

fn merge(random: &mut Random, distance: Distance) -> String {
    let length = 1 + random.below(6) as u64;
    let mut lengths = [length, length];
    let mut bytes = [[0u8; 6]; 2];
    for byte in bytes.as_flattened_mut() {
        *byte = random.byte(4);
    }
    // beyond the columns anything is lawful
    for operand in &mut bytes {
        for byte in &mut operand[length as usize..] {
            *byte = any_byte(random, IN_SITUATIONS);
        }
    }
    let changes = match distance {
        Distance::Valid => 0,
        Distance::OneByte => 1,
        Distance::Far => 2 + random.below(4),
    };
    for _ in 0..changes {
        let operand = random.below(2);
        if random.one_in(3) {
            lengths[operand] = match random.below(5) {
                0 => random.next(),
                1 => 1 << random.below(64),
                _ => random.below(9) as u64,
            };
        } else {
            bytes[operand][random.below(6)] = any_byte(random, IN_SITUATIONS);
        }
    }
    format!("merge {} {} {} {}", lengths[0], hex(&bytes[0]), lengths[1], hex(&bytes[1]))
}

fn growth(random: &mut Random, distance: Distance) -> String {
    let columns = match random.below(200) {
        0 => 6,
        1..=3 => 5,
        4..=15 => 4,
        16..=70 => 3,
        71..=140 => 2,
        _ => 1,
    };
    let turns = random.pick(&[0, 0, 0, 1, 1, 2, 4]);
    let mut nodes = array(random, columns, turns);
    let mut asked = columns as u64;
    if distance != Distance::Valid && random.one_in(5) {
        asked = match random.below(6) {
            0 => random.next(),
            1 => 256 + columns as u64,
            _ => random.pick(&[0, 1, 2, 3, 7, 8]),
        };
    } else {
        disturb(random, &mut nodes, distance, IN_NODES);
    }
    format!("growth {} {asked}", hex(&nodes))
}

/// A call for a table back: of an array made by hand, of compiled tables with and without a default, or of any nodes; the room often
/// just enough, or one byte too little.
pub fn back(random: &mut Random) -> String {
    let distance = random.pick(&[Distance::Valid, Distance::Valid, Distance::OneByte, Distance::Far]);
    let columns = random.pick(&[1, 1, 2, 2, 2, 3, 3, 3, 3, 3, 4, 4, 5, 6]);
    let mut nodes = match random.below(4) {
        0 => {
            let turns = random.below(9);
            array(random, columns, turns)
        }
        1 => few_rows(random, columns),
        2 => compiled_or_silent(&valid::table(random, columns)),
        _ => compiled_or_silent(&valid::defaulted_table(random, columns)),
    };
    if distance == Distance::Far && random.one_in(6) {
        let height = 14 + random.below(6);
        nodes = valid::comb(random, columns, height);
    }
    let mut asked = columns as u64;
    if distance != Distance::Valid && random.one_in(5) {
        asked = match random.below(6) {
            0 => random.next(),
            1 => (1 << 32) + columns as u64,
            _ => random.below(9) as u64,
        };
    } else {
        disturb(random, &mut nodes, distance, IN_NODES);
    }
    let needed = untable(&nodes, asked, &mut [0; LONGEST]).unwrap_or_default();
    let room = match random.below(6) {
        0 => needed.saturating_sub(1),
        1 | 2 => needed,
        3 => needed + random.below(10),
        4 => random.below(2 * needed + 2),
        _ => random.below(700),
    };
    format!("untable {} {asked} {room}", hex(&nodes))
}

/// The nodes of some situations, none of them twice: up to 64 can be given back.
fn few_rows(random: &mut Random, columns: usize) -> Vec<u8> {
    let wanted = if columns > 3 && random.one_in(4) { 62 + random.below(4) } else { random.below(20) };
    let mut rows: Vec<Vec<u8>> = Vec::new();
    for _ in 0..wanted {
        let cells = valid::situation(random, columns);
        if rows.len() < 64 && rows.iter().all(|row| row[..columns] != cells) {
            rows.push([cells, vec![1 + random.byte(3)]].concat());
        }
    }
    compiled_or_silent(&valid::table_bytes(columns as u8, &rows))
}

/// The nodes of a table; the constant silent where they are too long for a call.
fn compiled_or_silent(table: &[u8]) -> Vec<u8> {
    let nodes = nodes_of(&tables::read(table).expect("a lawful table"));
    if nodes.len() < LONGEST - 8 {
        nodes
    } else {
        vec![0]
    }
}

fn notice(random: &mut Random, distance: Distance) -> String {
    let mut notice = valid::notice_bytes(&valid::facts(random));
    if distance == Distance::Far && random.one_in(8) {
        let facts = 30 + random.below(5);
        notice = valid::notice_bytes(&valid::rising(random, facts));
        edit(random, &mut notice, IN_NOTICES);
    } else {
        disturb(random, &mut notice, distance, IN_NOTICES);
    }
    format!("notice {}", hex(&notice))
}

fn voice(call: &str, random: &mut Random, distance: Distance) -> String {
    let facts = valid::facts(random);
    let mut notice = valid::notice_bytes(&valid::sent(random, &facts));
    let mut voice = valid::voice(random, &facts);
    if distance == Distance::Far && random.one_in(8) {
        let levels = 14 + random.below(6);
        voice = valid::voice_of(random, &facts, levels, true);
    } else {
        disturb_one_of(random, [(&mut voice, IN_VOICES), (&mut notice, IN_NOTICES)], distance);
    }
    format!("{call} {} {}", hex(&notice), hex(&voice))
}

/// Notices that are lawful, nearly so or broken, in a batch that is so too, and a voice that mostly is lawful.
pub fn week(random: &mut Random) -> String {
    let distance = random.pick(&[Distance::Valid, Distance::Valid, Distance::OneByte, Distance::Far]);
    let facts = valid::facts(random);
    let wanted = if random.one_in(8) { random.below(60) } else { random.below(12) };
    let mut batch = Vec::new();
    for _ in 0..wanted {
        let notice = week_notice(random, &facts);
        if batch.len() + 3 + notice.len() < LONGEST - 8 {
            batch.extend(valid::field(17, &notice));
        }
    }
    disturb(random, &mut batch, distance, IN_BATCHES);
    let voice = match random.below(12) {
        0 | 1 => {
            let mut voice = valid::voice(random, &facts);
            edit(random, &mut voice, IN_VOICES);
            voice
        }
        2 => {
            let levels = 14 + random.below(6);
            valid::voice_of(random, &facts, levels, true)
        }
        _ => valid::voice(random, &facts),
    };
    format!("count_week {} {}", hex(&batch), hex(&voice))
}

/// Mostly lawful, since a batch has many.
fn week_notice(random: &mut Random, facts: &[Fact]) -> Vec<u8> {
    let mut notice = valid::notice_bytes(&valid::moved(random, facts));
    let distance =
        random.pick(&[Distance::Valid, Distance::Valid, Distance::Valid, Distance::Valid, Distance::OneByte, Distance::Far]);
    disturb(random, &mut notice, distance, IN_NOTICES);
    notice
}
