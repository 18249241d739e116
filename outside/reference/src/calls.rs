//! Calls as lines of text, and the reply line of each. Bytes are lower-case hex, `-` for none; numbers are decimal.

use crate::answers::{self, Answer};
use crate::compile::compile;
use crate::growth;
use crate::nodes;
use crate::notices;
use crate::refusals::Refusal;
use crate::situations::Situation;
use crate::untable::untable;
use crate::voices;
use crate::weeks::{self, Week};

pub fn hex(bytes: &[u8]) -> String {
    if bytes.is_empty() {
        return "-".to_string();
    }
    bytes.iter().map(|byte| format!("{byte:02x}")).collect()
}

/// The bytes of a word. Those of `WORDxN` are repeated N times and those of `WORD+WORD` stand one behind the other: batches and
/// arrays that are too long for a line are written so.
pub fn unhex(word: &str) -> Vec<u8> {
    if word == "-" {
        return Vec::new();
    }
    if let Some((first, second)) = word.split_once('+') {
        return [unhex(first), unhex(second)].concat();
    }
    if let Some((repeated, times)) = word.split_once('x') {
        return unhex(repeated).repeat(number(times));
    }
    let digits = word.as_bytes().chunks(2);
    digits.map(|pair| u8::from_str_radix(std::str::from_utf8(pair).unwrap(), 16).expect("hex digits")).collect()
}

fn number<T: std::str::FromStr>(word: &str) -> T {
    word.parse().unwrap_or_else(|_| panic!("not a number of the size wanted: {word}"))
}

/// What a lent byte holds before a call, so that a byte written and a byte kept can be told apart.
const LENT: u8 = 170;

/// Stands for all the bytes of a lent buffer.
pub fn sum(bytes: &[u8]) -> u64 {
    bytes.iter().fold(7, |sum, &byte| (sum * 31 + u64::from(byte)) % 1_000_003)
}

const NO_REFUSAL: Refusal = Refusal { number: 0, place: 0, second: 0 };

fn line(refusal: Refusal, results: &str) -> String {
    format!("{} {} {} {results}", refusal.number, refusal.place, refusal.second)
}

fn answer_line(reply: Result<Answer, Refusal>) -> String {
    match reply {
        Ok(answer) => line(NO_REFUSAL, &answer.number().to_string()),
        Err(refusal) => line(refusal, "0"),
    }
}

/// The set that a voice may answer, and its meet.
fn heard_line(reply: Result<voices::Set, Refusal>) -> String {
    match reply {
        Ok(set) => line(NO_REFUSAL, &format!("{} {}", voices::set_number(&set), voices::meet(&set).number())),
        Err(refusal) => line(refusal, "0 0"),
    }
}

/// The counts stand beside a refusal too.
fn week_line(week: &Week) -> String {
    let counts = [week.silent, week.bury, week.keep, week.clash, week.refused];
    let words: Vec<String> = counts.iter().chain(&week.by_number).map(u64::to_string).collect();
    line(week.refusal.unwrap_or(NO_REFUSAL), &words.join(" "))
}

/// The reply to one call.
pub fn reply(call: &str) -> String {
    let words: Vec<&str> = call.split(' ').collect();
    match words[..] {
        ["compile", table, room] => compile_line(&unhex(table), number(room)),
        ["evaluate", nodes, situation] => answer_line(nodes::evaluate(&unhex(nodes), &unhex(situation))),
        ["merge", length, six, length_2, six_2] => merge_line(situation(length, six), situation(length_2, six_2)),
        ["growth", nodes, columns] => growth_line(&unhex(nodes), number(columns)),
        ["notice", notice] => match notices::read(&unhex(notice)) {
            Ok(facts) => line(NO_REFUSAL, &facts.len().to_string()),
            Err(refusal) => line(refusal, "0"),
        },
        ["speak", notice, voice] => answer_line(voices::speak(&unhex(notice), &unhex(voice))),
        ["speak_set", notice, voice] => heard_line(voices::speak_set(&unhex(notice), &unhex(voice))),
        ["count_week", batch, voice] => week_line(&weeks::count(&unhex(batch), &unhex(voice))),
        ["untable", nodes, columns, room] => untable_line(&unhex(nodes), number(columns), number(room)),
        [operator, p] => operator_line(operator, [number(p)]),
        [operator, p, q] => operator_line(operator, [number(p), number(q)]),
        [operator, x, p, q] => operator_line(operator, [number(x), number(p), number(q)]),
        _ => panic!("no such call: {call}"),
    }
}

fn operator_line<const N: usize>(operator: &str, operands: [u8; N]) -> String {
    let operands = answers::from_bytes(operands);
    let apply = |operands: [Answer; N]| match (operator, &operands[..]) {
        ("negate", &[p]) => answers::negate(p).number(),
        ("turn", &[p]) => answers::turn(p).number(),
        ("floor", &[p]) => answers::floor(p).number(),
        ("ceiling", &[p]) => answers::ceiling(p).number(),
        ("meet", &[p, q]) => answers::meet(p, q).number(),
        ("join", &[p, q]) => answers::join(p, q).number(),
        ("truth_meet", &[p, q]) => answers::truth_meet(p, q).number(),
        ("truth_join", &[p, q]) => answers::truth_join(p, q).number(),
        ("implication", &[p, q]) => answers::implication(p, q).number(),
        ("guard", &[p, q]) => answers::guard(p, q).number(),
        ("priority", &[p, q]) => answers::priority(p, q).number(),
        ("contained", &[p, q]) => u8::from(answers::contained(p, q)),
        ("replace", &[x, p, q]) => answers::replace(x, p, q).number(),
        _ => panic!("no such operator: {operator} of {N}"),
    };
    match operands {
        Ok(operands) => line(NO_REFUSAL, &apply(operands).to_string()),
        Err(refusal) => line(refusal, "0"),
    }
}

fn compile_line(table: &[u8], room: usize) -> String {
    let mut lent = vec![LENT; room];
    let reply = compile(table, &mut lent);
    let sum = sum(&lent);
    match reply {
        Ok(compiled) => line(NO_REFUSAL, &format!("{} {} {} {sum}", compiled.columns, compiled.rows, compiled.nodes)),
        Err(refusal) => line(refusal, &format!("0 0 0 {sum}")),
    }
}

fn untable_line(nodes: &[u8], columns: u64, room: usize) -> String {
    let mut lent = vec![LENT; room];
    let reply = untable(nodes, columns, &mut lent);
    let sum = sum(&lent);
    match reply {
        Ok(length) => line(NO_REFUSAL, &format!("{length} {sum}")),
        Err(refusal) => line(refusal, &format!("0 {sum}")),
    }
}

fn situation(length: &str, six: &str) -> Situation {
    Situation { length: number(length), bytes: unhex(six).try_into().expect("six bytes") }
}

fn merge_line(first: Situation, second: Situation) -> String {
    let (refusal, handed_back) = match first.merge(second) {
        Ok(merged) => (NO_REFUSAL, merged),
        Err(refusal) => (refusal, first),
    };
    line(refusal, &format!("{} {}", handed_back.length, hex(&handed_back.bytes)))
}

fn growth_line(nodes: &[u8], columns: u64) -> String {
    let nothing = format!("0 {} 0 0", hex(&[0; 6]));
    match growth::check(nodes, columns) {
        Err(refusal) => line(refusal, &format!("0 {nothing}")),
        Ok(None) => line(NO_REFUSAL, &format!("1 {nothing}")),
        Ok(Some(step)) => {
            let mut six = [0; 6];
            for (byte, answer) in six.iter_mut().zip(&step.situation) {
                *byte = answer.number();
            }
            let length = step.situation.len();
            line(NO_REFUSAL, &format!("2 {length} {} {} {}", hex(&six), step.column, step.answer.number()))
        }
    }
}
