//! What the documents say twice, held against itself: by another count, by all pairs, by all situations, by all choices.

mod sizes;

use reference::answers::{self, contained, Answer, ALL};
use reference::calls::{reply, unhex};
use reference::compile::nodes_of;
use reference::listed::calls;
use reference::nodes::run;
use reference::notices::{look_up, Fact};
use reference::random::{self, Random};
use reference::refusals::{Refusal, CODE, CUT, LEN, NEST, RISE, SHORT, TAG, TAIL, WEEK};
use reference::situations::{from_index, index};
use reference::tables::{self, Table};
use reference::weeks::{self, Week};
use reference::{batches, growth, listed_back, valid, voices, weekcount};
use sizes::size;
use std::collections::BTreeSet;

fn situations(columns: usize) -> Vec<Vec<Answer>> {
    (0..4usize.pow(columns as u32)).map(|number| from_index(number, columns)).collect()
}

/// Half of them with a default's field.
fn random_tables(seed: u64, wanted: usize) -> Vec<Table> {
    let mut random = Random::new(seed);
    let mut tables = Vec::new();
    for _ in 0..wanted / 2 {
        let columns = valid::columns(&mut random).min(4);
        tables.push(tables::read(&valid::table(&mut random, columns)).expect("a lawful table"));
        tables.push(tables::read(&valid::defaulted_table(&mut random, columns)).expect("a lawful table"));
    }
    tables
}

#[test]
fn compiled_tables_answer_as_the_matching_row_says() {
    for table in random_tables(2, 800) {
        let nodes = nodes_of(&table);
        for situation in situations(table.columns) {
            assert_eq!(run(&nodes, &situation), Ok(table.says(&situation)));
        }
    }
}

#[test]
fn the_number_of_nodes_is_the_sum_of_sizes() {
    for table in random_tables(3, 800) {
        assert_eq!(nodes_of(&table).len(), size(&table));
    }
}

/// The law itself: a situation contained in another, column by column, has its answer contained in the other's.
fn grows(nodes: &[u8], columns: usize) -> bool {
    let all = situations(columns);
    let answers: Vec<Answer> = all.iter().map(|situation| run(nodes, situation).unwrap()).collect();
    let within = |small: &[Answer], large: &[Answer]| small.iter().zip(large).all(|(&p, &q)| contained(p, q));
    all.iter()
        .all(|small| all.iter().all(|large| !within(small, large) || contained(answers[index(small)], answers[index(large)])))
}

#[test]
fn growth_yes_is_the_law_over_all_pairs() {
    let mut random = Random::new(4);
    let mut verdicts = BTreeSet::new();
    for _ in 0..600 {
        let columns = 1 + random.below(3);
        let turns = random.below(3);
        let nodes = valid::nodes(&mut random, columns, turns);
        let yes = growth::check(&nodes, columns as u64).unwrap().is_none();
        assert_eq!(yes, grows(&nodes, columns), "{nodes:?} over {columns} columns");
        verdicts.insert(yes);
    }
    assert_eq!(verdicts.len(), 2);
}

#[test]
fn overlap_is_a_situation_that_two_rows_match() {
    let mut random = Random::new(5);
    let mut refused = 0;
    for _ in 0..2000 {
        let columns = 1 + random.below(3);
        let rows = valid::rows(&mut random, columns, 4);
        let bytes = valid::table_bytes(columns as u8, &rows);
        let matched = |row: &[u8], situation: &[Answer]| {
            row.iter().zip(situation).all(|(&cell, answer)| cell == 4 || cell == answer.number())
        };
        let mut pairs = (0..rows.len()).flat_map(|later| (0..later).map(move |earlier| (later as u64, earlier as u64)));
        let expected = pairs.find(|&(later, earlier)| {
            let (later, earlier) = (&rows[later as usize], &rows[earlier as usize]);
            later[columns] != earlier[columns]
                && situations(columns).iter().any(|situation| matched(later, situation) && matched(earlier, situation))
        });
        let found = tables::read(&bytes).err().map(|refusal| (refusal.place, refusal.second));
        assert_eq!(found, expected);
        refused += usize::from(found.is_some());
    }
    assert!(refused > 100);
}

#[test]
fn base_4_numbers_and_situations_are_the_same_order() {
    for columns in 1..=6 {
        for (number, situation) in situations(columns).iter().enumerate() {
            assert_eq!(index(situation), number);
        }
    }
    assert_eq!(from_index(1, 3), [ALL[0], ALL[0], ALL[1]]);
}

/// A lawful voice answered by document 01's rules while its bytes are passed, each comparison on an absent fact having the
/// truth that the next bit of the choice gives it.
struct Chosen<'a> {
    voice: &'a [u8],
    facts: &'a [Fact],
    choice: u32,
    /// How many comparisons met an absent fact.
    absent: u32,
    /// Which facts were asked for by `present`.
    presence: BTreeSet<u16>,
}

impl Chosen<'_> {
    fn bytes<const N: usize>(&mut self) -> [u8; N] {
        let (bytes, rest) = self.voice.split_first_chunk().expect("a lawful voice");
        self.voice = rest;
        *bytes
    }

    fn policy(&mut self) -> Answer {
        let [code] = self.bytes();
        match code {
            0..=3 => ALL[usize::from(code)],
            8 => answers::negate(self.policy()),
            9 => answers::floor(self.policy()),
            10 => answers::ceiling(self.policy()),
            12 => answers::truth_meet(self.policy(), self.policy()),
            13 => answers::truth_join(self.policy(), self.policy()),
            14 => answers::meet(self.policy(), self.policy()),
            15 => answers::join(self.policy(), self.policy()),
            16 => answers::implication(self.policy(), self.policy()),
            17 => answers::guard(self.policy(), self.policy()),
            18 => answers::priority(self.policy(), self.policy()),
            20..=23 => answers::replace(ALL[usize::from(code - 20)], self.policy(), self.policy()),
            24 => match (self.test(), self.policy()) {
                (true, p) => p,
                (false, _) => Answer::Silent,
            },
            _ => panic!("not a policy: {code}"),
        }
    }

    fn test(&mut self) -> bool {
        let [code] = self.bytes();
        match code {
            40 => !self.test(),
            41 => self.test() & self.test(),
            42 => self.test() | self.test(),
            43 => self.compared(|found, value| found == value),
            44 => self.compared(|found, value| found >= value),
            45 => self.compared(|found, value| found < value),
            46 => self.present(),
            48..=51 => self.policy() == ALL[usize::from(code - 48)],
            _ => panic!("not a test: {code}"),
        }
    }

    fn present(&mut self) -> bool {
        let number = u16::from_be_bytes(self.bytes());
        self.presence.insert(number);
        look_up(self.facts, number).is_some()
    }

    fn compared(&mut self, test: fn(u32, u32) -> bool) -> bool {
        let number = u16::from_be_bytes(self.bytes());
        let value = u32::from_be_bytes(self.bytes());
        match look_up(self.facts, number) {
            Some(found) => test(found, value),
            None => {
                let truth = self.choice >> self.absent & 1 == 1;
                self.absent += 1;
                truth
            }
        }
    }
}

/// The answer under a choice, and what was met on the way.
fn answer_under<'a>(choice: u32, facts: &'a [Fact], voice: &'a [u8]) -> (Answer, Chosen<'a>) {
    let mut chosen = Chosen { voice, facts, choice, absent: 0, presence: BTreeSet::new() };
    (chosen.policy(), chosen)
}

/// A voice of few levels, the facts that it mostly asks for, and those of them that a device sends.
fn asked_and_sent(random: &mut Random) -> (Vec<u8>, Vec<Fact>, Vec<Fact>) {
    let asked = valid::facts(random);
    let levels = 2 + random.below(6);
    let spine = random.one_in(4);
    let voice = valid::voice_of(random, &asked, levels, spine);
    let sent = valid::sent(random, &asked);
    (voice, asked, sent)
}

/// Whether this is the greatest answer contained in all of the set.
fn is_meet(answer: Answer, set: &BTreeSet<Answer>) -> bool {
    let in_all = |p: Answer| set.iter().all(|&q| contained(p, q));
    in_all(answer) && ALL.into_iter().all(|p| !in_all(p) || contained(p, answer))
}

#[test]
fn a_voice_may_answer_what_some_choice_answers() {
    let mut random = Random::new(6);
    let (mut met, mut uncertain, mut sets) = (0, 0, BTreeSet::new());
    for _ in 0..40_000 {
        let (voice, _, facts) = asked_and_sent(&mut random);
        let absent = answer_under(0, &facts, &voice).1.absent;
        if absent > 12 {
            continue;
        }
        let some_choice: BTreeSet<Answer> = (0..1 << absent).map(|choice| answer_under(choice, &facts, &voice).0).collect();
        let notice = valid::notice_bytes(&facts);
        assert_eq!(voices::speak_set(&notice, &voice).as_ref(), Ok(&some_choice), "{voice:?} to {facts:?}");
        assert!(is_meet(voices::speak(&notice, &voice).unwrap(), &some_choice), "{voice:?} to {facts:?}");
        met += usize::from(absent > 0);
        uncertain += usize::from(some_choice.len() > 1);
        sets.insert(some_choice);
    }
    assert!(met > 15_000 && uncertain > 4000);
    assert_eq!(sets.len(), 15);
}

/// Unless the voice asks whether it is there, a further fact only takes answers away, and the column's only grows.
#[test]
fn with_more_facts_a_voice_may_answer_less() {
    let mut random = Random::new(7);
    let (mut fewer, mut grown) = (0, 0);
    for _ in 0..40_000 {
        let (voice, all, sent) = asked_and_sent(&mut random);
        let presence = answer_under(0, &all, &voice).1.presence;
        if all.iter().any(|fact| presence.contains(&fact.number) && !sent.contains(fact)) {
            continue;
        }
        let [before, after] = [&sent, &all].map(|facts| voices::speak_set(&valid::notice_bytes(facts), &voice).unwrap());
        assert!(after.is_subset(&before), "{voice:?} to {sent:?}, then {all:?}");
        assert!(contained(voices::meet(&before), voices::meet(&after)), "{voice:?} to {sent:?}, then {all:?}");
        fewer += usize::from(after != before);
        grown += usize::from(voices::meet(&after) != voices::meet(&before));
    }
    assert!(fewer > 1000 && grown > 500, "{fewer} {grown}");
}

#[test]
fn every_set_is_among_the_named_calls() {
    let mut sets = BTreeSet::new();
    for call in calls().iter().filter(|call| call.starts_with("speak_set")) {
        let reply = reply(call);
        let numbers: Vec<u64> = reply.split(' ').map(|word| word.parse().unwrap()).collect();
        assert_eq!((numbers[0] == 0, numbers.len()), (numbers[3] != 0, 5), "{call}");
        sets.insert(numbers[3]);
    }
    assert_eq!(sets, (0..=15).collect());
}

#[test]
fn every_count_is_among_the_named_calls() {
    let mut counted = BTreeSet::new();
    for call in calls().iter().filter(|call| call.starts_with("count_week")) {
        let reply = reply(call);
        let numbers: Vec<u64> = reply.split(' ').skip(3).map(|word| word.parse().unwrap()).collect();
        assert_eq!(numbers.len(), 5 + 32, "{call}");
        counted.extend((0..numbers.len()).filter(|&at| numbers[at] > 0));
    }
    let by_number = [SHORT, TAG, LEN, CODE, CUT, NEST, TAIL, RISE].map(|number| 5 + number as usize);
    assert_eq!(counted, (0..5).chain(by_number).collect());
}

/// The refusal numbers that the named calls bring out, by the name of the call.
#[test]
fn every_refusal_is_among_the_named_calls() {
    let mut seen = BTreeSet::new();
    for call in calls().into_iter().chain(listed_back::calls()) {
        let reply = reply(&call);
        let number: u64 = reply.split(' ').next().unwrap().parse().unwrap();
        seen.insert((call.split(' ').next().unwrap().to_string(), number));
    }
    let of = |name: &str| seen.iter().filter(|(call, _)| call == name).map(|&(_, number)| number).collect::<Vec<_>>();
    assert_eq!(of("replace"), [0, 5]);
    assert_eq!(of("compile"), [0, 1, 2, 3, 4, 5, 6, 7, 8]);
    assert_eq!(of("evaluate"), [0, 9, 10, 11, 12, 13, 14]);
    assert_eq!(of("growth"), [0, 9, 10, 11, 12, 13, 14]);
    assert_eq!(of("untable"), [0, 6, 8, 9, 10, 11, 12, 13, 14]);
    assert_eq!(of("merge"), [0, 14]);
    assert_eq!(of("notice"), [0, 1, 3, 4, 20, 21]);
    assert_eq!(of("speak"), [0, 1, 3, 4, 16, 17, 18, 19, 20, 21]);
    assert_eq!(of("speak_set"), [0, 1, 3, 4, 16, 17, 18, 19, 20, 21]);
    // WEEK takes a batch that is too long for a line
    assert_eq!(of("count_week"), [0, 1, 3, 4]);
}

/// A random batch as the calls have it, cut or not, and its voice.
fn random_week(random: &mut Random) -> (Vec<u8>, Vec<u8>) {
    let call = random::week(random);
    let words: Vec<Vec<u8>> = call.split(' ').skip(1).map(unhex).collect();
    (words[0].clone(), words[1].clone())
}

#[test]
fn the_totals_add_up() {
    let mut random = Random::new(8);
    let (mut refused_batches, mut numbers) = (0, BTreeSet::new());
    for _ in 0..20_000 {
        let (batch, voice) = random_week(&mut random);
        let read = batches::read(&batch);
        let week = weeks::count(&batch, &voice);
        assert_eq!(week.silent + week.bury + week.keep + week.clash + week.refused, read.notices.len() as u64);
        assert_eq!(week.by_number.iter().sum::<u64>(), week.refused);
        refused_batches += usize::from(week.refusal.is_some());
        numbers.extend((0..32).filter(|&number| week.by_number[number] > 0));
    }
    assert!(refused_batches > 2000);
    // no FACTS: a 33rd fact does not fit a field
    assert_eq!(numbers, [SHORT, TAG, LEN, CODE, CUT, NEST, TAIL, RISE].map(|number| number as usize).into());
}

/// Another count: notice by notice, by what speak replies to each.
#[test]
fn a_week_is_what_speak_replies_to_each_notice() {
    let mut random = Random::new(9);
    for _ in 0..5000 {
        let (batch, voice) = random_week(&mut random);
        let mut counted = Week { refusal: None, silent: 0, bury: 0, keep: 0, clash: 0, refused: 0, by_number: [0; 32] };
        let read = batches::read(&batch);
        for notice in &read.notices {
            match voices::speak(notice, &voice) {
                Ok(Answer::Silent) => counted.silent += 1,
                Ok(Answer::Bury) => counted.bury += 1,
                Ok(Answer::Keep) => counted.keep += 1,
                Ok(Answer::Clash) => counted.clash += 1,
                Err(refusal) => {
                    counted.refused += 1;
                    counted.by_number[refusal.number as usize] += 1;
                }
            }
        }
        counted.refusal = read.refusal;
        assert_eq!(weeks::count(&batch, &voice), counted);
    }
}

/// The notices read are the batch's bytes up to the refused field, and that field is refused wherever it stands first.
#[test]
fn what_is_read_is_the_batch_up_to_its_refusal() {
    let mut random = Random::new(10);
    for _ in 0..20_000 {
        let (batch, _) = random_week(&mut random);
        let read = batches::read(&batch);
        let fields = valid::batch_bytes(&read.notices);
        assert!(batch.starts_with(&fields));
        match read.refusal {
            None => assert_eq!(fields.len(), batch.len()),
            Some(refusal) => {
                assert_eq!((refusal.place, refusal.second), (fields.len() as u64, 0));
                let alone = batches::read(&batch[fields.len()..]);
                assert_eq!((alone.notices.len(), alone.refusal), (0, Some(Refusal { place: 0, ..refusal })));
            }
        }
    }
}

#[test]
fn a_batch_cut_between_two_fields_gives_the_sum() {
    let mut random = Random::new(11);
    let mut cut = 0;
    for _ in 0..5000 {
        let (batch, voice) = random_week(&mut random);
        let read = batches::read(&batch);
        let at = valid::batch_bytes(&read.notices[..random.below(read.notices.len() + 1)]).len();
        let [whole, first, second] = [&batch[..], &batch[..at], &batch[at..]].map(|part| weeks::count(part, &voice));
        assert_eq!(first.refusal, None);
        // the second part's places are counted from the cut
        assert_eq!(second.refusal.map(|refusal| Refusal { place: refusal.place + at as u64, ..refusal }), whole.refusal);
        let counts = |week: &Week| {
            let by_number = week.by_number.into_iter();
            [week.silent, week.bury, week.keep, week.clash, week.refused].into_iter().chain(by_number).collect::<Vec<u64>>()
        };
        let sum: Vec<u64> = counts(&first).iter().zip(counts(&second)).map(|(a, b)| a + b).collect();
        assert_eq!(sum, counts(&whole));
        cut += usize::from(0 < at && at < batch.len());
    }
    assert!(cut > 2000);
}

#[test]
fn week_is_the_notice_after_a_million() {
    let million = [17, 0, 0].repeat(1_000_000);
    let of = |last: &[u8]| {
        let week = weeks::count(&[&million[..], last].concat(), &[2]);
        assert_eq!((week.keep, week.refused), (1_000_000, 0));
        week.refusal.map(|refusal| (refusal.number, refusal.place))
    };
    assert_eq!(of(&[]), None);
    // after SHORT header and TAG, before LEN and SHORT value
    assert_eq!(of(&[17, 0]), Some((SHORT, 3_000_000)));
    assert_eq!(of(&[16, 0, 0]), Some((TAG, 3_000_000)));
    assert_eq!(of(&[17, 0, 0]), Some((WEEK, 3_000_000)));
    assert_eq!(of(&[17, 1, 33]), Some((WEEK, 3_000_000)));
    assert_eq!(of(&[17, 0, 9]), Some((WEEK, 3_000_000)));
    let week = weeks::count(&million[3..], &[1]);
    assert_eq!((week.bury, week.refusal), (999_999, None));
}

/// The lines of the program: every number that occurred, rising, and the batch's refusal last.
#[test]
fn weekcount_prints_each_voice_then_the_refusal() {
    let batch = [17, 0, 0, 17, 0, 1, 16, 17, 0, 3, 0, 0, 0, 17];
    let voices = [("keep.voice".to_string(), vec![2]), ("-".to_string(), vec![])];
    let printed = "voice keep.voice\nsilent 0\nbury 0\nkeep 1\nclash 0\nrefused 2\nrefused 1 1\nrefused 3 1\n\
                   voice -\nsilent 0\nbury 0\nkeep 0\nclash 0\nrefused 3\nrefused 1 1\nrefused 3 1\nrefused 17 1\n\
                   batch refused 1 13 0\n";
    assert_eq!(weekcount::text(&batch, &voices), printed);
}
