//! Weeks that are named one by one: every refusal of a field at each place where it can stand with the counts so far, every
//! count, refused notices and refused voices of every number, and both at once.

use crate::calls::hex;
use crate::listed::{may_answer, rising};
use crate::notices::Fact;
use crate::valid::{batch_bytes, field, notice_bytes};

pub fn calls() -> Vec<String> {
    [constants(), several(), sets(), parts(), refused_batches(), refused_notices(), refused_voices(), notices_of_all_lengths()]
        .concat()
}

fn count_week(batch: &[u8], voice: &[u8]) -> String {
    format!("count_week {} {}", hex(batch), hex(voice))
}

/// Fact 7 with a value, as a notice.
fn fact_7(value: u32) -> Vec<u8> {
    notice_bytes(&[Fact { number: 7, value }])
}

/// Bury where fact 7 is 1, keep where it is 2, clash where it is 3, else silent; where it is absent, any of the four.
fn by_fact_7() -> Vec<u8> {
    let when_it_is = |value: u8| [24, 43, 0, 7, 0, 0, 0, value, value];
    [&[18], &when_it_is(1)[..], &[18], &when_it_is(2), &when_it_is(3)].concat()
}

/// A field of each answer by that voice, one whose facts do not decide, and one that is refused.
fn each_outcome() -> Vec<u8> {
    batch_bytes(&[fact_7(1), fact_7(2), fact_7(3), fact_7(0), vec![], vec![16]])
}

/// No bytes, whatever the voice is; then empty notices and each constant.
fn constants() -> Vec<String> {
    let voice = by_fact_7();
    let mut calls = vec![count_week(&[], &voice), count_week(&[], &[]), count_week(&[], &[255]), count_week(&[], &[2, 2])];
    for notices in [1, 2, 3, 255, 256, 1000] {
        calls.extend([0, 1, 2, 3].map(|answer| count_week(&[17, 0, 0].repeat(notices), &[answer])));
    }
    calls
}

/// One count alone, then all of them, no two alike: silent, bury, keep, clash, refused.
fn several() -> Vec<String> {
    let mut calls = Vec::new();
    let alone = [[1, 0, 0, 0, 0], [0, 1, 0, 0, 0], [0, 0, 1, 0, 0], [0, 0, 0, 1, 0], [0, 0, 0, 0, 1]];
    for [silent, bury, keep, clash, refused] in alone.into_iter().chain([[2, 3, 5, 7, 11], [11, 7, 5, 3, 2]]) {
        let answered = [(0, silent), (1, bury), (2, keep), (3, clash)];
        let fields = answered.map(|(value, times)| batch_bytes(&[fact_7(value)]).repeat(times)).concat();
        calls.push(count_week(&[fields, batch_bytes(&[[16]]).repeat(refused)].concat(), &by_fact_7()));
    }
    calls
}

/// The meet of a set is counted: silent or keep is silent, keep or clash is keep, bury or clash is bury.
fn sets() -> Vec<String> {
    let mut calls: Vec<String> = (1..=15).map(|set| count_week(&each_outcome(), &may_answer(set))).collect();
    calls.push(count_week(&each_outcome(), &[24, 40, 43, 0, 7, 0, 0, 0, 1, 2]));
    calls.push(count_week(&each_outcome(), &[24, 46, 0, 7, 3]));
    calls
}

/// Every prefix: between two fields it is a batch, elsewhere SHORT with the counts so far. And what is left after every field.
fn parts() -> Vec<String> {
    let all = each_outcome();
    let mut calls: Vec<String> = (0..=all.len()).map(|length| count_week(&all[..length], &by_fact_7())).collect();
    calls.extend([12, 24, 36, 48, 51].map(|start| count_week(&all[start..], &by_fact_7())));
    calls
}

/// Fields that are refused, but for those with another tag.
fn broken_fields() -> Vec<Vec<u8>> {
    let full = notice_bytes(&rising(32));
    let longer = [&full[..], &[16]].concat();
    vec![
        // SHORT header, whatever the tag
        vec![17],
        vec![17, 0],
        vec![16],
        vec![255, 255],
        // LEN: one byte too long, whole, cut, and with its header alone; the longest; right in the low byte only
        field(17, &longer),
        field(17, &longer)[..291].to_vec(),
        vec![17, 1, 33],
        vec![17, 255, 255],
        vec![17, 2, 9, 16, 0, 6, 0, 7, 0, 0, 0, 1],
        // SHORT value: none of it, one byte too few, and one byte too few of the longest
        vec![17, 0, 1],
        vec![17, 0, 9],
        vec![17, 0, 9, 16, 0, 6, 0, 7, 0, 0, 0],
        vec![17, 1, 32],
        field(17, &full)[..290].to_vec(),
    ]
}

/// Fields with another tag: TAG comes before LEN and before SHORT value.
fn other_tags() -> Vec<Vec<u8>> {
    let tagged = |tag: u8| [field(tag, &fact_7(1)), vec![tag, 0, 0], vec![tag, 1, 33], vec![tag, 255, 255], vec![tag, 0, 9, 16]];
    [0, 1, 2, 3, 15, 16, 18, 255].map(tagged).concat()
}

/// Each refusal of a field as the first field, behind one notice, and behind a notice of each outcome.
fn refused_batches() -> Vec<String> {
    let all = each_outcome();
    let mut calls = Vec::new();
    for field in broken_fields().iter().chain(&other_tags()) {
        for front in [&[], &batch_bytes(&[fact_7(2)])[..], &all] {
            calls.push(count_week(&[front, field].concat(), &by_fact_7()));
        }
        // what comes behind a refused field is not read, and the first refusal stands
        calls.push(count_week(&[&all[..], field, &batch_bytes(&[fact_7(1)]), &[17]].concat(), &by_fact_7()));
    }
    // the counts so far of a refused voice
    calls.extend(broken_fields().iter().map(|field| count_week(&[&all[..], field].concat(), &[255])));
    // a batch whose first field is a notice's, and a notice that is a batch
    calls.push(count_week(&fact_7(1), &by_fact_7()));
    calls.push(count_week(&batch_bytes(&[all]), &by_fact_7()));
    calls
}

/// Notices that are refused, by their numbers: SHORT twice, TAG, LEN, RISE twice. None is refused with FACTS: a 33rd fact
/// does not fit a field.
fn broken_notices() -> [Vec<u8>; 6] {
    let twice = [fact_7(1), fact_7(1)].concat();
    let falling = notice_bytes(&[Fact { number: 9, value: 1 }, Fact { number: 8, value: 1 }]);
    [vec![16], vec![16, 0, 6, 0, 7], vec![17, 0, 6], vec![16, 0, 5], twice, falling]
}

/// Voices that are refused, by their numbers: CODE twice, CUT twice, NEST, TAIL.
fn broken_voices() -> [Vec<u8>; 6] {
    [vec![255], vec![24, 2, 2], vec![], vec![24, 43, 0, 7, 0], [vec![8; 16], vec![2]].concat(), vec![2, 2]]
}

fn refused_notices() -> Vec<String> {
    let notices = broken_notices();
    let mut calls = Vec::new();
    for (index, notice) in notices.iter().enumerate() {
        // alone, so many times, and between lawful ones
        calls.push(count_week(&batch_bytes(&[notice]), &[2]));
        calls.push(count_week(&batch_bytes(&[notice]).repeat(index + 2), &by_fact_7()));
        calls.push(count_week(&batch_bytes(&[&fact_7(3), notice, &fact_7(1)]), &by_fact_7()));
        // the notice's number counts where the voice is refused too
        calls.extend(broken_voices().map(|voice| count_week(&batch_bytes(&[&fact_7(2), notice, notice]), &voice)));
    }
    // every number in one batch, as often as its place in the list says
    let each: Vec<u8> = notices.iter().enumerate().flat_map(|(index, notice)| batch_bytes(&[notice]).repeat(index + 1)).collect();
    calls.push(count_week(&each, &by_fact_7()));
    calls.push(count_week(&[&each_outcome()[..], &each].concat(), &by_fact_7()));
    calls.push(count_week(&[&each[..], &[17, 1, 33]].concat(), &by_fact_7()));
    calls
}

fn refused_voices() -> Vec<String> {
    let mut calls = Vec::new();
    for voice in broken_voices() {
        for batch in [vec![], batch_bytes(&[[]]), batch_bytes(&[fact_7(1), fact_7(2)]), each_outcome()] {
            calls.push(count_week(&batch, &voice));
        }
        let each = batch_bytes(&broken_notices());
        calls.push(count_week(&each, &voice));
        calls.push(count_week(&[&each[..], &each_outcome(), &[17, 255, 255]].concat(), &voice));
    }
    calls
}

/// Notices of 0 to 32 facts, of 288 bytes that are no facts, and with a byte too many.
fn notices_of_all_lengths() -> Vec<String> {
    let voice = [24, 46, 0, 93, 2];
    let mut calls: Vec<String> =
        (0..=33).map(|facts| count_week(&batch_bytes(&[notice_bytes(&rising(facts))]), &voice)).collect();
    let full = notice_bytes(&rising(32));
    for notices in [2, 3, 14] {
        calls.push(count_week(&batch_bytes(&[&full]).repeat(notices), &voice));
    }
    for byte in [0, 16, 17, 255] {
        calls.push(count_week(&batch_bytes(&[vec![byte; 288]]), &voice));
        calls.push(count_week(&batch_bytes(&[vec![byte; 289]]), &voice));
    }
    for length in [255, 256, 257, 286, 287, 288] {
        calls.push(count_week(&batch_bytes(&[&full[..length], &fact_7(1)]), &voice));
    }
    calls
}
