//! The text of the program weekcount for a batch and voices, each voice with the name that it was asked for by.

use crate::batches;
use crate::weeks::{self, Week};

pub fn text(batch: &[u8], voices: &[(String, Vec<u8>)]) -> String {
    let batch = batches::read(batch);
    let mut text: String = voices.iter().map(|(name, voice)| record(name, &weeks::of_batch(&batch, voice))).collect();
    if let Some(refusal) = batch.refusal {
        text += &format!("batch refused {} {} {}\n", refusal.number, refusal.place, refusal.second);
    }
    text
}

/// The lines of one voice; of the numbers those that occurred, rising.
fn record(name: &str, week: &Week) -> String {
    let mut text = format!(
        "voice {name}\nsilent {}\nbury {}\nkeep {}\nclash {}\nrefused {}\n",
        week.silent, week.bury, week.keep, week.clash, week.refused
    );
    for (number, &count) in week.by_number.iter().enumerate().filter(|(_, &count)| count > 0) {
        text += &format!("refused {number} {count}\n");
    }
    text
}
