//! A voice's record over a week: how many notices of a batch gave each answer, and how many were refused, by number.

use crate::answers::Answer;
use crate::batches::{self, Batch};
use crate::refusals::Refusal;
use crate::voices;

#[derive(Clone, PartialEq, Eq, Debug)]
pub struct Week {
    /// Of the batch. A refused voice is counted and is no refusal of the batch.
    pub refusal: Option<Refusal>,
    pub silent: u64,
    pub bury: u64,
    pub keep: u64,
    pub clash: u64,
    pub refused: u64,
    /// At each number, how many notices were refused with it.
    pub by_number: [u64; 32],
}

pub fn count(batch: &[u8], voice: &[u8]) -> Week {
    of_batch(&batches::read(batch), voice)
}

/// Each count goes through the replies by itself. A notice is judged before the voice, so a refused voice's number is
/// counted only where the notice is lawful.
pub fn of_batch(batch: &Batch, voice: &[u8]) -> Week {
    let replies: Vec<Result<Answer, Refusal>> = batch.notices.iter().map(|notice| voices::speak(notice, voice)).collect();
    let counted = |wanted: &dyn Fn(&Result<Answer, Refusal>) -> bool| replies.iter().filter(|reply| wanted(reply)).count() as u64;
    let gave = |answer: Answer| counted(&|reply| *reply == Ok(answer));
    Week {
        refusal: batch.refusal,
        silent: gave(Answer::Silent),
        bury: gave(Answer::Bury),
        keep: gave(Answer::Keep),
        clash: gave(Answer::Clash),
        refused: counted(&Result::is_err),
        by_number: std::array::from_fn(|number| counted(&|reply| reply.is_err_and(|refusal| refusal.number == number as u64))),
    }
}
