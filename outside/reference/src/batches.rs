//! Batches: fields of tag 17, each holding one notice, in any number up to 1,000,000.

use crate::refusals::{refuse, Refusal, LEN, SHORT, TAG, WEEK};

pub const MOST_NOTICES: usize = 1_000_000;
pub const LONGEST_NOTICE: usize = 288;

/// The notices read, in order, and why reading ended before the batch did. The field that is refused is no notice read.
pub struct Batch<'a> {
    pub notices: Vec<&'a [u8]>,
    pub refusal: Option<Refusal>,
}

pub fn read(batch: &[u8]) -> Batch<'_> {
    let mut notices = Vec::new();
    let mut at = 0;
    while at < batch.len() {
        match field(batch, at, notices.len()) {
            Ok(notice) => {
                notices.push(notice);
                at += 3 + notice.len();
            }
            Err(refusal) => return Batch { notices, refusal: Some(refusal) },
        }
    }
    Batch { notices, refusal: None }
}

/// The notice in the field at this offset, after so many notices.
fn field(batch: &[u8], at: usize, read: usize) -> Result<&[u8], Refusal> {
    let left = &batch[at..];
    let [tag, high, low, value @ ..] = left else {
        return refuse(SHORT, at);
    };
    if *tag != 17 {
        return refuse(TAG, at);
    }
    if read == MOST_NOTICES {
        return refuse(WEEK, at);
    }
    let length = usize::from(u16::from_be_bytes([*high, *low]));
    if length > LONGEST_NOTICE {
        return refuse(LEN, at);
    }
    match value.get(..length) {
        Some(notice) => Ok(notice),
        None => refuse(SHORT, at),
    }
}
