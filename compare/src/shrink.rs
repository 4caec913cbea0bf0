//! Makes an input smaller that shows a difference.

use crate::question::{Question, What};

/// How many smaller inputs are tried.
const TRIES: u32 = 3000;

/// The same question without this many bytes before its offset, if it has one.
fn moved(question: &Question, by: usize) -> Option<Question> {
    let mut moved = question.clone();
    match question.what {
        What::Cached => moved.list = moved.list.iter().map(|it| it.checked_sub(by as u64)).collect::<Option<_>>()?,
        _ => moved.at = moved.at.checked_sub(by)?,
    }
    if question.what == What::Grown {
        moved.more = moved.more.saturating_sub(by);
    }
    Some(moved)
}

/// A question and bytes that differ too, with as few bytes as are found.
pub fn shrink(
    question: &Question, bytes: &[u8], differs: &mut dyn FnMut(&Question, &[u8]) -> bool,
) -> (Question, Vec<u8>) {
    let (mut question, mut bytes, mut tries) = (question.clone(), bytes.to_vec(), 0);
    let mut size = bytes.len();
    while size > 0 {
        let (mut from, mut is_smaller) = (bytes.len(), false);
        while from > 0 && tries < TRIES {
            let end = from;
            from = from.saturating_sub(size);
            let mut fewer = bytes[..from].to_vec();
            fewer.extend(&bytes[end..]);
            // If bytes before the offset go, the offset moves; otherwise it stays.
            for candidate in [moved(&question, end - from), Some(question.clone())].iter().flatten() {
                tries += 1;
                if differs(candidate, &fewer) {
                    question = candidate.clone();
                    bytes = fewer;
                    is_smaller = true;
                    break;
                }
            }
            from = from.min(bytes.len());
        }
        size = if is_smaller && size <= bytes.len() { size } else { size / 2 };
    }
    (question, bytes)
}
