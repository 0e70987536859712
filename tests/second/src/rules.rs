//! The answer to a job: all the rules in one function.

use crate::job::Refusal;
use crate::{block, job, network};

/// All that a job is answered with.
#[derive(Clone, Debug, PartialEq, Eq)]
pub struct Answer {
    /// 0 for a network, else the refusal's number.
    pub number: u16,
    pub place: u16,
    /// The bytes of the result block, 0 for a refusal.
    pub used: u16,
    /// The result block, empty for a refusal.
    pub result: Vec<u8>,
    /// The whole printed text.
    pub text: Vec<u8>,
}

/// Answers a job. The memory lent is taken to be long enough, so the refusal
/// 1 is never given.
pub fn answer(bytes: &[u8]) -> Answer {
    match solve(bytes) {
        Ok((result, text)) => Answer {
            number: 0,
            place: 0,
            used: result.len() as u16,
            result,
            text,
        },
        Err(refusal) => Answer {
            number: refusal.number,
            place: refusal.place,
            used: 0,
            result: Vec::new(),
            text: block::refusal_text(refusal),
        },
    }
}

/// The result block and the text, or the refusal.
fn solve(bytes: &[u8]) -> Result<(Vec<u8>, Vec<u8>), Refusal> {
    let job = job::read(bytes)?;
    let network = network::run(&job)?;
    let result = block::result(&network, job.width);
    Ok((result, block::text(&network, job.width)))
}
