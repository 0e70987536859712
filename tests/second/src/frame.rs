//! How jobs and answers pass through the pipes: each job with its length
//! before it, each answer as numbers and the whole of three memories.

use crate::job::number_at;
use crate::rules::Answer;
use std::io::{Read, Result, Write};

/// Number, place, used: 16 bits each; the text's length: 32 bits.
pub const HEAD: usize = 10;
pub const RESULT: usize = 57_680;
pub const STATE: usize = 8_192;
pub const TEXT: usize = 172_718;
/// The bytes of one answer.
pub const WHOLE: usize = HEAD + RESULT + STATE + TEXT;

/// Writes a job behind its length.
pub fn write_job(out: &mut impl Write, job: &[u8]) -> Result<()> {
    let length = job.len() as u16;
    assert_eq!(usize::from(length), job.len());
    out.write_all(&length.to_le_bytes())?;
    out.write_all(job)
}

/// Reads as many bytes as there are, at most so many.
pub fn read_some(input: &mut impl Read, most: usize) -> Result<Vec<u8>> {
    let mut bytes = Vec::new();
    input.take(most as u64).read_to_end(&mut bytes)?;
    Ok(bytes)
}

/// Reads a job, or nothing where the input ends.
pub fn read_job(input: &mut impl Read) -> Result<Option<Vec<u8>>> {
    let length = read_some(input, 2)?;
    if length.is_empty() {
        return Ok(None);
    }
    let job = read_some(input, number_at(&length, 0))?;
    Ok(Some(job))
}

/// The bytes that must come back for an answer.
pub fn expected(answer: &Answer) -> Vec<u8> {
    assert!(answer.text.len() <= TEXT);
    let mut bytes = Vec::with_capacity(WHOLE);
    for number in [answer.number, answer.place, answer.used] {
        bytes.extend_from_slice(&number.to_le_bytes());
    }
    bytes.extend_from_slice(&(answer.text.len() as u32).to_le_bytes());
    bytes.extend_from_slice(&answer.result);
    bytes.resize(HEAD + RESULT + STATE, 0);
    bytes.extend_from_slice(&answer.text);
    bytes.resize(WHOLE, 0);
    bytes
}
