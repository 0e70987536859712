//! Hurdlesong for Rust: haplotype networks, proved. The functions are in `libhurdlesong_c.a`
//! (x86-64-v2, Linux), which `scripts/archive.sh` makes; this crate lends them memory without `unsafe`
//! for its users.
//!
//! Each function answers for every input, however damaged, never panics, and alters nothing but
//! what it is lent as `&mut`. What holds of them is proved of the library's source. What the
//! library asks of a caller (memory that can be read and written, no null pointer, alignment, no
//! overlap) holds by the types of Rust: a slice is never null, and a `&mut` slice overlaps no
//! other.
//!
//! Nothing is kept between calls: any number of threads may call at once, each over memory of its
//! own. [`call`] takes some 151 KB of stack, the others less than 1 KB.
//!
//! `docs/FORMAT.md` has the blocks, the text, and each refusal with its cause and its remedy.
//!
//! ```
//! // Three rows, 110, 101 and 011, with weights 1 and epsilon 0.
//! let head = [3, 0, 3, 0, 0, 0, 12, 0, 18, 0, 27, 0, 1, 0, 1, 0, 1, 0];
//! let job = [&head[..], b"110101011"].concat();
//! let mut memory = hurdlesong::Memory::new();
//! let answer = memory.call(&job);
//! assert_eq!(answer, hurdlesong::Answer::Network { used: 61 });
//! assert_eq!(hurdlesong::states(&job, memory.block(), 3), b"111");
//! let text = hurdlesong::text_string(&job, memory.block(), &answer).unwrap();
//! assert!(text.starts_with("types 4 sampled 3 links 3 rounds 1\n"));
//! ```
#![deny(missing_docs)]

use std::error::Error;
use std::fmt;

/// The least bytes of a result that are to be lent. Longer memory is welcome and is cleared to its
/// end too.
pub const RESULT_BYTES: usize = 57_680;
/// The least bytes of a state area.
pub const STATE_BYTES: usize = 8_192;
/// The least numbers of a distance area.
pub const DISTANCES: usize = 16_384;
/// The least records of a link table.
pub const LINKS: usize = 8_128;
/// The least bytes for a text.
pub const TEXT_BYTES: usize = 172_718;
/// The largest job block.
pub const JOB_BYTES: usize = 16_524;
/// A row's most states.
pub const WIDTH: usize = 64;

/// The number of an answer that is a network. The refusals 1 to 10 are those of a call, in the
/// order in which they are tried.
pub const DONE: usize = 0;
/// A lent area is shorter than the least.
pub const AREA: usize = 1;
/// Fewer than 12 job bytes.
pub const HEAD: usize = 2;
/// The rows n are 0 or over 256.
pub const ROWS: usize = 3;
/// The width m is 0 or over 64.
pub const WIDTHS: usize = 4;
/// An offset or the whole length is wrong, or the bytes lent are not of that length.
pub const LAYOUT: usize = 5;
/// A weight is 0 or over 1,000.
pub const WEIGHT: usize = 6;
/// A byte is outside 33 to 126.
pub const STATE: usize = 7;
/// Over 128 sampled types.
pub const TYPES: usize = 8;
/// A round would bring the types ever made above 128.
pub const ROOM: usize = 9;
/// The final links don't join all kept types. Never given, which is proved; the number stays
/// reserved.
pub const SPLIT: usize = 10;
/// The number of [`TextRefusal::Room`].
pub const TEXT_ROOM: usize = 80;
/// The number of [`TextRefusal::Block`].
pub const TEXT_BLOCK: usize = 81;

/// A record of the link table.
#[repr(C)]
#[derive(Clone, Copy, Debug, Default, PartialEq, Eq)]
pub struct Link {
    /// The lower number.
    pub low: u16,
    /// The higher number.
    pub high: u16,
    /// The length.
    pub length: u16,
}

/// What is told of an answer, as the archive hands it back.
#[repr(C)]
struct Told {
    number: usize,
    place: usize,
    used: usize,
}

/// Where the states of a type lie, as the archive hands it back.
#[repr(C)]
struct Place {
    source: usize,
    at: usize,
    length: usize,
}

const IN_JOB: usize = 1;
const IN_RESULT: usize = 2;

extern "C" {
    fn hurdlesong_call(
        job: *const u8,
        job_length: usize,
        result: *mut u8,
        result_length: usize,
        states: *mut u8,
        states_length: usize,
        distances: *mut u16,
        distances_length: usize,
        links: *mut Link,
        links_length: usize,
    ) -> Told;

    fn hurdlesong_states(
        job: *const u8,
        job_length: usize,
        block: *const u8,
        block_length: usize,
        number: usize,
    ) -> Place;

    fn hurdlesong_text(
        job: *const u8,
        job_length: usize,
        block: *const u8,
        block_length: usize,
        number: usize,
        place: usize,
        out: *mut u8,
        out_length: usize,
    ) -> Told;
}

/// What a job is answered with.
#[derive(Clone, Copy, Debug, PartialEq, Eq)]
pub enum Answer {
    /// The network's block is in the first `used` bytes of the result.
    Network {
        /// The length of the block.
        used: usize,
    },
    /// There is no network, and the result is zero throughout.
    Refused(Refusal),
}

impl Answer {
    /// The number: [`DONE`], or the refusal's.
    pub fn number(&self) -> usize {
        match self {
            Answer::Network { .. } => DONE,
            Answer::Refused(refusal) => refusal.number,
        }
    }

    /// The place: 0, or the refusal's.
    pub fn place(&self) -> usize {
        match self {
            Answer::Network { .. } => 0,
            Answer::Refused(refusal) => refusal.place,
        }
    }

    /// The bytes used: the block's length, or 0.
    pub fn used(&self) -> usize {
        match self {
            Answer::Network { used } => *used,
            Answer::Refused(_) => 0,
        }
    }

    /// The bytes used or the refusal, for the `?` of a caller.
    pub fn network(self) -> Result<usize, Refusal> {
        match self {
            Answer::Network { used } => Ok(used),
            Answer::Refused(refusal) => Err(refusal),
        }
    }
}

/// Why a job has no network.
#[derive(Clone, Copy, Debug, PartialEq, Eq)]
pub struct Refusal {
    /// One of [`AREA`] to [`SPLIT`].
    pub number: usize,
    /// The place that belongs to this number: a byte of the header, a column, a state, a row or a
    /// round.
    pub place: usize,
}

impl fmt::Display for Refusal {
    fn fmt(&self, f: &mut fmt::Formatter<'_>) -> fmt::Result {
        let words = match self.number {
            AREA => "AREA, a lent area is shorter than the least (lend what Memory::new lends)",
            HEAD => "HEAD, fewer than 12 job bytes (send the whole block)",
            ROWS => "ROWS, n is 0 or over 256 (leave rows out, or split the collection)",
            WIDTHS => "WIDTH, m is 0 or over 64 (cut the alignment to the characters that vary)",
            LAYOUT => {
                "LAYOUT, an offset or the whole length is wrong, or the bytes lent are not of that \
                 length (offsets are 12 and 12 + 2m; nothing may be cut off or stand behind)"
            }
            WEIGHT => "WEIGHT, a weight is 0 or over 1,000 (scale them, or leave the column out)",
            STATE => "STATE, a byte is outside 33 to 126 (write - or ? there)",
            TYPES => "TYPES, over 128 sampled types (leave rare ones out, or split the collection)",
            ROOM => {
                "ROOM, a round would bring the types ever made above 128 (lower epsilon, or send \
                 fewer rows or characters)"
            }
            SPLIT => "SPLIT, the final links don't join all kept types (never given)",
            _ => "not a refusal of a call",
        };
        write!(f, "refused {} at {}: {}", self.number, self.place, words)
    }
}

impl Error for Refusal {}

/// Why an answer has no text.
#[derive(Clone, Copy, Debug, PartialEq, Eq)]
pub enum TextRefusal {
    /// 80: less than [`TEXT_BYTES`] are lent.
    Room,
    /// 81: a network is to be printed, and job and block do not fit.
    Block,
}

impl TextRefusal {
    /// The number: [`TEXT_ROOM`] or [`TEXT_BLOCK`].
    pub fn number(&self) -> usize {
        match self {
            TextRefusal::Room => TEXT_ROOM,
            TextRefusal::Block => TEXT_BLOCK,
        }
    }
}

impl fmt::Display for TextRefusal {
    fn fmt(&self, f: &mut fmt::Formatter<'_>) -> fmt::Result {
        let words = match self {
            TextRefusal::Room => "less than 172,718 bytes are lent for the text (lend so many)",
            TextRefusal::Block => {
                "a network is to be printed, and job and block do not fit (answer the job again)"
            }
        };
        write!(f, "refused {} at 0: {}", self.number(), words)
    }
}

impl Error for TextRefusal {}

/// Answers a job. A network: the result holds its block in the first `used` bytes and zeros behind
/// them. A refusal: the result is zero throughout. Either way states, distances and links are zero
/// to their ends, and what lay in any of the memory before makes no difference.
pub fn call(
    job: &[u8],
    result: &mut [u8],
    states: &mut [u8],
    distances: &mut [u16],
    links: &mut [Link],
) -> Answer {
    // SAFETY: each pointer and length are those of one slice: not null, aligned, readable, and
    // writable for the `&mut` ones, which overlap no other slice. Any bytes are valid for u8, u16
    // and Link, whose layout is that of the header.
    let told = unsafe {
        hurdlesong_call(
            job.as_ptr(),
            job.len(),
            result.as_mut_ptr(),
            result.len(),
            states.as_mut_ptr(),
            states.len(),
            distances.as_mut_ptr(),
            distances.len(),
            links.as_mut_ptr(),
            links.len(),
        )
    };
    match told.number {
        DONE => Answer::Network { used: told.used },
        number => Answer::Refused(Refusal {
            number,
            place: told.place,
        }),
    }
}

/// The row lookup: the states of the type with this number, as a part of the job for a sampled
/// type, of the result block for an inferred one. Empty where the job fails checks 2 to 7, the
/// block's header is not one of the job's width, or the type is not there. The block may be the
/// whole result, or end before its links.
pub fn states<'a>(job: &'a [u8], block: &'a [u8], number: usize) -> &'a [u8] {
    // SAFETY: each pointer and length are those of one slice: not null and readable. Nothing is
    // written.
    let place =
        unsafe { hurdlesong_states(job.as_ptr(), job.len(), block.as_ptr(), block.len(), number) };
    let source = match place.source {
        IN_JOB => job,
        IN_RESULT => block,
        _ => &[],
    };
    // The part always lies in its source; it is taken with bounds checked all the same.
    source
        .get(place.at..)
        .and_then(|rest| rest.get(..place.length))
        .unwrap_or_default()
}

/// The printed text of an answer: a network is printed from job and result block, which may be the
/// whole result; a refusal is one line. Gives the bytes of text in `out`, with zeros behind them. A
/// refusal of the text leaves zeros throughout.
pub fn text(
    job: &[u8],
    block: &[u8],
    answer: &Answer,
    out: &mut [u8],
) -> Result<usize, TextRefusal> {
    // SAFETY: each pointer and length are those of one slice: not null and readable, and writable
    // for `out`, a `&mut` slice that overlaps no other. Any number and place may be asked for.
    let told = unsafe {
        hurdlesong_text(
            job.as_ptr(),
            job.len(),
            block.as_ptr(),
            block.len(),
            answer.number(),
            answer.place(),
            out.as_mut_ptr(),
            out.len(),
        )
    };
    match told.number {
        DONE => Ok(told.used),
        TEXT_ROOM => Err(TextRefusal::Room),
        // 81 is the only other number.
        _ => Err(TextRefusal::Block),
    }
}

/// The printed text of an answer, in memory of its own.
pub fn text_string(job: &[u8], block: &[u8], answer: &Answer) -> Result<String, TextRefusal> {
    let mut out = vec![0; TEXT_BYTES];
    let used = text(job, block, answer, &mut out)?;
    out.truncate(used);
    // A block that no call has left may hold other bytes than states; they are replaced.
    Ok(String::from_utf8_lossy(&out).into_owned())
}

/// Memory to lend to any number of calls, one after the other.
#[derive(Clone, Debug)]
pub struct Memory {
    result: Vec<u8>,
    states: Vec<u8>,
    distances: Vec<u16>,
    links: Vec<Link>,
    used: usize,
}

impl Memory {
    /// Memory of the least lengths.
    pub fn new() -> Memory {
        Memory::of(
            vec![0; RESULT_BYTES],
            vec![0; STATE_BYTES],
            vec![0; DISTANCES],
            vec![Link::default(); LINKS],
        )
    }

    /// Memory of any lengths, with whatever lies in it. A call over too little is refused with
    /// [`AREA`].
    pub fn of(result: Vec<u8>, states: Vec<u8>, distances: Vec<u16>, links: Vec<Link>) -> Memory {
        Memory {
            result,
            states,
            distances,
            links,
            used: 0,
        }
    }

    /// Answers a job over this memory, as [`call`] does.
    pub fn call(&mut self, job: &[u8]) -> Answer {
        let answer = call(
            job,
            &mut self.result,
            &mut self.states,
            &mut self.distances,
            &mut self.links,
        );
        self.used = answer.used();
        answer
    }

    /// The block of the last network: the used bytes of the result. Empty after a refusal and
    /// before any call.
    pub fn block(&self) -> &[u8] {
        self.result.get(..self.used).unwrap_or_default()
    }

    /// The whole result, with the zeros behind the block.
    pub fn result(&self) -> &[u8] {
        &self.result
    }

    /// The state area: zeros after a call.
    pub fn states(&self) -> &[u8] {
        &self.states
    }

    /// The distance area: zeros after a call.
    pub fn distances(&self) -> &[u16] {
        &self.distances
    }

    /// The link table: zeros after a call.
    pub fn links(&self) -> &[Link] {
        &self.links
    }
}

impl Default for Memory {
    fn default() -> Memory {
        Memory::new()
    }
}
