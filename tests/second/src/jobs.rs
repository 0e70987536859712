//! The sequence of jobs of a seed. A job depends on the seed and its number
//! alone, never on how many jobs are asked for.

use crate::random::Random;
use crate::{damage, shapes};

/// In every period of the sequence the last jobs are one job cut at every
/// length, as far as they are needed for it.
const PERIOD: u64 = 2000;
const CUTS: u64 = 128;
/// Bytes too many at the end of such a run.
const EXCESS: usize = 4;

/// The job of a seed with this number, from 0.
pub fn job(seed: u64, number: u64) -> Vec<u8> {
    let place = number % PERIOD;
    if place >= PERIOD - CUTS {
        let length = (place - (PERIOD - CUTS)) as usize;
        if let Some(job) = cut(seed, number / PERIOD, length) {
            return job;
        }
    }
    mixed(&mut Random::new(seed, number))
}

/// The base job of a period at this length, cut or with bytes added; nothing
/// once the run is over.
fn cut(seed: u64, period: u64, length: usize) -> Option<Vec<u8>> {
    // Streams from the top down, so that they are not those of other jobs.
    let mut random = Random::new(seed, u64::MAX - period);
    let mut job = shapes::tiny(&mut random).bytes();
    if length > job.len() + EXCESS {
        return None;
    }
    job.resize(length, 33);
    Some(job)
}

/// A job of one of the kinds, in fixed shares of a thousand.
fn mixed(random: &mut Random) -> Vec<u8> {
    let draft = match random.below(1000) {
        0..=219 => shapes::small(random),
        220..=299 => shapes::medium(random),
        300..=419 => shapes::derived(random),
        420..=499 => shapes::hubs(random),
        500..=569 => shapes::cube(random),
        570..=639 => shapes::wide_or_narrow(random),
        640..=792 => shapes::strangers(random),
        793..=799 => shapes::large(random),
        800..=819 => return damage::edge(random),
        _ => return damage::damaged(random),
    };
    draft.bytes()
}
