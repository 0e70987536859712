//! Jobs at and over the bounds, and damaged jobs: mostly ones to be refused.

use crate::draft::Draft;
use crate::job::{HEAD, MOST_ROWS, MOST_WIDTH};
use crate::random::Random;
use crate::shapes;

/// A job with counts at or just over their bounds and a right layout for
/// them. The rows are few different ones, so that the counts decide.
pub fn edge(random: &mut Random) -> Vec<u8> {
    let (count, width) = match random.below(4) {
        0 => (random.between(1, 9), random.between(MOST_WIDTH - 1, 66)),
        1 => (random.between(MOST_ROWS - 1, 258), random.between(1, 9)),
        2 => (random.pick(&[1, 2, 256, 257]), random.pick(&[1, 64, 65])),
        _ => (random.below(2), random.below(2)),
    };
    let states = [33, 48, 126];
    let mut row = || (0..width).map(|_| random.pick(&states)).collect();
    let few: [Vec<u8>; 3] = [row(), row(), row()];
    let rows = (0..count).map(|_| few[random.below(3)].clone()).collect();
    let draft = Draft {
        width,
        epsilon: random.below(3),
        weights: vec![random.pick(&[1, 1000]); width],
        rows,
    };
    draft.bytes()
}

/// A job, mostly a small one, with one, two or three faults.
pub fn damaged(random: &mut Random) -> Vec<u8> {
    let draft = match random.below(20) {
        0..=1 => shapes::wide_or_narrow(random),
        2 => shapes::medium(random),
        3 => shapes::large(random),
        _ => shapes::tiny(random),
    };
    let mut job = draft.bytes();
    for _ in 0..random.pick(&[1, 1, 1, 2, 2, 3]) {
        match random.below(10) {
            0..=3 => spoil_head(random, &mut job),
            4..=5 => spoil_weight(random, &mut job, draft.width),
            6..=7 => spoil_state(random, &mut job, draft.width),
            _ => spoil_end(random, &mut job),
        }
    }
    job
}

/// Writes a 16-bit number, if the job still reaches so far.
fn put(job: &mut [u8], place: usize, number: u16) {
    if place + 2 <= job.len() {
        job[place..place + 2].copy_from_slice(&number.to_le_bytes());
    }
}

fn spoil_head(random: &mut Random, job: &mut [u8]) {
    let place = 2 * random.below(HEAD / 2);
    if place + 2 > job.len() {
        return;
    }
    let old = u16::from_le_bytes([job[place], job[place + 1]]);
    let number = match random.below(12) {
        0..=1 => old.wrapping_sub(1),
        2..=3 => old.wrapping_add(1),
        4 => 0,
        5 => 65_535,
        6 => random.pick(&[255, 256, 257]),
        7 => random.pick(&[64, 65]),
        8 => random.pick(&[11, 12, 13]),
        9 => old ^ 256,
        10 => old.swap_bytes(),
        _ => random.draw() as u16,
    };
    put(job, place, number);
}

fn spoil_weight(random: &mut Random, job: &mut [u8], width: usize) {
    let place = HEAD + 2 * random.below(width);
    let number = match random.below(6) {
        0 => 0,
        1 => 1001,
        2 => 65_535,
        3 => 1000,
        4 => random.pick(&[256, 1024, 1002]),
        _ => random.draw() as u16,
    };
    put(job, place, number);
}

fn spoil_state(random: &mut Random, job: &mut [u8], width: usize) {
    let first = HEAD + 2 * width;
    if first >= job.len() {
        return;
    }
    let place = random.between(first, job.len() - 1);
    job[place] = match random.below(6) {
        0 => 0,
        1 => 32,
        2 => 127,
        3 => 255,
        4 => random.below(33) as u8,
        _ => random.between(127, 255) as u8,
    };
}

fn spoil_end(random: &mut Random, job: &mut Vec<u8>) {
    if random.chance(50) {
        let missing = random.pick(&[1, 1, 2, 3, 9]);
        job.truncate(job.len().saturating_sub(missing));
    } else {
        let added = random.pick(&[1, 1, 2, 3, 256]);
        job.resize(job.len() + added, random.pick(&[0, 33, 65]));
    }
}
