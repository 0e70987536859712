//! A job before it is put into bytes, and the parts that jobs of all shapes
//! are drawn from: states, weights, epsilon and ways to draw rows.

use crate::random::Random;

pub type Rows = Vec<Vec<u8>>;

/// A job before it is put into bytes. The width is kept apart from the rows,
/// since a job under test may have no row or no column.
pub struct Draft {
    pub width: usize,
    pub epsilon: usize,
    pub weights: Vec<usize>,
    pub rows: Rows,
}

impl Draft {
    /// The job block, with a right layout for these counts.
    pub fn bytes(&self) -> Vec<u8> {
        let states = 12 + 2 * self.width;
        let whole = states + self.rows.len() * self.width;
        let head = [self.rows.len(), self.width, self.epsilon, 12, states, whole];
        let mut bytes = Vec::new();
        for &number in head.iter().chain(&self.weights) {
            bytes.extend_from_slice(&(number as u16).to_le_bytes());
        }
        bytes.extend(self.rows.iter().flatten());
        bytes
    }
}

/// So many different states. The lowest and highest byte come often.
pub fn alphabet(random: &mut Random, size: usize) -> Vec<u8> {
    let mut states = match random.below(6) {
        0 => b"01".to_vec(),
        1 => b"ACGT-?Nacgtn".to_vec(),
        2 => vec![33, 126],
        3 => (33..=126).collect(),
        4 => (33..=126).rev().collect(),
        _ => Vec::new(),
    };
    let mut others: Vec<u8> = (33..=126).filter(|s| !states.contains(s)).collect();
    random.shuffle(&mut others);
    states.extend(others);
    states.truncate(size);
    states
}

fn epsilon(random: &mut Random) -> usize {
    match random.below(100) {
        0..=49 => 0,
        50..=69 => random.between(1, 2),
        70..=84 => random.between(1, 5),
        85..=90 => random.between(6, 1000),
        91..=93 => 1000,
        94..=95 => 64_000,
        96..=97 => 65_535,
        _ => random.below(65_536),
    }
}

fn weights(random: &mut Random, width: usize) -> Vec<usize> {
    let most = random.pick(&[1, 1, 1, 1, 3, 3, 3, 1000, 1000]);
    if most == 1000 && random.chance(40) {
        return vec![1000; width];
    }
    (0..width).map(|_| random.between(1, most)).collect()
}

/// Puts weights and an epsilon to rows, of which there is at least one.
pub fn dress(random: &mut Random, rows: Rows) -> Draft {
    let width = rows[0].len();
    let weights = weights(random, width);
    let mut epsilon = epsilon(random);
    // With weights like these a small epsilon has no effect.
    if weights[0] > 50 && epsilon < 6 {
        epsilon *= random.between(1, 400);
    }
    Draft {
        width,
        epsilon,
        weights,
        rows,
    }
}

pub fn row(random: &mut Random, states: &[u8], width: usize) -> Vec<u8> {
    (0..width).map(|_| random.pick(states)).collect()
}

/// The row with so many of its characters drawn anew.
pub fn mutant(random: &mut Random, states: &[u8], row: &[u8], changes: usize) -> Vec<u8> {
    let mut changed = row.to_vec();
    for _ in 0..changes {
        let column = random.below(row.len());
        changed[column] = random.pick(states);
    }
    changed
}

/// Adds copies of rows, at most so many, at any place.
pub fn repeat(random: &mut Random, rows: &mut Rows, most: usize) {
    for _ in 0..random.below(most + 1) {
        let copy = rows[random.below(rows.len())].clone();
        let place = random.below(rows.len() + 1);
        rows.insert(place, copy);
    }
}

/// Rows drawn apart from one another.
pub fn scattered(random: &mut Random, counts: [usize; 3]) -> Rows {
    let [size, width, count] = counts;
    let states = alphabet(random, size);
    (0..count).map(|_| row(random, &states, width)).collect()
}

/// Rows that derive from one another by a few changes, some of the rows
/// between them left out, so that they have to be inferred.
pub fn family(random: &mut Random, counts: [usize; 3], most: usize) -> Rows {
    let [size, width, count] = counts;
    let states = alphabet(random, size);
    let mut all = vec![row(random, &states, width)];
    while all.len() < 2 * count {
        let from = random.below(all.len());
        let changes = random.between(1, most);
        let new = mutant(random, &states, &all[from], changes);
        all.push(new);
    }
    random.shuffle(&mut all);
    all.truncate(count);
    all
}
