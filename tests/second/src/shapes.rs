//! Whole jobs of many shapes, drawn at random. Each shape aims at a part of
//! the rules: ties and equal rows, medians and purges, several rounds, the
//! bounds of the counts.

use crate::draft::{alphabet, dress, family, mutant, repeat, row, scattered, Draft, Rows};
use crate::random::Random;

/// Few states, few columns: many ties and equal rows.
pub fn small(random: &mut Random) -> Draft {
    let size = random.between(2, 4);
    let width = random.between(1, 8);
    let most = random.pick(&[8, 24]);
    let count = random.between(1, most);
    let rows = scattered(random, [size, width, count]);
    dress(random, rows)
}

/// A job of at most some 120 bytes, for damage and for cutting.
pub fn tiny(random: &mut Random) -> Draft {
    let size = random.between(1, 5);
    let width = random.between(1, 7);
    let count = random.between(1, 13);
    let mut rows = scattered(random, [size, width, count]);
    rows.truncate(90 / width);
    dress(random, rows)
}

/// Up to 40 rows and 20 columns.
pub fn medium(random: &mut Random) -> Draft {
    let size = random.between(2, 6);
    let width = random.between(4, 20);
    let count = random.between(6, 40);
    if random.chance(30) {
        let rows = scattered(random, [size, width, count]);
        return dress(random, rows);
    }
    let rows = family(random, [size, width, count], 3);
    dress(random, rows)
}

/// A family of a few rows, with some of them more than once.
pub fn derived(random: &mut Random) -> Draft {
    let size = random.between(2, 5);
    let width = random.between(3, 16);
    let count = random.between(3, 20);
    let most = random.between(1, 4);
    let mut rows = family(random, [size, width, count], most);
    repeat(random, &mut rows, 6);
    dress(random, rows)
}

/// Hubs with spokes around them. Most hubs are left out of the job.
pub fn hubs(random: &mut Random) -> Draft {
    let size = random.between(2, 4);
    let width = random.between(3, 14);
    let states = alphabet(random, size);
    let mut hub = row(random, &states, width);
    let mut rows = Vec::new();
    for _ in 0..random.between(1, 4) {
        for _ in 0..random.between(2, 6) {
            let changes = random.between(1, 3);
            rows.push(mutant(random, &states, &hub, changes));
        }
        if random.chance(25) {
            rows.push(hub.clone());
        }
        let changes = random.between(2, 5);
        hub = mutant(random, &states, &hub, changes);
    }
    random.shuffle(&mut rows);
    repeat(random, &mut rows, 3);
    dress(random, rows)
}

/// The corners of a binary cube as rows, each kept by chance.
fn corners(random: &mut Random, columns: usize, percent: usize) -> Rows {
    let width = columns + random.below(3);
    let origin = scattered(random, [2, width, 1]).remove(0);
    let states = alphabet(random, 90);
    let opposite: Vec<u8> = origin
        .iter()
        .map(|o| *states.iter().find(|s| *s != o).unwrap_or(o))
        .collect();
    let corner = |number: usize| {
        let state = |c: usize| {
            let far = number >> c & 1 == 1;
            [&origin, &opposite][usize::from(far)][c]
        };
        (0..width).map(state).collect()
    };
    let mut rows: Rows = (0..1 << columns).map(corner).collect();
    random.shuffle(&mut rows);
    rows.truncate((rows.len() * percent / 100).max(1));
    rows
}

/// Binary cubes with corners left out.
pub fn cube(random: &mut Random) -> Draft {
    let columns = random.between(2, 5);
    let percent = random.between(15, 95);
    let mut rows = corners(random, columns, percent);
    repeat(random, &mut rows, 4);
    dress(random, rows)
}

/// Many columns, or a single one or two with many states.
pub fn wide_or_narrow(random: &mut Random) -> Draft {
    let size = random.between(2, 94);
    if random.chance(35) {
        let counts = [size, random.between(1, 2), random.between(1, 40)];
        let rows = scattered(random, counts);
        return dress(random, rows);
    }
    let width = random.between(21, 64);
    if random.chance(50) {
        let count = random.between(1, 14);
        let most = random.between(1, 12);
        let rows = family(random, [size, width, count], most);
        return dress(random, rows);
    }
    // Few rows far from one another, for the highest distances and costs and
    // an epsilon of their size.
    let counts = [size, width, random.between(2, 5)];
    let rows = if random.chance(50) {
        scattered(random, counts)
    } else {
        family(random, counts, width / 2)
    };
    let mut draft = dress(random, rows);
    if random.chance(60) {
        draft.weights = vec![1000; width];
        draft.epsilon = random.pick(&[0, 32_768]) + random.below(16_000);
    }
    draft
}

/// Rows that have little in common. Among such rows the medians of the first
/// rounds are often given up later: purges in both phases, some of several
/// passes, and retired types that are found again.
pub fn strangers(random: &mut Random) -> Draft {
    let size = random.between(2, 6);
    let width = random.between(7, 24);
    let count = random.between(4, 12);
    let rows = scattered(random, [size, width, count]);
    let mut draft = dress(random, rows);
    if random.chance(90) {
        let most = random.between(1, 3);
        draft.weights = (0..width).map(|_| random.between(1, most)).collect();
        // With more states than two an epsilon soon makes too many types.
        let percent = if size == 2 { 50 } else { 10 };
        draft.epsilon = usize::from(random.chance(percent));
    }
    draft
}

/// Numbers of types near 128, from both sides.
pub fn large(random: &mut Random) -> Draft {
    let mut rows = match random.below(6) {
        0 => grid(random),
        1 | 2 => grid_with_gaps(random),
        3 => {
            let percent = random.between(80, 100);
            corners(random, 7, percent)
        }
        4 => large_family(random),
        _ => {
            let counts = [random.between(2, 4), random.between(7, 10), 256];
            let mut rows = scattered(random, counts);
            rows.truncate(random.between(100, 256));
            rows
        }
    };
    let most = 256 - rows.len();
    repeat(random, &mut rows, most);
    let mut draft = dress(random, rows);
    // A large epsilon links all pairs, and nearly all such jobs end alike.
    if random.chance(70) {
        draft.epsilon = 0;
    }
    draft
}

/// At most 135 rows over two columns, line by line; the last line may be
/// short. Grids have the most links.
fn grid(random: &mut Random) -> Rows {
    let line = random.between(2, 94);
    let mut count = random.between(100, 135);
    if random.chance(60) {
        count -= count % line;
    }
    let states = alphabet(random, 94);
    let cell = |number: usize| vec![states[number / line], states[number % line]];
    let mut rows: Rows = (0..count).map(cell).collect();
    random.shuffle(&mut rows);
    rows
}

/// A grid with three columns more, and cubes with corners left out at a few
/// of its places.
fn grid_with_gaps(random: &mut Random) -> Rows {
    let mut rows = grid(random);
    let states = alphabet(random, 2);
    rows.iter_mut().for_each(|r| r.extend([states[0]; 3]));
    let cubes = random.between(1, 3);
    let spare = random.between(7 * cubes - 3, 7 * cubes + 1);
    rows.truncate(128 - spare);
    for place in 0..cubes {
        for bits in [[1, 1, 0], [1, 0, 1], [0, 1, 1]] {
            let mut new = rows[place][..2].to_vec();
            new.extend(bits.iter().map(|&b| states[b]));
            rows.push(new);
        }
    }
    random.shuffle(&mut rows);
    rows
}

/// A family of some 90 to 140 different rows.
fn large_family(random: &mut Random) -> Rows {
    let size = random.between(2, 5);
    let width = random.between(24, 64);
    let count = random.between(90, 140);
    let states = alphabet(random, size);
    let mut rows = vec![row(random, &states, width)];
    while rows.len() < count {
        let from = random.below(rows.len());
        let new = mutant(random, &states, &rows[from], 1);
        if !rows.contains(&new) {
            rows.push(new);
        }
    }
    random.shuffle(&mut rows);
    rows
}
