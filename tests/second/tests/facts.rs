//! Facts that follow from the rules, tried by brute force on small jobs drawn
//! at random.

mod common;

use common::job;
use second::job::{padded, read, Job, Row};
use second::network::{distance, distances, feasible, medians, run, Network, Origin};
use second::random::Random;
use second::rules::answer;
use std::collections::BTreeSet;

/// A small job, drawn at random: weights, epsilon and rows.
struct Small {
    weights: Vec<u16>,
    epsilon: u16,
    rows: Vec<Vec<u8>>,
}

impl Small {
    fn draw(random: &mut Random, most_rows: usize) -> Small {
        let width = random.between(1, 6);
        let states = random.between(2, 4);
        let most = random.between(1, 3);
        let count = random.between(1, most_rows);
        let mut row = || {
            (0..width)
                .map(|_| 48 + random.below(states) as u8)
                .collect()
        };
        let rows = (0..count).map(|_| row()).collect();
        Small {
            weights: (0..width).map(|_| random.between(1, most) as u16).collect(),
            epsilon: random.below(3) as u16,
            rows,
        }
    }

    fn bytes(&self) -> Vec<u8> {
        job(&self.weights, self.epsilon, &self.rows)
    }

    fn job(&self) -> Job {
        read(&self.bytes()).expect("a right job")
    }
}

/// Whether a chain leads from one type to another, every step of it plus
/// epsilon below the bound: a plain search, step by step.
fn chain(table: &[Vec<u32>], ends: (usize, usize), epsilon: u32, bound: u32) -> bool {
    let mut seen = vec![ends.0];
    let mut next = 0;
    while next < seen.len() {
        for (to, step) in table[seen[next]].iter().enumerate() {
            if step + epsilon < bound && !seen.contains(&to) {
                seen.push(to);
            }
        }
        next += 1;
    }
    seen.contains(&ends.1)
}

#[test]
fn links_are_pairs_without_a_shorter_chain() {
    let mut random = Random::new(1, 1);
    for _ in 0..500 {
        let job = Small::draw(&mut random, 12).job();
        let rows: BTreeSet<Row> = job.rows.iter().cloned().collect();
        let rows: Vec<Row> = rows.into_iter().collect();
        let table = distances(&job.weights, &rows);
        let linked = feasible(&table, job.epsilon);
        for a in 0..rows.len() {
            for b in 0..rows.len() {
                let expected = a != b && !chain(&table, (a, b), job.epsilon, table[a][b]);
                assert_eq!(linked[a][b], expected);
            }
        }
    }
}

/// Whether these pairs make one piece of so many types.
fn spans(pairs: &[(usize, usize)], types: usize) -> bool {
    let mut piece: Vec<usize> = (0..types).collect();
    for &(a, b) in pairs {
        let (from, to) = (piece[a], piece[b]);
        piece
            .iter_mut()
            .filter(|p| **p == from)
            .for_each(|p| *p = to);
    }
    piece.iter().all(|p| *p == piece[0])
}

/// All ways to choose so many pairs.
fn choices(pairs: &[(usize, usize)], size: usize) -> Vec<Vec<(usize, usize)>> {
    if size == 0 {
        return vec![Vec::new()];
    }
    let mut all = Vec::new();
    for (place, &first) in pairs.iter().enumerate() {
        for mut rest in choices(&pairs[place + 1..], size - 1) {
            rest.push(first);
            all.push(rest);
        }
    }
    all
}

/// The pairs that some cheapest spanning tree has, from all spanning trees.
fn pairs_of_cheapest_trees(table: &[Vec<u32>]) -> BTreeSet<(usize, usize)> {
    let types = table.len();
    let pairs: Vec<_> = (0..types)
        .flat_map(|a| (a + 1..types).map(move |b| (a, b)))
        .collect();
    let mut trees = choices(&pairs, types - 1);
    trees.retain(|tree| spans(tree, types));
    let cost = |tree: &[(usize, usize)]| -> u32 { tree.iter().map(|&(a, b)| table[a][b]).sum() };
    let least = trees.iter().map(|tree| cost(tree)).min().unwrap();
    trees.retain(|tree| cost(tree) == least);
    trees.into_iter().flatten().collect()
}

#[test]
fn final_links_are_those_of_cheapest_trees() {
    let mut random = Random::new(1, 2);
    let (mut tried, mut with_inferred) = (0, 0);
    while tried < 200 {
        let job = Small::draw(&mut random, 6).job();
        let network = match run(&job) {
            Ok(network) if network.types.len() <= 6 => network,
            _ => continue,
        };
        let rows: Vec<Row> = network.types.iter().map(|t| t.row).collect();
        let expected = pairs_of_cheapest_trees(&distances(&job.weights, &rows));
        let links = network.links.iter().map(|l| (l.low, l.high)).collect();
        assert_eq!(expected, links);
        tried += 1;
        with_inferred += usize::from(network.rounds > 0);
    }
    assert!(with_inferred > 10);
}

#[test]
fn medians_hold_the_common_state() {
    let mut random = Random::new(1, 3);
    for _ in 0..2000 {
        let width = random.between(1, 9);
        let weights: Vec<u32> = (0..width).map(|_| random.between(1, 9) as u32).collect();
        let mut row = || -> Vec<u8> { (0..width).map(|_| random.pick(b"ACGT")).collect() };
        let rows = [row(), row(), row()].map(|states| padded(&states));
        let vectors = medians(width, &rows[0], &rows[1], &rows[2]);
        for column in 0..width {
            let states: BTreeSet<u8> = rows.iter().map(|r| r[column]).collect();
            for (vector, own) in vectors.iter().zip(&rows) {
                let holders = rows.iter().filter(|r| r[column] == vector[column]);
                let right = holders.count() >= 2 || vector[column] == own[column];
                assert!(right && (states.len() == 3 || vectors[0][column] == vector[column]));
            }
        }
        let cost = |vector| -> u32 { rows.iter().map(|r| distance(&weights, r, vector)).sum() };
        assert_eq!(cost(&vectors[0]), cost(&vectors[1]));
        assert_eq!(cost(&vectors[0]), cost(&vectors[2]));
    }
}

#[test]
fn kept_types_are_in_order_and_well_linked() {
    let mut random = Random::new(1, 4);
    for _ in 0..500 {
        let small = Small::draw(&mut random, 9);
        let network = match run(&small.job()) {
            Ok(network) => network,
            Err(_) => continue,
        };
        let mut last = 0;
        for (number, kind) in network.types.iter().enumerate() {
            let links = network.links.iter();
            let count = links
                .filter(|l| l.low == number || l.high == number)
                .count();
            match kind.origin {
                Origin::Inferred { round } => {
                    assert!(count >= 3 && round >= last.max(1) && round <= network.rounds);
                    last = round;
                }
                Origin::Sampled { rows, first } => {
                    assert_eq!(last, 0);
                    let equal = small.rows.iter().filter(|r| padded(r) == kind.row);
                    assert_eq!(rows, equal.count());
                    assert_eq!(padded(&small.rows[first]), kind.row);
                    assert!(small.rows[..first].iter().all(|r| padded(r) != kind.row));
                }
            }
        }
    }
}

/// A network without its numbering: rows and linked pairs of rows.
fn unnumbered(network: &Network) -> (BTreeSet<Row>, BTreeSet<(Row, Row, u32)>) {
    let row = |number: usize| network.types[number].row;
    let mut links = BTreeSet::new();
    for link in &network.links {
        let (a, b) = (row(link.low), row(link.high));
        links.insert((a.min(b), a.max(b), link.length));
    }
    (network.types.iter().map(|t| t.row).collect(), links)
}

#[test]
fn order_of_rows_only_changes_numbers() {
    let mut random = Random::new(1, 5);
    for _ in 0..300 {
        let mut small = Small::draw(&mut random, 9);
        let before = run(&small.job());
        random.shuffle(&mut small.rows);
        let after = run(&small.job());
        match (before, after) {
            (Ok(a), Ok(b)) => assert_eq!(unnumbered(&a), unnumbered(&b)),
            (a, b) => assert_eq!(a.err(), b.err()),
        }
    }
}

#[test]
fn scaling_weights_and_epsilon_scales_lengths() {
    let mut random = Random::new(1, 6);
    for _ in 0..300 {
        let mut small = Small::draw(&mut random, 9);
        let before = run(&small.job());
        small.weights.iter_mut().for_each(|w| *w *= 7);
        small.epsilon *= 7;
        let after = run(&small.job());
        let scaled = before.map(|mut network| {
            network.links.iter_mut().for_each(|l| l.length *= 7);
            network
        });
        assert_eq!(scaled, after);
    }
}

/// The text that a result block says, read by its offsets alone.
fn text_of(result: &[u8], rows: &[Vec<u8>]) -> Vec<u8> {
    let at = |place: usize| usize::from(u16::from_le_bytes([result[place], result[place + 1]]));
    let [types, sampled, width, links, rounds] = [0, 2, 4, 6, 8].map(at);
    let [records, states, list] = [10, 12, 14].map(at);
    let head = format!("types {types} sampled {sampled} links {links} rounds {rounds}\n");
    let mut text = head.into_bytes();
    for number in 0..types {
        let [count, place, round] = [0, 2, 4].map(|p| at(records + 6 * number + p));
        let row = if number < sampled {
            text.extend(format!("T {number} S {count} ").into_bytes());
            &rows[place][..]
        } else {
            text.extend(format!("T {number} I {round} ").into_bytes());
            &result[states + place * width..states + (place + 1) * width]
        };
        text.extend_from_slice(row);
        text.push(b'\n');
    }
    for number in 0..links {
        let [low, high, length] = [0, 2, 4].map(|p| at(list + 6 * number + p));
        text.extend(format!("L {low} {high} {length}\n").into_bytes());
    }
    assert_eq!(list + 6 * links, result.len());
    text
}

#[test]
fn result_block_and_text_say_the_same() {
    let mut random = Random::new(1, 7);
    for _ in 0..500 {
        let small = Small::draw(&mut random, 12);
        let answer = answer(&small.bytes());
        if answer.number == 0 {
            assert_eq!(text_of(&answer.result, &small.rows), answer.text);
            assert_eq!(usize::from(answer.used), answer.result.len());
        }
    }
}
