//! The network of a job: types, distances, feasible links, purging, median
//! vectors, rounds and the run, with the refusals 8, 9 and 10.

use crate::job::{refuse, Job, Refusal, Row};
use std::collections::{BTreeMap, BTreeSet};

/// The most types that may ever be made, sampled and retired ones included.
pub const MOST_TYPES: usize = 128;

/// Where a type comes from. Rows and rounds are numbered as in the answer.
#[derive(Clone, Copy, Debug, PartialEq, Eq)]
pub enum Origin {
    Sampled { rows: usize, first: usize },
    Inferred { round: usize },
}

#[derive(Clone, Debug, PartialEq, Eq)]
pub struct Type {
    pub row: Row,
    pub origin: Origin,
}

impl Type {
    pub fn is_inferred(&self) -> bool {
        matches!(self.origin, Origin::Inferred { .. })
    }
}

#[derive(Clone, Copy, Debug, PartialEq, Eq)]
pub struct Link {
    pub low: usize,
    pub high: usize,
    pub length: u32,
}

/// What a run ends with.
#[derive(Clone, Debug, PartialEq, Eq)]
pub struct Network {
    pub types: Vec<Type>,
    pub links: Vec<Link>,
    pub rounds: usize,
}

/// A square table of one value for every ordered pair of types.
pub type Table<T> = Vec<Vec<T>>;

/// The sum of the weights of the characters that differ.
pub fn distance(weights: &[u32], a: &Row, b: &Row) -> u32 {
    let mut sum = 0;
    for (column, weight) in weights.iter().enumerate() {
        if a[column] != b[column] {
            sum += weight;
        }
    }
    sum
}

/// All distances between rows.
pub fn distances(weights: &[u32], rows: &[Row]) -> Table<u32> {
    let from = |a| rows.iter().map(|b| distance(weights, a, b)).collect();
    rows.iter().map(from).collect()
}

/// For every pair the longest step of a chain, for the chain whose longest
/// step is shortest. The direct step is a chain too.
pub fn longest_steps(distances: &Table<u32>) -> Table<u32> {
    let mut longest = distances.clone();
    for via in 0..longest.len() {
        let onward = longest[via].clone();
        for from in longest.iter_mut() {
            let first = from[via];
            for (best, &second) in from.iter_mut().zip(&onward) {
                *best = (*best).min(first.max(second));
            }
        }
    }
    longest
}

/// Which pairs are feasibly linked at epsilon: those without a chain of which
/// every step plus epsilon is below the pair's distance.
pub fn feasible(distances: &Table<u32>, epsilon: u32) -> Table<bool> {
    let longest = longest_steps(distances);
    let mut linked = vec![vec![false; distances.len()]; distances.len()];
    for a in 0..distances.len() {
        for b in 0..distances.len() {
            let chain = longest[a][b] + epsilon < distances[a][b];
            linked[a][b] = a != b && !chain;
        }
    }
    linked
}

/// The three median vectors of three rows of this width.
pub fn medians(width: usize, u: &Row, v: &Row, w: &Row) -> [Row; 3] {
    // Where all three differ, each vector keeps the state of its own row.
    let mut vectors = [*u, *v, *w];
    for column in 0..width {
        let (a, b, c) = (u[column], v[column], w[column]);
        let shared = if a == b || a == c {
            a
        } else if b == c {
            b
        } else {
            continue;
        };
        for vector in &mut vectors {
            vector[column] = shared;
        }
    }
    vectors
}

/// Equal rows as one type, numbered by first row.
fn sampled_types(rows: &[Row]) -> Result<Vec<Type>, Refusal> {
    let mut types: Vec<Type> = Vec::new();
    for (number, row) in rows.iter().enumerate() {
        let mut known = types.iter_mut().filter(|t| t.row == *row);
        if let Some(found) = known.next() {
            if let Origin::Sampled { rows, .. } = &mut found.origin {
                *rows += 1;
            }
            continue;
        }
        if types.len() == MOST_TYPES {
            return refuse(8, number);
        }
        types.push(Type {
            row: *row,
            origin: Origin::Sampled {
                rows: 1,
                first: number,
            },
        });
    }
    Ok(types)
}

/// The state of a run.
struct Run<'a> {
    weights: &'a [u32],
    /// Sampled types by first row, then inferred ones in order of making.
    current: Vec<Type>,
    /// The rows of all types ever made: current and retired.
    made: BTreeSet<Row>,
    rounds: usize,
}

impl Run<'_> {
    fn start(job: &Job) -> Result<Run<'_>, Refusal> {
        let current = sampled_types(&job.rows)?;
        Ok(Run {
            weights: &job.weights,
            made: current.iter().map(|t| t.row).collect(),
            current,
            rounds: 0,
        })
    }

    fn distances(&self) -> Table<u32> {
        let rows: Vec<Row> = self.current.iter().map(|t| t.row).collect();
        distances(self.weights, &rows)
    }

    /// Finds the links at epsilon and purges until no type is obsolete. Hands
    /// back the links of the types that stay.
    fn purge(&mut self, epsilon: u32) -> Table<bool> {
        loop {
            let linked = feasible(&self.distances(), epsilon);
            let links_of = |number: usize| linked[number].iter().filter(|&&l| l).count();
            let before = std::mem::take(&mut self.current);
            let count = before.len();
            for (number, kind) in before.into_iter().enumerate() {
                if !kind.is_inferred() || links_of(number) > 2 {
                    self.current.push(kind);
                }
            }
            if self.current.len() == count {
                return linked;
            }
        }
    }

    /// All candidates, ascending by their bytes, each with its cost.
    fn candidates(&self, linked: &Table<bool>) -> BTreeMap<Row, u32> {
        let mut found = BTreeMap::new();
        for w in 0..self.current.len() {
            for v in 0..w {
                for u in 0..v {
                    let pairs = [linked[u][v], linked[u][w], linked[v][w]];
                    if pairs.iter().filter(|&&pair| pair).count() >= 2 {
                        self.add_candidates([u, v, w], &mut found);
                    }
                }
            }
        }
        found
    }

    /// Adds the candidates of one triplet, each at its least cost so far.
    fn add_candidates(&self, triplet: [usize; 3], found: &mut BTreeMap<Row, u32>) {
        let [u, v, w] = triplet.map(|number| &self.current[number].row);
        let vectors = medians(self.weights.len(), u, v, w);
        // Without a character in which all three differ they are equal.
        let different = if vectors[0] == vectors[1] { 1 } else { 3 };
        for vector in &vectors[..different] {
            if self.made.contains(vector) {
                continue;
            }
            let parts = [u, v, w].map(|row| distance(self.weights, row, vector));
            let cost = parts.iter().sum();
            let least = found.entry(*vector).or_insert(cost);
            *least = cost.min(*least);
        }
    }

    /// One round. False if there is no candidate.
    fn round(&mut self, linked: &Table<bool>, epsilon: u32) -> Result<bool, Refusal> {
        let candidates = self.candidates(linked);
        let lambda = match candidates.values().min() {
            Some(&least) => least,
            None => return Ok(false),
        };
        let round = self.rounds + 1;
        let chosen: Vec<Row> = candidates
            .into_iter()
            .filter(|(_, cost)| *cost <= lambda + epsilon)
            .map(|(row, _)| row)
            .collect();
        if self.made.len() + chosen.len() > MOST_TYPES {
            return refuse(9, round);
        }
        for row in chosen {
            self.made.insert(row);
            let origin = Origin::Inferred { round };
            self.current.push(Type { row, origin });
        }
        self.rounds = round;
        Ok(true)
    }
}

/// The links as a list, ascending by lower, then higher number.
fn list(linked: &Table<bool>, distances: &Table<u32>) -> Vec<Link> {
    let mut links = Vec::new();
    for low in 0..linked.len() {
        for high in low + 1..linked.len() {
            if linked[low][high] {
                let length = distances[low][high];
                links.push(Link { low, high, length });
            }
        }
    }
    links
}

/// Whether the links join all types.
fn joined(linked: &Table<bool>) -> bool {
    let mut reached = vec![false; linked.len()];
    let mut waiting = vec![0];
    while let Some(from) = waiting.pop() {
        if !reached[from] {
            reached[from] = true;
            waiting.extend((0..linked.len()).filter(|&to| linked[from][to]));
        }
    }
    reached.into_iter().all(|is| is)
}

/// The whole run: phase I until there is no candidate, then phase II.
pub fn run(job: &Job) -> Result<Network, Refusal> {
    let mut run = Run::start(job)?;
    loop {
        let linked = run.purge(job.epsilon);
        if !run.round(&linked, job.epsilon)? {
            break;
        }
    }
    let linked = run.purge(0);
    if !joined(&linked) {
        return refuse(10, 0);
    }
    Ok(Network {
        links: list(&linked, &run.distances()),
        types: run.current,
        rounds: run.rounds,
    })
}
