//! What a network is written as: the result block and the printed text.

use crate::job::Refusal;
use crate::network::{Network, Origin};

/// The bytes before the records.
const HEAD: usize = 16;

/// Adds 16-bit numbers, low byte first. All that occur here fit: the longest
/// offset is below 9,000 and the longest link is 64,000.
fn push(bytes: &mut Vec<u8>, numbers: &[usize]) {
    for &number in numbers {
        assert!(number < 65_536);
        bytes.push((number % 256) as u8);
        bytes.push((number / 256) as u8);
    }
}

/// The result block of a network.
pub fn result(network: &Network, width: usize) -> Vec<u8> {
    let types = network.types.len();
    let inferred = network.types.iter().filter(|t| t.is_inferred()).count();
    let rows_at = HEAD + 6 * types;
    let links_at = rows_at + inferred * width;
    let mut bytes = Vec::new();
    push(&mut bytes, &[types, types - inferred, width]);
    push(&mut bytes, &[network.links.len(), network.rounds]);
    push(&mut bytes, &[HEAD, rows_at, links_at]);
    let mut place_of_inferred = 0;
    for kind in &network.types {
        match kind.origin {
            Origin::Sampled { rows, first } => push(&mut bytes, &[rows, first, 0]),
            Origin::Inferred { round } => {
                push(&mut bytes, &[0, place_of_inferred, round]);
                place_of_inferred += 1;
            }
        }
    }
    for kind in network.types.iter().filter(|t| t.is_inferred()) {
        bytes.extend_from_slice(&kind.row[..width]);
    }
    for link in &network.links {
        push(&mut bytes, &[link.low, link.high, link.length as usize]);
    }
    bytes
}

/// The printed text of a network.
pub fn text(network: &Network, width: usize) -> Vec<u8> {
    let types = network.types.len();
    let sampled = network.types.iter().filter(|t| !t.is_inferred()).count();
    let links = network.links.len();
    let rounds = network.rounds;
    let head = format!("types {types} sampled {sampled} links {links} rounds {rounds}\n");
    let mut text = head.into_bytes();
    for (number, kind) in network.types.iter().enumerate() {
        let start = match kind.origin {
            Origin::Sampled { rows, .. } => format!("T {number} S {rows} "),
            Origin::Inferred { round } => format!("T {number} I {round} "),
        };
        text.extend_from_slice(start.as_bytes());
        text.extend_from_slice(&kind.row[..width]);
        text.push(b'\n');
    }
    for link in &network.links {
        let line = format!("L {} {} {}\n", link.low, link.high, link.length);
        text.extend_from_slice(line.as_bytes());
    }
    text
}

/// The printed text of a refusal.
pub fn refusal_text(refusal: Refusal) -> Vec<u8> {
    format!("refused {} {}\n", refusal.number, refusal.place).into_bytes()
}
