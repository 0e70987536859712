//! Each refusal at both sides of its bound, and the order in which they are
//! tried.

mod common;

use common::{accepts, job, plain, refuses, text};

/// A job with one of its 16-bit numbers replaced.
fn with(job: &[u8], place: usize, number: u16) -> Vec<u8> {
    let mut bytes = job.to_vec();
    bytes[place..place + 2].copy_from_slice(&number.to_le_bytes());
    bytes
}

#[test]
fn head() {
    let whole = plain("A", 0);
    for length in 0..12 {
        refuses(&whole[..length], 2, 0);
    }
    // Twelve bytes are a head; what is wrong then is the layout.
    refuses(&whole[..12], 5, 12);
    refuses(&[0; 12], 3, 0);
}

#[test]
fn rows() {
    let equal = |count: usize| job(&[1], 0, &vec![vec![65]; count]);
    refuses(&equal(0), 3, 0);
    accepts(&equal(1));
    let answer = "types 1 sampled 1 links 0 rounds 0\nT 0 S 256 A\n";
    assert_eq!(text(&equal(256)), answer);
    refuses(&equal(257), 3, 0);
    refuses(&with(&equal(1), 0, 65_535), 3, 0);
}

#[test]
fn width() {
    let wide = |width: usize| job(&vec![1; width], 0, &[vec![65; width]]);
    refuses(&wide(0), 4, 2);
    accepts(&wide(1));
    accepts(&wide(64));
    refuses(&wide(65), 4, 2);
    refuses(&with(&wide(1), 2, 65_535), 4, 2);
}

#[test]
fn largest_block() {
    let rows = vec![vec![126; 64]; 256];
    let largest = job(&[1000; 64], 65_535, &rows);
    assert_eq!(largest.len(), 16_524);
    accepts(&largest);
}

#[test]
fn layout() {
    let whole = plain("AC AD", 3);
    accepts(&whole);
    for (place, right) in [(6, 12), (8, 16), (10, 20)] {
        for wrong in [0, right - 1, right + 1, right + 256, 65_535] {
            refuses(&with(&whole, place, wrong), 5, place as u16);
        }
    }
    refuses(&whole[..19], 5, 12);
    refuses(&[&whole[..], b"A"].concat(), 5, 12);
}

#[test]
fn every_cut() {
    let whole = plain("110 101 011", 0);
    for length in 0..whole.len() {
        let (number, place) = if length < 12 { (2, 0) } else { (5, 12) };
        refuses(&whole[..length], number, place);
    }
    accepts(&whole);
}

#[test]
fn weights() {
    let rows = [b"ABC".to_vec(), b"DEF".to_vec()];
    accepts(&job(&[1, 1000, 1], 0, &rows));
    refuses(&job(&[1, 1001, 0], 0, &rows), 6, 1);
    refuses(&job(&[1, 1000, 0], 0, &rows), 6, 2);
    refuses(&job(&[65_535, 0, 0], 0, &rows), 6, 0);
}

#[test]
fn states() {
    let three = |a, b, c| job(&[1, 1], 0, &[vec![a, 65], vec![b, c]]);
    accepts(&three(33, 126, 33));
    refuses(&three(32, 126, 33), 7, 0);
    refuses(&three(33, 127, 0), 7, 2);
    refuses(&three(33, 126, 255), 7, 3);
    refuses(&three(33, 126, 0), 7, 3);
    let mut last = vec![vec![126; 64]; 256];
    last[255][63] = 127;
    refuses(&job(&[1; 64], 0, &last), 7, 16_383);
}

#[test]
fn types() {
    // So many different rows, each of them twice in a row.
    let pairs = |count: u8| {
        let row = |number: u8| vec![33 + number / 64, 33 + number % 64];
        let rows: Vec<_> = (0..2 * count as u16)
            .map(|number| row((number / 2) as u8))
            .collect();
        job(&[1, 1], 0, &rows[..rows.len().min(256)])
    };
    accepts(&pairs(127));
    accepts(&pairs(128));
    let mut rows: Vec<_> = (0..129u8).map(|n| vec![33 + n / 64, 33 + n % 64]).collect();
    refuses(&job(&[1, 1], 0, &rows), 8, 128);
    rows.insert(7, rows[3].clone());
    rows.insert(50, rows[3].clone());
    refuses(&job(&[1, 1], 0, &rows), 8, 130);
}

#[test]
fn order() {
    // Every fault at once, then mended one by one in the order of the table.
    let mut bytes = plain("AC AD", 0);
    for (place, wrong) in [(0, 0), (2, 65), (6, 0), (8, 0), (10, 0), (12, 0)] {
        bytes = with(&bytes, place, wrong);
    }
    bytes[17] = 127;
    bytes.push(0);
    let steps = [(0, 2, 3, 0), (2, 2, 4, 2), (6, 12, 5, 6), (8, 16, 5, 8)];
    for (place, right, number, refused_at) in steps {
        refuses(&bytes, number, refused_at);
        bytes = with(&bytes, place, right);
    }
    refuses(&bytes, 5, 10);
    bytes = with(&bytes, 10, 20);
    refuses(&bytes, 5, 12);
    bytes.pop();
    refuses(&bytes, 6, 0);
    bytes = with(&bytes, 12, 1000);
    refuses(&bytes, 7, 1);
    bytes[17] = 126;
    accepts(&bytes);
}

#[test]
fn states_before_types() {
    let mut rows: Vec<_> = (0..200u8).map(|n| vec![33 + n / 64, 33 + n % 64]).collect();
    refuses(&job(&[1, 1], 0, &rows), 8, 128);
    rows[199][1] = 31;
    refuses(&job(&[1, 1], 0, &rows), 7, 399);
}
