//! The cases P1 to P11 and R1 to R4 and the first example of the paper. All
//! that is expected here is written by hand from those tables.

mod common;

use common::{job, plain, prints, refuses, text, words};
use second::job::padded;
use second::network::{distances, feasible};
use second::rules::answer;

#[test]
fn p1_one_row() {
    prints(
        &plain("A", 0),
        &["types 1 sampled 1 links 0 rounds 0", "T 0 S 1 A"],
    );
}

#[test]
fn p2_equal_rows() {
    prints(
        &plain("AC AC", 0),
        &["types 1 sampled 1 links 0 rounds 0", "T 0 S 2 AC"],
    );
}

#[test]
fn p3_weight() {
    let lines = [
        "types 2 sampled 2 links 1 rounds 0",
        "T 0 S 1 A",
        "T 1 S 1 B",
        "L 0 1 7",
    ];
    prints(&job(&[7], 0, &words("A B")), &lines);
}

#[test]
fn p4_triangle() {
    let lines = [
        "types 3 sampled 3 links 3 rounds 0",
        "T 0 S 1 A",
        "T 1 S 1 B",
        "T 2 S 1 C",
        "L 0 1 1",
        "L 0 2 1",
        "L 1 2 1",
    ];
    prints(&plain("A B C", 0), &lines);
}

const P5: [&str; 8] = [
    "types 4 sampled 3 links 3 rounds 1",
    "T 0 S 1 110",
    "T 1 S 1 101",
    "T 2 S 1 011",
    "T 3 I 1 111",
    "L 0 3 1",
    "L 1 3 1",
    "L 2 3 1",
];

#[test]
fn p5_star() {
    prints(&plain("110 101 011", 0), &P5);
}

#[test]
fn p6_star_with_epsilon() {
    prints(&plain("110 101 011", 1), &P5);
}

#[test]
fn p7_three_medians() {
    let lines = [
        "types 6 sampled 3 links 6 rounds 1",
        "T 0 S 1 A100",
        "T 1 S 1 B010",
        "T 2 S 1 C001",
        "T 3 I 1 A000",
        "T 4 I 1 B000",
        "T 5 I 1 C000",
        "L 0 3 1",
        "L 1 4 1",
        "L 2 5 1",
        "L 3 4 1",
        "L 3 5 1",
        "L 4 5 1",
    ];
    prints(&plain("A100 B010 C001", 0), &lines);
}

#[test]
fn p8_chain() {
    let lines = [
        "types 3 sampled 3 links 2 rounds 0",
        "T 0 S 1 00",
        "T 1 S 1 01",
        "T 2 S 1 11",
        "L 0 1 1",
        "L 1 2 1",
    ];
    prints(&plain("00 01 11", 0), &lines);
    let rows = [padded(b"00"), padded(b"01"), padded(b"11")];
    let table = distances(&[1, 1], &rows);
    assert!(feasible(&table, 1)[0][2]);
    assert!(!feasible(&table, 0)[0][2]);
}

#[test]
fn p9_p10_weights() {
    prints(
        &job(&[1000], 0, &words("A")),
        &["types 1 sampled 1 links 0 rounds 0", "T 0 S 1 A"],
    );
    refuses(&job(&[1001], 0, &words("A")), 6, 0);
    refuses(&job(&[0], 0, &words("A")), 6, 0);
}

#[test]
fn p11_states() {
    for state in ["!", "~"] {
        let line = format!("T 0 S 1 {state}");
        prints(
            &plain(state, 0),
            &["types 1 sampled 1 links 0 rounds 0", &line],
        );
    }
    refuses(&job(&[1], 0, &[vec![32]]), 7, 0);
    refuses(&job(&[1], 0, &[vec![127]]), 7, 0);
}

/// All rows over two columns with so many states, and some states behind.
fn grid(first: u8, second: u8, behind: &[u8]) -> Vec<Vec<u8>> {
    let mut rows = Vec::new();
    for a in 0..first {
        for b in 0..second {
            rows.push([&[33 + a, 33 + b], behind].concat());
        }
    }
    rows
}

/// A grid with `000` behind and, at its first place, three corners of a cube.
fn grid_with_cube(first: u8, second: u8) -> Vec<u8> {
    let mut rows = grid(first, second, b"000");
    for corner in [b"110", b"101", b"011"] {
        rows.push([b"!!", &corner[..]].concat());
    }
    job(&[1; 5], 0, &rows)
}

fn first_line(job: &[u8]) -> String {
    text(job).lines().next().unwrap().to_string()
}

#[test]
fn r1_r2_most_sampled_types() {
    let mut rows = grid(8, 16, b"");
    let line = first_line(&job(&[1, 1], 0, &rows));
    assert_eq!(line, "types 128 sampled 128 links 1408 rounds 0");
    rows.push(b"~~".to_vec());
    refuses(&job(&[1, 1], 0, &rows), 8, 128);
}

#[test]
fn r3_r4_most_types() {
    let line = first_line(&grid_with_cube(11, 11));
    assert_eq!(line, "types 128 sampled 124 links 1222 rounds 1");
    refuses(&grid_with_cube(5, 25), 9, 1);
    // The lowest number of types that is too high: 125 sampled, 4 inferred.
    refuses(&grid_with_cube(2, 61), 9, 1);
}

const EXAMPLE: &str = "00000 11000 10110 01101";
const WEIGHTS: [u16; 5] = [1, 3, 2, 1, 2];

#[test]
fn first_example_of_the_paper() {
    let lines = [
        "types 5 sampled 4 links 4 rounds 1",
        "T 0 S 1 00000",
        "T 1 S 1 11000",
        "T 2 S 1 10110",
        "T 3 S 1 01101",
        "T 4 I 1 10000",
        "L 0 4 1",
        "L 1 3 5",
        "L 1 4 3",
        "L 2 4 3",
    ];
    prints(&job(&WEIGHTS, 0, &words(EXAMPLE)), &lines);
}

#[test]
fn first_example_with_epsilon() {
    let inferred = |epsilon| -> Vec<String> {
        let text = text(&job(&WEIGHTS, epsilon, &words(EXAMPLE)));
        let lines = text.lines().filter(|line| line.contains(" I "));
        lines.map(|line| line[4..].to_string()).collect()
    };
    assert_eq!(inferred(1), ["I 1 01000", "I 1 10000"]);
    let first = ["I 1 00100", "I 1 01000", "I 1 10000", "I 1 11100"];
    let second = ["I 2 01100", "I 2 10100"];
    assert_eq!(inferred(2), [&first[..], &second[..]].concat());
}

#[test]
fn result_block_of_p5() {
    let numbers = [
        [4, 3, 3, 3, 1, 16, 40, 43].as_slice(),
        &[1, 0, 0, 1, 1, 0, 1, 2, 0, 0, 0, 1],
    ];
    let bytes =
        |numbers: &[u16]| -> Vec<u8> { numbers.iter().flat_map(|n| n.to_le_bytes()).collect() };
    let mut block = bytes(&numbers.concat());
    block.extend_from_slice(b"111");
    block.extend(bytes(&[0, 3, 1, 1, 3, 1, 2, 3, 1]));
    let answer = answer(&plain("110 101 011", 0));
    assert_eq!(answer.result, block);
    assert_eq!(usize::from(answer.used), block.len());
    assert_eq!((answer.number, answer.place), (0, 0));
}
