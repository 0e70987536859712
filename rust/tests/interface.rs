//! The archive through the Rust crate: P5, the row lookup, one of each refusal, and the memory that
//! a call leaves. Expected values are those of docs/RULES.md, written by hand. With
//! HURDLESONG_VECTORS in the environment, every job of that folder is run against its text too.

use hurdlesong::{Answer, Link, Memory, Refusal, TextRefusal};
use std::io::Write;
use std::{env, fs, io};

const P5_BLOCK: [u8; 61] = [
    4, 0, 3, 0, 3, 0, 3, 0, 1, 0, // t, s, m, l, rounds
    16, 0, 40, 0, 43, 0, // the offsets of the records, the inferred rows and the links
    1, 0, 0, 0, 0, 0, 1, 0, 1, 0, 0, 0, 1, 0, 2, 0, 0, 0, // the sampled types 0 to 2
    0, 0, 0, 0, 1, 0, // the inferred type 3, of round 1
    b'1', b'1', b'1', // its states
    0, 0, 3, 0, 1, 0, 1, 0, 3, 0, 1, 0, 2, 0, 3, 0, 1, 0, // links 0-3, 1-3, 2-3 of length 1
];

const P5_TEXT: &str = "\
types 4 sampled 3 links 3 rounds 1
T 0 S 1 110
T 1 S 1 101
T 2 S 1 011
T 3 I 1 111
L 0 3 1
L 1 3 1
L 2 3 1
";

const P5_ANSWER: Answer = Answer::Network { used: 61 };

/// The least lengths: result, states, distances, links.
const LEAST: [usize; 4] = [57_680, 8_192, 16_384, 8_128];
const MORE: [usize; 4] = [57_681, 8_269, 16_387, 8_257];

fn put(block: &mut [u8], at: usize, number: usize) {
    block[at..at + 2].copy_from_slice(&(number as u16).to_le_bytes());
}

/// The job of these rows, which all have as many states as there are weights.
fn job_of<S: AsRef<str>>(rows: &[S], weights: &[usize], epsilon: usize) -> Vec<u8> {
    let states = 12 + 2 * weights.len();
    let length = states + rows.len() * weights.len();
    let header = [rows.len(), weights.len(), epsilon, 12, states, length];
    let mut job = vec![0; states];
    for (i, number) in header.iter().chain(weights).enumerate() {
        put(&mut job, 2 * i, *number);
    }
    for row in rows {
        job.extend(row.as_ref().bytes());
    }
    job
}

fn p5() -> Vec<u8> {
    job_of(&["110", "101", "011"], &[1, 1, 1], 0)
}

fn p2() -> Vec<u8> {
    job_of(&["AC", "AC"], &[1, 1], 0)
}

/// P5 with another number at this byte.
fn altered(at: usize, number: usize) -> Vec<u8> {
    let mut job = p5();
    put(&mut job, at, number);
    job
}

/// All rows of `high` states in column 0 and `low` in column 1, with `behind` after them.
fn grid(high: u8, low: u8, behind: &str) -> Vec<String> {
    let row = |i, j| format!("{}{}{}", (b'A' + i) as char, (b'A' + j) as char, behind);
    (0..high)
        .flat_map(|i| (0..low).map(move |j| row(i, j)))
        .collect()
}

/// P5's block with another number at this byte.
fn damaged(at: usize, number: usize) -> [u8; 61] {
    let mut block = P5_BLOCK;
    put(&mut block, at, number);
    block
}

fn refused(number: usize, place: usize) -> Answer {
    Answer::Refused(Refusal { number, place })
}

/// What was left in a byte of memory: two different fillings.
fn leftover(filling: usize, i: usize) -> u8 {
    [0xff, (i * 89 + 7) as u8][filling]
}

/// Memory of these lengths with leftovers in it.
fn leftovers(lengths: [usize; 4], filling: usize) -> Memory {
    let byte = |i| leftover(filling, i);
    let number = |i: usize| u16::from_le_bytes([byte(2 * i), byte(2 * i + 1)]);
    let link = |i: usize| Link {
        low: number(3 * i),
        high: number(3 * i + 1),
        length: number(3 * i + 2),
    };
    Memory::of(
        (0..lengths[0]).map(byte).collect(),
        (0..lengths[1]).map(byte).collect(),
        (0..lengths[2]).map(number).collect(),
        (0..lengths[3]).map(link).collect(),
    )
}

/// Calls over memory of these lengths, once for each filling, and looks at the answer, at all that
/// was lent, and at the text.
fn check_over(job: &[u8], lengths: [usize; 4], answer: Answer, block: &[u8], text: &str) {
    for filling in 0..2 {
        let mut memory = leftovers(lengths, filling);
        assert_eq!(memory.call(job), answer);
        assert_eq!(memory.block(), block);
        assert_eq!(&memory.result()[..block.len()], block);
        assert!(memory.result()[block.len()..].iter().all(|byte| *byte == 0));
        assert!(memory.states().iter().all(|byte| *byte == 0));
        assert!(memory.distances().iter().all(|number| *number == 0));
        assert!(memory.links().iter().all(|link| *link == Link::default()));
        let areas = [
            memory.result().len(),
            memory.states().len(),
            memory.distances().len(),
            memory.links().len(),
        ];
        assert_eq!(areas, lengths);
        check_text(job, block, &answer, hurdlesong::TEXT_BYTES, Ok(text));
    }
}

/// Calls over memory of the least lengths and over longer memory.
fn check(job: &[u8], answer: Answer, block: &[u8], text: &str) {
    check_over(job, LEAST, answer, block, text);
    check_over(job, MORE, answer, block, text);
}

fn check_refused(job: &[u8], number: usize, place: usize) {
    let text = format!("refused {} {}\n", number, place);
    check(job, refused(number, place), &[], &text);
}

/// Prints into memory of this length, once for each filling, and looks at all of it.
fn check_text(
    job: &[u8],
    block: &[u8],
    answer: &Answer,
    length: usize,
    wanted: Result<&str, TextRefusal>,
) {
    let text = wanted.unwrap_or_default().as_bytes();
    for filling in 0..2 {
        let mut out: Vec<u8> = (0..length).map(|i| leftover(filling, i)).collect();
        let got = hurdlesong::text(job, block, answer, &mut out);
        assert_eq!(got, wanted.map(str::len));
        assert_eq!(&out[..text.len()], text);
        assert!(out[text.len()..].iter().all(|byte| *byte == 0));
    }
}

#[test]
fn constants() {
    let sizes = [
        hurdlesong::RESULT_BYTES,
        hurdlesong::STATE_BYTES,
        hurdlesong::DISTANCES,
        hurdlesong::LINKS,
        hurdlesong::TEXT_BYTES,
        hurdlesong::JOB_BYTES,
        hurdlesong::WIDTH,
    ];
    assert_eq!(sizes, [57_680, 8_192, 16_384, 8_128, 172_718, 16_524, 64]);
    let numbers = [
        hurdlesong::DONE,
        hurdlesong::AREA,
        hurdlesong::HEAD,
        hurdlesong::ROWS,
        hurdlesong::WIDTHS,
        hurdlesong::LAYOUT,
        hurdlesong::WEIGHT,
        hurdlesong::STATE,
        hurdlesong::TYPES,
        hurdlesong::ROOM,
        hurdlesong::SPLIT,
    ];
    assert_eq!(numbers, [0, 1, 2, 3, 4, 5, 6, 7, 8, 9, 10]);
    assert_eq!([hurdlesong::TEXT_ROOM, hurdlesong::TEXT_BLOCK], [80, 81]);
    assert_eq!(
        (std::mem::size_of::<Link>(), std::mem::align_of::<Link>()),
        (6, 2)
    );
}

#[test]
fn p5_is_answered() {
    let job = p5();
    let head = [3, 0, 3, 0, 0, 0, 12, 0, 18, 0, 27, 0, 1, 0, 1, 0, 1, 0];
    assert_eq!(job, [&head[..], b"110101011"].concat());
    check(&job, P5_ANSWER, &P5_BLOCK, P5_TEXT);
    let told = (P5_ANSWER.number(), P5_ANSWER.place(), P5_ANSWER.used());
    assert_eq!(told, (0, 0, 61));
    assert_eq!(P5_ANSWER.network(), Ok(61));
}

#[test]
fn p2_is_answered() {
    let head = [1, 0, 1, 0, 2, 0, 0, 0, 0, 0, 16, 0, 22, 0, 22, 0];
    let block = [&head[..], &[2, 0, 0, 0, 0, 0]].concat();
    let text = "types 1 sampled 1 links 0 rounds 0\nT 0 S 2 AC\n";
    check(&p2(), Answer::Network { used: 22 }, &block, text);
}

#[test]
fn memory_serves_again() {
    let mut memory = Memory::default();
    assert_eq!(memory.block(), b"");
    for _ in 0..2 {
        assert_eq!(memory.call(&p5()), P5_ANSWER);
        assert_eq!(memory.block(), P5_BLOCK);
        assert_eq!(memory.call(&[]), refused(2, 0));
        assert_eq!(memory.block(), b"");
    }
}

/// What lies before and behind the slices that are lent stays as it was.
#[test]
fn neighbours_stay() {
    let link = Link {
        low: 1,
        high: 2,
        length: 3,
    };
    let mut result = vec![0xff; LEAST[0] + 2];
    let mut states = vec![0xff; LEAST[1] + 2];
    let mut distances = vec![0xffff; LEAST[2] + 2];
    let mut links = vec![link; LEAST[3] + 2];
    let answer = hurdlesong::call(
        &p5(),
        &mut result[1..=LEAST[0]],
        &mut states[1..=LEAST[1]],
        &mut distances[1..=LEAST[2]],
        &mut links[1..=LEAST[3]],
    );
    assert_eq!(answer, P5_ANSWER);
    assert_eq!(result[1..62], P5_BLOCK);
    assert_eq!((result[0], result[LEAST[0] + 1]), (0xff, 0xff));
    assert_eq!((states[0], states[LEAST[1] + 1]), (0xff, 0xff));
    assert_eq!((distances[0], distances[LEAST[2] + 1]), (0xffff, 0xffff));
    assert_eq!((links[0], links[LEAST[3] + 1]), (link, link));
}

#[test]
fn lookup_hands_back_the_part_itself() {
    let job = p5();
    let mut longer = P5_BLOCK.to_vec();
    longer.resize(161, 0);
    for block in [&P5_BLOCK[..], &longer[..]] {
        for (number, states) in [b"110", b"101", b"011"].into_iter().enumerate() {
            let part = hurdlesong::states(&job, block, number);
            assert_eq!(part, states);
            assert_eq!(part.as_ptr(), job[18 + 3 * number..].as_ptr());
        }
        let part = hurdlesong::states(&job, block, 3);
        assert_eq!(part, b"111");
        assert_eq!(part.as_ptr(), block[40..].as_ptr());
        assert_eq!(hurdlesong::states(&job, block, 4), b"");
        assert_eq!(hurdlesong::states(&job, block, usize::MAX), b"");
    }
}

fn nowhere_for_all(job: &[u8], block: &[u8]) {
    for number in 0..5 {
        assert_eq!(hurdlesong::states(job, block, number), b"");
    }
}

#[test]
fn lookup_in_damaged_blocks() {
    let job = p5();
    for (at, wrong) in [(0, 3), (0, 129), (2, 0), (2, 5), (4, 2)] {
        nowhere_for_all(&job, &damaged(at, wrong));
    }
    for (at, wrong) in [(10, 17), (12, 39), (14, 44)] {
        nowhere_for_all(&job, &damaged(at, wrong));
    }
    // A record's place is damaged: that type is not there, the others are.
    assert_eq!(hurdlesong::states(&job, &damaged(18, 3), 0), b"");
    assert_eq!(hurdlesong::states(&job, &damaged(18, 3), 1), b"101");
    assert_eq!(hurdlesong::states(&job, &damaged(36, 1), 3), b"");
    for length in 0..43 {
        nowhere_for_all(&job, &P5_BLOCK[..length]);
    }
    assert_eq!(hurdlesong::states(&job, &P5_BLOCK[..43], 3), b"111");
}

#[test]
fn lookup_with_another_job() {
    nowhere_for_all(&[], &P5_BLOCK);
    nowhere_for_all(&p2(), &P5_BLOCK);
    nowhere_for_all(&job_of(&["110", "1 1", "011"], &[1, 1, 1], 0), &P5_BLOCK);
    let shorter = job_of(&["110", "101"], &[1, 1, 1], 0);
    assert_eq!(hurdlesong::states(&shorter, &P5_BLOCK, 1), b"101");
    assert_eq!(hurdlesong::states(&shorter, &P5_BLOCK, 2), b"");
}

#[test]
fn refusal_1_area() {
    for i in 0..4 {
        let mut lengths = LEAST;
        lengths[i] -= 1;
        check_over(&p5(), lengths, refused(1, 0), &[], "refused 1 0\n");
        lengths[i] = 0;
        check_over(&[], lengths, refused(1, 0), &[], "refused 1 0\n");
    }
}

#[test]
fn refusals_2_to_4_header() {
    check_refused(&[], 2, 0);
    check_refused(&p5()[..11], 2, 0);
    check_refused(&job_of::<&str>(&[], &[1, 1, 1], 0), 3, 0);
    check_refused(&job_of(&["A"; 257], &[1], 0), 3, 0);
    check_refused(&job_of(&[""; 3], &[], 0), 4, 2);
    check_refused(&job_of(&vec!["A".repeat(65); 3], &[1; 65], 0), 4, 2);
}

#[test]
fn refusal_5_layout() {
    check_refused(&altered(6, 13), 5, 6);
    check_refused(&altered(8, 17), 5, 8);
    check_refused(&altered(10, 28), 5, 10);
    check_refused(&p5()[..26], 5, 12);
    check_refused(&[p5(), vec![b'1']].concat(), 5, 12);
}

#[test]
fn refusals_6_and_7_contents() {
    check_refused(&altered(12, 0), 6, 0);
    check_refused(&altered(12, 1_001), 6, 0);
    check_refused(&altered(16, 0), 6, 2);
    check_refused(&altered(16, 1_001), 6, 2);
    check_refused(&job_of(&["110", "1 1", "011"], &[1, 1, 1], 0), 7, 4);
    check_refused(&job_of(&["110", "10\x7f", "011"], &[1, 1, 1], 0), 7, 5);
}

#[test]
fn refusals_8_and_9_types_and_room() {
    let mut r2 = grid(8, 16, "");
    r2.push("ZZ".to_string());
    check_refused(&job_of(&r2, &[1; 2], 0), 8, 128);
    let mut r4 = grid(5, 25, "000");
    r4.extend(["AA110", "AA101", "AA011"].map(String::from));
    check_refused(&job_of(&r4, &[1; 5], 0), 9, 1);
}

#[test]
fn refusals_80_and_81_text() {
    let (job, least) = (p5(), hurdlesong::TEXT_BYTES);
    let (room, block) = (Err(TextRefusal::Room), Err(TextRefusal::Block));
    check_text(&job, &P5_BLOCK, &P5_ANSWER, least - 1, room);
    check_text(&job, &P5_BLOCK, &P5_ANSWER, 0, room);
    check_text(&job, &P5_BLOCK, &refused(7, 4), least - 1, room);
    check_text(&job, &P5_BLOCK, &P5_ANSWER, least + 129, Ok(P5_TEXT));
    let line = Ok("refused 7 4\n");
    check_text(&job, &P5_BLOCK, &refused(7, 4), least + 129, line);
    check_text(&p2(), &P5_BLOCK, &P5_ANSWER, least, block);
    check_text(&job, &[], &P5_ANSWER, least, block);
    check_text(&job, &P5_BLOCK[..60], &P5_ANSWER, least + 1, block);
    check_text(&job, &damaged(4, 2), &P5_ANSWER, least, block);
    let string = |block| hurdlesong::text_string(&job, block, &P5_ANSWER);
    assert_eq!(string(&P5_BLOCK), Ok(P5_TEXT.to_string()));
    assert_eq!(string(&damaged(4, 2)), Err(TextRefusal::Block));
}

#[test]
fn refusals_say_what_to_do() {
    let refusal = refused(7, 4).network().unwrap_err();
    assert_eq!(
        refusal.to_string(),
        "refused 7 at 4: STATE, a byte is outside 33 to 126 (write - or ? there)"
    );
    for number in 1..=10 {
        let line = Refusal { number, place: 12 }.to_string();
        assert!(line.starts_with(&format!("refused {} at 12: ", number)));
        assert!(line.ends_with(')') && line.lines().count() == 1);
    }
    for refusal in [TextRefusal::Room, TextRefusal::Block] {
        let line = refusal.to_string();
        assert!(line.starts_with(&format!("refused {} at 0: ", refusal.number())));
        assert!(line.ends_with(')') && line.lines().count() == 1);
    }
}

/// Straight to the error output, which the test harness does not hold back as it does for what the
/// print macros write.
fn say(line: &str) {
    let line = format!("{}\n", line);
    io::stderr().write_all(line.as_bytes()).unwrap();
}

#[test]
fn vectors() {
    let folder = match env::var_os("HURDLESONG_VECTORS") {
        Some(folder) => folder,
        None => return say("vectors: SKIPPED, HURDLESONG_VECTORS names no folder"),
    };
    let mut memory = Memory::new();
    let mut run = 0;
    for entry in fs::read_dir(folder).unwrap() {
        let path = entry.unwrap().path();
        if path.extension() != Some("job".as_ref()) {
            continue;
        }
        let job = fs::read(&path).unwrap();
        let wanted = fs::read_to_string(path.with_extension("txt")).unwrap();
        let answer = memory.call(&job);
        assert_ne!(answer.number(), hurdlesong::SPLIT, "{}", path.display());
        let text = hurdlesong::text_string(&job, memory.block(), &answer).unwrap();
        assert_eq!(text, wanted, "{}", path.display());
        run += 1;
    }
    assert_ne!(run, 0, "no vectors in the folder");
    say(&format!("vectors: {} run", run));
}
