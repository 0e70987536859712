//! What the sequence of jobs is promised to hold.

use second::job::{number_at, read};
use second::jobs::job;

/// The jobs 0 to 3,999 of a seed: two periods of the sequence.
fn sequence() -> Vec<Vec<u8>> {
    (0..4000).map(|number| job(3, number)).collect()
}

#[test]
fn more_than_half_are_whole() {
    let whole = sequence().iter().filter(|job| read(job).is_ok()).count();
    assert!(whole > 2400, "{whole}");
}

#[test]
fn all_refusals_of_the_job_block_occur() {
    let mut seen = Vec::new();
    for job in sequence() {
        if let Err(refusal) = read(&job) {
            seen.push((refusal.number, refusal.place));
        }
    }
    for expected in [(2, 0), (3, 0), (4, 2), (5, 6), (5, 8), (5, 10), (5, 12)] {
        assert!(seen.contains(&expected), "{expected:?}");
    }
    for (number, bound) in [(6, 0), (6, 10), (7, 0), (7, 30), (7, 255)] {
        let far = |&(n, place): &(u16, u16)| n == number && place >= bound;
        assert!(seen.iter().any(far), "{number} from {bound}");
    }
}

#[test]
fn all_states_occur_and_the_outermost_often() {
    let mut count = [0; 256];
    for job in sequence().iter().filter_map(|job| read(job).ok()) {
        for row in &job.rows {
            row[..job.width]
                .iter()
                .for_each(|&s| count[s as usize] += 1);
        }
    }
    assert!((33..=126).all(|state: usize| count[state] > 0));
    let whole: usize = count.iter().sum();
    assert!(count[33] > whole / 30 && count[126] > whole / 30);
}

#[test]
fn a_period_ends_with_one_job_cut_everywhere() {
    let cuts: Vec<Vec<u8>> = (1872..2000).map(|number| job(3, number)).collect();
    let length = number_at(&cuts[12], 10);
    let base = &cuts[length];
    assert!(read(base).is_ok());
    for (number, cut) in cuts.iter().enumerate().take(length + 5) {
        assert_eq!(cut.len(), number);
        let common = number.min(length);
        assert_eq!(cut[..common], base[..common]);
    }
}

#[test]
fn seeds_differ_and_numbers_differ() {
    assert_eq!(job(3, 5), job(3, 5));
    let differ =
        |other: &dyn Fn(u64) -> Vec<u8>| (0..50).filter(|&n| job(3, n) != other(n)).count();
    assert!(differ(&|n| job(4, n)) > 45);
    assert!(differ(&|n| job(3, n + 1)) > 45);
}
