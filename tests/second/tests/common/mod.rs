//! What the tests share: job blocks put together by hand, and answers taken
//! apart again.

use second::rules::answer;

/// A job block with a right layout.
pub fn job(weights: &[u16], epsilon: u16, rows: &[Vec<u8>]) -> Vec<u8> {
    let (count, width) = (rows.len(), weights.len());
    let states = 12 + 2 * width;
    let whole = states + count * width;
    let head = [count, width, usize::from(epsilon), 12, states, whole];
    let mut bytes = Vec::new();
    for number in head {
        bytes.extend_from_slice(&(number as u16).to_le_bytes());
    }
    for weight in weights {
        bytes.extend_from_slice(&weight.to_le_bytes());
    }
    rows.iter().for_each(|row| bytes.extend_from_slice(row));
    bytes
}

/// Rows written as words.
pub fn words(rows: &str) -> Vec<Vec<u8>> {
    let bytes = |word: &str| word.as_bytes().to_vec();
    rows.split_whitespace().map(bytes).collect()
}

/// A job of words with all weights 1.
#[allow(dead_code)]
pub fn plain(rows: &str, epsilon: u16) -> Vec<u8> {
    let rows = words(rows);
    job(&vec![1; rows[0].len()], epsilon, &rows)
}

/// The printed text of a job.
pub fn text(job: &[u8]) -> String {
    String::from_utf8(answer(job).text).expect("a text in plain letters")
}

/// Asserts the text, given as its lines, and that the other parts fit it.
#[allow(dead_code)]
pub fn prints(job: &[u8], lines: &[&str]) {
    let whole: String = lines.iter().map(|line| format!("{line}\n")).collect();
    assert_eq!(text(job), whole);
    assert_eq!(answer(job).number, 0);
}

/// Asserts a refusal in all its parts.
#[allow(dead_code)]
pub fn refuses(job: &[u8], number: u16, place: u16) {
    let answer = answer(job);
    assert_eq!((answer.number, answer.place), (number, place));
    assert_eq!((answer.used, answer.result.len()), (0, 0));
    assert_eq!(text(job), format!("refused {number} {place}\n"));
}

/// Asserts that a job is answered with a network.
#[allow(dead_code)]
pub fn accepts(job: &[u8]) {
    assert_eq!(answer(job).number, 0, "{}", text(job));
}
