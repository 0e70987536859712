//! The job block: its fields, and the refusals 2 to 7 in the order in which
//! they are tried.

/// The bytes of the six numbers at the head of a job.
pub const HEAD: usize = 12;
pub const MOST_ROWS: usize = 256;
pub const MOST_WIDTH: usize = 64;
pub const MOST_WEIGHT: u32 = 1000;
pub const LOWEST_STATE: u8 = 33;
pub const HIGHEST_STATE: u8 = 126;

/// Why a job is not answered with a network.
#[derive(Clone, Copy, Debug, PartialEq, Eq)]
pub struct Refusal {
    pub number: u16,
    pub place: u16,
}

/// The states of a type. Past the width there are zeros, which change neither
/// whether two rows are equal nor which of them comes first.
pub type Row = [u8; MOST_WIDTH];

/// A job that has passed the checks 2 to 7.
#[derive(Clone, Debug, PartialEq, Eq)]
pub struct Job {
    pub width: usize,
    pub epsilon: u32,
    pub weights: Vec<u32>,
    pub rows: Vec<Row>,
}

/// A refusal as an error, to be handed on with `?`.
pub fn refuse<T>(number: u16, place: usize) -> Result<T, Refusal> {
    Err(Refusal {
        number,
        place: place as u16,
    })
}

/// The 16-bit number at a place, low byte first.
pub fn number_at(bytes: &[u8], place: usize) -> usize {
    usize::from(bytes[place]) + 256 * usize::from(bytes[place + 1])
}

/// Reads a job, or gives the first refusal of 2 to 7 that applies.
pub fn read(bytes: &[u8]) -> Result<Job, Refusal> {
    if bytes.len() < HEAD {
        return refuse(2, 0);
    }
    let count = number_at(bytes, 0);
    if count == 0 || count > MOST_ROWS {
        return refuse(3, 0);
    }
    let width = number_at(bytes, 2);
    if width == 0 || width > MOST_WIDTH {
        return refuse(4, 2);
    }
    check_layout(bytes, count, width)?;
    let weights = read_weights(bytes, width)?;
    let rows = read_rows(&bytes[HEAD + 2 * width..], width)?;
    Ok(Job {
        width,
        epsilon: number_at(bytes, 4) as u32,
        weights,
        rows,
    })
}

fn check_layout(bytes: &[u8], count: usize, width: usize) -> Result<(), Refusal> {
    let states = HEAD + 2 * width;
    let whole = states + count * width;
    if number_at(bytes, 6) != HEAD {
        return refuse(5, 6);
    }
    if number_at(bytes, 8) != states {
        return refuse(5, 8);
    }
    if number_at(bytes, 10) != whole {
        return refuse(5, 10);
    }
    if bytes.len() != whole {
        return refuse(5, 12);
    }
    Ok(())
}

fn read_weights(bytes: &[u8], width: usize) -> Result<Vec<u32>, Refusal> {
    let mut weights = Vec::new();
    for column in 0..width {
        let weight = number_at(bytes, HEAD + 2 * column) as u32;
        if weight == 0 || weight > MOST_WEIGHT {
            return refuse(6, column);
        }
        weights.push(weight);
    }
    Ok(weights)
}

fn read_rows(states: &[u8], width: usize) -> Result<Vec<Row>, Refusal> {
    for (place, &state) in states.iter().enumerate() {
        if !(LOWEST_STATE..=HIGHEST_STATE).contains(&state) {
            return refuse(7, place);
        }
    }
    Ok(states.chunks(width).map(padded).collect())
}

/// The states with zeros behind them.
pub fn padded(states: &[u8]) -> Row {
    let mut row = [0; MOST_WIDTH];
    row[..states.len()].copy_from_slice(states);
    row
}
